/* The kernel's static library is for x86-64. On another processor this program holds it: it is compiled for x86-64, linked
   with the library and nothing else, and runs under an emulator. It reads batches of calls from standard input and writes
   what each call left to standard output, all in words of 64 bits:

     batch: number of words, words          answer: number of words, words

   A call begins with its number below and carries the record given to the entry, a word to a field, and what is lent to it;
   its answer carries the record that came back and the rows. */

#include "ravelsickle.h"

typedef uint64_t word;

enum { ROOTS, FUSEDS, NORMALIZE, TWO, LINE, SOLVE, RECOVER, OWN, ROWS, LINK };

/* A batch and its answer have at most this many words. */
#define MOST (1ul << 21)
static word in[MOST];
static word out[MOST];

static long call_system(long number, long a, long b, long c) {
    long result;
    __asm__ volatile("syscall" : "=a"(result) : "a"(number), "D"(a), "S"(b), "d"(c) : "rcx", "r11", "memory");
    return result;
}

static void stop(int status) {
    for (;;) call_system(60, status, 0, 0);
}

/* Reads or writes all the bytes; the end of input before the first byte of a batch is the end of the work. */
static void move_all(long number, long file, void *at, word bytes, int may_end) {
    char *rest = at;
    while (bytes > 0) {
        long moved = call_system(number, file, (long)rest, (long)bytes);
        if (moved == 0 && may_end) stop(0);
        if (moved <= 0) stop(1);
        rest += moved;
        bytes -= (word)moved;
        may_end = 0;
    }
}

static double as_float(word bits) {
    union { word bits; double number; } both = {.bits = bits};
    return both.number;
}

static word as_word(double number) {
    union { word bits; double number; } both = {.number = number};
    return both.bits;
}

static void copy(word *to, const word *from, word words) {
    for (word i = 0; i < words; i++) to[i] = from[i];
}

static struct ravelsickle_row row_of(const word *q) {
    struct ravelsickle_row row = {as_float(q[0]), as_float(q[1]), as_float(q[2])};
    return row;
}

static struct ravelsickle_task task_of(const word *q) {
    struct ravelsickle_task task = {as_float(q[0]), as_float(q[1]), as_float(q[2]), as_float(q[3]), q[4], q[5], q[6]};
    return task;
}

static struct ravelsickle_recovery_task recovery_of(const word *q) {
    struct ravelsickle_recovery_task task = {q[0],           as_float(q[1]), as_float(q[2]), as_float(q[3]), as_float(q[4]),
                                             as_float(q[5]), q[6],           q[7],           q[8] != 0,      q[9] != 0};
    return task;
}

static void put_answer(word *r, struct ravelsickle_answer a) {
    r[0] = a.refusal;
    r[1] = a.kind;
    r[2] = as_word(a.x);
    r[3] = as_word(a.y);
    r[4] = a.count;
    r[5] = a.first;
    r[6] = a.second;
    r[7] = a.has_first;
    r[8] = a.has_second;
}

static void put_pair(word *r, word refusal, double x, double y) {
    r[0] = refusal;
    r[1] = as_word(x);
    r[2] = as_word(y);
}

/* A reader's memory, and room for a text with the bytes that fill up its last word. */
#define HEAD_WORDS ((RAVELSICKLE_HEAD + 7) / 8)
#define TEXT_WORDS ((RAVELSICKLE_LINE + 7) / 8)
static unsigned char head[8 * HEAD_WORDS];
static double rows[RAVELSICKLE_FLOATS];

static void fill(unsigned char *to, unsigned char value, word bytes) {
    for (word i = 0; i < bytes; i++) to[i] = value;
}

static void put_fed(word *r, struct ravelsickle_fed f) {
    r[0] = f.refusal;
    r[1] = f.taken;
    r[2] = f.printed;
    r[3] = f.reader.live;
    r[4] = f.reader.lines;
    r[5] = f.reader.left;
    r[6] = f.reader.passed;
    r[7] = f.reader.word;
}

/* A reader is started with a limit and offered, one after the other, so many of the bytes that it has not taken yet; an offer of
   2^64 - 1 tells the end. What each leaves is answered, and then its memory: so many floats as are to be shown, and how many of the
   others have changed. */
static word run_session(const word *q, word *r, word *written) {
    word shown = q[2], left = q[3], changed = 0, *begin = r;
    const unsigned char *bytes = (const unsigned char *)(q + 4);
    const word *offers = q + 4 + (left + 7) / 8;
    struct ravelsickle_reader reader = ravelsickle_reader_start(q[1]);
    fill(head, 0xA5, sizeof head);
    for (word i = 0; i < RAVELSICKLE_FLOATS; i++) rows[i] = 7.5;
    for (word i = 1; i <= offers[0]; i++) {
        word offer = offers[i] < left ? offers[i] : left;
        unsigned char *text = (unsigned char *)(r + 8);
        struct ravelsickle_fed fed;
        fill(text, 0x5A, 8 * TEXT_WORDS);
        if (offers[i] == ~0ul) {
            fed = ravelsickle_reader_end(reader, head, text);
        } else {
            fed = ravelsickle_reader_feed(reader, head, rows, bytes, offer, text);
        }
        put_fed(r, fed);
        reader = fed.reader;
        if (fed.taken > left) stop(4);
        bytes += fed.taken;
        left -= fed.taken;
        r += 8 + TEXT_WORDS;
    }
    copy(r, (const word *)head, HEAD_WORDS);
    r += HEAD_WORDS;
    for (word i = 0; i < RAVELSICKLE_FLOATS; i++) {
        if (i < shown) r[i] = as_word(rows[i]);
        if (i >= shown && as_word(rows[i]) != as_word(7.5)) changed++;
    }
    r[shown] = changed;
    *written = (word)(r + shown + 1 - begin);
    return (word)(offers + 1 + offers[0] - q);
}

/* Answers one call; gives its length and, through `written`, that of its answer. */
static word answer(const word *q, word *r, word *written) {
    word n;
    switch (q[0]) {
    case ROOTS:
        n = q[1];
        for (word i = 0; i < n; i++) r[i] = as_word(ravelsickle_root(as_float(q[2 + i])));
        *written = n;
        return 2 + n;
    case FUSEDS:
        n = q[1];
        for (word i = 0; i < n; i++) {
            const word *t = q + 2 + 3 * i;
            r[i] = as_word(ravelsickle_fused(as_float(t[0]), as_float(t[1]), as_float(t[2])));
        }
        *written = n;
        return 2 + 3 * n;
    case NORMALIZE:
        n = q[1];
        copy(r + 1, q + 2, n);
        r[0] = ravelsickle_normalize((double *)(r + 1), n);
        *written = 1 + n;
        return 2 + n;
    case TWO: {
        struct ravelsickle_crossing c = ravelsickle_solve_2x2(row_of(q + 1), row_of(q + 4));
        put_pair(r, c.refusal, c.x, c.y);
        *written = 3;
        return 7;
    }
    case LINE: {
        struct ravelsickle_line_task task = {as_float(q[1]), as_float(q[2]), q[3] != 0};
        struct ravelsickle_bounds b = ravelsickle_lp_1d((const double *)(q + 5), q[4], task);
        put_pair(r, b.refusal, b.high, b.low);
        *written = 3;
        return 5 + q[4];
    }
    case SOLVE:
        n = q[8];
        copy(r + 9, q + 9, n);
        put_answer(r, ravelsickle_solve((double *)(r + 9), n, task_of(q + 1)));
        *written = 9 + n;
        return 9 + n;
    case ROWS:
        n = q[8];
        copy(r + 9, q + 9, n);
        put_answer(r, ravelsickle_solve_rows((struct ravelsickle_row *)(r + 9), n / 3, task_of(q + 1)));
        *written = 9 + n;
        return 9 + n;
    case OWN: {
        n = q[8];
        copy(r + 4, q + 9, n);
        struct ravelsickle_solution s = ravelsickle_lp_2d_incre_max_y((double *)(r + 4), n, task_of(q + 1));
        r[0] = s.refusal;
        r[1] = s.kind;
        r[2] = as_word(s.x);
        r[3] = as_word(s.y);
        *written = 4 + n;
        return 9 + n;
    }
    case RECOVER: {
        n = q[11];
        struct ravelsickle_recovered p = ravelsickle_recover_2d_prefix((const double *)(q + 12), n, recovery_of(q + 1));
        put_pair(r, p.refusal, p.x, p.y);
        r[3] = p.first;
        r[4] = p.second;
        r[5] = p.has_first;
        r[6] = p.has_second;
        *written = 7;
        return 12 + n;
    }
    case LINK:
        return run_session(q, r, written);
    }
    stop(2);
    return 0;
}

__attribute__((used)) void serve(void) {
    for (;;) {
        word size, written, total = 0;
        move_all(0, 0, &size, sizeof size, 1);
        if (size > MOST) stop(3);
        move_all(0, 0, in, size * sizeof(word), 0);
        for (word at = 0; at < size;) {
            at += answer(in + at, out + total, &written);
            total += written;
        }
        move_all(1, 1, &total, sizeof total, 0);
        move_all(1, 1, out, total * sizeof(word), 0);
    }
}

/* The compiler may call these for loops and assignments of its own. */
void *memcpy(void *to, const void *from, word bytes) {
    char *t = to;
    const char *f = from;
    for (word i = 0; i < bytes; i++) t[i] = f[i];
    return to;
}

void *memset(void *to, int value, word bytes) {
    char *t = to;
    for (word i = 0; i < bytes; i++) t[i] = (char)value;
    return to;
}

__asm__(".globl _start\n_start:\n xor %ebp, %ebp\n and $-16, %rsp\n call serve\n hlt\n");
