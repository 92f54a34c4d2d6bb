/*
 * Ravelsickle for C and C++: the highest y under half-planes a*x + b*y <= c, within a number of row readings that is
 * known beforehand.
 *
 * Link the static library that `rt lib` writes in crates/kernel (crates/kernel/out/libkernel.a, for x86-64), or one that
 * `boards/run` builds for a board. It calls C's memset and memcpy and nothing else, on a board without a float unit for
 * doubles also the routines that stand for one; it allocates nothing and keeps nothing between calls, so that threads may
 * call it at once on rows, and links, of their own.
 *
 * Lengths and row numbers have 64 bits on every processor, whatever its size_t is.
 *
 * One convention for every entry: rows are lent, and may be changed in place; everything else goes in by value, in one
 * record where it is more than a number or two; and what comes back is a record by value, whose first number is the
 * refusal's, 0 where there is none (root and fused, which refuse nothing, give their number; normalising gives its
 * refusal alone). Every number of such a record has a value after every call: what an answer does not have, or a refusal
 * says nothing of, is NaN for a coordinate or an end and 0 for anything else.
 *
 * What every entry asks of C, since C cannot say it in a type:
 *   - no pointer is null, also where it leads to no floats;
 *   - the floating-point unit rounds to nearest and keeps subnormal numbers, as it does unless a program changes it
 *     (linking with -ffast-math does).
 *
 * "No row" is never a number: a flag says whether there is a row, and without it the row's number says nothing.
 */
#ifndef RAVELSICKLE_H
#define RAVELSICKLE_H

#include <stdbool.h>
#include <stdint.h>

#ifdef __cplusplus
extern "C" {
#endif

/* The most rows, or pairs, that an entry takes. */
#define RAVELSICKLE_ROW_LIMIT 4096

/* A start level that means "beyond the set": a solve that begins there may move up to the edge of a larger box. */
#define RAVELSICKLE_BEYOND 1e6

/* Why an entry gives no answer; 0 is no refusal. The number 4 was one that could not come, and is not used again. */
enum ravelsickle_refusal {
    RAVELSICKLE_DONE = 0,
    /* The floats lent are no whole rows (3 to a row), or no whole pairs (2 to a pair). Rows are unchanged. */
    RAVELSICKLE_NOT_WHOLE = 1,
    /* More than RAVELSICKLE_ROW_LIMIT rows or pairs. Rows are unchanged. */
    RAVELSICKLE_TOO_MANY = 2,
    /* The solve needs more readings than its allowance. See ravelsickle_solve for what it leaves. */
    RAVELSICKLE_STOPPED = 3,
    /* The determinant of two equations is not finite, or within its error bound. */
    RAVELSICKLE_SINGULAR = 5,
    /* Recovery found no point. */
    RAVELSICKLE_NOT_RECOVERED = 6,
    /* The prefix to recover is longer than the rows. */
    RAVELSICKLE_PREFIX_TOO_LONG = 7,
    /* The task's number for normalising names no mode. Rows are unchanged. */
    RAVELSICKLE_NO_SUCH_MODE = 10,
    /* A link was fed, or told the end, after its end, or before it was started. Nothing is changed or printed. */
    RAVELSICKLE_ENDED = 12
};

/* How a solve normalises the lent rows, before each of its up to seven rounds. */
enum ravelsickle_normalize {
    RAVELSICKLE_NORMALIZE_OFF = 0,
    RAVELSICKLE_NORMALIZE_SOURCE = 1 /* as ravelsickle_normalize does, in place */
};

/* Which of its two numbers an answer has. The number that it does not have is NaN. An infinite number is a number. */
enum ravelsickle_kind {
    RAVELSICKLE_UNANSWERED = 0, /* refused */
    RAVELSICKLE_POINT = 1,      /* x and y */
    RAVELSICKLE_LEVEL = 2,      /* y alone: x is free */
    RAVELSICKLE_ACROSS = 3,     /* x alone */
    RAVELSICKLE_NOTHING = 4     /* neither */
};

/* The half-plane a*x + b*y <= c. An array of rows is the same memory as their floats one after another. */
struct ravelsickle_row {
    double a, b, c;
};

/* What to solve, and how. */
struct ravelsickle_task {
    double feasibility; /* by how much a point may violate a row (the original's usual: 1e-9) */
    double scale;       /* what multiplies it in a reduction to one dimension (usual: 10) */
    double x0, y0;      /* where to start (without knowledge: 0 and RAVELSICKLE_BEYOND) */
    uint64_t skip;      /* how many leading rows the start is known to meet (without knowledge: 0) */
    uint64_t normalize; /* one of enum ravelsickle_normalize; any other number is refusal 10 */
    uint64_t allowance; /* the most row readings that may be taken */
};

/* What a solve answers. A row's number means something only where its flag is true. */
struct ravelsickle_answer {
    uint64_t refusal; /* 0, 1, 2, 3 or 10 */
    uint64_t kind;    /* one of enum ravelsickle_kind */
    double x, y;
    uint64_t count;         /* the row readings taken */
    uint64_t first, second; /* the active rows, counted from 0 */
    bool has_first, has_second;
};

/* What the original's own entry answers. */
struct ravelsickle_solution {
    uint64_t refusal; /* 0, 1, 2 or 10 */
    uint64_t kind;
    double x, y;
};

/* The point on two boundaries. */
struct ravelsickle_crossing {
    uint64_t refusal; /* 0 or 5 */
    double x, y;
};

/* How pairs are taken together. `scale` is not used; it is there since the original takes both tolerances. */
struct ravelsickle_line_task {
    double feasibility, scale;
    bool autonan;
};

/* The ends of a line. */
struct ravelsickle_bounds {
    uint64_t refusal; /* 0, 1 or 2 */
    double high, low;
};

/* What to recover. The flags and row numbers are the collector, the active rows of the caller. */
struct ravelsickle_recovery_task {
    uint64_t upto;  /* how many leading rows the point must hold for */
    double x0, y0;  /* where a solve's usual step failed */
    double bound;   /* half the width of the box that the problem is posed over */
    double epsilon; /* by how much a point may violate a row */
    double reduced; /* the same in a reduction to one dimension */
    uint64_t first, second;
    bool has_first, has_second;
};

/* What recovery answers, with the collector afterwards. */
struct ravelsickle_recovered {
    uint64_t refusal; /* 0, 1, 2, 7 or 6 */
    double x, y;
    uint64_t first, second;
    bool has_first, has_second;
};

/* The square root of x, rounded once, to nearest. NaN for a number below zero; -0 for -0. */
double ravelsickle_root(double x);

/* x*y + z, rounded once, to nearest. */
double ravelsickle_fused(double x, double y, double z);

/*
 * Scales the rows in place, so that each has a unit normal. A row whose norm is zero or not finite becomes zeros.
 * Gives 0, or refusal 1 or 2, which leave the rows unchanged.
 */
uint64_t ravelsickle_normalize(double *rows, uint64_t floats);

/*
 * C for Arm with the hard-float convention hands a struct of doubles alone over in float registers; the library takes two
 * rows by value as it takes every record, by Arm's base convention.
 */
#ifdef __ARM_PCS_VFP
#define RAVELSICKLE_BASE_CONVENTION __attribute__((pcs("aapcs")))
#else
#define RAVELSICKLE_BASE_CONVENTION
#endif

/* The point at which both rows hold with equality. Refusal: 5. */
struct ravelsickle_crossing ravelsickle_solve_2x2(struct ravelsickle_row r, struct ravelsickle_row s)
    RAVELSICKLE_BASE_CONVENTION;

/*
 * The highest and the lowest t with a*t <= b for every pair (a, b); infinite where no pair bounds it. Both are NaN where
 * a pair without a coefficient has b below -feasibility. With autonan a high below the low is settled: both become the
 * middle where they are within the tolerance of each other, else NaN.
 * Refusals: 1, 2.
 */
struct ravelsickle_bounds ravelsickle_lp_1d(const double *pairs, uint64_t floats, struct ravelsickle_line_task task);

/*
 * The highest y under the rows, with the rows that hold it and the number of row readings it took.
 *
 * Refusals, in this order: 1, 2, 10, 3. The first three leave the rows unchanged and have count 0. Refusal 3 has the
 * allowance as its count and no active rows; it leaves the rows as after the last normalisation all of whose readings
 * fitted.
 */
struct ravelsickle_answer ravelsickle_solve(double *rows, uint64_t floats, struct ravelsickle_task task);

/*
 * ravelsickle_solve over an array of rows: the same answers, and the same is left in the rows. Refusal 1 cannot come. The
 * rows are copied and copied back, by way of 96 KiB of stack; ravelsickle_solve takes the same memory as it is, with
 * &rows->a and 3 * rows_count.
 */
struct ravelsickle_answer ravelsickle_solve_rows(struct ravelsickle_row *rows, uint64_t rows_count,
                                                 struct ravelsickle_task task);

/*
 * The original's own entry: the same answer, without active rows or count. The task's allowance is not looked at.
 * Refusals: 1, 2, 10, which leave the rows unchanged.
 */
struct ravelsickle_solution ravelsickle_lp_2d_incre_max_y(double *rows, uint64_t floats, struct ravelsickle_task task);

/*
 * A point that holds for the first `upto` rows, after a solve's usual step failed at (x0, y0).
 *
 * With no refusal the collector that comes back holds the point's active rows, or is the one given where the point is
 * (x0, y0) itself and no row's boundary gave one. A refusal gives back the collector that was given.
 * Refusals, in this order: 1, 2, 7, 6.
 */
struct ravelsickle_recovered ravelsickle_recover_2d_prefix(const double *rows, uint64_t floats,
                                                           struct ravelsickle_recovery_task task);

/*
 * ---- Records off a link.
 *
 * Records (docs/RULES.md, section 12) come a few bytes at a time, cut anywhere. A link is fed what has come, gives a line
 * for each record at its last byte, and is told the end:
 *
 *   static struct ravelsickle_link link;             (about 48 KiB: the rows of one record, and nothing of one skipped)
 *   ravelsickle_link_start(&link);
 *   while there are bytes, n of them at `at`:
 *       while (n > 0) {
 *           struct ravelsickle_step step = ravelsickle_link_feed(&link, at, n);
 *           if (step.refusal != 0) break;
 *           link.line has step.printed bytes of text, none unless a record ended
 *           at += step.taken;
 *           n -= step.taken;
 *       }
 *   ravelsickle_link_end(&link);                     (link.line has the last lines)
 *
 * However the bytes are cut, the lines are the same.
 */

/* The bytes of a record before its rows, and the floats of the most rows that a record may have. */
#define RAVELSICKLE_HEAD 55
#define RAVELSICKLE_FLOATS 6144

/* Room for any text that a call prints: a line of 124 bytes at most, with the closing line of 25 behind it. */
#define RAVELSICKLE_LINE 149

/* Bytes past this number of them count as not there. */
#define RAVELSICKLE_MOST_BYTES ((uint64_t)1 << 63)

/* The numbers of a reader between two portions. A link keeps them; nobody else has to look. */
struct ravelsickle_reader {
    uint64_t live;   /* 1 from the start until the end is told */
    uint64_t lines;  /* lines printed so far */
    uint64_t left;   /* bytes that may still come and count */
    uint64_t passed; /* bytes taken of the record in hand */
    uint64_t word;   /* the bytes of a float of its rows that is not all there, the latest on top */
};

/* What an entry leaves. */
struct ravelsickle_fed {
    uint64_t refusal; /* 0 or 12 */
    uint64_t taken;   /* bytes of the portion that were taken */
    uint64_t printed; /* bytes of text at the start of what was lent for it */
    struct ravelsickle_reader reader;
};

/*
 * The entries themselves: the reader by value, and lent to them the memory of the record in hand and room for the text.
 * ravelsickle_link_start, _feed and _end below keep all of it in one struct.
 *
 * Refusal 12 leaves everything as it was and prints nothing. It is given after the end, and for a reader that was not
 * started: one whose numbers no start and no feeding can leave.
 */
struct ravelsickle_reader ravelsickle_reader_start(uint64_t limit);
struct ravelsickle_fed ravelsickle_reader_feed(struct ravelsickle_reader reader, unsigned char head[RAVELSICKLE_HEAD],
                                               double rows[RAVELSICKLE_FLOATS], const unsigned char *bytes,
                                               uint64_t bytes_count, unsigned char text[RAVELSICKLE_LINE]);
struct ravelsickle_fed ravelsickle_reader_end(struct ravelsickle_reader reader,
                                              const unsigned char head[RAVELSICKLE_HEAD],
                                              unsigned char text[RAVELSICKLE_LINE]);

/* A link: the reader and its memory, RAVELSICKLE_LINK_BYTES bytes. A link of zeros is one that was not started. */
struct ravelsickle_link {
    struct ravelsickle_reader reader;
    double rows[RAVELSICKLE_FLOATS];
    unsigned char head[RAVELSICKLE_HEAD];
    unsigned char line[RAVELSICKLE_LINE]; /* what the last call printed */
};

#define RAVELSICKLE_LINK_BYTES 49400

/* What a call did. */
struct ravelsickle_step {
    uint64_t refusal; /* 0 or 12 */
    uint64_t taken;   /* bytes of the portion that were taken: up to the first record's end, or all */
    uint64_t printed; /* bytes of text in the link's `line`: a record's line, or none; at the end the last lines */
};

/* Starts a link anew: it has seen nothing. */
static inline void ravelsickle_link_start(struct ravelsickle_link *link) {
    int at;
    for (at = 0; at < RAVELSICKLE_FLOATS; at++) {
        link->rows[at] = 0.0;
    }
    for (at = 0; at < RAVELSICKLE_HEAD; at++) {
        link->head[at] = 0;
    }
    for (at = 0; at < RAVELSICKLE_LINE; at++) {
        link->line[at] = 0;
    }
    link->reader = ravelsickle_reader_start(RAVELSICKLE_MOST_BYTES);
}

/* What an entry left, put back into the link. */
static inline struct ravelsickle_step ravelsickle_link_step(struct ravelsickle_link *link, struct ravelsickle_fed fed) {
    struct ravelsickle_step step;
    link->reader = fed.reader;
    step.refusal = fed.refusal;
    step.taken = fed.taken;
    step.printed = fed.printed;
    return step;
}

/*
 * Feeds a portion: takes its bytes up to the first record's end, or all of them, and says how many; what is left is handed in
 * again. The line of a record that ended is in link->line. No bytes change nothing. Refusal: 12.
 */
static inline struct ravelsickle_step ravelsickle_link_feed(struct ravelsickle_link *link, const unsigned char *bytes,
                                                            uint64_t bytes_count) {
    return ravelsickle_link_step(
        link, ravelsickle_reader_feed(link->reader, link->head, link->rows, bytes, bytes_count, link->line));
}

/* Tells the end: the line of a record that is cut, refusal 8 in it, and the closing line are in link->line. Refusal: 12. */
static inline struct ravelsickle_step ravelsickle_link_end(struct ravelsickle_link *link) {
    return ravelsickle_link_step(link, ravelsickle_reader_end(link->reader, link->head, link->line));
}

/* The original's usual tolerances, a start beyond the set, no row skipped, no normalising, and no limit on readings. */
static inline struct ravelsickle_task ravelsickle_usual_task(void) {
    struct ravelsickle_task task;
    task.feasibility = 1e-9;
    task.scale = 10.0;
    task.x0 = 0.0;
    task.y0 = RAVELSICKLE_BEYOND;
    task.skip = 0;
    task.normalize = RAVELSICKLE_NORMALIZE_OFF;
    task.allowance = UINT64_MAX;
    return task;
}

#ifdef __cplusplus
}
#endif

#endif
