/*
 * The x86-64 side: reads calls from standard input, makes them on the real library, writes back what is left in memory
 * after each. It ends with its input. Built without C's headers beyond those of the compiler, since a machine with
 * another processor has no others for x86-64.
 */
#include "relay.h"

extern long read(int file, void *to, unsigned long bytes);
extern long write(int file, const void *from, unsigned long bytes);

static struct relay_call call;
static double floats[RELAY_FLOATS];
static unsigned char bytes[RELAY_BYTES];

static bool take(void *to, unsigned long length) {
    char *at = (char *)to;
    while (length > 0) {
        long got = read(0, at, length);
        if (got <= 0) {
            return false;
        }
        at += got;
        length -= (unsigned long)got;
    }
    return true;
}

static bool give(const void *from, unsigned long length) {
    const char *at = (const char *)from;
    while (length > 0) {
        long gone = write(1, at, length);
        if (gone <= 0) {
            return false;
        }
        at += gone;
        length -= (unsigned long)gone;
    }
    return true;
}

static void make_call(void) {
    const union relay_given *given = &call.given;
    union relay_got *got = &call.got;
    switch (call.entry) {
    case RELAY_ROOT:
        got->number = ravelsickle_root(given->numbers[0]);
        break;
    case RELAY_FUSED:
        got->number = ravelsickle_fused(given->numbers[0], given->numbers[1], given->numbers[2]);
        break;
    case RELAY_NORMALIZE:
        got->refusal = ravelsickle_normalize(floats, call.floats);
        break;
    case RELAY_SOLVE_2X2:
        got->crossing = ravelsickle_solve_2x2(given->rows[0], given->rows[1]);
        break;
    case RELAY_LP_1D:
        got->bounds = ravelsickle_lp_1d(floats, call.floats, given->line);
        break;
    case RELAY_SOLVE:
        got->answer = ravelsickle_solve(floats, call.floats, given->task);
        break;
    case RELAY_SOLVE_ROWS:
        got->answer = ravelsickle_solve_rows((struct ravelsickle_row *)floats, call.floats / 3, given->task);
        break;
    case RELAY_INCRE_MAX_Y:
        got->solution = ravelsickle_lp_2d_incre_max_y(floats, call.floats, given->task);
        break;
    case RELAY_RECOVER:
        got->recovered = ravelsickle_recover_2d_prefix(floats, call.floats, given->recovery);
        break;
    case RELAY_READER_START:
        got->reader = ravelsickle_reader_start(given->limit);
        break;
    case RELAY_READER_FEED:
        got->fed = ravelsickle_reader_feed(given->reader, call.head, floats, bytes, call.bytes, call.text);
        break;
    case RELAY_READER_END:
        got->fed = ravelsickle_reader_end(given->reader, call.head, call.text);
        break;
    default:
        break;
    }
}

int main(void) {
    while (take(&call, sizeof call)) {
        if (call.floats > RELAY_FLOATS || !take(floats, call.floats * sizeof(double))) {
            return 1;
        }
        if (call.bytes > RELAY_BYTES || !take(bytes, call.bytes)) {
            return 1;
        }
        make_call();
        if (!give(&call, sizeof call) || !give(floats, call.floats * sizeof(double))) {
            return 1;
        }
    }
    return 0;
}
