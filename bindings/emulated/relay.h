/*
 * How a call crosses from a test on another processor to the x86-64 library under an emulator: one record, then the
 * floats and the bytes lent, and the same back but for the bytes, which no entry changes. The records lie in memory alike on
 * both sides: little-endian numbers of the same sizes in the same places.
 */
#ifndef RELAY_H
#define RELAY_H

#include "../c/ravelsickle.h"

/* The most floats that a call may lend: room for more than the row limit, so that refusal 2 can be asked for. */
#define RELAY_FLOATS 65536

/* The most bytes of a portion that cross. */
#define RELAY_BYTES 1048576

enum relay_entry {
    RELAY_ROOT,
    RELAY_FUSED,
    RELAY_NORMALIZE,
    RELAY_SOLVE_2X2,
    RELAY_LP_1D,
    RELAY_SOLVE,
    RELAY_SOLVE_ROWS,
    RELAY_INCRE_MAX_Y,
    RELAY_RECOVER,
    RELAY_READER_START,
    RELAY_READER_FEED,
    RELAY_READER_END
};

/* What an entry is given besides what is lent to it. */
union relay_given {
    double numbers[3];
    struct ravelsickle_row rows[2];
    struct ravelsickle_line_task line;
    struct ravelsickle_task task;
    struct ravelsickle_recovery_task recovery;
    uint64_t limit;
    struct ravelsickle_reader reader;
};

/* What it gives back. */
union relay_got {
    double number;
    uint64_t refusal;
    struct ravelsickle_crossing crossing;
    struct ravelsickle_bounds bounds;
    struct ravelsickle_answer answer;
    struct ravelsickle_solution solution;
    struct ravelsickle_recovered recovered;
    struct ravelsickle_reader reader;
    struct ravelsickle_fed fed;
};

struct relay_call {
    uint64_t entry;
    /* how many floats follow the record, and then how many bytes */
    uint64_t floats;
    uint64_t bytes;
    /* what else is lent to a reader */
    unsigned char head[RAVELSICKLE_HEAD];
    unsigned char text[RAVELSICKLE_LINE];
    union relay_given given;
    union relay_got got;
};

#endif
