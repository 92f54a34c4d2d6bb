/*
 * The records of a file, taken apart here and solved by each of the three forms of the solve, which must agree; prints
 * the lines that `rowrun` prints.
 *
 *   solves FILE
 */
#include "print.h"
#include "ravelsickle.h"
#include "stack.h"

#include <stdio.h>
#include <stdlib.h>
#include <string.h>

enum { SOLVE, SOLVE_ROWS, SOURCE, ENTRIES };
static struct depth depths[ENTRIES] = {{"solve", 0}, {"solve_rows", 0}, {"lp_2d_incre_max_y", 0}};

#define FIELDS 49
#define ROW_BYTES 24
#define ROWS 2048

/* The body of the record in hand, and its rows as each form leaves them. */
static unsigned char body[FIELDS + ROW_BYTES * ROWS];
static struct ravelsickle_row flat[ROWS], records[ROWS], source[ROWS];

static void fail(unsigned long record, const char *why) {
    fprintf(stderr, "record %lu: %s\n", record, why);
    exit(1);
}

static uint64_t number_at(size_t at) {
    uint64_t out;
    memcpy(&out, body + at, sizeof out);
    return out;
}

static double float_at(size_t at) {
    double out;
    memcpy(&out, body + at, sizeof out);
    return out;
}

static struct ravelsickle_task task_in_hand(void) {
    struct ravelsickle_task task;
    task.feasibility = float_at(0);
    task.scale = float_at(8);
    task.x0 = float_at(16);
    task.y0 = float_at(24);
    task.skip = number_at(32);
    task.normalize = body[48];
    task.allowance = number_at(40);
    return task;
}

static bool same_bits(double x, double y) { return memcmp(&x, &y, sizeof x) == 0; }

static bool same_answer(struct ravelsickle_answer p, struct ravelsickle_answer q) {
    return p.refusal == q.refusal && p.kind == q.kind && same_bits(p.x, q.x) && same_bits(p.y, q.y) &&
           p.count == q.count && p.first == q.first && p.second == q.second && p.has_first == q.has_first &&
           p.has_second == q.has_second;
}

/* The answer of the flat form, after the two others gave the same. The source's own form has no allowance: it is looked
 * at where none stops. */
static struct ravelsickle_answer solve_each_way(unsigned long record, size_t n) {
    struct ravelsickle_task task = task_in_hand();
    struct ravelsickle_answer answer, of_records;
    struct ravelsickle_solution own;
    memcpy(flat, body + FIELDS, n * ROW_BYTES);
    memcpy(records, body + FIELDS, n * ROW_BYTES);
    memcpy(source, body + FIELDS, n * ROW_BYTES);
    MEASURED(&depths[SOLVE], answer = ravelsickle_solve(&flat->a, 3 * n, task));
    MEASURED(&depths[SOLVE_ROWS], of_records = ravelsickle_solve_rows(records, n, task));
    if (!same_answer(answer, of_records) || memcmp(flat, records, n * ROW_BYTES) != 0) {
        fail(record, "row records are answered otherwise");
    }
    MEASURED(&depths[SOURCE], own = ravelsickle_lp_2d_incre_max_y(&source->a, 3 * n, task));
    if (answer.refusal == 0 && (own.refusal != 0 || own.kind != answer.kind || !same_bits(own.x, answer.x) ||
                                !same_bits(own.y, answer.y) || memcmp(flat, source, n * ROW_BYTES) != 0)) {
        fail(record, "the source's own form answers otherwise");
    }
    return answer;
}

static void print_answer(unsigned long record, const struct ravelsickle_answer *answer) {
    static const char *const kinds[] = {"", "point", "level", "across", "nothing"};
    printf("%lu %s", record, kinds[answer->kind]);
    if (answer->kind == RAVELSICKLE_POINT || answer->kind == RAVELSICKLE_ACROSS) {
        print_float(answer->x);
    }
    if (answer->kind == RAVELSICKLE_POINT || answer->kind == RAVELSICKLE_LEVEL) {
        print_float(answer->y);
    }
    print_row(answer->has_first, answer->first);
    print_row(answer->has_second, answer->second);
    printf(" %llu\n", (unsigned long long)answer->count);
}

/* Refusal 9, 10 or 2 of a record whose kind and length these are, and 0 where there is something to solve. */
static unsigned refusal_of(unsigned kind, uint32_t length) {
    if (kind != 1) {
        return 9;
    }
    if (length < FIELDS || (length - FIELDS) % ROW_BYTES != 0 || body[48] > 1) {
        return 10;
    }
    return (length - FIELDS) / ROW_BYTES > ROWS ? 2 : 0;
}

/* Reads a body: as much as there is room for, and past the rest. Answers whether all of it is there. */
static bool read_body(FILE *file, uint32_t length) {
    uint32_t held = length < sizeof body ? length : sizeof body;
    if (fread(body, 1, held, file) != held) {
        return false;
    }
    for (; held < length; held += 1) {
        if (fgetc(file) == EOF) {
            return false;
        }
    }
    return true;
}

/* Prints the line of the next record. Answers whether another may follow. */
static bool answer_next(FILE *file, unsigned long record, const unsigned char header[6]) {
    uint32_t length;
    uint16_t kind;
    unsigned refusal;
    memcpy(&length, header, sizeof length);
    memcpy(&kind, header + 4, sizeof kind);
    if (!read_body(file, length)) {
        printf("%lu refused 8\n", record);
        return false;
    }
    refusal = refusal_of(kind, length);
    if (refusal == 0) {
        struct ravelsickle_answer answer = solve_each_way(record, (length - FIELDS) / ROW_BYTES);
        if (answer.refusal == 0) {
            print_answer(record, &answer);
            return true;
        }
        refusal = (unsigned)answer.refusal;
    }
    printf("%lu refused %u\n", record, refusal);
    return true;
}

int main(int count, char **words) {
    FILE *file = count == 2 ? fopen(words[1], "rb") : NULL;
    unsigned char header[6];
    unsigned long record = 0;
    size_t got;
    if (file == NULL) {
        fprintf(stderr, "usage: solves FILE, which can be read\n");
        return 2;
    }
    while ((got = fread(header, 1, sizeof header, file)) == sizeof header) {
        record += 1;
        if (!answer_next(file, record, header)) {
            got = 0;
            break;
        }
    }
    if (got > 0) {
        record += 1;
        printf("%lu refused 8\n", record);
    }
    printf("end %lu\n", record);
    tell_depths(depths, ENTRIES);
    return fflush(stdout) == 0 ? 0 : 1;
}
