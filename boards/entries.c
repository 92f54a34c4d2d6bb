/*
 * The lines of the entries' vectors, each with its answer worked out anew: where all are right, what is printed is the
 * file.
 *
 *   entries FILE
 *
 * Floats are 16 hexadecimal digits, rows lie flat, `-` is no row:
 *
 *   root X = R
 *   fused X Y Z = R
 *   two M00 M01 M10 M11 V0 V1 = X Y | refused 5
 *   line AUTONAN TOLERANCE n a b .. = HIGH LOW
 *   norm n a b c .. = a b c ..
 *   recover UPTO X Y EPSILON REDUCED BOX FIRST SECOND n a b c .. = X Y FIRST SECOND | refused K FIRST SECOND
 */
#include "print.h"
#include "ravelsickle.h"
#include "stack.h"

#include <stdio.h>
#include <stdlib.h>
#include <string.h>

enum { ROOT, FUSED, TWO, LINE, NORM, RECOVER, ENTRIES };
static struct depth depths[ENTRIES] = {{"root", 0},  {"fused", 0},     {"solve_2x2", 0},
                                       {"lp_1d", 0}, {"normalize", 0}, {"recover_2d_prefix", 0}};

#define LONGEST 65536
#define MOST_FLOATS 4096

static char line[LONGEST];
static double floats[MOST_FLOATS];

/* The words of the line that were read are printed again, up to the sign of equality. */
static const char *next_word(void) {
    const char *word = strtok(NULL, " \n");
    if (word == NULL) {
        fprintf(stderr, "a line of the vectors ends too soon\n");
        exit(1);
    }
    printf(" %s", word);
    return word;
}

static double next_float(void) {
    uint64_t bits = strtoull(next_word(), NULL, 16);
    double out;
    memcpy(&out, &bits, sizeof out);
    return out;
}

static uint64_t next_number(void) { return strtoull(next_word(), NULL, 10); }

/* A row's number; answers whether there is one. */
static bool next_row(uint64_t *row) {
    const char *word = next_word();
    *row = strcmp(word, "-") == 0 ? 0 : strtoull(word, NULL, 10);
    return strcmp(word, "-") != 0;
}

/* How many rows or pairs there are, then so many times `width` floats. Answers the number of floats. */
static size_t next_floats(size_t width) {
    size_t count = (size_t)next_number() * width;
    size_t k;
    if (count > MOST_FLOATS) {
        fprintf(stderr, "a line of the vectors has more floats than there is room for\n");
        exit(1);
    }
    for (k = 0; k < count; k += 1) {
        floats[k] = next_float();
    }
    return count;
}

static void print_two(uint64_t refusal, double x, double y) {
    if (refusal != 0) {
        printf(" refused %llu", (unsigned long long)refusal);
    } else {
        print_float(x);
        print_float(y);
    }
}

static void answer_root(void) {
    double x = next_float(), got;
    printf(" =");
    MEASURED(&depths[ROOT], got = ravelsickle_root(x));
    print_float(got);
}

static void answer_fused(void) {
    double x = next_float(), y = next_float(), z = next_float(), got;
    printf(" =");
    MEASURED(&depths[FUSED], got = ravelsickle_fused(x, y, z));
    print_float(got);
}

static void answer_two(void) {
    struct ravelsickle_row r, s;
    struct ravelsickle_crossing got;
    r.a = next_float();
    r.b = next_float();
    s.a = next_float();
    s.b = next_float();
    r.c = next_float();
    s.c = next_float();
    printf(" =");
    MEASURED(&depths[TWO], got = ravelsickle_solve_2x2(r, s));
    print_two(got.refusal, got.x, got.y);
}

static void answer_line(void) {
    struct ravelsickle_line_task task;
    struct ravelsickle_bounds got;
    size_t count;
    task.autonan = next_number() != 0;
    task.feasibility = next_float();
    task.scale = 10.0;
    count = next_floats(2);
    printf(" =");
    MEASURED(&depths[LINE], got = ravelsickle_lp_1d(floats, count, task));
    print_two(got.refusal, got.high, got.low);
}

static void answer_norm(void) {
    size_t count = next_floats(3);
    uint64_t refusal;
    size_t k;
    printf(" =");
    MEASURED(&depths[NORM], refusal = ravelsickle_normalize(floats, count));
    if (refusal != 0) {
        printf(" refused %llu", (unsigned long long)refusal);
        return;
    }
    for (k = 0; k < count; k += 1) {
        print_float(floats[k]);
    }
}

static void answer_recover(void) {
    struct ravelsickle_recovery_task task;
    struct ravelsickle_recovered got;
    size_t count;
    task.upto = next_number();
    task.x0 = next_float();
    task.y0 = next_float();
    task.epsilon = next_float();
    task.reduced = next_float();
    task.bound = next_float();
    task.has_first = next_row(&task.first);
    task.has_second = next_row(&task.second);
    count = next_floats(3);
    printf(" =");
    MEASURED(&depths[RECOVER], got = ravelsickle_recover_2d_prefix(floats, count, task));
    print_two(got.refusal, got.x, got.y);
    print_row(got.has_first, got.first);
    print_row(got.has_second, got.second);
}

static void answer_of(const char *entry) {
    static const char *const names[ENTRIES] = {"root", "fused", "two", "line", "norm", "recover"};
    static void (*const answers[ENTRIES])(void) = {answer_root, answer_fused, answer_two,
                                                   answer_line, answer_norm,  answer_recover};
    int k;
    for (k = 0; k < ENTRIES; k += 1) {
        if (strcmp(entry, names[k]) == 0) {
            printf("%s", entry);
            answers[k]();
            printf("\n");
            return;
        }
    }
    fprintf(stderr, "a line of the vectors begins with %s\n", entry);
    exit(1);
}

int main(int count, char **words) {
    FILE *file = count == 2 ? fopen(words[1], "r") : NULL;
    if (file == NULL) {
        fprintf(stderr, "usage: entries FILE, which can be read\n");
        return 2;
    }
    while (fgets(line, sizeof line, file) != NULL) {
        answer_of(strtok(line, " \n"));
    }
    if (ferror(file)) {
        perror(words[1]);
        return 1;
    }
    tell_depths(depths, ENTRIES);
    return fflush(stdout) == 0 ? 0 : 1;
}
