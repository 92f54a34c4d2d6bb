/*
 * Tests of every entry of ravelsickle.h and of every refusal that it can give, with what each answers and leaves. Numbers
 * are compared by their bits, so that a wrong zero or NaN shows. Ends with 1 where a check fails.
 */
#include "ravelsickle.h"

#include <stdio.h>
#include <stdlib.h>
#include <string.h>

static unsigned checks = 0;
static unsigned failed = 0;

static void check(bool holds, const char *what, int line) {
    checks += 1;
    if (!holds) {
        failed += 1;
        printf("line %d: this does not hold: %s\n", line, what);
    }
}

#define CHECK(holds) check((holds), #holds, __LINE__)

static uint64_t bits(double x) {
    uint64_t out;
    memcpy(&out, &x, sizeof out);
    return out;
}

static double from_bits(uint64_t b) {
    double out;
    memcpy(&out, &b, sizeof out);
    return out;
}

/* The one NaN that an entry returns. */
static const uint64_t NAN_BITS = UINT64_C(0x7FF8000000000000);

static bool same(double x, double y) { return bits(x) == bits(y); }

static bool is_nan(double x) { return bits(x) == NAN_BITS; }

static bool same_floats(const double *xs, const double *ys, size_t n) { return memcmp(xs, ys, n * sizeof *xs) == 0; }

static bool same_answer(struct ravelsickle_answer p, struct ravelsickle_answer q) {
    return p.refusal == q.refusal && p.kind == q.kind && same(p.x, q.x) && same(p.y, q.y) && p.count == q.count &&
           p.first == q.first && p.second == q.second && p.has_first == q.has_first && p.has_second == q.has_second;
}

/* What a refusal answers: no kind, no numbers, no rows, and the count that it has. */
static bool is_refused(struct ravelsickle_answer got, uint64_t refusal, uint64_t count) {
    struct ravelsickle_answer wanted;
    memset(&wanted, 0, sizeof wanted);
    wanted.refusal = refusal;
    wanted.kind = RAVELSICKLE_UNANSWERED;
    wanted.x = from_bits(NAN_BITS);
    wanted.y = from_bits(NAN_BITS);
    wanted.count = count;
    return same_answer(got, wanted);
}

static bool is_answer(struct ravelsickle_answer got, uint64_t kind, double x, double y, uint64_t count) {
    return got.refusal == RAVELSICKLE_DONE && got.kind == kind && same(got.x, x) && same(got.y, y) && got.count == count;
}

/* Whether the rows are these; -1 stands for no row, whose number is then 0. */
static bool are_rows(bool has_first, size_t got_first, bool has_second, size_t got_second, int first, int second) {
    bool one = first < 0 ? !has_first && got_first == 0 : has_first && got_first == (size_t)first;
    bool other = second < 0 ? !has_second && got_second == 0 : has_second && got_second == (size_t)second;
    return one && other;
}

static bool has_rows(struct ravelsickle_answer got, int first, int second) {
    return are_rows(got.has_first, got.first, got.has_second, got.second, first, second);
}

/* Whether the header has a refusal of this number. There is no default, so that a compiler warns where one is left out. */
static bool has_refusal(enum ravelsickle_refusal number) {
    switch (number) {
    case RAVELSICKLE_DONE:
        return false;
    case RAVELSICKLE_NOT_WHOLE:
    case RAVELSICKLE_TOO_MANY:
    case RAVELSICKLE_STOPPED:
    case RAVELSICKLE_SINGULAR:
    case RAVELSICKLE_NOT_RECOVERED:
    case RAVELSICKLE_PREFIX_TOO_LONG:
    case RAVELSICKLE_NO_SUCH_MODE:
    case RAVELSICKLE_ENDED:
        return true;
    }
    return false;
}

static void test_no_refusal_is_4(void) {
    CHECK(has_refusal((enum ravelsickle_refusal)3) && has_refusal((enum ravelsickle_refusal)5));
    CHECK(!has_refusal((enum ravelsickle_refusal)4));
}

/* The original's own entry, which looks at no allowance, on a copy of the rows: the same answer, and the same rows left. */
static void check_original(const double *rows, size_t n, struct ravelsickle_task task, struct ravelsickle_answer expected,
                           const double *left) {
    double flat[3 * 8];
    struct ravelsickle_solution got;
    memcpy(flat, rows, 3 * n * sizeof(double));
    task.allowance = 0;
    got = ravelsickle_lp_2d_incre_max_y(flat, 3 * n, task);
    CHECK(got.refusal == expected.refusal && got.kind == expected.kind);
    CHECK(same(got.x, expected.x) && same(got.y, expected.y));
    CHECK(same_floats(flat, left, 3 * n));
}

/* Solves copies of the rows through the flat entry, the row entry and, where readings have no limit, the original's own
 * entry; all have to do the same. */
static struct ravelsickle_answer solve_each_way(const double *rows, size_t n, struct ravelsickle_task task, double *left) {
    double flat[3 * 8];
    struct ravelsickle_row records[8];
    struct ravelsickle_answer got;
    memcpy(flat, rows, 3 * n * sizeof(double));
    memcpy(records, rows, 3 * n * sizeof(double));
    got = ravelsickle_solve(flat, 3 * n, task);
    CHECK(same_answer(got, ravelsickle_solve_rows(records, n, task)));
    CHECK(memcmp(flat, records, 3 * n * sizeof(double)) == 0);
    memcpy(left, flat, 3 * n * sizeof(double));
    if (task.allowance == UINT64_MAX) {
        check_original(rows, n, task, got, left);
    }
    return got;
}

static const double S3[6] = {1, 1, 2, -1, 1, 0};
static const double S4[6] = {0, 1, 1, 0, -1, -2};
static const double S5[6] = {-1, 0, 0, 1, 0, 1};
static const double Z1[6] = {0, 1, 0, 1, 0, -1};

static void test_root(void) {
    CHECK(bits(ravelsickle_root(2.0)) == UINT64_C(0x3FF6A09E667F3BCD)); /* R1 */
    CHECK(same(ravelsickle_root(9.0), 3.0));
    CHECK(same(ravelsickle_root(-0.0), -0.0));
    CHECK(is_nan(ravelsickle_root(-1.0)));
    CHECK(is_nan(ravelsickle_root(from_bits(UINT64_C(0xFFF8000000001234)))));
}

static void test_fused(void) {
    double x = 1.0 + 1.0 / 1073741824.0; /* 1 + 2^-30 */
    double r = 1.0 / 536870912.0 + from_bits(UINT64_C(0x3C30000000000000)); /* 2^-29 + 2^-60 */
    volatile double square = x * x; /* rounded here, whatever the compiler would make of one expression */
    CHECK(same(ravelsickle_fused(x, x, -1.0), r)); /* F1 */
    CHECK(!same(square - 1.0, r));
    CHECK(same(ravelsickle_fused(2.0, 3.0, 5.0), 11.0));
}

static void test_normalize(void) {
    double n1[3] = {3, 4, 10};
    double n2[6] = {0, 0, -5, 1e200, 0, 1};
    const double zeros[6] = {0, 0, 0, 0, 0, 0};
    CHECK(ravelsickle_normalize(n1, 3) == 0);
    CHECK(same(n1[0], 3 * 0.2) && !same(n1[0], 0.6) && same(n1[1], 0.8) && same(n1[2], 2.0)); /* N1 */
    CHECK(ravelsickle_normalize(n2, 6) == 0);
    CHECK(same_floats(n2, zeros, 6)); /* N2 */
    CHECK(ravelsickle_normalize(n1, 0) == 0);
    CHECK(same(n1[0], 3 * 0.2));
}

/* Refusals 1 and 2 of normalising leave the rows. */
static void test_normalize_refuses(double *many, const double *same_many, size_t too_many) {
    double rows[4] = {3, 4, 10, 3};
    const double before[4] = {3, 4, 10, 3};
    CHECK(ravelsickle_normalize(rows, 4) == RAVELSICKLE_NOT_WHOLE);
    CHECK(ravelsickle_normalize(rows, 2) == RAVELSICKLE_NOT_WHOLE);
    CHECK(same_floats(rows, before, 4));
    CHECK(ravelsickle_normalize(many, 3 * too_many) == RAVELSICKLE_TOO_MANY);
    CHECK(same_floats(many, same_many, 3 * too_many));
    CHECK(ravelsickle_normalize(many, 3 * too_many + 1) == RAVELSICKLE_NOT_WHOLE); /* 1 comes before 2 */
}

static void test_solve_2x2(void) {
    const struct ravelsickle_row r = {1, 2, 5}, s = {3, 4, 6}, parallel = {2, 4, 6};
    struct ravelsickle_crossing got = ravelsickle_solve_2x2(r, s);
    CHECK(got.refusal == 0 && same(got.x, -4.0) && same(got.y, 4.5)); /* D1 */
    got = ravelsickle_solve_2x2(r, parallel);
    CHECK(got.refusal == RAVELSICKLE_SINGULAR && is_nan(got.x) && is_nan(got.y)); /* D2 */
}

static struct ravelsickle_bounds line(const double *pairs, size_t floats, bool autonan, double feasibility) {
    struct ravelsickle_line_task task;
    task.feasibility = feasibility;
    task.scale = 10.0;
    task.autonan = autonan;
    return ravelsickle_lp_1d(pairs, floats, task);
}

static bool are_bounds(struct ravelsickle_bounds got, double high, double low) {
    return got.refusal == RAVELSICKLE_DONE && same(got.high, high) && same(got.low, low);
}

static void test_lp_1d(void) {
    const double l1[4] = {1, 5, -1, -2};
    const double l2[4] = {1, 1, -1, -2};
    const double close[4] = {1, 1, -1, -1.5};
    double nan = from_bits(NAN_BITS);
    CHECK(are_bounds(line(l1, 4, false, 1e-9), 5.0, 2.0)); /* L1 */
    CHECK(are_bounds(line(l1, 4, true, 1e-9), 5.0, 2.0));
    CHECK(are_bounds(line(l2, 4, true, 1e-9), nan, nan)); /* L2 */
    CHECK(are_bounds(line(l2, 4, false, 1e-9), 1.0, 2.0));
    CHECK(are_bounds(line(close, 4, true, 1.0), 1.25, 1.25));
    CHECK(are_bounds(line(l1, 0, true, 1e-9), from_bits(UINT64_C(0x7FF0000000000000)), from_bits(UINT64_C(0xFFF0000000000000))));
}

static void test_lp_1d_refuses(const double *many, size_t too_many) {
    const double l1[4] = {1, 5, -1, -2};
    struct ravelsickle_bounds got = line(l1, 3, true, 1e-9);
    CHECK(got.refusal == RAVELSICKLE_NOT_WHOLE && is_nan(got.high) && is_nan(got.low));
    got = line(many, 2 * too_many, true, 1e-9);
    CHECK(got.refusal == RAVELSICKLE_TOO_MANY && is_nan(got.high) && is_nan(got.low));
}

/* S1 and S2: no row, and one. */
static void test_few_rows(void) {
    struct ravelsickle_task task = ravelsickle_usual_task();
    struct ravelsickle_answer got;
    double left[6];
    const double level[3] = {0, 2, 6};
    const double below[3] = {0, -2, 6};
    double nan = from_bits(NAN_BITS);
    got = solve_each_way(level, 0, task, left);
    CHECK(is_answer(got, RAVELSICKLE_NOTHING, nan, nan, 0) && has_rows(got, -1, -1));
    got = solve_each_way(level, 1, task, left);
    CHECK(is_answer(got, RAVELSICKLE_LEVEL, nan, 3.0, 1) && has_rows(got, -1, -1));
    got = solve_each_way(below, 1, task, left);
    CHECK(is_answer(got, RAVELSICKLE_NOTHING, nan, nan, 1) && has_rows(got, -1, -1));
}

/* S3 to S5 and Z1: two rows, active rows and counts, and the sign of a zero. */
static void test_two_rows(void) {
    struct ravelsickle_task task = ravelsickle_usual_task();
    struct ravelsickle_answer got;
    double left[6];
    got = solve_each_way(S3, 2, task, left);
    CHECK(is_answer(got, RAVELSICKLE_POINT, 1.0, 1.0, 7) && has_rows(got, 0, 1));
    CHECK(same_floats(left, S3, 6));
    got = solve_each_way(S4, 2, task, left);
    CHECK(is_answer(got, RAVELSICKLE_POINT, 0.0, 2.0, 23) && has_rows(got, 1, -1));
    got = solve_each_way(S5, 2, task, left);
    CHECK(is_answer(got, RAVELSICKLE_POINT, 0.0, 1e24, 28) && has_rows(got, -1, -1));
    task.y0 = 999999;
    got = solve_each_way(S5, 2, task, left);
    CHECK(is_answer(got, RAVELSICKLE_POINT, 0.0, 999999, 8) && has_rows(got, -1, -1));
    task.y0 = -0.0;
    got = solve_each_way(Z1, 2, task, left);
    CHECK(is_answer(got, RAVELSICKLE_POINT, -1.0, -0.0, 6) && has_rows(got, 0, 1));
}

/* Every number of a task reaches the solve: changing one of them changes what comes back. */
static void test_task_numbers(void) {
    struct ravelsickle_task task = ravelsickle_usual_task();
    struct ravelsickle_answer got;
    double left[6];
    const double trial[6] = {1, 0, -0.5, 0, 1, 0};
    const double zero_row[6] = {0, 0, 0, 1, 0, -1};
    task.skip = 1; /* the forward pass tests row 1 alone and steps onto it: two readings fewer */
    got = solve_each_way(S3, 2, task, left);
    CHECK(is_answer(got, RAVELSICKLE_POINT, 1.0, 1.0, 5) && has_rows(got, 0, 1));
    task = ravelsickle_usual_task();
    task.x0 = 0.25; /* the start holds, so that it is the answer */
    task.y0 = 0.125;
    got = solve_each_way(S3, 2, task, left);
    CHECK(is_answer(got, RAVELSICKLE_POINT, 0.25, 0.125, 4) && has_rows(got, -1, -1));
    task.y0 = 0.5; /* it violates row 1 by less than the tolerance, and no row is tested for less */
    task.x0 = 0.0;
    task.skip = 2;
    task.feasibility = 1.0;
    got = solve_each_way(S3, 2, task, left);
    CHECK(is_answer(got, RAVELSICKLE_POINT, 0.0, 0.5, 2) && has_rows(got, -1, -1));
    task = ravelsickle_usual_task();
    task.x0 = 0.5; /* a start without a level, which no row can test: its x alone comes back */
    task.y0 = from_bits(NAN_BITS);
    got = solve_each_way(S5, 2, task, left);
    CHECK(is_answer(got, RAVELSICKLE_ACROSS, 0.5, from_bits(NAN_BITS), 4) && has_rows(got, -1, -1));
    task = ravelsickle_usual_task();
    task.feasibility = 1.0; /* a trial that holds is stepped again, and both steps count */
    task.x0 = 0.0;
    task.y0 = 0.0;
    CHECK(solve_each_way(trial, 2, task, left).count == 6);
    task = ravelsickle_usual_task();
    task.y0 = 0.0;
    task.scale = -1.0; /* a zero row ends a reduction under a tolerance below zero */
    got = solve_each_way(zero_row, 2, task, left);
    CHECK(got.kind == RAVELSICKLE_NOTHING && got.count == 4 && has_rows(got, -1, -1));
}

/* Normalising changes the lent rows in place, once for each solve: S5's rows seven times, which shows in the count. */
static void test_solve_normalizes(void) {
    struct ravelsickle_task task = ravelsickle_usual_task();
    struct ravelsickle_answer got;
    double left[6];
    const double rows[6] = {3, 4, 10, -3, 4, 10};
    const double unit[6] = {3 * 0.2, 0.8, 2, -3 * 0.2, 0.8, 2};
    task.normalize = RAVELSICKLE_NORMALIZE_SOURCE;
    got = solve_each_way(S5, 2, task, left);
    CHECK(is_answer(got, RAVELSICKLE_POINT, 0.0, 1e24, 42) && has_rows(got, -1, -1));
    got = solve_each_way(rows, 2, task, left);
    CHECK(same_floats(left, unit, 6));
    CHECK(got.kind == RAVELSICKLE_POINT && got.has_first && got.has_second);
    task.normalize = RAVELSICKLE_NORMALIZE_OFF;
    solve_each_way(rows, 2, task, left);
    CHECK(same_floats(left, rows, 6));
}

/* Refusal 10: every number that names no mode, whatever its lowest bits, before 3 and with the rows as they were. */
static void test_no_such_mode(void) {
    const uint64_t numbers[6] = {2, 3, 256, 257, UINT64_C(1) << 32, UINT64_MAX};
    const double rows[6] = {3, 4, 10, -3, 4, 10};
    double left[6];
    size_t k;
    for (k = 0; k < 6; k += 1) {
        struct ravelsickle_task task = ravelsickle_usual_task();
        task.normalize = numbers[k];
        CHECK(is_refused(solve_each_way(rows, 2, task, left), RAVELSICKLE_NO_SUCH_MODE, 0));
        CHECK(same_floats(left, rows, 6));
        task.allowance = 0;
        CHECK(is_refused(solve_each_way(rows, 2, task, left), RAVELSICKLE_NO_SUCH_MODE, 0));
        CHECK(is_refused(solve_each_way(rows, 0, task, left), RAVELSICKLE_NO_SUCH_MODE, 0));
    }
}

/* Refusal 3: exactly below the count, which is then the allowance. */
static void test_stopped(void) {
    struct ravelsickle_task task = ravelsickle_usual_task();
    double left[6];
    uint64_t allowance;
    task.allowance = 7;
    CHECK(is_answer(solve_each_way(S3, 2, task, left), RAVELSICKLE_POINT, 1.0, 1.0, 7));
    for (allowance = 0; allowance < 7; allowance += 1) {
        task.allowance = allowance;
        CHECK(is_refused(solve_each_way(S3, 2, task, left), RAVELSICKLE_STOPPED, allowance));
        CHECK(same_floats(left, S3, 6));
    }
}

/* Refusal 3 with normalising: the rows are as after the last normalisation all of whose readings fitted. */
static void test_stopped_normalizing(void) {
    struct ravelsickle_task task = ravelsickle_usual_task();
    double left[6];
    const double rows[6] = {3, 4, 10, -3, 4, 10};
    const double unit[6] = {3 * 0.2, 0.8, 2, -3 * 0.2, 0.8, 2};
    task.normalize = RAVELSICKLE_NORMALIZE_SOURCE;
    task.allowance = 1;
    CHECK(is_refused(solve_each_way(rows, 2, task, left), RAVELSICKLE_STOPPED, 1) && same_floats(left, rows, 6));
    task.allowance = 2;
    CHECK(is_refused(solve_each_way(rows, 2, task, left), RAVELSICKLE_STOPPED, 2) && same_floats(left, unit, 6));
}

/* Refusals 1 and 2 of a solve leave every row, and come before 10 and 3. */
static void test_solve_refuses(double *many, const double *same_many, size_t too_many) {
    struct ravelsickle_task task = ravelsickle_usual_task();
    struct ravelsickle_solution got;
    double rows[5] = {3, 4, 10, -3, 4};
    const double same_rows[5] = {3, 4, 10, -3, 4};
    task.normalize = 2;
    task.allowance = 0;
    CHECK(is_refused(ravelsickle_solve(rows, 5, task), RAVELSICKLE_NOT_WHOLE, 0));
    got = ravelsickle_lp_2d_incre_max_y(rows, 5, task);
    CHECK(got.refusal == RAVELSICKLE_NOT_WHOLE && got.kind == RAVELSICKLE_UNANSWERED && is_nan(got.x) && is_nan(got.y));
    CHECK(same_floats(rows, same_rows, 5));
    CHECK(is_refused(ravelsickle_solve(many, 3 * too_many, task), RAVELSICKLE_TOO_MANY, 0));
    CHECK(is_refused(ravelsickle_solve_rows((struct ravelsickle_row *)many, too_many, task), RAVELSICKLE_TOO_MANY, 0));
    got = ravelsickle_lp_2d_incre_max_y(many, 3 * too_many, task);
    CHECK(got.refusal == RAVELSICKLE_TOO_MANY && got.kind == RAVELSICKLE_UNANSWERED && is_nan(got.x) && is_nan(got.y));
    CHECK(is_refused(ravelsickle_solve(many, 3 * too_many + 1, task), RAVELSICKLE_NOT_WHOLE, 0));
    CHECK(same_floats(many, same_many, 3 * too_many));
    /* the limit itself is let in, by every form */
    task.normalize = RAVELSICKLE_NORMALIZE_OFF;
    CHECK(is_refused(ravelsickle_solve(many, 3 * RAVELSICKLE_ROW_LIMIT, task), RAVELSICKLE_STOPPED, 0));
    CHECK(is_refused(ravelsickle_solve_rows((struct ravelsickle_row *)many, RAVELSICKLE_ROW_LIMIT, task),
                     RAVELSICKLE_STOPPED, 0));
    CHECK(ravelsickle_lp_2d_incre_max_y(many, 3 * RAVELSICKLE_ROW_LIMIT, task).refusal == RAVELSICKLE_DONE);
    CHECK(same_floats(many, same_many, 3 * too_many));
}

static struct ravelsickle_recovery_task recovery(size_t upto, double x0, double y0, int first, int second) {
    struct ravelsickle_recovery_task task;
    task.upto = upto;
    task.x0 = x0;
    task.y0 = y0;
    task.bound = 1e6;
    task.epsilon = 1e-9;
    task.reduced = 1e-8;
    task.has_first = first >= 0;
    task.first = first >= 0 ? (size_t)first : 77;
    task.has_second = second >= 0;
    task.second = second >= 0 ? (size_t)second : 78;
    return task;
}

static bool is_recovered(struct ravelsickle_recovered got, double x, double y, int first, int second) {
    return got.refusal == RAVELSICKLE_DONE && same(got.x, x) && same(got.y, y) &&
           are_rows(got.has_first, got.first, got.has_second, got.second, first, second);
}

/* A refusal has no point, and gives back the collector. */
static bool is_not_recovered(struct ravelsickle_recovered got, uint64_t refusal, int first, int second) {
    return got.refusal == refusal && is_nan(got.x) && is_nan(got.y) &&
           are_rows(got.has_first, got.first, got.has_second, got.second, first, second);
}

static void test_recover(void) {
    const double flat[6] = {0, 1, 1, 0, 1, 2};
    /* both rows hold it up; row 0 alone: the second row is gone */
    CHECK(is_recovered(ravelsickle_recover_2d_prefix(S3, 6, recovery(2, 0.0, 2.0, 7, 8)), 1.0, 1.0, 0, 1));
    CHECK(is_recovered(ravelsickle_recover_2d_prefix(flat, 6, recovery(2, 0.0, 2.0, 7, 8)), 0.0, 1.0, 0, -1));
    /* no row to hold: the point, and the collector as it was */
    CHECK(is_recovered(ravelsickle_recover_2d_prefix(S3, 6, recovery(0, 0.5, 7.0, 7, 8)), 0.5, 7.0, 7, 8));
    CHECK(is_recovered(ravelsickle_recover_2d_prefix(S3, 6, recovery(0, 0.5, 7.0, -1, 8)), 0.5, 7.0, -1, 8));
}

static struct ravelsickle_recovered recover_in(const double *rows, size_t n, double x0, double y0, double bound,
                                               double epsilon, double reduced) {
    struct ravelsickle_recovery_task task = recovery(n, x0, y0, 7, 8);
    task.bound = bound;
    task.epsilon = epsilon;
    task.reduced = reduced;
    return ravelsickle_recover_2d_prefix(rows, 3 * n, task);
}

/* The box, the tolerance and the reductions' tolerance of a recovery each decide something. */
static void test_recover_frame(void) {
    const double slanted[3] = {1, 2, 4};
    const double crossed[6] = {1, 0, 0, -1, 0, -0.25};
    /* one row is a basis where the point is on the box's edge */
    CHECK(is_recovered(recover_in(slanted, 1, 0.0, 10.0, 16.0, 1e-9, 1e-8), -16.0, 10.0, 0, -1));
    CHECK(is_not_recovered(recover_in(slanted, 1, 0.0, 10.0, 32.0, 1e-9, 1e-8), RAVELSICKLE_NOT_RECOVERED, 7, 8));
    /* the point violates both rows by 0.125 */
    CHECK(is_not_recovered(recover_in(crossed, 2, 0.125, 1.0, 1.0, 1e-9, 1e-8), RAVELSICKLE_NOT_RECOVERED, 7, 8));
    CHECK(is_recovered(recover_in(crossed, 2, 0.125, 1.0, 1.0, 0.25, 1e-8), 0.125, 1.0, 7, 8));
    /* a reduction that lets row 1 be violated gives row 0's boundary */
    CHECK(is_recovered(recover_in(crossed, 2, 0.125, 1.0, 1.0, 0.25, 1.0), 0.0, 1.0, 0, -1));
}

/* Refusals 1, 2, 7 and 6, in this order. */
static void test_recover_refuses(const double *many, size_t too_many) {
    CHECK(is_not_recovered(ravelsickle_recover_2d_prefix(S4, 5, recovery(9, 0.0, 2.0, 7, 8)), RAVELSICKLE_NOT_WHOLE, 7, 8));
    CHECK(is_not_recovered(ravelsickle_recover_2d_prefix(many, 3 * too_many, recovery(too_many + 1, 0.0, 2.0, 7, -1)),
                           RAVELSICKLE_TOO_MANY, 7, -1));
    CHECK(is_not_recovered(ravelsickle_recover_2d_prefix(S4, 6, recovery(3, 0.0, 2.0, -1, 8)), RAVELSICKLE_PREFIX_TOO_LONG,
                           -1, 8));
    CHECK(is_not_recovered(ravelsickle_recover_2d_prefix(S4, 0, recovery(1, 0.0, 2.0, -1, -1)),
                           RAVELSICKLE_PREFIX_TOO_LONG, -1, -1));
    CHECK(is_not_recovered(ravelsickle_recover_2d_prefix(S4, 6, recovery(2, 0.0, 2.0, 0, 8)), RAVELSICKLE_NOT_RECOVERED,
                           0, 8));
}

/* ---- records off a link */

static struct ravelsickle_link the_link;

/* What a link printed so far. */
static char said[4096];
static size_t said_count;

static void say(size_t printed) {
    memcpy(said + said_count, the_link.line, printed);
    said_count += printed;
    said[said_count] = 0;
}

static void start_link(void) {
    ravelsickle_link_start(&the_link);
    said_count = 0;
    said[0] = 0;
}

/* Offers at most `most` bytes at a time, and what is left again with more. */
static void feed_link(const unsigned char *bytes, size_t count, size_t most) {
    while (count > 0) {
        struct ravelsickle_step step = ravelsickle_link_feed(&the_link, bytes, count < most ? count : most);
        CHECK(step.refusal == RAVELSICKLE_DONE && step.taken > 0);
        say(step.printed);
        bytes += step.taken;
        count -= step.taken;
    }
}

static bool ends_saying(const char *wanted) {
    say(ravelsickle_link_end(&the_link).printed);
    return strcmp(said, wanted) == 0;
}

static void put_number(unsigned char *to, uint64_t number, size_t bytes) {
    size_t at;
    for (at = 0; at < bytes; at += 1) {
        to[at] = (unsigned char)(number >> (8 * at));
    }
}

/* A record's header, and the fields of a body with the usual task. */
static void put_fields(unsigned char *to, uint64_t length, unsigned kind, unsigned char normalize) {
    put_number(to, length, 4);
    put_number(to + 4, kind, 2);
    put_number(to + 6, bits(1e-9), 8);
    put_number(to + 14, bits(10.0), 8);
    put_number(to + 22, bits(0.0), 8);
    put_number(to + 30, bits(1e6), 8);
    put_number(to + 38, 0, 8);
    put_number(to + 46, 1000, 8);
    to[54] = normalize;
}

/* The sample of RULES 13.12: S3 and S4. */
static void put_sample(unsigned char sample[206]) {
    static const double s3[6] = {1.0, 1.0, 2.0, -1.0, 1.0, 0.0};
    size_t at;
    put_fields(sample, 97, 1, 0);
    put_fields(sample + 103, 97, 1, 0);
    for (at = 0; at < 6; at += 1) {
        put_number(sample + 55 + 8 * at, bits(s3[at]), 8);
        put_number(sample + 158 + 8 * at, bits(S4[at]), 8);
    }
}

static const char SAMPLE_LINES[] = "1 point 3FF0000000000000 3FF0000000000000 0 1 7\n"
                                   "2 point 0000000000000000 4000000000000000 1 - 23\n"
                                   "end 2\n";

/* However the sample is cut, its lines are the same; a line comes with its record's last byte. */
static void test_link(void) {
    unsigned char sample[206];
    size_t at;
    put_sample(sample);
    CHECK(sizeof the_link == RAVELSICKLE_LINK_BYTES);
    for (at = 1; at <= sizeof sample; at += 41) {
        start_link();
        feed_link(sample, sizeof sample, at);
        CHECK(ends_saying(SAMPLE_LINES));
    }
    start_link();
    CHECK(ravelsickle_link_feed(&the_link, sample, 102).printed == 0);
    CHECK(ravelsickle_link_feed(&the_link, sample + 102, 104).taken == 1);
    CHECK(ravelsickle_link_feed(&the_link, sample + 103, 0).taken == 0);
    CHECK(the_link.reader.lines == 1 && the_link.reader.passed == 0);
}

/* A record that is cut is refusal 8 when the end is told; one of length 0 has its line with the sixth byte. */
static void test_link_cut(void) {
    unsigned char short_one[7] = {1, 0, 0, 0, 9, 0, 0};
    unsigned char empty_one[6] = {0, 0, 0, 0, 1, 0};
    start_link();
    CHECK(ends_saying("end 0\n"));
    start_link();
    feed_link(short_one, 6, 6);
    CHECK(said_count == 0);
    CHECK(ends_saying("1 refused 8\nend 1\n"));
    start_link();
    feed_link(short_one, 7, 3);
    feed_link(empty_one, 6, 5);
    CHECK(strcmp(said, "1 refused 9\n2 refused 10\n") == 0);
    CHECK(ends_saying("1 refused 9\n2 refused 10\nend 2\n"));
}

/* 2,049 rows are refusal 2, but 10 goes before it: the normalise byte is remembered, and nothing else of the body is held. */
static void test_link_skips(void) {
    static unsigned char many[55 + 24 * 2049];
    bool untouched = true;
    size_t at;
    for (at = 55; at < sizeof many; at += 1) {
        many[at] = 0xAA;
    }
    put_fields(many, sizeof many - 6, 1, 1);
    start_link();
    feed_link(many, sizeof many, 5000);
    many[54] = 255;
    feed_link(many, sizeof many, 4999);
    put_number(many + 4, 2, 2);
    feed_link(many, sizeof many, 50000);
    CHECK(ends_saying("1 refused 2\n2 refused 10\n3 refused 9\nend 3\n"));
    for (at = 0; at < RAVELSICKLE_FLOATS; at += 1) {
        untouched = untouched && same(the_link.rows[at], 0.0);
    }
    CHECK(untouched);
}

/* Refusal 12: after the end, and before a start, everything is as it was and nothing is printed. */
static void test_link_refuses(void) {
    static struct ravelsickle_link before;
    unsigned char byte = 0;
    struct ravelsickle_step step;
    start_link();
    feed_link(&byte, 1, 1);
    CHECK(ends_saying("1 refused 8\nend 1\n"));
    before = the_link;
    step = ravelsickle_link_feed(&the_link, &byte, 1);
    CHECK(step.refusal == RAVELSICKLE_ENDED && step.taken == 0 && step.printed == 0);
    step = ravelsickle_link_feed(&the_link, &byte, 0);
    CHECK(step.refusal == RAVELSICKLE_ENDED && step.taken == 0 && step.printed == 0);
    step = ravelsickle_link_end(&the_link);
    CHECK(step.refusal == RAVELSICKLE_ENDED && step.taken == 0 && step.printed == 0);
    CHECK(memcmp(&before, &the_link, sizeof before) == 0);
    memset(&the_link, 0, sizeof the_link);
    CHECK(ravelsickle_link_feed(&the_link, &byte, 1).refusal == RAVELSICKLE_ENDED);
}

/* Bytes past the limit are taken and change nothing. */
static void test_link_limit(void) {
    unsigned char sample[206];
    put_sample(sample);
    start_link();
    the_link.reader = ravelsickle_reader_start(104);
    feed_link(sample, sizeof sample, 100);
    CHECK(the_link.reader.left == 0 && the_link.reader.passed == 1);
    CHECK(ends_saying("1 point 3FF0000000000000 3FF0000000000000 0 1 7\n2 refused 8\nend 2\n"));
    CHECK(ravelsickle_reader_start(UINT64_MAX).left == RAVELSICKLE_MOST_BYTES);
}

/* Rows of which there is one more than an entry takes, with room for a float more. */
static double *rows_past_the_limit(size_t too_many) {
    double *rows = (double *)malloc((3 * too_many + 1) * sizeof *rows);
    size_t k;
    if (rows == NULL) {
        printf("no memory for the rows of a test\n");
        exit(1);
    }
    for (k = 0; k < 3 * too_many + 1; k += 1) {
        rows[k] = (double)(k % 7) + 2.0;
    }
    return rows;
}

int main(void) {
    size_t too_many = RAVELSICKLE_ROW_LIMIT + 1;
    double *many = rows_past_the_limit(too_many);
    double *same_many = rows_past_the_limit(too_many);
    test_no_refusal_is_4();
    test_root();
    test_fused();
    test_normalize();
    test_normalize_refuses(many, same_many, too_many);
    test_solve_2x2();
    test_lp_1d();
    test_lp_1d_refuses(many, too_many);
    test_few_rows();
    test_two_rows();
    test_task_numbers();
    test_solve_normalizes();
    test_no_such_mode();
    test_stopped();
    test_stopped_normalizing();
    test_recover();
    test_recover_frame();
    test_recover_refuses(many, too_many);
    test_solve_refuses(many, same_many, too_many);
    test_link();
    test_link_cut();
    test_link_skips();
    test_link_refuses();
    test_link_limit();
    free(many);
    free(same_many);
    printf("%u checks, %u failed\n", checks, failed);
    return failed == 0 ? 0 : 1;
}
