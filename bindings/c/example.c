/*
 * A planner asks how fast it may go at one place of a path. y is the speed squared, x the change of it; each limit of a
 * joint is a row a*x + b*y <= c. Prints the answers in words.
 */
#include "ravelsickle.h"

#include <stdio.h>

static void print_row(const char *name, bool there, uint64_t row) {
    if (there) {
        printf(", %s row %llu", name, (unsigned long long)row);
    } else {
        printf(", %s row -", name);
    }
}

static void print_answer(const struct ravelsickle_answer *answer) {
    switch (answer->kind) {
    case RAVELSICKLE_POINT:
        printf("point x = %g, y = %g", answer->x, answer->y);
        break;
    case RAVELSICKLE_LEVEL:
        printf("level y = %g, whatever x is", answer->y);
        break;
    case RAVELSICKLE_ACROSS:
        printf("across at x = %g", answer->x);
        break;
    default:
        printf("nothing");
        break;
    }
    print_row("first", answer->has_first, answer->first);
    print_row("second", answer->has_second, answer->second);
    printf(", readings %llu\n", (unsigned long long)answer->count);
}

static void solve_and_print(const char *what, struct ravelsickle_row *rows, size_t n, uint64_t allowance) {
    struct ravelsickle_task task = ravelsickle_usual_task();
    struct ravelsickle_answer answer;
    task.normalize = RAVELSICKLE_NORMALIZE_SOURCE;
    task.allowance = allowance;
    answer = ravelsickle_solve(&rows->a, 3 * n, task);
    printf("%s: ", what);
    if (answer.refusal == RAVELSICKLE_DONE) {
        print_answer(&answer);
    } else if (answer.refusal == RAVELSICKLE_STOPPED) {
        printf("not finished within %llu readings\n", (unsigned long long)answer.count);
    } else {
        printf("refused %llu\n", (unsigned long long)answer.refusal);
    }
}

int main(void) {
    /* accelerating and braking fall off with speed; the third row is the ceiling of a slow joint */
    struct ravelsickle_row limits[3] = {{1, 0.5, 8}, {-1, 0.5, 8}, {0, 1, 12}};
    struct ravelsickle_row without_ceiling[2] = {{1, 0.5, 8}, {-1, 0.5, 6}};
    struct ravelsickle_row ceiling[1] = {{0, 2, 6}};
    solve_and_print("three limits", limits, 3, 1000);
    solve_and_print("without the ceiling", without_ceiling, 2, 1000);
    solve_and_print("the ceiling alone", ceiling, 1, 1000);
    solve_and_print("too few readings", limits, 3, 5);
    return 0;
}
