/* The entries by pointer. A record by value crosses in registers or on the stack as the processor's C says, and the kit's module is
   made for x86-64: compiled for another processor, it takes records as no C program there hands them over, and takes the place of
   the record that it gives as its first argument. `compare/native` compiles this file as the kit compiles the module, first for x86-64
   and then the result for this processor, so that both sides agree here; what these functions take and give are numbers and
   pointers, which cross alike everywhere. */

#include "ravelsickle.h"

/* An entry as the module has it. */
#define ENTRY(name) __asm__("ravelsickle_" #name)

void *solve_2x2(struct ravelsickle_crossing *out, struct ravelsickle_row r, struct ravelsickle_row s) ENTRY(solve_2x2);
void *lp_1d(struct ravelsickle_bounds *out, const double *pairs, uint64_t floats, struct ravelsickle_line_task task) ENTRY(lp_1d);
void *solve(struct ravelsickle_answer *out, double *rows, uint64_t floats, struct ravelsickle_task task) ENTRY(solve);
void *solve_rows(struct ravelsickle_answer *out, struct ravelsickle_row *rows, uint64_t rows_count,
                 struct ravelsickle_task task) ENTRY(solve_rows);
void *lp_2d_incre_max_y(struct ravelsickle_solution *out, double *rows, uint64_t floats,
                        struct ravelsickle_task task) ENTRY(lp_2d_incre_max_y);
void *recover_2d_prefix(struct ravelsickle_recovered *out, const double *rows, uint64_t floats,
                        struct ravelsickle_recovery_task task) ENTRY(recover_2d_prefix);
void *reader_start(struct ravelsickle_reader *out, uint64_t limit) ENTRY(reader_start);
void *reader_feed(struct ravelsickle_fed *out, struct ravelsickle_reader reader, unsigned char *head, double *rows,
                  const unsigned char *bytes, uint64_t bytes_count, unsigned char *text) ENTRY(reader_feed);
void *reader_end(struct ravelsickle_fed *out, struct ravelsickle_reader reader, const unsigned char *head,
                 unsigned char *text) ENTRY(reader_end);

void native_solve_2x2(const struct ravelsickle_row *r, const struct ravelsickle_row *s, struct ravelsickle_crossing *out) {
    solve_2x2(out, *r, *s);
}

void native_lp_1d(const double *pairs, uint64_t floats, const struct ravelsickle_line_task *task, struct ravelsickle_bounds *out) {
    lp_1d(out, pairs, floats, *task);
}

void native_solve(double *rows, uint64_t floats, const struct ravelsickle_task *task, struct ravelsickle_answer *out) {
    solve(out, rows, floats, *task);
}

void native_solve_rows(struct ravelsickle_row *rows, uint64_t rows_count, const struct ravelsickle_task *task,
                       struct ravelsickle_answer *out) {
    solve_rows(out, rows, rows_count, *task);
}

void native_lp_2d_incre_max_y(double *rows, uint64_t floats, const struct ravelsickle_task *task,
                              struct ravelsickle_solution *out) {
    lp_2d_incre_max_y(out, rows, floats, *task);
}

void native_recover_2d_prefix(const double *rows, uint64_t floats, const struct ravelsickle_recovery_task *task,
                              struct ravelsickle_recovered *out) {
    recover_2d_prefix(out, rows, floats, *task);
}

void native_reader_start(uint64_t limit, struct ravelsickle_reader *out) { reader_start(out, limit); }

void native_reader_feed(const struct ravelsickle_reader *reader, unsigned char *head, double *rows, const unsigned char *bytes,
                        uint64_t bytes_count, unsigned char *text, struct ravelsickle_fed *out) {
    reader_feed(out, *reader, head, rows, bytes, bytes_count, text);
}

void native_reader_end(const struct ravelsickle_reader *reader, const unsigned char *head, unsigned char *text,
                       struct ravelsickle_fed *out) {
    reader_end(out, *reader, head, text);
}
