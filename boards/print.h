/* How the vectors write what an entry answers: a float as the 16 hexadecimal digits of its bits, a row by its number,
 * `-` for no row. */
#ifndef PRINT_H
#define PRINT_H

#include <stdbool.h>
#include <stdint.h>
#include <stdio.h>
#include <string.h>

static inline void print_float(double x) {
    uint64_t bits;
    memcpy(&bits, &x, sizeof bits);
    printf(" %08lX%08lX", (unsigned long)(bits >> 32), (unsigned long)(bits & UINT32_MAX));
}

static inline void print_row(bool there, uint64_t row) {
    if (there) {
        printf(" %llu", (unsigned long long)row);
    } else {
        printf(" -");
    }
}

#endif
