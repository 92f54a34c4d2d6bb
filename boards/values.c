/*
 * A million square roots and a million fused multiply-adds of drawn floats. Prints a line for each thousand, with a sum
 * over the bits of what was drawn and of what came back: the same program, built here and for a board, must print the
 * same lines.
 *
 *   values
 */
#include "ravelsickle.h"

#include <stdio.h>
#include <string.h>

#define BLOCKS 1000
#define OF_EACH 1000

static uint64_t state = 1;

/* SplitMix64. */
static uint64_t next_bits(void) {
    uint64_t z = (state += UINT64_C(0x9E3779B97F4A7C15));
    z = (z ^ (z >> 30)) * UINT64_C(0xBF58476D1CE4E5B9);
    z = (z ^ (z >> 27)) * UINT64_C(0x94D049BB133111EB);
    return z ^ (z >> 31);
}

static uint64_t bits_of(double x) {
    uint64_t out;
    memcpy(&out, &x, sizeof out);
    return out;
}

static double float_of(uint64_t bits) {
    double out;
    memcpy(&out, &bits, sizeof out);
    return out;
}

/* A float of any bits; at times one of few digits, one near a power of two, or one whose exponent is near that of 1. */
static double next_float(void) {
    uint64_t bits = next_bits();
    switch (next_bits() % 8) {
    case 0:
        return float_of(bits & UINT64_C(0xFFFFF00000000000));
    case 1:
        return float_of((bits & UINT64_C(0xFFF0000000000000)) + (bits & 15) - 8);
    case 2:
    case 3:
    case 4:
        return float_of((bits & UINT64_C(0x800FFFFFFFFFFFFF)) | (UINT64_C(1008) + (bits >> 52) % 32) << 52);
    default:
        return float_of(bits);
    }
}

/* A float to take the root of: one of 16 has any sign, the others none. */
static double next_square(void) {
    double x = next_float();
    return next_bits() % 16 == 0 ? x : float_of(bits_of(x) & (UINT64_MAX >> 1));
}

/* What is added to x * y: at times so near to what takes the product away that only its last digits are left. */
static double next_summand(double x, double y) {
    uint64_t bits = next_bits();
    double product = x * y;
    if (bits % 2 == 0 || product != product) {
        return next_float();
    }
    return float_of(bits_of(-product) + (bits >> 32) % 17 - 8);
}

/* The sum, with the bits of one more float. */
static uint64_t with(uint64_t sum, double x) { return (sum ^ bits_of(x)) * UINT64_C(0x100000001B3) + (sum >> 47); }

static void print_block(const char *entry, int block, uint64_t sum) {
    printf("%s %d %08lX%08lX\n", entry, block, (unsigned long)(sum >> 32), (unsigned long)(sum & UINT32_MAX));
}

int main(void) {
    int block, k;
    for (block = 0; block < BLOCKS; block += 1) {
        uint64_t roots = 0, fused = 0;
        for (k = 0; k < OF_EACH; k += 1) {
            double square = next_square();
            double x = next_float(), y = next_float(), z = next_summand(x, y);
            roots = with(with(roots, square), ravelsickle_root(square));
            fused = with(with(fused, z), ravelsickle_fused(x, y, z));
        }
        print_block("root", block, roots);
        print_block("fused", block, fused);
    }
    return fflush(stdout) == 0 ? 0 : 1;
}
