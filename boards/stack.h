/*
 * How deep the stack gets in a call, seen by painting it: before the call everything below the stack pointer is
 * painted, afterwards the lowest word that has lost its paint is looked for. Off the board nothing is measured.
 */
#ifndef STACK_H
#define STACK_H

#include <stdint.h>
#include <stdio.h>

/* An entry, and the deepest that a call of it came to so far, in bytes. */
struct depth {
    const char *entry;
    uint32_t bytes;
};

#ifdef __arm__

#define PAINTED_WORDS 0x10000 /* 256 KiB: more than twice what any entry takes */
#define PAINT UINT32_C(0x5AC3E1F7)

static inline __attribute__((always_inline)) uint32_t *stack_pointer(void) {
    uint32_t *here;
    __asm__ volatile("mov %0, sp" : "=r"(here));
    return here;
}

static inline __attribute__((always_inline)) void paint(void) {
    volatile uint32_t *here = stack_pointer();
    int k;
    for (k = 1; k <= PAINTED_WORDS; k += 1) {
        here[-k] = PAINT;
    }
}

static inline __attribute__((always_inline)) void look(struct depth *depth) {
    volatile uint32_t *here = stack_pointer();
    uint32_t words = PAINTED_WORDS;
    while (words > 0 && here[-(int)words] == PAINT) {
        words -= 1;
    }
    if (4 * words > depth->bytes) {
        depth->bytes = 4 * words;
    }
}

#else

static inline void paint(void) {}
static inline void look(struct depth *depth) { (void)depth; }

#endif

/* Makes a call, a statement, and notes how deep it came. The statement calls nothing but the entry. */
#define MEASURED(depth, call) \
    do {                      \
        paint();              \
        call;                 \
        look(depth);          \
    } while (0)

/* Says on standard error how deep each of the entries came. */
static inline void tell_depths(const struct depth *depths, int count) {
    int k;
    for (k = 0; k < count; k += 1) {
        fprintf(stderr, "%s %lu\n", depths[k].entry, (unsigned long)depths[k].bytes);
    }
}

#endif
