/*
 * What an emulated board does before main: the table of exceptions, the float unit where there is one, and newlib's own
 * start. A fault ends the emulator with status 1.
 */
#include <stdint.h>

void _start(void);
extern uint32_t __stack;

/* Debug calls of the emulator: SYS_WRITE0 prints a text, SYS_EXIT ends the run. */
static void ask_emulator(uint32_t call, const void *with) {
    __asm__ volatile("mov r0, %0\n mov r1, %1\n bkpt 0xab" : : "r"(call), "r"(with) : "r0", "r1", "memory");
}

static void fault(void) {
    ask_emulator(0x04, "boards: the processor has met a fault\n");
    ask_emulator(0x18, (const void *)0x20023); /* ADP_Stopped_RunTimeErrorUnknown */
    for (;;) {
    }
}

void reset(void) {
#ifdef __ARM_FP
    *(volatile uint32_t *)0xE000ED88 |= UINT32_C(0xF) << 20; /* CPACR: the float unit is switched on */
    __asm__ volatile("dsb\n isb");
#endif
    _start();
    fault();
}

__attribute__((section(".vectors"), used)) static const void *const exceptions[16] = {
    &__stack, reset, fault, fault, fault, fault, fault, 0, 0, 0, 0, fault, fault, 0, fault, fault,
};
