/* A machine's count of its own instructions. */
#ifndef COUNT_H
#define COUNT_H

#include <stdint.h>

#if defined(__arm__)
/* SysTick counts down, 24 bits wide, at 25 MHz. The emulator takes 2^10 ns for an instruction: 25.6 counts. */
#define SYSTICK_CONTROL (*(volatile uint32_t *)0xE000E010u)
#define SYSTICK_RELOAD (*(volatile uint32_t *)0xE000E014u)
#define SYSTICK_COUNT (*(volatile uint32_t *)0xE000E018u)
#define SYSTICK_MOST 0xFFFFFFu
#define START_WITHOUT_INTERRUPT 5

static inline uint32_t count_now(void) {
    if (SYSTICK_CONTROL == 0) {
        SYSTICK_RELOAD = SYSTICK_MOST;
        SYSTICK_COUNT = 0;
        SYSTICK_CONTROL = START_WITHOUT_INTERRUPT;
    }
    return SYSTICK_COUNT;
}

static inline uint32_t count_between(uint32_t before, uint32_t after) {
    return (uint32_t)(((uint64_t)((before - after) & SYSTICK_MOST) * 10 + 128) / 256);
}
#elif defined(__riscv)
static inline uint32_t count_now(void) {
    uintptr_t count;

    __asm__ volatile("csrr %0, minstret" : "=r"(count));
    return (uint32_t)count;
}

static inline uint32_t count_between(uint32_t before, uint32_t after) { return after - before; }
#endif

#endif
