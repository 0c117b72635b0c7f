/* Start-up of a Cortex-M3: the vectors, and what is done before main. */
#include <stdint.h>

#include "console.h"

/* Placed by the linker's script. */
extern uint32_t stack_top[], data_load[], data_begin[], data_end[], bss_begin[], bss_end[];

int main(void);
_Noreturn void on_reset(void);
void on_svc(void);
void on_systick(void);

_Noreturn void on_reset(void) {
    const uint32_t *from = data_load;
    uint32_t *to;

    for (to = data_begin; to < data_end;) {
        *to++ = *from++;
    }
    for (to = bss_begin; to < bss_end;) {
        *to++ = 0;
    }
    stop(main());
}

static void on_fault(void) {
    say("a fault of the processor\n");
    stop(4);
}

/* A program that uses them has its own; the executive's side has SVC and SysTick. */
__attribute__((weak)) void on_svc(void) { on_fault(); }
__attribute__((weak)) void on_systick(void) { on_fault(); }

/* The first is no handler: it is where the handlers' stack begins. */
__attribute__((section(".vectors"), used)) static void (*const vectors[16])(void) = {
    [0] = (void (*)(void))stack_top,
    [1] = on_reset,
    [2] = on_fault,
    [3] = on_fault,
    [4] = on_fault,
    [5] = on_fault,
    [6] = on_fault,
    [11] = on_svc,
    [12] = on_fault,
    [14] = on_fault,
    [15] = on_systick,
};
