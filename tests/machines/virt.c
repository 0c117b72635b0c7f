/* Start-up on the emulator's "virt" machines of RISC-V. */
#include "semihost.h"

/* The path of quermanic_why takes the most. */
enum { STACK = 262144 };

int main(void);

__attribute__((aligned(16), used)) static uint8_t stack[STACK];

__attribute__((used)) static void begin(void) {
    const uintptr_t block[2] = {APPLICATION_EXIT, (uintptr_t)main()};

    semihost(EXIT_WITH_STATUS, block);
}

__attribute__((aligned(4), used)) static void on_fault(void) {
    static const uintptr_t block[2] = {APPLICATION_EXIT, 4};

    semihost(WRITE_TEXT, "a fault of the processor\n");
    semihost(EXIT_WITH_STATUS, block);
}

__attribute__((naked, section(".start"))) void start(void) {
    __asm__ volatile("la t0, on_fault\n"
                     "csrw mtvec, t0\n"
                     "la sp, stack\n"
                     "li t0, %0\n"
                     "add sp, sp, t0\n"
                     "call begin\n" ::"i"(STACK));
}
