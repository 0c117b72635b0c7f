/* The console by semihosting: a breakpoint that the emulator (or a debugger) takes for a request. */
#include "console.h"

enum { WRITE_TEXT = 0x04, EXIT_WITH_STATUS = 0x20, APPLICATION_EXIT = 0x20026 };

static void semihost(uint32_t operation, const void *argument) {
    register uint32_t r0 __asm__("r0") = operation;
    register const void *r1 __asm__("r1") = argument;

    __asm__ volatile("bkpt 0xAB" : "+r"(r0) : "r"(r1) : "memory");
}

void say(const char *text) { semihost(WRITE_TEXT, text); }

_Noreturn void stop(int status) {
    const uint32_t block[2] = {APPLICATION_EXIT, (uint32_t)status};

    semihost(EXIT_WITH_STATUS, block);
    for (;;) {
    }
}

char *put_text(char *to, const char *text) {
    while ((*to = *text++) != 0) {
        to++;
    }
    return to;
}

char *put_number(char *to, uint32_t number) {
    if (number >= 10) {
        to = put_number(to, number / 10);
    }
    *to++ = (char)('0' + number % 10);
    *to = 0;
    return to;
}

char *put_tenths(char *to, uint32_t milliseconds) {
    uint32_t limit;

    for (limit = 1000000; limit > 1000 && milliseconds < limit; limit /= 10) {
        *to++ = ' ';
    }
    to = put_number(to, milliseconds / 1000);
    *to++ = '.';
    return put_number(to, milliseconds / 100 % 10);
}
