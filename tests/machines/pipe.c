/* A trial's program on an emulated machine: by the emulator's standard input and output, in large pieces. */
#include "pipe.h"
#include "count.h"
#include "semihost.h"

enum { TEXT_OF_NAME = 3, TO_READ = 1, TO_WRITE = 5 }; /* modes of the C library: "rb", "wb" */
enum { PIECE = 8192, NOT_OPEN = 0 };

static uint8_t read_ahead[PIECE], to_go_out[PIECE];
static uint32_t have, used, pending;
static uintptr_t input, output; /* the emulator's handles, and 1 more: 0 while they are not open */

static uintptr_t handle(uintptr_t *kept, uintptr_t mode) {
    if (*kept == NOT_OPEN) {
        const uintptr_t block[3] = {(uintptr_t) ":tt", mode, TEXT_OF_NAME};

        *kept = semihost(OPEN, block) + 1;
        if (*kept == NOT_OPEN) {
            pipe_fail("the emulator has no standard input and output\n");
        }
    }
    return *kept - 1;
}

uint32_t pipe_read(uint8_t *to, uint32_t count) {
    uint32_t done;

    for (done = 0; done < count; done++) {
        if (used == have) {
            const uintptr_t block[3] = {handle(&input, TO_READ), (uintptr_t)read_ahead, PIECE};
            const uintptr_t missing = semihost(READ, block);

            if (missing >= PIECE) {
                break;
            }
            have = PIECE - (uint32_t)missing;
            used = 0;
        }
        to[done] = read_ahead[used++];
    }
    return done;
}

void pipe_flush(void) {
    const uintptr_t block[3] = {handle(&output, TO_WRITE), (uintptr_t)to_go_out, pending};

    if (pending > 0 && semihost(WRITE, block) != 0) {
        pipe_fail("the pipe is closed\n");
    }
    pending = 0;
}

void pipe_write(const uint8_t *from, uint32_t count) {
    while (count-- > 0) {
        if (pending == PIECE) {
            pipe_flush();
        }
        to_go_out[pending++] = *from++;
    }
}

void pipe_fail(const char *why) {
    const uintptr_t block[2] = {APPLICATION_EXIT, 1};

    semihost(WRITE_TEXT, why);
    semihost(EXIT_WITH_STATUS, block);
}

uint32_t pipe_count(void) { return count_now(); }

uint32_t pipe_spent(uint32_t before, uint32_t after) {
    const uint32_t first = count_now(), second = count_now();

    return count_between(before, after) - count_between(first, second);
}
