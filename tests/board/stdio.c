/* A trial's program on a machine with a C library: by standard input and output. Nothing counts instructions. */
#include <stdio.h>
#include <stdlib.h>

#include "pipe.h"

uint32_t pipe_read(uint8_t *to, uint32_t count) { return (uint32_t)fread(to, 1, count, stdin); }

void pipe_fail(const char *why) {
    fputs(why, stderr);
    exit(1);
}

void pipe_write(const uint8_t *from, uint32_t count) {
    if (fwrite(from, 1, count, stdout) != count) {
        pipe_fail("the pipe is closed\n");
    }
}

void pipe_flush(void) {
    if (fflush(stdout) != 0) {
        pipe_fail("the pipe is closed\n");
    }
}

uint32_t pipe_count(void) { return 0; }

uint32_t pipe_spent(uint32_t before, uint32_t after) { return after - before; }
