/* How a trial's program talks and counts: by the C library (stdio.c), or by an emulator (tests/machines). */
#ifndef PIPE_H
#define PIPE_H

#include <stdint.h>

/* Reads so many bytes; how many there were, which is fewer at the end of the input only. */
uint32_t pipe_read(uint8_t *to, uint32_t count);

/* Writes bytes, and sees to it that all of them go out. Either ends the program where the other side is gone. */
void pipe_write(const uint8_t *from, uint32_t count);
void pipe_flush(void);

/* Says why, and ends the program with status 1. */
void pipe_fail(const char *why);

/* A count of instructions that goes on, and the instructions between two of them, without those of the counting. */
uint32_t pipe_count(void);
uint32_t pipe_spent(uint32_t before, uint32_t after);

#endif
