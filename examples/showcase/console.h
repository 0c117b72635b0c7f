/* The console: lines of text to whoever watches. Here the emulator's, on a board a serial port. */
#ifndef CONSOLE_H
#define CONSOLE_H

#include <stdint.h>

/* Says a text. */
void say(const char *text);

/* Ends the program with a status. */
_Noreturn void stop(int status);

/* Each puts its text at `to`, with a zero behind it, and returns where that zero stands. */
char *put_text(char *to, const char *text);
char *put_number(char *to, uint32_t number);

/* Milliseconds as seconds and tenths, right-aligned in six columns: "  11.3". */
char *put_tenths(char *to, uint32_t milliseconds);

#endif
