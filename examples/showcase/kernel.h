/* The executive on this board: its image, the clock's interrupt, the calls of tasks, and the switch of stacks. */
#ifndef KERNEL_H
#define KERNEL_H

#include "quermanic.h"

/* The tasks that this board has stacks for, and the words of each stack. */
enum { KERNEL_TASKS = 4, STACK_WORDS = 256 };

/* What a run of a task begins with; it gets the run's argument, and never returns: a run ends by call 00 or 01. */
typedef void (*task_entry)(uint32_t argument);

/* What this board's program is. */
struct program {
    const uint8_t *config;
    quermanic_length config_length;
    task_entry entry[KERNEL_TASKS];  /* where each task's runs begin */
    uint32_t granule;                /* ms that a tick stands for, as the configuration has it */
    void (*on_tick)(uint8_t *image); /* called before each tick is taken, in the clock's interrupt */
    void (*safe)(const char *why);   /* brings the plant into its safe state; the program then stops */
};

/* Makes the table, and runs the program; it does not return. */
_Noreturn void kernel_run(const struct program *program);

/* A call of the active task, by its record: the number of the answer, which is written to `answer`. */
uint32_t kernel_call(const uint8_t *record, quermanic_length length, uint8_t *answer);

/* Stops the program in its safe state, with status 3. */
_Noreturn void kernel_stop(const char *why);

/* The milliseconds since the table was made, as of the last step. */
uint32_t kernel_clock(void);

/* Of a task's run that is going on: its scheduled start. */
uint32_t kernel_start_of(uint8_t task);

/* Of the same run: the starts that were passed over before it. */
uint32_t kernel_skipped_of(uint8_t task);

/* Whether the image is that of a well-formed table: 0, or 1. */
uint32_t kernel_check(void);

#endif
