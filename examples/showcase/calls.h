/* The calls of a task. Each hands its record to the executive and returns when the caller is active again. */
#ifndef CALLS_H
#define CALLS_H

#include "kernel.h"

/* Stops the program in its safe state unless a call was accepted: a task that gets a refusal here has a fault. */
static inline void must(uint32_t number) {
    if (number != QUERMANIC_ACCEPTED) {
        kernel_stop("a call was refused");
    }
}

/* 00: the run ends; the next begins at the task's entry. */
static inline void end_run(void) {
    uint8_t record[QUERMANIC_LONGEST_RECORD], answer[QUERMANIC_ANSWER_LENGTH];

    must(kernel_call(record, quermanic_put_terminate(record), answer));
}

/* 01: the run ends, and the next comes an interval after the start that `base` says. */
static inline void run_again(uint8_t base, uint8_t unit, uint8_t count) {
    uint8_t record[QUERMANIC_LONGEST_RECORD], answer[QUERMANIC_ANSWER_LENGTH];

    must(kernel_call(record, quermanic_put_restart(record, base, unit, count), answer));
}

/* 02: a pause. */
static inline void pause(uint8_t unit, uint8_t count) {
    uint8_t record[QUERMANIC_LONGEST_RECORD], answer[QUERMANIC_ANSWER_LENGTH];

    must(kernel_call(record, quermanic_put_pause(record, unit, count), answer));
}

/* 05: a run of another task, at its own priority, at once or after those before it. False where 32 are queued. */
static inline int ask_for_run(uint8_t task, uint16_t argument) {
    uint8_t record[QUERMANIC_LONGEST_RECORD], answer[QUERMANIC_ANSWER_LENGTH];
    const uint32_t number =
        kernel_call(record, quermanic_put_queue(record, QUERMANIC_OWN_PRIORITY, task, argument), answer);

    if (number != QUERMANIC_POOL_FULL) {
        must(number);
    }
    return number == QUERMANIC_ACCEPTED;
}

/* 09: resets, sets or tests a flag; whether it was set. */
static inline int flag(uint8_t operation, uint8_t which) {
    uint8_t record[QUERMANIC_LONGEST_RECORD], answer[QUERMANIC_ANSWER_LENGTH];

    must(kernel_call(record, quermanic_put_flag(record, operation, which), answer));
    return answer[QUERMANIC_ANSWER_C];
}

/* 0A: waits until any flag of a mask is set. */
static inline void wait_for_any(uint32_t mask) {
    uint8_t record[QUERMANIC_LONGEST_RECORD], answer[QUERMANIC_ANSWER_LENGTH];

    must(kernel_call(record, quermanic_put_wait(record, QUERMANIC_ANY, mask), answer));
}

/* 0B: sets a flag after an interval. An alarm that is running already goes on. */
static inline void alarm(uint8_t unit, uint8_t count, uint8_t which) {
    uint8_t record[QUERMANIC_LONGEST_RECORD], answer[QUERMANIC_ANSWER_LENGTH];
    const uint32_t number = kernel_call(record, quermanic_put_alarm(record, unit, count, which), answer);

    if (number != QUERMANIC_ALARM_RUNNING) {
        must(number);
    }
}

#endif
