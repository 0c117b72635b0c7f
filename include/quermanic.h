/*
 * quermanic.h: the executive's table as bytes, and the four things that a board does with it.
 *
 * The functions are proved against their definitions (crates/image); docs/EMBEDDING.md says how to link them and what is promised.
 * They keep nothing between calls, allocate nothing, and use no memory but their buffers and their stack.
 * docs/CALLS.md is the manual of the calls: every record byte by byte, and what each number means.
 *
 * Every pointer must be valid for the length that goes with it, and not NULL, also where that length is 0.
 * No buffer that is written to may overlap another buffer of the same call.
 */
#ifndef QUERMANIC_H
#define QUERMANIC_H

#include <stdint.h>

#ifdef __cplusplus
extern "C" {
#endif

/* The version. The second number rises with each landing (docs/CHANGES.md); the first, with the second at 0 again,
 * where a board must change: the image, a part of the answer that stands already, what a function takes and returns. */
#define QUERMANIC_VERSION "4.2"

/* A length in bytes. The code takes 64 bits on every machine; size_t has 32 on some, and would be wrong there. */
typedef uint64_t quermanic_length;

/* The bytes of a table's image (docs/TABLE.md), and where the word of the ready levels stands in it: two bytes, the higher
 * first; bit p is set exactly if some ready task has priority p. */
#define QUERMANIC_IMAGE_LENGTH 1555
#define QUERMANIC_IMAGE_LEVELS 896

/* What the lamp gives when it is dark: no priority. */
#define QUERMANIC_LAMP_DARK 16

/* The bytes of an answer, and where each of its parts stands. Walked: how many ready tasks were passed over by those that
 * entered, one byte. The argument is two bytes, the higher first; how many grid times a restart by 01 with bit 6 passed over is
 * eight, the highest first. Of the message that a receive hands out at once the sender and the eight bytes of its text; 0 of every
 * other answer. */
#define QUERMANIC_ANSWER_LENGTH 25
#define QUERMANIC_ANSWER_NUMBER 0
#define QUERMANIC_ANSWER_Z 1
#define QUERMANIC_ANSWER_V 2
#define QUERMANIC_ANSWER_C 3
#define QUERMANIC_ANSWER_ACTIVE 4
#define QUERMANIC_ANSWER_WALKED 5
#define QUERMANIC_ANSWER_ARGUMENT 6
#define QUERMANIC_ANSWER_SKIPPED 8
#define QUERMANIC_ANSWER_SENDER 16
#define QUERMANIC_ANSWER_TEXT 17

/* The bytes of the list of what was mended: how many notes, and of each, from 0, the task and the rule that its entry broke
 * (docs/TABLE.md), two bytes; zeros behind them. */
#define QUERMANIC_LIST_BYTES 33
#define QUERMANIC_LIST_LENGTH 0
#define QUERMANIC_LIST_NOTES 1 /* note i begins QUERMANIC_LIST_NOTE_BYTES * i further on */
#define QUERMANIC_LIST_NOTE_BYTES 2
#define QUERMANIC_LIST_TASK 0
#define QUERMANIC_LIST_RULE 1
#define QUERMANIC_RULE_STRAY 0 /* its state has no use for some of its bytes */
#define QUERMANIC_RULE_RANGE 1
#define QUERMANIC_RULE_TIME 3
#define QUERMANIC_RULE_START 4
#define QUERMANIC_RULE_MASK 5
#define QUERMANIC_RULE_LINK 7
#define QUERMANIC_RULE_DORMANT 8
#define QUERMANIC_RULE_MESSAGE 11
#define QUERMANIC_RULE_LOST 13 /* a waiter whose link was lost */

/* The bytes of the reasons why a task is not running, and where each part stands: the path's steps, the first is the task
 * asked for; of a step the task, its cause, the task it waits on, a byte of its cause, and eight bytes, the highest first.
 * The last QUERMANIC_WHY_RING steps of the path wait on one another; 0: no ring. Places behind the path are 0. */
#define QUERMANIC_WHY_BYTES 196
#define QUERMANIC_WHY_NUMBER 0
#define QUERMANIC_WHY_LENGTH 1 /* how many steps */
#define QUERMANIC_WHY_RING 2
#define QUERMANIC_WHY_ZERO 3
#define QUERMANIC_WHY_STEPS 4 /* step i, from 0, begins QUERMANIC_WHY_STEP_BYTES * i further on */
#define QUERMANIC_WHY_STEP_BYTES 12
#define QUERMANIC_WHY_TASK 0
#define QUERMANIC_WHY_CAUSE 1
#define QUERMANIC_WHY_ON 2
#define QUERMANIC_WHY_OWN 3
#define QUERMANIC_WHY_UNTIL 4

/* The causes, with their own byte and their eight bytes; what is not named is 0. */
#define QUERMANIC_CAUSE_DORMANT 0
#define QUERMANIC_CAUSE_ACTIVE 1
#define QUERMANIC_CAUSE_READY 2          /* behind so many (own byte) */
#define QUERMANIC_CAUSE_PAUSED 3         /* until then, in ms (eight bytes) */
#define QUERMANIC_CAUSE_DUE 4            /* to restart then */
#define QUERMANIC_CAUSE_FLAGS 5          /* QUERMANIC_ANY or _ALL (own byte); the flags that are missing (eight bytes) */
#define QUERMANIC_CAUSE_START 6          /* for the start of the request at this place, from 1 (own byte) */
#define QUERMANIC_CAUSE_END_OF_REQUEST 7 /* for the end of the run that the request at this place begins */
#define QUERMANIC_CAUSE_END_OF_RUN 8     /* for the end of the run of the task that is waited on */
#define QUERMANIC_CAUSE_SUBPROGRAM 9     /* for this subprogram (own byte), which the task that is waited on holds */
#define QUERMANIC_CAUSE_MESSAGE 10       /* for a message from this task, or from any, 0 (own byte); the path ends there */

/* The longest configuration: one 40, sixteen 41, one 42. */
#define QUERMANIC_LONGEST_CONFIGURATION 51

/* The longest record of a call. */
#define QUERMANIC_LONGEST_RECORD 10

/* The numbers that the functions return, and that an answer carries. */
#define QUERMANIC_ACCEPTED 0           /* accepted */
#define QUERMANIC_NOT_WELL_FORMED 1    /* the bytes are not the image of a well-formed table */
#define QUERMANIC_BAD_CONFIGURATION 2  /* the bytes are no configuration */
#define QUERMANIC_BAD_LENGTH 3         /* the record is empty, or its length is not its kind's */
#define QUERMANIC_UNKNOWN_KIND 4       /* the record's first byte is no kind that can be called */
#define QUERMANIC_IDLE 5               /* a call, not a tick, and nobody is active */
#define QUERMANIC_BAD_BODY 6           /* a number of the record is out of its range */
#define QUERMANIC_NAMES_ITSELF 7       /* 05 names its caller, and would wait for it */
#define QUERMANIC_POOL_FULL 8          /* 05, the target is busy, and 32 requests are queued */
#define QUERMANIC_ALARM_RUNNING 9      /* 0B, and the flag's alarm is running */
#define QUERMANIC_END_OF_TIME 10       /* a tick would carry the clock past 2^40 ms */
#define QUERMANIC_HOLDS_IT 13          /* 06, and the caller holds the subprogram already */
#define QUERMANIC_HOLDS_IT_NOT 14      /* 07, and the caller does not hold the subprogram */
#define QUERMANIC_HOLDS_ANY 15         /* 00 or 01, and the caller holds a subprogram */
#define QUERMANIC_MESSAGES_FULL 16     /* 14, the message would have to wait, and 32 messages wait */
/* The board's own number, judged before any other: a buffer that is to be written to has not the length it needs. */
#define QUERMANIC_NO_ROOM 30

/* The kinds: the first byte of a record. */
#define QUERMANIC_KIND_TERMINATE 0x00    /* the caller's run ends */
#define QUERMANIC_KIND_RESTART 0x01      /* it ends, and the caller restarts after an interval */
#define QUERMANIC_KIND_PAUSE 0x02        /* the caller departs for an interval */
#define QUERMANIC_KIND_CANCEL_PAUSE 0x03 /* a task's pause ends now */
#define QUERMANIC_KIND_START 0x04        /* a task starts, if it is dormant */
#define QUERMANIC_KIND_QUEUE 0x05        /* a task starts, or the request for its start is queued */
#define QUERMANIC_KIND_ENTER 0x06        /* the caller enters a controlled subprogram, or waits for it */
#define QUERMANIC_KIND_EXIT 0x07         /* the caller leaves one; the first that waits for it enters it */
#define QUERMANIC_KIND_FLAG 0x09         /* a flag is reset, set or tested */
#define QUERMANIC_KIND_WAIT 0x0A         /* the caller waits for flags */
#define QUERMANIC_KIND_ALARM 0x0B        /* a flag is set after an interval */
#define QUERMANIC_KIND_SEND 0x14         /* a message goes to a task: it gets it at once, or the message waits */
#define QUERMANIC_KIND_RECEIVE 0x15      /* the caller gets the first message for it, or waits for one */
#define QUERMANIC_KIND_TICK 0x80         /* the clock gains a granule */
#define QUERMANIC_KIND_GRANULE 0x40      /* a configuration's first record: its granule, in ms */
#define QUERMANIC_KIND_TASK 0x41         /* a configuration's next: a task */
#define QUERMANIC_KIND_END 0x42          /* a configuration's last */

/* The units of an interval. With a count of 0 to 255 they make its length. */
#define QUERMANIC_UNIT_1_MS 0
#define QUERMANIC_UNIT_10_MS 1
#define QUERMANIC_UNIT_SECOND 2
#define QUERMANIC_UNIT_MINUTE 3
#define QUERMANIC_UNIT_HOUR 4
#define QUERMANIC_UNIT_DAY 5

/* The parameter of 01: a unit, and one of these. */
#define QUERMANIC_FROM_LAST_START 0x00 /* the interval counts from the last scheduled start; each missed start runs */
#define QUERMANIC_SKIP_MISSED 0x40     /* as before, but missed starts are passed over; the answer tells how many */
#define QUERMANIC_FROM_NOW 0x80        /* the interval counts from now */

/* The option of 04 and 05: a priority 0 to 15, or the target's own; in 05 also what the caller waits for. */
#define QUERMANIC_OWN_PRIORITY 0x80
#define QUERMANIC_WAIT_FOR_END 0x40
#define QUERMANIC_WAIT_FOR_START 0x20
#define QUERMANIC_NO_ARGUMENT 0x10 /* the argument counts as 0 */

/* The operations of 09. */
#define QUERMANIC_RESET 0
#define QUERMANIC_SET 1
#define QUERMANIC_TEST 2

/* The modes of 0A, and the mask's bit of a flag. */
#define QUERMANIC_ANY 0
#define QUERMANIC_ALL 1
#define QUERMANIC_MASK_OF(flag) ((uint32_t)1 << (flag))

/* The controlled subprograms, numbered from 0. */
#define QUERMANIC_SUBPROGRAMS 8

/* The bytes of a message's text; what 15 takes for a message from any task. */
#define QUERMANIC_TEXT_LENGTH 8
#define QUERMANIC_ANY_SENDER 0

/* The marks of a configuration's task. */
#define QUERMANIC_NOT_STARTED 0
#define QUERMANIC_STARTED 1

/* Places of an image that a board may read between calls (docs/TABLE.md has them all), and a task's states. */
#define QUERMANIC_IMAGE_ENTRIES 0 /* sixteen entries: task k's from QUERMANIC_ENTRY_LENGTH * (k - 1) on */
#define QUERMANIC_IMAGE_QUEUE 416 /* the ready queue: its first place is the active task, 0 when idle */
#define QUERMANIC_IMAGE_READY 432 /* how many tasks are ready */
#define QUERMANIC_IMAGE_COUNT 433 /* how many tasks there are */
#define QUERMANIC_IMAGE_GRANULE 434
#define QUERMANIC_IMAGE_QUEUED 435 /* how many requests are queued */
#define QUERMANIC_IMAGE_CLOCK 436  /* eight bytes, the highest first */
#define QUERMANIC_IMAGE_FLAGS 444  /* four bytes, the highest first: flag n is bit n */
#define QUERMANIC_IMAGE_AWAITED 898     /* sixteen bytes: task k's is the subprogram, in state 8, or the sender, in state 9, waited for */
#define QUERMANIC_IMAGE_SUBPROGRAMS 914 /* subprogram m's place begins QUERMANIC_SUBPROGRAM_LENGTH * m further on */
#define QUERMANIC_SUBPROGRAM_LENGTH 18
#define QUERMANIC_SUBPROGRAM_HOLDER 0  /* the task that holds it, 0 when it is free */
#define QUERMANIC_SUBPROGRAM_WAITING 1 /* how many wait for it */
#define QUERMANIC_SUBPROGRAM_LINE 2    /* sixteen bytes: those that wait, the next first */
#define QUERMANIC_IMAGE_MESSAGES 1058 /* the messages that wait, the next first; each QUERMANIC_MESSAGE_LENGTH further on */
#define QUERMANIC_MESSAGE_LENGTH 11
#define QUERMANIC_MESSAGE_TO 0       /* the task that it is for, 0 in a free place */
#define QUERMANIC_MESSAGE_SENDER 1   /* the task that sent it */
#define QUERMANIC_MESSAGE_PRIORITY 2 /* the sender's priority when it was sent */
#define QUERMANIC_MESSAGE_TEXT 3
#define QUERMANIC_IMAGE_SENT 1410 /* how many messages wait */
/* The message that woke task 1 to 16 out of state 9: its sender, and behind it the text; zeros where there is none. It stands
 * there until that task receives again, or its run ends. */
#define QUERMANIC_IMAGE_MAIL 1411
#define QUERMANIC_MAIL_LENGTH 9
#define QUERMANIC_MAIL_SENDER 0
#define QUERMANIC_MAIL_TEXT 1
#define QUERMANIC_MAIL_AT(task) (QUERMANIC_IMAGE_MAIL + QUERMANIC_MAIL_LENGTH * ((task) - 1))
#define QUERMANIC_ENTRY_LENGTH 26
#define QUERMANIC_ENTRY_STATE 1
#define QUERMANIC_ENTRY_START 17 /* the last scheduled start of its run: eight bytes, the highest first */
#define QUERMANIC_STATE_DORMANT 0
#define QUERMANIC_STATE_READY 1
#define QUERMANIC_STATE_PAUSED 2
#define QUERMANIC_STATE_DUE 3
#define QUERMANIC_STATE_WAITS_ANY 4
#define QUERMANIC_STATE_WAITS_ALL 5
#define QUERMANIC_STATE_WAITS_START 6
#define QUERMANIC_STATE_WAITS_END 7
#define QUERMANIC_STATE_WAITS_SUBPROGRAM 8
#define QUERMANIC_STATE_WAITS_MESSAGE 9

/*
 * Makes a fresh table from the bytes of a configuration.
 *
 *   0   the image of the fresh table is written to `image`
 *   2   the bytes are no configuration
 *   30  `image_length` is not QUERMANIC_IMAGE_LENGTH
 *
 * After 2 or 30 no byte of `image` is changed. What `image` held before does not matter.
 */
uint8_t quermanic_fresh(const uint8_t *config, quermanic_length config_length, uint8_t *image,
                        quermanic_length image_length);

/*
 * Checks an image.
 *
 *   0   it is the image of a well-formed table
 *   1   it is not: another length, a byte that no stored table has there, or a table that is not well formed
 */
uint8_t quermanic_check(const uint8_t *image, quermanic_length image_length);

/*
 * Takes a step: the call, or the tick, whose record is given, from the active task of the table whose image is given.
 * Returns the answer's number (0 to 10, 13 to 16), or 30.
 *
 *   0        `image` now holds the image of the table after the step
 *   1 to 16  refused: no byte of `image` is changed. 1 also where `image_length` is not QUERMANIC_IMAGE_LENGTH
 *   30       `answer_length` is less than QUERMANIC_ANSWER_LENGTH: no byte of `image` or of `answer` is changed
 *
 * But for 30, the answer is written to the first QUERMANIC_ANSWER_LENGTH bytes of `answer`; the bytes after it keep their content.
 * Its number, Z, V, C, the active task (0 when idle) and its run's argument (0 when idle) are those after the step; after 1 all but
 * the number are 0. Grid times are passed over by an accepted 01 with bit 6 only, and 0 after any other step. Each task that enters
 * the ready queue walks past all of equal or higher priority that are ready then: 15 at most, 120 in a step, 0 where it is refused.
 * A sender and a text are those of the message that an accepted 15 found waiting; a 15 that waits finds its message, once the task
 * runs again, at QUERMANIC_MAIL_AT of the image.
 */
uint8_t quermanic_step(uint8_t *image, quermanic_length image_length, const uint8_t *record,
                       quermanic_length record_length, uint8_t *answer, quermanic_length answer_length);

/*
 * What the status lamp shows of an image.
 *
 *   0 to 15              the highest ready priority, which is the active task's
 *   QUERMANIC_LAMP_DARK  nobody is ready; also where `image_length` is not QUERMANIC_IMAGE_LENGTH
 *
 * It reads the word of the ready levels and no other byte of `image`, checks nothing, and writes nothing.
 */
uint8_t quermanic_lamp(const uint8_t *image, quermanic_length image_length);

/*
 * Tells why a task is not running, in the table whose image is given: follows it to whom it waits on, and that one in
 * turn, until one waits on nobody else or a task is met again.
 *
 *   0   the path
 *   1   the bytes are not the image of a well-formed table
 *   6   the table has no such task
 *   30  `out_length` is less than QUERMANIC_WHY_BYTES: no byte of `out` is changed
 *
 * But for 30, the answer is written to the first QUERMANIC_WHY_BYTES bytes of `out`; after 1 and 6 all of them but the number
 * are 0. The bytes after it keep their content. `image` is only read.
 */
uint8_t quermanic_why(const uint8_t *image, quermanic_length image_length, uint8_t task, uint8_t *out,
                      quermanic_length out_length);

/*
 * Mends a table that is not well formed, so that its sound tasks go on (docs/TABLE.md has what is looked at).
 *
 *   0   `image` holds the image of a well-formed table, and `list` says which entries changed; one that was well formed
 *       is as it was, and the list is empty
 *   1   `image_length` is not QUERMANIC_IMAGE_LENGTH
 *   17  the clock, the granule or the count is out of range
 *   30  `list_length` is less than QUERMANIC_LIST_BYTES
 *
 * After 1, 17 and 30 no byte of `image` or of `list` is changed. After 0 the list is in the first QUERMANIC_LIST_BYTES bytes of
 * `list`, and the bytes after it keep their content.
 */
uint8_t quermanic_mend(uint8_t *image, quermanic_length image_length, uint8_t *list, quermanic_length list_length);

/*
 * What follows is for convenience, and no part of what is proved: builders of each record, and readers of an answer
 * and an image. A builder writes a record to the start of `record`, which must have room for it
 * (QUERMANIC_LONGEST_RECORD always suffices), and returns its length. It checks nothing: a number that is out of its
 * range is refused by the step.
 */

/* 00: the caller's run ends. */
static inline quermanic_length quermanic_put_terminate(uint8_t *record) {
    record[0] = QUERMANIC_KIND_TERMINATE;
    return 1;
}

/* 01: the caller's run ends, and the next comes after an interval. `base`: QUERMANIC_FROM_LAST_START or the like. */
static inline quermanic_length quermanic_put_restart(uint8_t *record, uint8_t base, uint8_t unit, uint8_t count) {
    record[0] = QUERMANIC_KIND_RESTART;
    record[1] = (uint8_t)(base | unit);
    record[2] = count;
    return 3;
}

/* 02: the caller departs for an interval. */
static inline quermanic_length quermanic_put_pause(uint8_t *record, uint8_t unit, uint8_t count) {
    record[0] = QUERMANIC_KIND_PAUSE;
    record[1] = unit;
    record[2] = count;
    return 3;
}

/* 03: the task's pause ends now. */
static inline quermanic_length quermanic_put_cancel_pause(uint8_t *record, uint8_t task) {
    record[0] = QUERMANIC_KIND_CANCEL_PAUSE;
    record[1] = task;
    return 2;
}

/* 04: the task starts, if it is dormant. `option` is a priority, or QUERMANIC_OWN_PRIORITY. */
static inline quermanic_length quermanic_put_start(uint8_t *record, uint8_t option, uint8_t task) {
    record[0] = QUERMANIC_KIND_START;
    record[1] = option;
    record[2] = task;
    return 3;
}

/* 05: the task starts with this argument, or the request is queued. `option`: as in 04, and what is waited for. */
static inline quermanic_length quermanic_put_queue(uint8_t *record, uint8_t option, uint8_t task, uint16_t argument) {
    record[0] = QUERMANIC_KIND_QUEUE;
    record[1] = option;
    record[2] = task;
    record[3] = (uint8_t)(argument >> 8);
    record[4] = (uint8_t)argument;
    return 5;
}

/* 06: the caller enters a controlled subprogram, 0 to 7, or waits until it is handed over. */
static inline quermanic_length quermanic_put_enter(uint8_t *record, uint8_t subprogram) {
    record[0] = QUERMANIC_KIND_ENTER;
    record[1] = subprogram;
    return 2;
}

/* 07: the caller leaves a subprogram that it holds. */
static inline quermanic_length quermanic_put_exit(uint8_t *record, uint8_t subprogram) {
    record[0] = QUERMANIC_KIND_EXIT;
    record[1] = subprogram;
    return 2;
}

/* 09: the flag is reset, set or tested (QUERMANIC_RESET, _SET, _TEST); the answer's C is its old value. */
static inline quermanic_length quermanic_put_flag(uint8_t *record, uint8_t operation, uint8_t flag) {
    record[0] = QUERMANIC_KIND_FLAG;
    record[1] = operation;
    record[2] = flag;
    return 3;
}

/* 0A: the caller waits for any or all flags of a mask (QUERMANIC_ANY, _ALL; QUERMANIC_MASK_OF). */
static inline quermanic_length quermanic_put_wait(uint8_t *record, uint8_t mode, uint32_t mask) {
    record[0] = QUERMANIC_KIND_WAIT;
    record[1] = mode;
    record[2] = (uint8_t)(mask >> 24);
    record[3] = (uint8_t)(mask >> 16);
    record[4] = (uint8_t)(mask >> 8);
    record[5] = (uint8_t)mask;
    return 6;
}

/* 0B: the flag is set after an interval. */
static inline quermanic_length quermanic_put_alarm(uint8_t *record, uint8_t unit, uint8_t count, uint8_t flag) {
    record[0] = QUERMANIC_KIND_ALARM;
    record[1] = unit;
    record[2] = count;
    record[3] = flag;
    return 4;
}

/* 14: a message of QUERMANIC_TEXT_LENGTH bytes to a task. */
static inline quermanic_length quermanic_put_send(uint8_t *record, uint8_t task, const uint8_t *text) {
    record[0] = QUERMANIC_KIND_SEND;
    record[1] = task;
    for (unsigned i = 0; i < QUERMANIC_TEXT_LENGTH; i++) {
        record[2 + i] = text[i];
    }
    return 2 + QUERMANIC_TEXT_LENGTH;
}

/* 15: the caller receives a message from a task, or from QUERMANIC_ANY_SENDER. */
static inline quermanic_length quermanic_put_receive(uint8_t *record, uint8_t sender) {
    record[0] = QUERMANIC_KIND_RECEIVE;
    record[1] = sender;
    return 2;
}

/* 80: a tick. */
static inline quermanic_length quermanic_put_tick(uint8_t *record) {
    record[0] = QUERMANIC_KIND_TICK;
    return 1;
}

/* 40: a configuration begins. Its records stand one behind the other: one 40, one to sixteen 41, one 42. */
static inline quermanic_length quermanic_put_granule(uint8_t *record, uint8_t granule) {
    record[0] = QUERMANIC_KIND_GRANULE;
    record[1] = granule;
    return 2;
}

/* 41: the configuration's next task: its own priority, and QUERMANIC_STARTED or QUERMANIC_NOT_STARTED. */
static inline quermanic_length quermanic_put_task(uint8_t *record, uint8_t own, uint8_t mark) {
    record[0] = QUERMANIC_KIND_TASK;
    record[1] = own;
    record[2] = mark;
    return 3;
}

/* 42: the configuration ends. */
static inline quermanic_length quermanic_put_end(uint8_t *record) {
    record[0] = QUERMANIC_KIND_END;
    return 1;
}

/* A number of so many bytes, the highest first, as answers and images have them. */
static inline uint64_t quermanic_number_at(const uint8_t *bytes, unsigned count) {
    uint64_t number = 0;

    while (count-- > 0) {
        number = number << 8 | *bytes++;
    }
    return number;
}

/* The argument of the active task's run, of an answer. */
static inline uint16_t quermanic_argument_of(const uint8_t *answer) {
    return (uint16_t)quermanic_number_at(answer + QUERMANIC_ANSWER_ARGUMENT, 2);
}

/* The starts that a 01 with QUERMANIC_SKIP_MISSED passed over, of its answer; 0 of every other. */
static inline uint64_t quermanic_skipped_of(const uint8_t *answer) {
    return quermanic_number_at(answer + QUERMANIC_ANSWER_SKIPPED, 8);
}

/* The milliseconds since an image's table was made. */
static inline uint64_t quermanic_clock_of(const uint8_t *image) {
    return quermanic_number_at(image + QUERMANIC_IMAGE_CLOCK, 8);
}

/* The flags of an image: flag n is bit n. */
static inline uint32_t quermanic_flags_of(const uint8_t *image) {
    return (uint32_t)quermanic_number_at(image + QUERMANIC_IMAGE_FLAGS, 4);
}

/* The active task of an image, 0 when idle. */
static inline uint8_t quermanic_active_of(const uint8_t *image) { return image[QUERMANIC_IMAGE_QUEUE]; }

/* The entry of task 1 to 16 of an image. */
static inline const uint8_t *quermanic_entry_of(const uint8_t *image, uint8_t task) {
    return image + QUERMANIC_IMAGE_ENTRIES + QUERMANIC_ENTRY_LENGTH * (task - 1);
}

/* The state of a task: QUERMANIC_STATE_DORMANT and so on. */
static inline uint8_t quermanic_state_of(const uint8_t *image, uint8_t task) {
    return quermanic_entry_of(image, task)[QUERMANIC_ENTRY_STATE];
}

/* The last scheduled start of a task's run, in ms; 0 for a dormant task. */
static inline uint64_t quermanic_start_of(const uint8_t *image, uint8_t task) {
    return quermanic_number_at(quermanic_entry_of(image, task) + QUERMANIC_ENTRY_START, 8);
}

/* The task that holds subprogram 0 to 7, 0 when it is free. */
static inline uint8_t quermanic_holder_of(const uint8_t *image, uint8_t subprogram) {
    return image[QUERMANIC_IMAGE_SUBPROGRAMS + QUERMANIC_SUBPROGRAM_LENGTH * subprogram + QUERMANIC_SUBPROGRAM_HOLDER];
}

/* The sender of the message that stands in the entry of task 1 to 16, 0 when none does; its text. */
static inline uint8_t quermanic_mail_sender_of(const uint8_t *image, uint8_t task) {
    return image[QUERMANIC_MAIL_AT(task) + QUERMANIC_MAIL_SENDER];
}

static inline const uint8_t *quermanic_mail_text_of(const uint8_t *image, uint8_t task) {
    return image + QUERMANIC_MAIL_AT(task) + QUERMANIC_MAIL_TEXT;
}

#ifdef __cplusplus
}
#endif

#endif
