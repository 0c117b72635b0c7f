/* The header's builders and readers: each record against 01's bytes, and what is read of an answer and an image. */
#include <stdio.h>
#include <string.h>

#include "quermanic.h"

static int failed = 0;

static void tell(const char *what, int right) {
    printf("%s: %s\n", what, right ? "right" : "WRONG");
    if (!right) {
        failed = 1;
    }
}

/* Whether a builder gave this record and wrote no byte behind it. */
static int is(const uint8_t *record, quermanic_length length, const char *expected, size_t expected_length) {
    return length == expected_length && memcmp(record, expected, expected_length) == 0 && record[length] == 0xA5;
}

#define TRY(what, built, bytes)                                  \
    do {                                                         \
        uint8_t record[QUERMANIC_LONGEST_RECORD + 1];            \
        quermanic_length length;                                 \
        memset(record, 0xA5, sizeof record);                     \
        length = built;                                          \
        tell(what, is(record, length, bytes, sizeof bytes - 1)); \
    } while (0)

static void try_builders(void) {
    TRY("00", quermanic_put_terminate(record), "\x00");
    TRY("01 from the last start", quermanic_put_restart(record, QUERMANIC_FROM_LAST_START, QUERMANIC_UNIT_SECOND, 7),
        "\x01\x02\x07");
    TRY("01 from now", quermanic_put_restart(record, QUERMANIC_FROM_NOW, QUERMANIC_UNIT_HOUR, 255), "\x01\x84\xFF");
    TRY("01 without the missed", quermanic_put_restart(record, QUERMANIC_SKIP_MISSED, QUERMANIC_UNIT_SECOND, 1),
        "\x01\x42\x01");
    TRY("02", quermanic_put_pause(record, QUERMANIC_UNIT_MINUTE, 9), "\x02\x03\x09");
    TRY("03", quermanic_put_cancel_pause(record, 16), "\x03\x10");
    TRY("04", quermanic_put_start(record, QUERMANIC_OWN_PRIORITY, 3), "\x04\x80\x03");
    TRY("05", quermanic_put_queue(record, QUERMANIC_WAIT_FOR_END | 7, 2, 0x1234), "\x05\x47\x02\x12\x34");
    TRY("05 without argument", quermanic_put_queue(record, QUERMANIC_WAIT_FOR_START | QUERMANIC_NO_ARGUMENT, 2, 0),
        "\x05\x30\x02\x00\x00");
    TRY("06", quermanic_put_enter(record, 7), "\x06\x07");
    TRY("07", quermanic_put_exit(record, 0), "\x07\x00");
    TRY("09", quermanic_put_flag(record, QUERMANIC_SET, 31), "\x09\x01\x1F");
    TRY("0A", quermanic_put_wait(record, QUERMANIC_ALL, QUERMANIC_MASK_OF(31) | QUERMANIC_MASK_OF(0)),
        "\x0A\x01\x80\x00\x00\x01");
    TRY("0B", quermanic_put_alarm(record, QUERMANIC_UNIT_10_MS, 3, 4), "\x0B\x01\x03\x04");
    TRY("0B in days", quermanic_put_alarm(record, QUERMANIC_UNIT_DAY, 30, 4), "\x0B\x05\x1E\x04");
    TRY("14", quermanic_put_send(record, 3, (const uint8_t *)"GATE 2\0\xFF"), "\x14\x03GATE 2\x00\xFF");
    TRY("15", quermanic_put_receive(record, 16), "\x15\x10");
    TRY("15 from any task", quermanic_put_receive(record, QUERMANIC_ANY_SENDER), "\x15\x00");
    TRY("80", quermanic_put_tick(record), "\x80");
    TRY("40", quermanic_put_granule(record, 10), "\x40\x0A");
    TRY("41", quermanic_put_task(record, 15, QUERMANIC_STARTED), "\x41\x0F\x01");
    TRY("42", quermanic_put_end(record), "\x42");
}

/* The configuration of two tasks, built: 1 of own priority 7, started; 2 of own priority 5, not started. */
static quermanic_length configure(uint8_t *config) {
    quermanic_length length = quermanic_put_granule(config, 250);

    length += quermanic_put_task(config + length, 7, QUERMANIC_STARTED);
    length += quermanic_put_task(config + length, 5, QUERMANIC_NOT_STARTED);
    return length + quermanic_put_end(config + length);
}

/* What an answer hands out, and what stands in a task's entry: the sender and the text. */
static int handed(const uint8_t *answer, uint8_t sender, const char *text) {
    return answer[QUERMANIC_ANSWER_SENDER] == sender &&
           memcmp(answer + QUERMANIC_ANSWER_TEXT, text, QUERMANIC_TEXT_LENGTH) == 0;
}

static int has(const uint8_t *image, uint8_t task, uint8_t sender, const char *text) {
    return quermanic_mail_sender_of(image, task) == sender &&
           memcmp(quermanic_mail_text_of(image, task), text, QUERMANIC_TEXT_LENGTH) == 0;
}

/* Task 1 is active, and 2 is dormant. 1 sends to 2, starts it, and waits for a message; 2 receives what was kept for
 * it, and sends 1 an answer. */
static void try_messages(uint8_t *image) {
    const quermanic_length room = QUERMANIC_IMAGE_LENGTH, answer_room = QUERMANIC_ANSWER_LENGTH;
    uint8_t record[QUERMANIC_LONGEST_RECORD], answer[QUERMANIC_ANSWER_LENGTH];
    const uint8_t *first = image + QUERMANIC_IMAGE_MESSAGES;
    quermanic_length length = quermanic_put_send(record, 2, (const uint8_t *)"GATE 2\0");

    tell("a message", quermanic_step(image, room, record, length, answer, answer_room) == QUERMANIC_ACCEPTED);
    tell("it waits", image[QUERMANIC_IMAGE_SENT] == 1 && first[QUERMANIC_MESSAGE_TO] == 2 &&
                         first[QUERMANIC_MESSAGE_SENDER] == 1 && first[QUERMANIC_MESSAGE_PRIORITY] == 7 &&
                         memcmp(first + QUERMANIC_MESSAGE_TEXT, "GATE 2\0", QUERMANIC_TEXT_LENGTH) == 0);
    tell("nothing is handed out", handed(answer, 0, "\0\0\0\0\0\0\0"));
    quermanic_step(image, room, record, quermanic_put_start(record, 5, 2), answer, answer_room);
    length = quermanic_put_receive(record, QUERMANIC_ANY_SENDER);
    tell("a wait", quermanic_step(image, room, record, length, answer, answer_room) == QUERMANIC_ACCEPTED &&
                       quermanic_state_of(image, 1) == QUERMANIC_STATE_WAITS_MESSAGE);
    length = quermanic_put_receive(record, 1);
    tell("what is handed out", quermanic_step(image, room, record, length, answer, answer_room) == QUERMANIC_ACCEPTED &&
                                   handed(answer, 1, "GATE 2\0") && image[QUERMANIC_IMAGE_SENT] == 0);
    length = quermanic_put_send(record, 1, (const uint8_t *)"SHUT\0\0\0");
    tell("what a woken task finds", quermanic_step(image, room, record, length, answer, answer_room) == 0 &&
                                        quermanic_active_of(image) == 1 && has(image, 1, 2, "SHUT\0\0\0") &&
                                        has(image, 2, 0, "\0\0\0\0\0\0\0"));
}

static void try_readers(void) {
    uint8_t config[QUERMANIC_LONGEST_CONFIGURATION], image[QUERMANIC_IMAGE_LENGTH];
    uint8_t record[QUERMANIC_LONGEST_RECORD], answer[QUERMANIC_ANSWER_LENGTH];
    const quermanic_length room = sizeof image, answer_room = sizeof answer;
    quermanic_length length;

    tell("a fresh table", quermanic_fresh(config, configure(config), image, room) == QUERMANIC_ACCEPTED);
    tell("granule and count", image[QUERMANIC_IMAGE_GRANULE] == 250 && image[QUERMANIC_IMAGE_COUNT] == 2);
    tell("1 ready, 0 queued", image[QUERMANIC_IMAGE_READY] == 1 && image[QUERMANIC_IMAGE_QUEUED] == 0);
    tell("task 1 is active",
         quermanic_active_of(image) == 1 && quermanic_state_of(image, 1) == QUERMANIC_STATE_READY);
    tell("task 2 is dormant", quermanic_state_of(image, 2) == QUERMANIC_STATE_DORMANT);
    tell("a tick",
         quermanic_step(image, room, record, quermanic_put_tick(record), answer, answer_room) == QUERMANIC_ACCEPTED);
    tell("the clock", quermanic_clock_of(image) == 250);
    tell("a flag", quermanic_step(image, room, record, quermanic_put_flag(record, QUERMANIC_SET, 31), answer,
                                  answer_room) == 0);
    tell("the flags", quermanic_flags_of(image) == QUERMANIC_MASK_OF(31));
    tell("a start with an argument", quermanic_step(image, room, record, quermanic_put_queue(record, 15, 2, 0xBEEF),
                                                    answer, answer_room) == QUERMANIC_ACCEPTED);
    tell("the argument", quermanic_argument_of(answer) == 0xBEEF && answer[QUERMANIC_ANSWER_ACTIVE] == 2);
    tell("the scheduled start", quermanic_start_of(image, 2) == 250 && quermanic_start_of(image, 1) == 0);
    length = quermanic_put_terminate(record);
    tell("its end", quermanic_step(image, room, record, length, answer, answer_room) == QUERMANIC_ACCEPTED);
    tell("none skipped", quermanic_skipped_of(answer) == 0);
    length = quermanic_put_restart(record, QUERMANIC_SKIP_MISSED, QUERMANIC_UNIT_10_MS, 10);
    tell("a restart", quermanic_step(image, room, record, length, answer, answer_room) == QUERMANIC_ACCEPTED);
    tell("two starts skipped", quermanic_skipped_of(answer) == 2);
    tell("all subprograms are free", quermanic_holder_of(image, 0) == 0 && quermanic_holder_of(image, 7) == 0);
    length = quermanic_put_start(record, 5, 2);
    tell("nobody is active", quermanic_step(image, room, record, length, answer, answer_room) == QUERMANIC_IDLE);
    quermanic_step(image, room, record, quermanic_put_tick(record), answer, answer_room);
    length = quermanic_put_enter(record, 7);
    tell("a subprogram", quermanic_step(image, room, record, length, answer, answer_room) == QUERMANIC_ACCEPTED);
    tell("its holder", quermanic_holder_of(image, 7) == 1 && quermanic_holder_of(image, 6) == 0);
    try_messages(image);
}

int main(void) {
    try_builders();
    try_readers();
    return failed;
}
