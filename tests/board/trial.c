/* The board library from C: document 01's listing, and what a damaged image or a wrong buffer is answered with. */
#include <stdio.h>
#include <string.h>

#include "quermanic.h"

/* A step of the listing: its record, and what 01 prints for it. */
struct step {
    uint8_t record[QUERMANIC_LONGEST_RECORD];
    size_t length;
    const char *line;
};

static const uint8_t config[] = {0x40, 0x0A, 0x41, 0x07, 0x01, 0x41, 0x05, 0x01, 0x41, 0x07, 0x00, 0x42};

static const struct step listing[] = {
    {{0x04, 0x80, 0x03}, 3, "1 04 0 000 1"},
    {{0x02, 0x00, 0x0F}, 3, "2 02 0 000 3"},
    {{0x80}, 1, "3 80 0 000 3"},
    {{0x05, 0xA0, 0x02, 0x00, 0x04}, 5, "4 05 0 100 2"},
    {{0x80}, 1, "5 80 0 000 1"},
    {{0x0A, 0x00, 0x00, 0x00, 0x00, 0x01}, 6, "6 0A 0 000 2"},
    {{0x00}, 1, "7 00 0 000 3"},
    {{0x09, 0x01, 0x00}, 3, "8 09 0 000 3"},
    {{0x02, 0x05, 0x01}, 3, "9 02 0 000 1"},
    {{0x00}, 1, "10 00 0 000 2"},
};

static const uint8_t tick[] = {0x80};
static const uint8_t unknown[] = {0x08};

static uint8_t image[QUERMANIC_IMAGE_LENGTH];
static int failed = 0;

static void tell(const char *what, int right) {
    printf("%s: %s\n", what, right ? "right" : "WRONG");
    if (!right) {
        failed = 1;
    }
}

/* A fresh table, and every step of the listing, printed as 01 prints it. */
static void take_listing(void) {
    uint8_t answer[QUERMANIC_ANSWER_LENGTH];
    char line[32];
    size_t i;

    tell("a fresh table from the listing's configuration", quermanic_fresh(config, sizeof config, image, sizeof image) == 0);
    for (i = 0; i < sizeof listing / sizeof *listing; i++) {
        const struct step *s = &listing[i];
        uint8_t number = quermanic_step(image, sizeof image, s->record, s->length, answer, sizeof answer);
        snprintf(line, sizeof line, "%u %02X %u %u%u%u %u", (unsigned)i + 1, s->record[0], number, answer[QUERMANIC_ANSWER_Z],
                 answer[QUERMANIC_ANSWER_V], answer[QUERMANIC_ANSWER_C], answer[QUERMANIC_ANSWER_ACTIVE]);
        tell(line, strcmp(line, s->line) == 0 && answer[QUERMANIC_ANSWER_NUMBER] == number);
    }
    tell("the image after the listing is well formed", quermanic_check(image, sizeof image) == 0);
}

/* Whether a step is answered with this number, and no byte of the image is changed; the answer's first bytes must be those given. */
static int refused(uint8_t number, size_t image_length, const uint8_t *record, size_t length, const uint8_t *expected, size_t room) {
    uint8_t before[QUERMANIC_IMAGE_LENGTH];
    uint8_t answer[QUERMANIC_ANSWER_LENGTH];

    memcpy(before, image, sizeof image);
    memset(answer, 0xA5, sizeof answer);
    return quermanic_step(image, image_length, record, length, answer, room) == number && memcmp(before, image, sizeof image) == 0 &&
           memcmp(answer, expected, sizeof answer) == 0;
}

static void try_refusals(void) {
    static const uint8_t no_table[QUERMANIC_ANSWER_LENGTH] = {1, 0, 0, 0, 0};
    static const uint8_t no_kind[QUERMANIC_ANSWER_LENGTH] = {4, 0, 1, 0, 2, 0, 0, 4};
    static const uint8_t no_record[QUERMANIC_ANSWER_LENGTH] = {3, 0, 0, 0, 2, 0, 0, 4};
    uint8_t unwritten[QUERMANIC_ANSWER_LENGTH];
    const size_t whole = QUERMANIC_IMAGE_LENGTH;
    const size_t room = QUERMANIC_ANSWER_LENGTH;

    memset(unwritten, 0xA5, sizeof unwritten);
    tell("an unknown kind: 4", refused(4, whole, unknown, sizeof unknown, no_kind, room));
    tell("an empty record: 3", refused(3, whole, tick, 0, no_record, room));
    tell("a short answer's buffer: 30", refused(30, whole, tick, sizeof tick, unwritten, room - 1));
    tell("an image of a wrong length: 1", refused(1, whole - 1, tick, sizeof tick, no_table, room));
    tell("the check of a wrong length: 1", quermanic_check(image, whole - 1) == 1);
    tell("a fresh table into a wrong length: 30", quermanic_fresh(config, sizeof config, image, whole - 1) == 30);
    tell("a configuration without its end: 2", quermanic_fresh(config, sizeof config - 1, image, whole) == 2);
    tell("the image is well formed still", quermanic_check(image, whole) == 0);
    image[1] ^= 0x80; /* task 1's state: no state's number */
    tell("a damaged image: 1", refused(1, whole, tick, sizeof tick, no_table, room));
    tell("the check of a damaged image: 1", quermanic_check(image, whole) == 1);
}

/* The answer of the last step by `steps`. */
static uint8_t said[QUERMANIC_ANSWER_LENGTH];

static int fresh_alone(void) {
    static const uint8_t alone[] = {0x40, 1, 0x41, 7, 1, 0x42};

    return quermanic_fresh(alone, sizeof alone, image, sizeof image) == 0;
}

/* One step from the image as it is: its number, and V. */
static int goes_on(uint8_t number, uint8_t v, const uint8_t *record, size_t length) {
    return quermanic_step(image, sizeof image, record, length, said, sizeof said) == number && said[QUERMANIC_ANSWER_V] == v &&
           said[QUERMANIC_ANSWER_NUMBER] == number;
}

/* The same from a fresh table with one task. */
static int steps(uint8_t number, uint8_t v, const uint8_t *record, size_t length) {
    return fresh_alone() && goes_on(number, v, record, length);
}

static uint64_t eight_bytes(const uint8_t *bytes) {
    uint64_t number = 0;
    size_t i;

    for (i = 0; i < 8; i++) {
        number = number << 8 | bytes[i];
    }
    return number;
}

/* Whether task 1 is in a state (docs/TABLE.md), with this time. */
static int is_timed(uint8_t state, uint64_t time) { return image[1] == state && eight_bytes(image + 2) == time; }

/* Unit 5 is a day: at the bounds of the longest interval, and of the units. */
static void try_days(void) {
    static const uint8_t units[] = {6, 7, 255};
    size_t i;

    tell("a pause of 255 days: 0, and stored exactly", steps(0, 0, (const uint8_t[]){0x02, 5, 255}, 3) && is_timed(2, 22032000000));
    tell("a time that far off is well formed", quermanic_check(image, sizeof image) == 0);
    image[9]++;
    tell("one ms further is not", quermanic_check(image, sizeof image) == 1);
    for (i = 0; i < sizeof units; i++) {
        tell("a pause in no unit: 6, V", steps(6, 1, (const uint8_t[]){0x02, units[i], 1}, 3));
        tell("an alarm in no unit: 6, V", steps(6, 1, (const uint8_t[]){0x0B, units[i], 1, 0}, 4));
    }
    tell("a restart in unit 6: 0, V, at once", steps(0, 1, (const uint8_t[]){0x01, 6, 1}, 3) && is_timed(1, 0));
    tell("a restart in unit 7: 0, V, at once", steps(0, 1, (const uint8_t[]){0x01, 7, 1}, 3) && is_timed(1, 0));
    tell("a restart in a day: 0, due", steps(0, 0, (const uint8_t[]){0x01, 5, 1}, 3) && is_timed(3, 86400000));
}

/* Bit 6 of 01's parameter: the next time on the grid, and how many were passed over. */
static void try_skipping(void) {
    const uint64_t end = (uint64_t)1 << 40;
    const uint8_t *skipped = said + QUERMANIC_ANSWER_SKIPPED;

    tell("skipping from a fresh table: due in a ms, none passed over",
         steps(0, 0, (const uint8_t[]){0x01, 0x40, 1}, 3) && is_timed(3, 1) && eight_bytes(skipped) == 0);
    fresh_alone();
    image[438] = 1; /* the clock is 2^40: docs/TABLE.md, 436 */
    tell("skipping 2^40 starts of a ms: due at 2^40 + 1",
         goes_on(0, 0, (const uint8_t[]){0x01, 0x40, 1}, 3) && is_timed(3, end + 1) && eight_bytes(skipped) == end);
    tell("bits 7 and 6: 6, V, none passed over", steps(6, 1, (const uint8_t[]){0x01, 0xC0, 1}, 3) && eight_bytes(skipped) == 0);
    tell("bits 7 and 6 in no unit: 6, V", steps(6, 1, (const uint8_t[]){0x01, 0xC6, 0}, 3));
    tell("bit 6 in no unit: 0, V, at once", steps(0, 1, (const uint8_t[]){0x01, 0x46, 1}, 3) && is_timed(1, 0));
    tell("bit 6 with count 0: at once", steps(0, 0, (const uint8_t[]){0x01, 0x40, 0}, 3) && is_timed(1, 0));
}

/* How many ready tasks those that enter pass over: sixteen of one priority, which pause and wake; one behind fifteen. */
static void try_walking(void) {
    static const uint8_t pause[] = {0x02, 0, 1};
    const uint8_t *walked = said + QUERMANIC_ANSWER_WALKED;
    uint8_t equals[QUERMANIC_LONGEST_CONFIGURATION] = {0x40, 1};
    int right;
    size_t i;

    for (i = 0; i < 16; i++) {
        memcpy(equals + 2 + 3 * i, (const uint8_t[]){0x41, 7, 1}, 3);
    }
    equals[50] = 0x42;
    right = quermanic_fresh(equals, sizeof equals, image, sizeof image) == 0;
    for (i = 0; i < 16; i++) {
        right = goes_on(0, 0, pause, sizeof pause) && *walked == 0 && right;
    }
    tell("sixteen equals pause: nobody passed over", right);
    tell("the tick that wakes them: 120 passed over", goes_on(0, 0, tick, sizeof tick) && *walked == 120);
    tell("the first pauses: nobody passed over", goes_on(0, 0, pause, sizeof pause) && *walked == 0);
    tell("the tick that wakes it: 15 passed over", goes_on(0, 0, tick, sizeof tick) && *walked == 15);
    tell("a refused step: nobody passed over", goes_on(4, 1, unknown, sizeof unknown) && *walked == 0);
}

/* A question into a buffer of so many bytes: its number, and the first of these. */
static uint8_t told[QUERMANIC_WHY_BYTES];

static uint8_t why(size_t image_length, uint8_t task, size_t room) {
    memset(told, 0xA5, sizeof told);
    return quermanic_why(image, image_length, task, told, room);
}

/* Whether all bytes from a place on are the same. */
static int all_are(uint8_t byte, size_t from) {
    while (from < sizeof told && told[from] == byte) {
        from++;
    }
    return from == sizeof told;
}

/* Whether the path has this step. */
static int is_step(size_t i, uint8_t task, uint8_t cause, uint8_t on, uint8_t own, uint64_t until) {
    const uint8_t *step = told + QUERMANIC_WHY_STEPS + QUERMANIC_WHY_STEP_BYTES * i;

    return step[QUERMANIC_WHY_TASK] == task && step[QUERMANIC_WHY_CAUSE] == cause && step[QUERMANIC_WHY_ON] == on &&
           step[QUERMANIC_WHY_OWN] == own && eight_bytes(step + QUERMANIC_WHY_UNTIL) == until;
}

/* Why a task is not running: 3 waits for the start of a request for 2, 2 for the end of 1's run, and 1 for two flags, of
 * which one is set; and what is refused. */
static void try_why(void) {
    static const uint8_t three[] = {0x40, 1, 0x41, 1, 0, 0x41, 9, 1, 0x41, 8, 1, 0x41, 0, 1, 0x42};
    const size_t whole = QUERMANIC_IMAGE_LENGTH, room = QUERMANIC_WHY_BYTES;

    quermanic_fresh(three, sizeof three, image, whole);
    goes_on(0, 0, (const uint8_t[]){0x05, 0xC0, 1, 0, 0}, 5);
    goes_on(0, 0, (const uint8_t[]){0x05, 0xA0, 2, 0, 0}, 5);
    goes_on(0, 0, (const uint8_t[]){0x0A, 1, 0, 0, 0, 0x88}, 6);
    goes_on(0, 0, (const uint8_t[]){0x09, 1, 3}, 3);
    tell("why of 3: a path of three, and no ring",
         why(whole, 3, room) == 0 && told[QUERMANIC_WHY_LENGTH] == 3 && told[QUERMANIC_WHY_RING] == 0);
    tell("it waits for a request, on 2", is_step(0, 3, QUERMANIC_CAUSE_START, 2, 1, 0));
    tell("2 waits for the end of 1's run", is_step(1, 2, QUERMANIC_CAUSE_END_OF_RUN, 1, 0, 0));
    tell("1 waits for all its flags, and 7 is missing", is_step(2, 1, QUERMANIC_CAUSE_FLAGS, 0, QUERMANIC_ALL, 0x80));
    tell("behind the path all is 0", all_are(0, QUERMANIC_WHY_STEPS + 3 * QUERMANIC_WHY_STEP_BYTES));
    tell("why of 4: active", why(whole, 4, room) == 0 && is_step(0, 4, QUERMANIC_CAUSE_ACTIVE, 0, 0, 0));
    tell("why of no task: 6", why(whole, 5, room) == 6 && told[0] == 6 && all_are(0, 1));
    tell("why of 0: 6", why(whole, 0, room) == 6 && told[0] == 6 && all_are(0, 1));
    tell("why of an image of a wrong length: 1", why(whole - 1, 3, room) == 1 && told[0] == 1 && all_are(0, 1));
    tell("why into a short buffer: 30", why(whole, 3, room - 1) == 30 && all_are(0xA5, 0));
    image[1] ^= 0x80; /* task 1's state: no state's number */
    tell("why of a damaged image: 1", why(whole, 3, room) == 1 && told[0] == 1 && all_are(0, 1));
}

/* Controlled subprograms: 2 holds subprogram 4 and pauses, 4, 3 and 1 wait for it, in this order; 1 has the highest
 * priority, 3 and 4 are equal. Then the refusals, an image of before there were subprograms, and stray bytes. */
static void try_subprograms(void) {
    static const uint8_t four[] = {0x40, 1, 0x41, 8, 0, 0x41, 9, 1, 0x41, 7, 0, 0x41, 7, 1, 0x41, 1, 1, 0x42};
    static const uint8_t enter[] = {0x06, 4}, leave[] = {0x07, 4}, end[] = {0x00}, again[] = {0x01, 0, 1};
    static const uint8_t pause[] = {0x02, 0, 1};
    const size_t whole = QUERMANIC_IMAGE_LENGTH;
    uint8_t *sub = image + QUERMANIC_IMAGE_SUBPROGRAMS + 4 * QUERMANIC_SUBPROGRAM_LENGTH;
    uint8_t *awaited = image + QUERMANIC_IMAGE_AWAITED;

    quermanic_fresh(four, sizeof four, image, whole);
    tell("entering a free one: 0, the caller goes on", goes_on(0, 0, enter, 2) && said[QUERMANIC_ANSWER_ACTIVE] == 2);
    tell("its holder", sub[QUERMANIC_SUBPROGRAM_HOLDER] == 2 && sub[QUERMANIC_SUBPROGRAM_WAITING] == 0);
    tell("entering it again: 13", goes_on(13, 0, enter, 2));
    tell("leaving another: 14", goes_on(14, 0, (const uint8_t[]){0x07, 5}, 2));
    tell("ending while holding: 15", goes_on(15, 0, end, 1) && goes_on(15, 0, again, 3));
    tell("entering 8: 6, V", goes_on(6, 1, (const uint8_t[]){0x06, 8}, 2));
    tell("leaving 8: 6, V", goes_on(6, 1, (const uint8_t[]){0x07, 8}, 2));
    goes_on(0, 0, pause, 3);
    tell("4 waits", goes_on(0, 0, enter, 2) && awaited[3] == 4 &&
                        quermanic_state_of(image, 4) == QUERMANIC_STATE_WAITS_SUBPROGRAM);
    tell("3 waits, started by 5", goes_on(0, 0, (const uint8_t[]){0x04, 7, 3}, 3) && goes_on(0, 0, enter, 2));
    tell("1 waits, started by 5", goes_on(0, 0, (const uint8_t[]){0x04, 8, 1}, 3) && goes_on(0, 0, enter, 2));
    tell("the line: 1, 4, 3", sub[QUERMANIC_SUBPROGRAM_WAITING] == 3 &&
                                  memcmp(sub + QUERMANIC_SUBPROGRAM_LINE, "\1\4\3\0", 4) == 0);
    tell("why of 3: subprogram 4, held by 2",
         why(whole, 3, QUERMANIC_WHY_BYTES) == 0 && is_step(0, 3, QUERMANIC_CAUSE_SUBPROGRAM, 2, 4, 0) &&
             is_step(1, 2, QUERMANIC_CAUSE_PAUSED, 0, 0, 1));
    tell("leaving what another holds: 14", goes_on(14, 0, leave, 2));
    goes_on(0, 0, tick, 1);
    tell("2 leaves, and 1 holds it", goes_on(0, 0, leave, 2) && quermanic_holder_of(image, 4) == 1 &&
                                         said[QUERMANIC_ANSWER_ACTIVE] == 2);
    tell("1 is ready", quermanic_state_of(image, 1) == QUERMANIC_STATE_READY && awaited[0] == 0);
    tell("the image is well formed", quermanic_check(image, whole) == 0);
    tell("an image of before there were subprograms: 1", quermanic_check(image, QUERMANIC_IMAGE_AWAITED) == 1);
    awaited[1] = 4;
    tell("a number at a task that does not wait so: 1", quermanic_check(image, whole) == 1);
    awaited[1] = 0;
    awaited[2] = 8;
    tell("a task that waits for 8: 1", quermanic_check(image, whole) == 1);
    awaited[2] = 4;
    sub[QUERMANIC_SUBPROGRAM_HOLDER] = 0;
    tell("a line of a free one: 1", quermanic_check(image, whole) == 1);
}

/* A send to a task, of a text of this byte: its number, where V is 1 with 6 alone. */
static int sends(uint8_t number, uint8_t to, uint8_t text) {
    const uint8_t record[] = {0x14, to, text, 0, 0, 0, 0, 0, 0, 0};

    return goes_on(number, number == 6, record, sizeof record);
}

/* A receive, and what its answer hands out: 0 and zeros for nothing. */
static int receives(uint8_t from, uint8_t sender, uint8_t text) {
    const uint8_t record[] = {0x15, from};
    const uint8_t handed[] = {sender, text, 0, 0, 0, 0, 0, 0, 0};

    return goes_on(0, 0, record, sizeof record) && memcmp(said + QUERMANIC_ANSWER_SENDER, handed, sizeof handed) == 0;
}

/* Messages: 1 waits for one from 3; 2, of higher priority than 3, and 3 send. Then the refusals, 32 that wait and a
 * receiver all the same, and an image of before there were messages. */
static void try_messages(void) {
    static const uint8_t four[] = {0x40, 1, 0x41, 9, 1, 0x41, 8, 1, 0x41, 7, 1, 0x41, 1, 0, 0x42};
    static const uint8_t pause[] = {0x02, 0, 1};
    const size_t whole = QUERMANIC_IMAGE_LENGTH;
    const uint8_t *mail = image + QUERMANIC_MAIL_AT(1);
    int i, right = 1;

    quermanic_fresh(four, sizeof four, image, whole);
    tell("1 waits for a message from 3", receives(3, 0, 0) && image[QUERMANIC_IMAGE_AWAITED] == 3 &&
                                             quermanic_state_of(image, 1) == QUERMANIC_STATE_WAITS_MESSAGE);
    tell("why of 1: a message from 3, and the path ends there",
         why(whole, 1, QUERMANIC_WHY_BYTES) == 0 && told[QUERMANIC_WHY_LENGTH] == 1 &&
             is_step(0, 1, QUERMANIC_CAUSE_MESSAGE, 0, 3, 0));
    tell("2's does not wake it",
         sends(0, 1, 'a') && said[QUERMANIC_ANSWER_ACTIVE] == 2 && image[QUERMANIC_IMAGE_SENT] == 1);
    goes_on(0, 0, pause, sizeof pause);
    tell("3's does, and stands in its entry",
         sends(0, 1, 'b') && said[QUERMANIC_ANSWER_ACTIVE] == 1 && memcmp(mail, "\3b\0\0\0\0\0\0", 9) == 0);
    tell("to 0 and past the count: 6, V", sends(6, 0, 0) && sends(6, 5, 0) && sends(6, 255, 0));
    tell("from past the count: 6, V", goes_on(6, 1, (const uint8_t[]){0x15, 5}, 2));
    tell("a text of seven bytes: 3", goes_on(3, 0, (const uint8_t[]){0x14, 2, 0, 0, 0, 0, 0, 0, 0}, 9));
    tell("a text of nine bytes: 3", goes_on(3, 0, (const uint8_t[]){0x14, 2, 0, 0, 0, 0, 0, 0, 0, 0, 0}, 11));
    tell("1 receives 2's, and its entry is empty",
         receives(0, 2, 'a') && memcmp(mail, "\0\0\0\0\0\0\0\0", 9) == 0 && image[QUERMANIC_IMAGE_SENT] == 0);
    tell("1 waits for any", receives(QUERMANIC_ANY_SENDER, 0, 0) && image[QUERMANIC_IMAGE_AWAITED] == 0);
    for (i = 0; i < 32; i++) {
        right = sends(0, 4, (uint8_t)i) && right;
    }
    tell("32 wait, for a dormant task", right && image[QUERMANIC_IMAGE_SENT] == 32);
    tell("one more: 16", sends(16, 4, 32) && sends(16, 3, 32));
    tell("but to one that waits for it: 0", sends(0, 1, 33) && quermanic_active_of(image) == 1);
    tell("and it waits no more: 16", sends(16, 1, 34));
    goes_on(0, 0, (const uint8_t[]){0x04, 15, 4}, 3);
    tell("4 receives the first", receives(3, 3, 0) && image[QUERMANIC_IMAGE_SENT] == 31);
    tell("and there is room again", sends(0, 4, 35) && image[QUERMANIC_IMAGE_SENT] == 32);
    tell("its own comes before 3's, by its priority", receives(0, 4, 35) && receives(0, 3, 1));
    tell("the image is well formed", quermanic_check(image, whole) == 0);
    tell("an image of before there were messages: 1", quermanic_check(image, QUERMANIC_IMAGE_MESSAGES) == 1);
}

/* What breaks the rules of messages: a stray byte in a free place and in the entry of a task that is none, one out of
 * order, one more than there are, and one that a task waits for. */
static void try_stray_messages(void) {
    static const uint8_t two[] = {0x40, 1, 0x41, 9, 1, 0x41, 8, 1, 0x42};
    const size_t whole = QUERMANIC_IMAGE_LENGTH;
    uint8_t *first = image + QUERMANIC_IMAGE_MESSAGES, *end = image + QUERMANIC_IMAGE_SENT;

    quermanic_fresh(two, sizeof two, image, whole);
    sends(0, 2, 'a');
    sends(0, 2, 'b');
    receives(2, 0, 0);
    tell("two messages wait: well formed", quermanic_check(image, whole) == 0);
    end[-1] = 1;
    tell("a byte in a free place: 1", quermanic_check(image, whole) == 1);
    end[-1] = 0;
    first[QUERMANIC_MESSAGE_PRIORITY] = 8;
    tell("one out of order: 1", quermanic_check(image, whole) == 1);
    first[QUERMANIC_MESSAGE_PRIORITY] = 9;
    image[QUERMANIC_IMAGE_SENT] = 3;
    tell("more than there are: 1", quermanic_check(image, whole) == 1);
    image[QUERMANIC_IMAGE_SENT] = 2;
    image[QUERMANIC_MAIL_AT(3)] = 1;
    tell("one in the entry of no task: 1", quermanic_check(image, whole) == 1);
    image[QUERMANIC_MAIL_AT(3)] = 0;
    first[QUERMANIC_MESSAGE_TO] = 1;
    tell("for 1, but not from 2: well formed", quermanic_check(image, whole) == 0);
    first[QUERMANIC_MESSAGE_SENDER] = 2;
    tell("one that 1 waits for: 1", quermanic_check(image, whole) == 1);
}

/* The lamp and its word: after a fresh table, when idle, of other lengths, and with each bit of the word turned. */
static void try_lamp(void) {
    static const uint8_t no_table[QUERMANIC_ANSWER_LENGTH] = {1, 0, 0, 0, 0};
    const size_t whole = QUERMANIC_IMAGE_LENGTH;
    const size_t word = QUERMANIC_IMAGE_LEVELS;
    int bit, right = 1;

    tell("the lamp of one ready task of priority 7: 7", fresh_alone() && quermanic_lamp(image, whole) == 7);
    tell("its word: bit 7 alone", image[word] == 0 && image[word + 1] == 0x80);
    tell("the lamp of a short, a long and an empty buffer: dark",
         quermanic_lamp(image, whole - 1) == QUERMANIC_LAMP_DARK && quermanic_lamp(image, whole + 1) == QUERMANIC_LAMP_DARK &&
             quermanic_lamp(image, 0) == QUERMANIC_LAMP_DARK);
    for (bit = 0; bit < 16; bit++) {
        image[word + (bit < 8)] ^= (uint8_t)(1 << bit % 8);
        right = right && quermanic_check(image, whole) == 1 && refused(1, whole, tick, sizeof tick, no_table, sizeof no_table) &&
                refused(1, whole, tick, 0, no_table, sizeof no_table);
        image[word + (bit < 8)] ^= (uint8_t)(1 << bit % 8);
    }
    tell("each bit of the word turned: 1, and nothing changes", right && quermanic_check(image, whole) == 0);
    tell("the lamp when idle: dark, and its word 0",
         steps(0, 0, (const uint8_t[]){0x02, 0, 1}, 3) && quermanic_lamp(image, whole) == QUERMANIC_LAMP_DARK &&
             image[word] == 0 && image[word + 1] == 0);
}

/* Mending: of three ready tasks, two equal, the second is listed as in another state, and the queue has a stray place;
 * then what is sound, and what is refused. */
static void try_mending(void) {
    static const uint8_t three[] = {0x40, 1, 0x41, 7, 1, 0x41, 9, 1, 0x41, 7, 1, 0x42};
    const size_t whole = QUERMANIC_IMAGE_LENGTH, room = QUERMANIC_LIST_BYTES;
    uint8_t list[QUERMANIC_LIST_BYTES + 1], kept[QUERMANIC_IMAGE_LENGTH];
    static const uint8_t none[QUERMANIC_LIST_BYTES];

    memset(list, 0xA5, sizeof list);
    quermanic_fresh(three, sizeof three, image, whole);
    memcpy(kept, image, whole);
    tell("a sound table is mended: nothing changes",
         quermanic_mend(image, whole, list, sizeof list) == 0 && memcmp(image, kept, whole) == 0 &&
             memcmp(list, none, room) == 0 && list[room] == 0xA5);
    image[26 + 1] = QUERMANIC_STATE_WAITS_START;
    image[26 * 2 + 9] = 1; /* a time, and it is ready */
    image[416 + 3] = 3;
    tell("a step from a damaged table: 1", quermanic_check(image, whole) == 1);
    tell("it is mended", quermanic_mend(image, whole, list, room) == 0 && memcmp(image, kept, whole) == 0);
    tell("and 2 and 3 are listed", memcmp(list, "\2\2\15\3\0\0", 6) == 0);
    image[434] = 0;
    memcpy(kept, image, whole);
    memset(list, 0xA5, sizeof list);
    tell("a granule of 0: 17", quermanic_mend(image, whole, list, room) == 17);
    tell("an image of another length: 1", quermanic_mend(image, whole - 1, list, room) == 1);
    tell("a short list: 30", quermanic_mend(image, whole, list, room - 1) == 30);
    tell("and nothing changes", memcmp(image, kept, whole) == 0 && list[0] == 0xA5 && list[room - 1] == 0xA5);
}

int main(void) {
    take_listing();
    try_refusals();
    try_days();
    try_skipping();
    try_walking();
    try_why();
    try_subprograms();
    try_messages();
    try_stray_messages();
    try_lamp();
    try_mending();
    return failed;
}
