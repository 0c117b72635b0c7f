/* Both engines from C, step beside step; and what the second answers to a damaged image or a wrong buffer. */
#include <stdio.h>
#include <string.h>

#include "quermanic_scan.h"

static const uint8_t config[] = {0x40, 0x0A, 0x41, 0x07, 0x01, 0x41, 0x05, 0x01, 0x41, 0x07, 0x00, 0x42};
static const uint8_t steps[] = {0x04, 0x80, 0x03, 0x02, 0x00, 0x0F, 0x80, 0x05, 0xA0, 0x02, 0x00, 0x04, 0x80, 0x00, 0x00};
static const uint8_t lengths[] = {3, 3, 1, 5, 1, 1, 1};
static const uint8_t tick[] = {0x80};

static uint8_t queue[QUERMANIC_IMAGE_LENGTH];
static uint8_t image[QUERMANIC_SCAN_IMAGE_LENGTH + 1];
static int failed = 0;

static void tell(const char *what, int right) {
    printf("%s: %s\n", what, right ? "right" : "WRONG");
    if (!right) {
        failed = 1;
    }
}

/* A fresh table of each, and the same answers on the way. */
static void take_steps(void) {
    uint8_t first[QUERMANIC_ANSWER_LENGTH], second[QUERMANIC_ANSWER_LENGTH];
    const uint8_t *record = steps;
    int same = 1;
    size_t i;

    tell("a fresh table of each engine",
         quermanic_fresh(config, sizeof config, queue, sizeof queue) == 0 &&
             quermanic_scan_fresh(config, sizeof config, image, QUERMANIC_SCAN_IMAGE_LENGTH) == 0);
    tell("the arrival numbers of a fresh table", quermanic_scan_arrival(image, 1) == 1 &&
                                                     quermanic_scan_arrival(image, 2) == 2 &&
                                                     quermanic_scan_arrival(image, 3) == 0);
    for (i = 0; i < sizeof lengths; i++) {
        uint8_t one = quermanic_step(queue, sizeof queue, record, lengths[i], first, sizeof first);
        uint8_t other =
            quermanic_scan_step(image, QUERMANIC_SCAN_IMAGE_LENGTH, record, lengths[i], second, sizeof second);

        same = same && one == 0 && one == other && memcmp(first, second, sizeof first) == 0;
        record += lengths[i];
    }
    tell("the same answers of both engines", same);
    tell("the image after them is well formed", quermanic_scan_check(image, QUERMANIC_SCAN_IMAGE_LENGTH) == 0);
}

/* Whether a tick is refused with this number, and no byte of the image is changed. */
static int refused(uint8_t number, size_t length, size_t room) {
    uint8_t before[sizeof image], answer[QUERMANIC_ANSWER_LENGTH];

    memcpy(before, image, sizeof image);
    return quermanic_scan_step(image, length, tick, sizeof tick, answer, room) == number &&
           memcmp(before, image, sizeof image) == 0;
}

static void be_refused(void) {
    const size_t whole = QUERMANIC_SCAN_IMAGE_LENGTH, room = QUERMANIC_ANSWER_LENGTH;
    uint8_t other[sizeof image];

    memcpy(other, image, sizeof image);
    tell("a buffer of another length is no image", refused(1, whole - 1, room) && refused(1, whole + 1, room) &&
                                                       refused(1, QUERMANIC_IMAGE_LENGTH, room) &&
                                                       quermanic_scan_check(image, whole - 1) == 1);
    tell("an answer's buffer that is too short", refused(30, whole, room - 1) && refused(30, whole - 1, 0));
    tell("a fresh table into another length", quermanic_scan_fresh(config, sizeof config, image, whole - 1) == 30 &&
                                                  memcmp(other, image, sizeof image) == 0);
    tell("no configuration", quermanic_scan_fresh(tick, sizeof tick, image, whole) == 2 &&
                                 memcmp(other, image, sizeof image) == 0);
    image[QUERMANIC_IMAGE_LEVELS] = 1;
    tell("a word of levels where this engine has none", refused(1, whole, room));
    image[QUERMANIC_IMAGE_LEVELS] = 0;
    image[QUERMANIC_SCAN_LAST + 3] = 0;
    tell("a number above the last that was given", refused(1, whole, room));
}

int main(void) {
    take_steps();
    be_refused();
    return failed;
}
