/*
 * quermanic_scan.h: the second engine, which keeps no queue: it looks through its sixteen tasks for the active one.
 *
 * Its answers are those of the engine of quermanic.h, for any configuration and any steps (crates/scan); a board takes the one or the
 * other, and the records, the numbers and the readers of an answer are quermanic.h's. What it says of pointers and buffers holds here.
 */
#ifndef QUERMANIC_SCAN_H
#define QUERMANIC_SCAN_H

#include "quermanic.h"

#ifdef __cplusplus
extern "C" {
#endif

/* The bytes of this engine's image (docs/TABLE.md): that of quermanic.h with nobody in its queue, which is then zeros, as are its count
 * of ready tasks and its word of levels; then sixteen arrival numbers of four bytes, the highest first, task n's the n-th; then the
 * last arrival number that was given. */
#define QUERMANIC_SCAN_ARRIVALS QUERMANIC_IMAGE_LENGTH
#define QUERMANIC_SCAN_LAST (QUERMANIC_SCAN_ARRIVALS + 64)
#define QUERMANIC_SCAN_IMAGE_LENGTH (QUERMANIC_SCAN_LAST + 4)

/* The arrival number of a task, from 1 to 16, in an image of this engine: 0 where it is not ready. */
static inline uint32_t quermanic_scan_arrival(const uint8_t *image, uint8_t task) {
    return (uint32_t)quermanic_number_at(image + QUERMANIC_SCAN_ARRIVALS + 4 * (task - 1), 4);
}

/*
 * Makes a fresh table from the bytes of a configuration.
 *
 *   0   the image of the fresh table is written to `image`
 *   2   the bytes are no configuration
 *   30  `image_length` is not QUERMANIC_SCAN_IMAGE_LENGTH
 *
 * After 2 or 30 no byte of `image` is changed. What `image` held before does not matter.
 */
uint8_t quermanic_scan_fresh(const uint8_t *config, quermanic_length config_length, uint8_t *image,
                             quermanic_length image_length);

/*
 * Checks an image of this engine.
 *
 *   0   it is the image of a well-formed table
 *   1   it is not: another length, a byte that no stored table has there, or a table that is not well formed
 */
uint8_t quermanic_scan_check(const uint8_t *image, quermanic_length image_length);

/*
 * Takes a step, as quermanic_step does: the same numbers and the same answers.
 *
 *   0        `image` now holds the image of the table after the step
 *   1 to 16  refused: no byte of `image` is changed. 1 also where `image_length` is not QUERMANIC_SCAN_IMAGE_LENGTH
 *   30       `answer_length` is less than QUERMANIC_ANSWER_LENGTH: no byte of `image` or of `answer` is changed
 */
uint8_t quermanic_scan_step(uint8_t *image, quermanic_length image_length, const uint8_t *record,
                            quermanic_length record_length, uint8_t *answer, quermanic_length answer_length);

#ifdef __cplusplus
}
#endif

#endif
