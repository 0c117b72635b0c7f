/* The board library's functions as a program, for a trial that cannot link them: it reads calls and answers them.
 * A call is a letter (f fresh, c check, l lamp, m mend, s step, w why), the lengths of three buffers, four bytes each, the
 * highest first, and their bytes: the image; the configuration, the record or the task; the answer or the list. What it
 * gives: the number that was returned, as four bytes, so that what a machine leaves above the returned byte is seen; the
 * instructions that it took, four bytes, 0 where nothing counts them; and the bytes of image and answer after it.
 * Built with BOTH_ENGINES it answers for the second engine too: F fresh, C check, S step. */
#include "pipe.h"
#include "quermanic.h"
#ifdef BOTH_ENGINES
#include "quermanic_scan.h"
#endif

#define GUARD 16
#define FILL 0xC3
#define ROOM 131072

/* A buffer with a guard on each side. */
struct guarded {
    uint8_t all[ROOM + 2 * GUARD];
    uint32_t length;
};

static struct guarded buffers[3];

static void need(int right, const char *what) {
    if (!right) {
        pipe_fail(what);
    }
}

static uint32_t read_length(void) {
    uint8_t bytes[4];

    need(pipe_read(bytes, sizeof bytes) == sizeof bytes, "calls: a length is cut off\n");
    return (uint32_t)quermanic_number_at(bytes, sizeof bytes);
}

static void write_number(uint32_t number) {
    const uint8_t bytes[4] = {(uint8_t)(number >> 24), (uint8_t)(number >> 16), (uint8_t)(number >> 8),
                              (uint8_t)number};

    pipe_write(bytes, sizeof bytes);
}

static uint8_t *inside(struct guarded *buffer) { return buffer->all + GUARD; }

static void read_bytes(struct guarded *buffer) {
    uint32_t i;

    for (i = 0; i < GUARD; i++) {
        buffer->all[i] = FILL;
        inside(buffer)[buffer->length + i] = FILL;
    }
    need(pipe_read(inside(buffer), buffer->length) == buffer->length, "calls: a buffer is cut off\n");
}

/* That no guard was written to. */
static void keep(struct guarded *buffer) {
    uint32_t i;

    for (i = 0; i < GUARD; i++) {
        need(buffer->all[i] == FILL && inside(buffer)[buffer->length + i] == FILL,
             "calls: the library wrote outside its buffer\n");
    }
}

static uint32_t call(uint8_t kind, struct guarded *image, struct guarded *given, struct guarded *answer) {
    switch (kind) {
    case 'f':
        return quermanic_fresh(inside(given), given->length, inside(image), image->length);
    case 'c':
        return quermanic_check(inside(image), image->length);
    case 'l':
        return quermanic_lamp(inside(image), image->length);
    case 'm':
        return quermanic_mend(inside(image), image->length, inside(answer), answer->length);
    case 'w':
        need(given->length == 1, "calls: a task is one byte\n");
        return quermanic_why(inside(image), image->length, inside(given)[0], inside(answer), answer->length);
#ifdef BOTH_ENGINES
    case 'F':
        return quermanic_scan_fresh(inside(given), given->length, inside(image), image->length);
    case 'C':
        return quermanic_scan_check(inside(image), image->length);
    case 'S':
        return quermanic_scan_step(inside(image), image->length, inside(given), given->length, inside(answer),
                                   answer->length);
#endif
    default:
        need(kind == 's', "calls: no such call\n");
        return quermanic_step(inside(image), image->length, inside(given), given->length, inside(answer),
                              answer->length);
    }
}

static void answer_call(uint8_t kind) {
    volatile uint32_t number; /* so that all bits of what is returned are kept, and not reckoned to be a byte's */
    uint32_t i, before, spent;

    for (i = 0; i < 3; i++) {
        buffers[i].length = read_length();
        need(buffers[i].length <= ROOM, "calls: a buffer is too long\n");
    }
    for (i = 0; i < 3; i++) {
        read_bytes(&buffers[i]);
    }
    before = pipe_count();
    number = call(kind, &buffers[0], &buffers[1], &buffers[2]);
    spent = pipe_spent(before, pipe_count());
    for (i = 0; i < 3; i++) {
        keep(&buffers[i]);
    }
    write_number(number);
    write_number(spent);
    pipe_write(inside(&buffers[0]), buffers[0].length);
    pipe_write(inside(&buffers[2]), buffers[2].length);
    pipe_flush();
}

int main(void) {
    uint8_t kind;

    while (pipe_read(&kind, 1) == 1) {
        answer_call(kind);
    }
    return 0;
}
