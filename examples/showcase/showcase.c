/*
 * A museum showcase: four tasks under the executive, and an open door.
 *
 *   1 humidity  every second, from its last scheduled start: waits for the closed door, and adds a step of water
 *   2 door      every 100 ms: looks at the switch, sets and resets flag 0, and starts an alarm when the door opens
 *   3 fan       runs when it is asked to, for as many tenths of a second as its argument says; requests are queued
 *   4 logger    every two seconds: a line, and whether the door has stood open for long
 *
 * RESTART says what becomes of the starts that humidity misses while the door is open: QUERMANIC_FROM_LAST_START runs
 * them all, QUERMANIC_SKIP_MISSED passes them over. DAMAGE, where it is not 0, is the second at which a byte of the
 * table is turned, to show what the showcase then does.
 */
#include "calls.h"
#include "console.h"
#include "world.h"

#ifndef RESTART
#define RESTART QUERMANIC_FROM_LAST_START
#endif
#ifndef DAMAGE
#define DAMAGE 0
#endif

enum { HUMIDITY = 1, DOOR, FAN, LOGGER };
enum { DOOR_IS_CLOSED, DOOR_IS_LONG_OPEN }; /* the flags */
enum { GRANULE = 10, END = 16000, TOO_MOIST = 52000 };

static const uint8_t config[] = {
    QUERMANIC_KIND_GRANULE, GRANULE,                        /* ms */
    QUERMANIC_KIND_TASK,    7,       QUERMANIC_STARTED,     /* humidity */
    QUERMANIC_KIND_TASK,    9,       QUERMANIC_STARTED,     /* door */
    QUERMANIC_KIND_TASK,    5,       QUERMANIC_NOT_STARTED, /* fan */
    QUERMANIC_KIND_TASK,    2,       QUERMANIC_STARTED,     /* logger */
    QUERMANIC_KIND_END,
};

static uint32_t humidity_runs, fan_runs;
static int door_was_open = 1; /* so that the door task says at once that it is closed */

/* A line of the log: the clock in tenths of a second, who, and what; then, where there is a text, a number and it. */
static void tell(const char *who, const char *what, uint32_t number, const char *behind) {
    char line[96], *to = put_tenths(line, kernel_clock());

    to = put_text(put_text(put_text(put_text(to, " s  "), who), "  "), what);
    if (behind != 0) {
        to = put_text(put_number(to, number), behind);
    }
    put_text(to, "\n");
    say(line);
}

static void humidity(uint32_t argument) {
    int is_too_moist;

    (void)argument;
    if (kernel_skipped_of(HUMIDITY) > 0) {
        tell("humidity", "starts that were passed over: ", kernel_skipped_of(HUMIDITY), "");
    }
    wait_for_any(QUERMANIC_MASK_OF(DOOR_IS_CLOSED));
    world_add_water();
    humidity_runs++;
    is_too_moist = world_moisture() > TOO_MOIST;
    tell("humidity", "a step of water for second ", kernel_start_of(HUMIDITY) / 1000,
         is_too_moist ? ", too moist" : "");
    if (is_too_moist && !ask_for_run(FAN, 10)) {
        tell("humidity", "cannot ask for the fan: its requests are too many", 0, 0);
    }
    run_again(RESTART, QUERMANIC_UNIT_SECOND, 1);
}

static void door(uint32_t argument) {
    const int is_open = world_door_is_open();

    (void)argument;
    if (is_open != door_was_open) {
        door_was_open = is_open;
        tell("door    ", is_open ? "is opened" : "is closed", 0, 0);
        if (is_open) {
            flag(QUERMANIC_RESET, DOOR_IS_CLOSED);
            alarm(QUERMANIC_UNIT_SECOND, 3, DOOR_IS_LONG_OPEN);
        } else {
            flag(QUERMANIC_SET, DOOR_IS_CLOSED);
        }
    }
    run_again(QUERMANIC_FROM_LAST_START, QUERMANIC_UNIT_10_MS, 10);
}

static void fan(uint32_t argument) {
    fan_runs++;
    world_set_fan(1);
    pause(QUERMANIC_UNIT_10_MS, (uint8_t)(10 * argument));
    world_set_fan(0);
    tell("fan     ", "has run, and leaves ", world_moisture() / 1000, " %");
    end_run();
}

static void logger(uint32_t argument) {
    (void)argument;
    tell("logger  ", world_door_is_open() ? "open, " : "closed, ", world_moisture() / 1000, " %");
    if (flag(QUERMANIC_RESET, DOOR_IS_LONG_OPEN)) {
        tell("logger  ", "the door has stood open for 3 s", 0, 0);
    }
    if (kernel_clock() >= END) {
        tell("logger  ", "the end: ", humidity_runs, " steps of water");
        tell("logger  ", "         ", fan_runs, " runs of the fan");
        stop((int)kernel_check());
    }
    run_again(QUERMANIC_FROM_LAST_START, QUERMANIC_UNIT_SECOND, 2);
}

/* Before each tick: time passes in the showcase; and at the second DAMAGE the state of the door's task is turned. */
static void on_tick(uint8_t *image) {
    const uint32_t clock = (uint32_t)quermanic_clock_of(image);

    world_pass(clock);
    if (DAMAGE != 0 && clock == DAMAGE * 1000u) {
        tell("        ", "a byte of the table is turned", 0, 0);
        image[QUERMANIC_IMAGE_ENTRIES + QUERMANIC_ENTRY_LENGTH * (DOOR - 1) + QUERMANIC_ENTRY_STATE] ^= 0x80;
    }
}

static void make_safe(const char *why) {
    world_set_fan(0);
    tell("SAFE    ", why, 0, 0);
    tell("SAFE    ", "no water, fan off", 0, 0);
}

int main(void) {
    static const struct program program = {
        .config = config,
        .config_length = sizeof config,
        .entry = {humidity, door, fan, logger},
        .granule = GRANULE,
        .on_tick = on_tick,
        .safe = make_safe,
    };

    kernel_run(&program);
}
