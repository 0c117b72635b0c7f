/* The showcase, simulated in steps of ten milliseconds: the door stands open from 3.25 s to 11.25 s. */
#include "world.h"

enum { OPENS = 3250, CLOSES = 11250, OUTSIDE = 50500, LOSS = 10, FAN_LOSS = 5, WATER = 1000 };

static volatile uint32_t moisture = OUTSIDE;
static volatile int is_open, fan_is_on;

void world_pass(uint32_t clock) {
    is_open = clock >= OPENS && clock < CLOSES;
    if (is_open) {
        moisture = OUTSIDE; /* the room's air */
        return;
    }
    moisture -= LOSS + (fan_is_on ? FAN_LOSS : 0);
}

int world_door_is_open(void) { return is_open; }

uint32_t world_moisture(void) { return moisture; }

/* A tick, which takes from the moisture, must not come between reading and writing it. */
void world_add_water(void) {
    __asm__ volatile("cpsid i" ::: "memory");
    moisture += WATER;
    __asm__ volatile("cpsie i" ::: "memory");
}

void world_set_fan(int on) { fan_is_on = on; }
