/* The showcase itself, simulated: a door, a humidifier, a fan, and the air in between. On a board: its pins. */
#ifndef WORLD_H
#define WORLD_H

#include <stdint.h>

/* Ten milliseconds pass. */
void world_pass(uint32_t clock);

/* What a board reads: the door's switch, and the sensor in thousandths of a per cent. */
int world_door_is_open(void);
uint32_t world_moisture(void);

/* What a board drives. A step of water is one per cent, what the closed case loses in a second. */
void world_add_water(void);
void world_set_fan(int on);

#endif
