// Cables to simulate: random ones, and the longest.
#ifndef CABLES_H
#define CABLES_H

#include "cable.h"

// A cable with all that is lent to it. The trace lies between bytes that no call may touch.
typedef struct {
    uint8_t p, q, n, r, l;
    uint32_t step;
    int16_t response[TIGBULODE_MOST_RESPONSE + 1];
    int8_t symbols[TIGBULODE_MOST_SYMBOLS + 3];
    size_t response_length, symbols_length, training, trace_length;
} cable;

enum { AROUND = 64, CABLE_ROOM = TIGBULODE_MOST_TRACE + 2 * AROUND };

// Simulates a cable; the trace begins AROUND bytes after the start of the room.
typedef uint8_t simulation(const cable *c, uint8_t room[CABLE_ROOM]);

simulation proved_simulation, careful_simulation, native_simulation;

// The simulation by a call.
uint8_t simulate(cable_call *call, const cable *c, uint8_t room[CABLE_ROOM]);

// Random cables, counted by their answers; 0 at the first where the other differs from the proved code.
int check_cables(simulation *other, unsigned calls, unsigned counts[11]);

// The longest trace, over 32 response values: a main path and echoes that fade.
void longest_cable(cable *c);

#endif
