// Lists to read: random ones, and those at a limit.
#ifndef LISTS_H
#define LISTS_H

#include "readings.h"

enum { MOST_LIST = TIGBULODE_MOST_READINGS + 1, BESIDE = 4, READINGS_ROOM = MOST_LIST + 2 * BESIDE };

// What a block hands out, each list with a length of its own, and how many readings are lent.
typedef struct {
    int32_t y[MOST_LIST], z[MOST_LIST];
    uint8_t xi[MOST_LIST], theta[MOST_LIST];
    size_t y_length, xi_length, z_length, theta_length, readings_length;
} handed;

// What random lists showed.
typedef struct {
    unsigned means, floors, turned_down, zeros;
} read_counts;

// Random lists, counted by their answers; 0 at the first where the other differs from the proved code. The readings lie
// between others that no call may touch.
int check_readings(readings_call *other, unsigned calls, read_counts *seen);

#endif
