// Readings by hand-written C, with the contract of tigbulode_readings.
#ifndef READINGS_H
#define READINGS_H

#include "../include/tigbulode_laboratory.h"

typedef tigbulode_power readings_call(const int32_t *y, size_t y_length, const uint8_t *xi, size_t xi_length,
                                      const int32_t *z, size_t z_length, const uint8_t *theta, size_t theta_length,
                                      tigbulode_reading *readings, size_t readings_length);

// One loop that turns down and one that reads, without more.
readings_call plain_readings;

// In tiles that a compiler takes several samples of at a time.
readings_call careful_readings;

// The same source as careful_readings, compiled for the processor it runs on.
readings_call careful_native_readings;

// The same source with a LEAST_CUT of 65535, which tells a floor where the largest a is just not cut.
readings_call careful_cutting_readings;

#endif
