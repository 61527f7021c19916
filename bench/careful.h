// A block run by hand-written C, with the contract of tigbulode_run.
#ifndef CAREFUL_H
#define CAREFUL_H

#include "../include/tigbulode.h"

typedef uint8_t run_call(tigbulode_equaliser *s, const int16_t *m, size_t m_length, const uint8_t *gains,
                         size_t gains_length, const int8_t *entries, size_t entries_length, int32_t *y,
                         size_t y_length, uint8_t *xi, size_t xi_length, int8_t *decision,
                         size_t decision_length, int32_t *z, size_t z_length, uint8_t *theta,
                         size_t theta_length);

run_call careful_run;

// The same source, compiled for the processor it runs on.
run_call careful_native_run;

// The same source, which counts the samples that halve the weights and those that double them.
run_call careful_counted_run;
extern unsigned careful_halvings, careful_doublings;

// The same source with a fault: weights are doubled where all are below 4095, or where all are below 4097. The
// magnitudes are merged bit by bit, so the second one shows where each is 0 or 4096.
run_call careful_low_run, careful_high_run;

#endif
