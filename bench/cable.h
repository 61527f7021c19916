// A cable by hand-written C, with the contract of tigbulode_cable.
#ifndef CABLE_H
#define CABLE_H

#include "../include/tigbulode_laboratory.h"

typedef uint8_t cable_call(uint8_t p, uint8_t q, uint8_t n, uint8_t r, uint8_t l, uint32_t step,
                           const int16_t *response, size_t response_length, const int8_t *symbols,
                           size_t symbols_length, size_t training, uint8_t *trace, size_t trace_length);

cable_call careful_cable;

// The same source, compiled for the processor it runs on.
cable_call careful_native_cable;

#endif
