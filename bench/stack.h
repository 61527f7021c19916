// Stack that a call uses.
#ifndef STACK_H
#define STACK_H

#include "cable.h"
#include "careful.h"
#include "readings.h"

// Bytes of stack that one accepted block of 128 samples touches, by the given call; 0 if it can't be told.
size_t stack_of(run_call *run);

// The same of the longest cable.
size_t stack_of_cable(cable_call *call);

// The same of the readings of 128 samples.
size_t stack_of_readings(readings_call *call);

#endif
