// Right answers before any timing.
#ifndef CHECK_H
#define CHECK_H

#include <stdbool.h>

#include "careful.h"

// What random calls showed: their answers, and the accepted blocks that raise psi or lower it.
typedef struct {
    unsigned answers[10], raised, lowered;
} shown;

// Random calls, counted; 0 at the first call where the other differs from the proved code.
int check_same(run_call *other, unsigned calls, shown *seen);

// Random calls on an earlier release: those in which no sample doubles and those in which one does, and how many of
// either differ.
typedef struct {
    unsigned calls[2], differ[2];
} comparison;

comparison check_release(run_call *earlier, unsigned calls);

// A trial whose state is then taken, with the contract of tigbulode_run; 255 where it wrote to the record.
run_call tried_run;

// check_same of trials; one at fault writes to Y where it is turned down with 6.
int check_trials(bool at_fault, unsigned calls, shown *seen);

// Decisions on an easy channel after training that are not the symbols sent, of the proved code, careful C
// and float; 0 if a block is refused.
int check_channel(int p, int q, unsigned wrong[3]);

#endif
