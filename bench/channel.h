// Blocks to run: those of an easy channel, and random ones.
#ifndef CHANNEL_H
#define CHANNEL_H

#include <stdbool.h>

#include "../include/tigbulode.h"

#define LONGEST_BLOCK 128

typedef struct {
    int16_t m[LONGEST_BLOCK];
    uint8_t gains[LONGEST_BLOCK];
    int8_t sent[LONGEST_BLOCK];
    float x[LONGEST_BLOCK];
} channel_block;

// A loud one carries symbols of magnitude 1 alone, so that its weights are below one half; l is then 0.
typedef struct {
    int r, l;
    bool loud;
    int past[3];
} channel;

uint32_t any_number(void);
uint32_t any_below(uint32_t limit);
int any_symbol(int r);

// The next 128 samples of a channel with three paths and little noise.
void channel_next(channel *c, channel_block *b);

// A sound state of random sizes and contents.
tigbulode_equaliser any_state(void);

// A block that the state accepts, or stops with 6.
void any_block(const tigbulode_equaliser *e, int16_t *m, uint8_t *gains, int8_t *entries);

#endif
