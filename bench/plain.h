// A plain decision feedback equaliser in float, adapted by LMS.
#ifndef PLAIN_H
#define PLAIN_H

#include <stddef.h>
#include <stdint.h>

typedef struct {
    int p, q;
    float top, step;
    float forward[16], back[16];
    float samples[16], symbols[16];
} plain_equaliser;

void plain_set_up(plain_equaliser *e, int p, int q, int r, float step);
void plain_run(plain_equaliser *e, const float *x, const int8_t *entries, size_t n, int8_t *decision,
               float *error);

#endif
