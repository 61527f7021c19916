#include "plain.h"

#include <string.h>

void plain_set_up(plain_equaliser *e, int p, int q, int r, float step) {
    memset(e, 0, sizeof *e);
    e->p = p, e->q = q, e->step = step;
    e->top = (float)((2 << r) - 1);
}

static void push(float *window, int taps, float newest) {
    memmove(window + 1, window, sizeof(float) * (size_t)(taps - 1));
    window[0] = newest;
}

static float decide(float y, float top) {
    if (y >= top - 1) return top;
    if (y < 1 - top) return -top;
    int half = (int)(y * 0.5f + 8.0f) - 8;
    return (float)(2 * half + 1);
}

void plain_run(plain_equaliser *e, const float *x, const int8_t *entries, size_t n, int8_t *decision,
               float *error) {
    for (size_t i = 0; i < n; i++) {
        push(e->samples, e->p, x[i]);
        float y = 0;
        for (int k = 0; k < e->p; k++) y += e->forward[k] * e->samples[k];
        for (int k = 0; k < e->q; k++) y += e->back[k] * e->symbols[k];
        float d = decide(y, e->top);
        float v = entries[i] ? entries[i] : d;
        float z = v - y, gain = e->step * z;
        for (int k = 0; k < e->p; k++) e->forward[k] += gain * e->samples[k];
        for (int k = 0; k < e->q; k++) e->back[k] += gain * e->symbols[k];
        push(e->symbols, e->q, v);
        decision[i] = (int8_t)d;
        error[i] = z;
    }
}
