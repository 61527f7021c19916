#include "channel.h"

#include <string.h>

static uint64_t seed = 88172645463325252u;

uint32_t any_number(void) {
    seed ^= seed << 13;
    seed ^= seed >> 7;
    seed ^= seed << 17;
    return (uint32_t)(seed >> 16);
}

uint32_t any_below(uint32_t limit) { return (uint32_t)((uint64_t)any_number() * limit >> 32); }

int any_symbol(int r) { return 2 * (int)any_below(2u << r) - ((2 << r) - 1); }

void channel_next(channel *c, channel_block *b) {
    float unit = c->loud ? 2.4f : 1.0f / (float)(4 << c->l);
    uint8_t gain = (uint8_t)(c->l + (int)any_below(2));
    for (int i = 0; i < LONGEST_BLOCK; i++) {
        int s = any_symbol(c->loud ? 0 : c->r);
        float noise = ((float)any_below(2001) - 1000.0f) * 0.00002f;
        float x = unit * ((float)s + 0.3f * (float)c->past[0] - 0.2f * (float)c->past[1] +
                          0.1f * (float)c->past[2] + noise);
        uint8_t g = (uint8_t)(gain + any_below(2));
        float scaled = x * 32768.0f * (float)(1 << g) / (float)(1 << c->r);
        while (scaled > 32767.0f || scaled < -32767.0f) g--, scaled *= 0.5f;
        b->m[i] = (int16_t)scaled, b->gains[i] = g, b->sent[i] = (int8_t)s, b->x[i] = x;
        c->past[2] = c->past[1], c->past[1] = c->past[0], c->past[0] = s;
    }
}

static int scale_count(int taps) {
    int s = 1;
    while (1 << s < 2 * taps) s++;
    return s;
}

static void any_weights(int16_t *weights, int taps) {
    int limit = any_below(2) ? 1 << 14 : 1 << any_below(15);
    for (int i = 0; i < taps; i++) weights[i] = (int16_t)((int)any_below(2u * (uint32_t)limit - 1) - (limit - 1));
    int near_limit = 4094 + (int)any_below(4);
    if (limit <= 4096 && any_below(4) == 0)
        weights[any_below((uint32_t)taps)] = (int16_t)(any_below(2) ? near_limit : -near_limit);
}

static void any_contents(tigbulode_equaliser *e) {
    any_weights(e->weights, e->p + e->q);
    int room = 15 + e->b - e->bmax - scale_count(e->p);
    for (int i = 0; i < e->p - 1; i++) {
        uint32_t size = room > 0 ? any_below(1u << room) : 0;
        e->past[i] = (int16_t)(any_below(2) ? (int)size : -(int)size);
    }
    for (int i = e->p; i < e->p + e->q; i++)
        e->past[i] = (int16_t)(any_below(8) ? any_symbol(e->r) : 0);
}

tigbulode_equaliser any_state(void) {
    tigbulode_equaliser e;
    memset(&e, 0, sizeof e);
    e.p = (uint8_t)(1 + any_below(16)), e.q = (uint8_t)(1 + any_below(16));
    int least = e.p > 2 ? e.p - 1 : 1;
    e.n = (uint8_t)(any_below(4) ? least + (int)any_below((uint32_t)(129 - least)) : 128);
    e.r = (uint8_t)any_below(4);
    e.l = (uint8_t)(any_below(2) ? 0 : any_below(16));
    e.step = tigbulode_greatest_step(e.p, e.q, e.r, e.l);
    if (any_below(4) == 0) e.step = any_below(e.step + 1);
    e.psi = (uint8_t)(any_below(2) ? any_below(16) : 13 + any_below(3));
    e.bmax = (uint8_t)any_below((uint32_t)(32 - e.l));
    e.b = (uint8_t)any_below((uint32_t)e.bmax + 1);
    any_contents(&e);
    return e;
}

void any_block(const tigbulode_equaliser *e, int16_t *m, uint8_t *gains, int8_t *entries) {
    int quiet = (int)any_below(17), mode = (int)any_below(3);
    for (int i = 0; i < e->n; i++) {
        m[i] = (int16_t)((int16_t)any_number() >> (quiet > 15 ? 15 : quiet));
        if (quiet == 16) m[i] = 0;
        gains[i] = (uint8_t)(any_below(3) ? e->l : e->l + any_below(16u - e->l));
        int trained = mode == 0 || (mode == 1 && any_below(2));
        entries[i] = (int8_t)(trained ? any_symbol(e->r) : 0);
    }
}
