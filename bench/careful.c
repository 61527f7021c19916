#include "careful.h"

#include <stdbool.h>
#include <string.h>

#define TAPS 16
#define BLOCK 128
#define FEW 4
#define INLINE static inline __attribute__((always_inline))
#define NOT_INLINED static __attribute__((noinline))

// Weights that are all below this are doubled; another one is a fault that the comparison has to find.
#ifndef DOUBLING_LIMIT
#define DOUBLING_LIMIT 4096
#endif

#ifdef COUNTED
unsigned careful_halvings, careful_doublings;
#define COUNT(what) what++
#else
#define COUNT(what)
#endif

// One bit in each of four lanes of sixteen.
#define LANES 0x0001000100010001u

// Bit lengths of −15 to 15.
static const uint8_t symbol_length[31] = {4, 4, 4, 4, 4, 4, 4, 4, 3, 3, 3, 3, 2, 2, 1, 0,
                                          1, 2, 2, 3, 3, 3, 3, 4, 4, 4, 4, 4, 4, 4, 4};

// A filter: its weights, and its data newest first. Those of the block end at place BLOCK, the past follows.
// Weights beyond the taps are 0 and kept so.
typedef struct {
    int taps, scale;
    int16_t weights[TAPS], keep[TAPS];
    int16_t data[BLOCK + TAPS];
} fir;

typedef struct {
    fir forward, back;
    int n, r, top, b, bmax, gamma, psi;
    uint32_t m;
    // Weights that are all below this are doubled.
    uint16_t least;
    // Lane i: which of the last q symbols, newest lowest, have a bit length above i.
    uint64_t lengths, older;
    int32_t y[BLOCK], z[BLOCK];
    uint8_t xi[BLOCK], theta[BLOCK];
    int8_t decision[BLOCK];
} work;

INLINE int larger(int a, int b) { return a > b ? a : b; }
INLINE int smaller(int a, int b) { return a < b ? a : b; }
INLINE uint32_t size_of(int32_t x) { return x < 0 ? -(uint32_t)x : (uint32_t)x; }
INLINE uint16_t size_of_16(int16_t x) { return (uint16_t)(x < 0 ? -x : x); }

// The least s with 2^s at least 2k: the bit length of 2k − 1.
INLINE int scale_count(int k) { return 32 - __builtin_clz(2u * (unsigned)k - 1); }

// x / 2^k cut toward zero, k below 32.
INLINE int32_t cut(int32_t x, int k) {
    return (x + (int32_t)((uint32_t)(x >> 31) & ((1u << k) - 1))) >> k;
}

static bool sizes_fit(const tigbulode_equaliser *s) {
    return s->p >= 1 && s->p <= TAPS && s->q >= 1 && s->q <= TAPS && s->n >= 1 && s->n <= BLOCK &&
           s->n + 1 >= s->p && s->r <= 3 && s->l <= 15;
}

static bool admitted(const tigbulode_equaliser *s) {
    uint64_t d = ((uint64_t)(8 + 4 * s->q) << s->l) + 4u * s->p;
    return (uint64_t)s->step * (d << 2 * s->r) <= (uint64_t)1 << (30 + s->l);
}

static bool sound(const tigbulode_equaliser *s) {
    if (s->psi > 15 || s->b > s->bmax || s->bmax + s->l > 31) return false;
    int taps = s->p + s->q, scale = s->bmax + scale_count(s->p), top = (2 << s->r) - 1, bad = 0;
    for (int i = 0; i < taps; i++) bad |= s->weights[i] > 16383 || s->weights[i] < -16383;
    for (int i = taps; i < 32; i++) bad |= s->weights[i] | s->past[i];
    for (int i = 0; i < s->p - 1; i++)
        bad |= (uint64_t)size_of(s->past[i]) << scale >= (uint64_t)1 << (15 + s->b);
    bad |= s->past[s->p - 1];
    for (int i = s->p; i < taps; i++) {
        int v = s->past[i];
        bad |= (v != 0) & (((v & 1) == 0) | (v > top) | (v < -top));
    }
    return bad == 0;
}

static bool gains_fit(const uint8_t *gains, int n, int l) {
    uint8_t bad = 0;
    for (int i = 0; i < n; i++) bad |= (gains[i] < l) | (gains[i] > 15);
    return bad == 0;
}

static bool entries_fit(const int8_t *entries, int n, uint8_t top) {
    uint8_t loud = 0, even = 0;
    for (int i = 0; i < n; i++) {
        uint8_t size = (uint8_t)(entries[i] < 0 ? -entries[i] : entries[i]);
        loud |= size > top ? 255 : 0;
        even |= size != 0 ? (uint8_t)~size : 0;
    }
    return loud == 0 && (even & 1) == 0;
}

// Steps 1 and 2 of a block.
static void begin(work *k, const tigbulode_equaliser *e, const int16_t *m, const uint8_t *gains) {
    int32_t received[BLOCK];
    uint32_t any = 0;
    for (int i = 0; i < k->n; i++) {
        int32_t x = m[i] * (1 << (15 - gains[i]));
        received[BLOCK - 1 - i] = x;
        any |= size_of(x);
    }
    k->b = any ? 32 - __builtin_clz(any) : 0;
    k->bmax = larger(k->b, e->b);
    k->gamma = k->r - 30 + k->bmax + k->forward.scale;
    int shift = k->bmax + k->forward.scale - 15, change = k->bmax - e->bmax;
    int down = larger(shift, 0), up = larger(-shift, 0);
    for (int i = BLOCK - k->n; i < BLOCK; i++)
        k->forward.data[i] = (int16_t)(cut(received[i], down) * (1 << up));
    down = larger(change, 0), up = larger(-change, 0);
    for (int i = 0; i < e->p - 1; i++)
        k->forward.data[BLOCK + i] = (int16_t)cut(e->past[i] * (1 << up), down);
}

// With many taps a whole number of vectors is run.
INLINE int32_t sum(const fir *f, const int16_t *data) {
    int32_t total = 0;
    if (f->taps <= FEW) {
        for (int i = 0; i < f->taps; i++) total += f->weights[i] * data[i];
        return total;
    }
    int whole = (f->taps + 7) & 24;
    for (int i = 0; i < whole; i++) total += f->weights[i] * data[i];
    return total;
}

// Each weight gains J·a / 2^down, J given as magnitude and sign; the new magnitudes, merged.
INLINE uint16_t adapt_few(fir *f, const int16_t *restrict data, uint32_t j, int16_t sign, int down) {
    int64_t k = (((int64_t)j ^ sign) - sign) * (1 << (30 - down));
    uint16_t merged = 0;
    for (int i = 0; i < f->taps; i++) {
        int64_t product = k * data[i];
        int64_t gain = (product < 0 ? product + 0x3fffffff : product) >> 30;
        int next = f->weights[i] + (int)gain;
        f->weights[i] = (int16_t)next;
        merged |= (uint16_t)size_of(next);
    }
    return merged;
}

// The same by products of sixteen bits; J is spread so that compilers see them.
INLINE uint16_t adapt_many(fir *f, const int16_t *restrict data, uint32_t j, int16_t sign, int down) {
    int16_t *restrict w = f->weights;
    const int16_t *restrict keep = f->keep;
    uint16_t merged = 0, high[TAPS], low[TAPS];
    int whole = (f->taps + 7) & 24;
    for (int i = 0; i < whole; i++) high[i] = (uint16_t)(j >> 16);
    for (int i = 0; i < whole; i++) low[i] = (uint16_t)j;
    for (int i = 0; i < whole; i++) {
        int16_t s = (int16_t)((data[i] >> 15) ^ sign);
        uint16_t size = size_of_16(data[i]);
        uint32_t carried = (uint32_t)low[i] * size >> 16;
        int16_t gain = (int16_t)(((uint32_t)high[i] * size + carried) >> down);
        int16_t next = (int16_t)(w[i] + (int16_t)(((gain ^ s) - s) & keep[i]));
        w[i] = next;
        merged |= size_of_16(next);
    }
    return merged;
}

INLINE uint16_t adapt(fir *f, const int16_t *data, uint32_t j, int16_t sign, int down) {
    if (f->taps <= FEW) return adapt_few(f, data, j, sign, down);
    return adapt_many(f, data, j, sign, larger(down - 16, 0));
}

static void set_exponent(work *k, int psi) {
    k->psi = psi;
    k->least = psi > 0 ? DOUBLING_LIMIT : 0;
}

NOT_INLINED void halve_weights(work *k) {
    for (int i = 0; i < TAPS; i++) k->forward.weights[i] = (int16_t)(k->forward.weights[i] / 2);
    for (int i = 0; i < TAPS; i++) k->back.weights[i] = (int16_t)(k->back.weights[i] / 2);
    set_exponent(k, k->psi + 1);
    COUNT(careful_halvings);
}

NOT_INLINED void double_weights(work *k) {
    for (int i = 0; i < TAPS; i++) k->forward.weights[i] = (int16_t)(k->forward.weights[i] * 2);
    for (int i = 0; i < TAPS; i++) k->back.weights[i] = (int16_t)(k->back.weights[i] * 2);
    set_exponent(k, k->psi - 1);
    COUNT(careful_doublings);
}

INLINE void note_length(work *k, int length) {
    k->lengths = (k->lengths << 1 & k->older) | (length ? LANES >> (64 - 16 * length) : 0);
}

INLINE int longest(const work *k) {
    return k->lengths ? (79 - __builtin_clzll(k->lengths)) >> 4 : 0;
}

INLINE int decide(int32_t y, int xi, int top) {
    int d = 2 * (y >> (31 - xi)) + 1;
    return d > top ? top : d < -top ? -top : d;
}

// Step 5. No symbol has an exponent above the output's where that of the longest has not.
INLINE int32_t error(const work *k, int v, int length, int32_t y, int xi, int *theta) {
    *theta = xi;
    if (xi >= k->back.scale + k->r + 1) return v * (1 << (30 - xi)) - y;
    *theta = larger(xi, k->back.scale + length);
    return v * (1 << (30 - *theta)) - cut(y, *theta - xi);
}

// Steps 6 and 7, and the doubling.
INLINE void learn(work *k, const int16_t *a, const int16_t *v, int32_t z, int theta, int c) {
    uint64_t step = (uint64_t)k->m * size_of(z);
    int16_t sign = (int16_t)(z >> 31);
    int shift = 30 + k->psi - theta, s = k->forward.scale;
    uint32_t jf = (uint32_t)(step >> (shift - k->gamma + s)), jb = (uint32_t)(step >> (shift - c));
    uint16_t merged = adapt(&k->forward, a, jf, sign, 30 - s);
    merged |= adapt(&k->back, v, jb, sign, 15 + c);
    if (merged < k->least)
        double_weights(k);
    else if (merged & 0x4000)
        halve_weights(k);
}

// Steps 1 to 8 of the sample at a place. T does nothing to H, as γ is at most 9.
INLINE void sample(work *k, int n, int entry) {
    int16_t *a = k->forward.data + BLOCK - 1 - n, *v = k->back.data + BLOCK - n;
    int c = longest(k), gamma = k->gamma, theta;
    int over = larger(gamma, k->back.scale + c), xi = k->psi + over;
    int32_t f = sum(&k->forward, a), h = sum(&k->back, v);
    int32_t y = cut(f, smaller(over - gamma, 31)) + h * (1 << (15 - over));
    int d = decide(y, xi, k->top), newest = entry ? entry : d;
    int length = symbol_length[newest + 15];
    v[-1] = (int16_t)newest;
    note_length(k, length);
    int32_t z = error(k, newest, length, y, xi, &theta);
    k->y[n] = y, k->xi[n] = (uint8_t)xi, k->decision[n] = (int8_t)d;
    k->z[n] = z, k->theta[n] = (uint8_t)theta;
    learn(k, a, v, z, theta, c);
}

static void set_filter(fir *f, int taps, const int16_t *weights, const int16_t *past) {
    f->taps = taps, f->scale = scale_count(taps);
    for (int i = 0; i < TAPS; i++) {
        f->weights[i] = i < taps ? weights[i] : 0;
        f->data[BLOCK + i] = i < taps ? past[i] : 0;
        f->keep[i] = (int16_t)-(i < taps);
    }
}

static void set_work(work *k, const tigbulode_equaliser *e) {
    int p = e->p, q = e->q;
    set_filter(&k->forward, p, e->weights, e->past);
    set_filter(&k->back, q, e->weights + p, e->past + p);
    k->n = e->n, k->r = e->r, k->top = (2 << e->r) - 1, k->m = e->step;
    set_exponent(k, e->psi);
    k->older = LANES * (((1u << q) - 1) & 0xfffe);
    k->lengths = 0;
    for (int i = p + q - 1; i >= p; i--) note_length(k, symbol_length[e->past[i] + 15]);
}

static void keep_state(tigbulode_equaliser *e, const work *k) {
    size_t p = e->p, q = e->q;
    e->psi = (uint8_t)k->psi, e->b = (uint8_t)k->b, e->bmax = (uint8_t)k->bmax;
    memcpy(e->weights, k->forward.weights, 2 * p);
    memcpy(e->weights + p, k->back.weights, 2 * q);
    memcpy(e->past, k->forward.data + BLOCK - k->n, 2 * (p - 1));
    memcpy(e->past + p, k->back.data + BLOCK - k->n, 2 * q);
}

static bool run_samples(work *k, const int8_t *entries) {
    for (int i = 0; i < k->n; i++) {
        sample(k, i, entries[i]);
        if (k->psi > 15) return false;
    }
    return true;
}

uint8_t careful_run(tigbulode_equaliser *s, const int16_t *m, size_t m_length, const uint8_t *gains,
                    size_t gains_length, const int8_t *entries, size_t entries_length, int32_t *y,
                    size_t y_length, uint8_t *xi, size_t xi_length, int8_t *decision,
                    size_t decision_length, int32_t *z, size_t z_length, uint8_t *theta,
                    size_t theta_length) {
    if (!sizes_fit(s)) return 1;
    if (!admitted(s)) return 2;
    if (!sound(s)) return 9;
    size_t n = s->n;
    if (m_length != n || gains_length != n || entries_length != n || y_length != n || xi_length != n ||
        decision_length != n || z_length != n || theta_length != n)
        return 3;
    if (!gains_fit(gains, (int)n, s->l)) return 4;
    if (!entries_fit(entries, (int)n, (uint8_t)((2 << s->r) - 1))) return 5;
    work k;
    set_work(&k, s);
    begin(&k, s, m, gains);
    if (!run_samples(&k, entries)) return 6;
    keep_state(s, &k);
    memcpy(y, k.y, 4 * n), memcpy(xi, k.xi, n), memcpy(decision, k.decision, n);
    memcpy(z, k.z, 4 * n), memcpy(theta, k.theta, n);
    return 0;
}
