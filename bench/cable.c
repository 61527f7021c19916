#include "cable.h"

#include <stdbool.h>
#include <string.h>

#define TAPS TIGBULODE_MOST_RESPONSE
#define MOST TIGBULODE_MOST_SYMBOLS
#define HEADER TIGBULODE_TRACE_HEADER_BYTES
#define TILE 512
#define GROUP 8
#define TILES ((MOST + TILE - 1) / TILE)
#define INLINE static inline __attribute__((always_inline))

// No sum is a NaN or a −0, so that a choice of the larger is one instruction.
#define PLAIN_FLOATS __attribute__((optimize("finite-math-only", "no-signed-zeros")))

typedef struct {
    int16_t response[TAPS];        // last value first
    int16_t line[TAPS - 1 + TILE]; // symbols, oldest first
    int32_t sums[TILES * TILE];
} work;

static bool sizes_fit(int p, int q, int n, int r, int l) {
    return p >= 1 && p <= 16 && q >= 1 && q <= 16 && n >= 1 && n <= 128 && n + 1 >= p && r <= 3 && l <= 15;
}

static bool admitted(uint32_t p, uint32_t q, int r, int l, uint32_t m) {
    uint64_t d = ((uint64_t)(8 + 4 * q) << l) + 4 * p;
    return (uint64_t)m * (d << 2 * r) <= (uint64_t)1 << (30 + l);
}

static bool lengths_fit(size_t n, size_t response, size_t symbols, size_t training, size_t trace) {
    return response >= 1 && response <= TAPS && symbols >= 1 && symbols <= MOST && symbols % n == 0 &&
           training <= symbols && trace == HEADER + 4 * symbols;
}

static bool are_symbols(const int8_t *symbols, size_t length, int top) {
    uint8_t bad = 0;
    for (size_t i = 0; i < length; i++) {
        uint8_t place = (uint8_t)(symbols[i] + top);
        bad |= (uint8_t)((place & 1) | (place > 2 * top ? 1 : 0));
    }
    return bad == 0;
}

// Eight sums at a time: compilers keep the response in registers and multiply by pairs.
static void sums_of_tile(const work *restrict k, int32_t *restrict sums) {
    for (int i = 0; i < TILE; i += GROUP) {
        int32_t total[GROUP] = {0};
        for (int t = 0; t < TAPS; t++)
            for (int j = 0; j < GROUP; j++) total[j] += k->response[t] * k->line[i + j + t];
        memcpy(sums + i, total, sizeof total);
    }
}

// All magnitudes, merged.
static uint32_t merged(const int32_t *sums, size_t length) {
    uint32_t any = 0;
    for (size_t i = 0; i < length; i++) any |= (uint32_t)(sums[i] < 0 ? -sums[i] : sums[i]);
    return any;
}

// The sums of all symbols; their magnitudes, merged.
static uint32_t all_sums(work *k, const int16_t *response, size_t values, const int8_t *symbols, size_t length) {
    memset(k->response, 0, sizeof k->response);
    for (size_t i = 0; i < values; i++) k->response[TAPS - 1 - i] = response[i];
    memset(k->line, 0, sizeof k->line);
    for (size_t i = 0; i < length; i += TILE) {
        size_t some = length - i < TILE ? length - i : TILE;
        for (size_t j = 0; j < some; j++) k->line[TAPS - 1 + j] = symbols[i + j];
        sums_of_tile(k, k->sums + i);
        memcpy(k->line, k->line + TILE, (TAPS - 1) * sizeof *k->line);
    }
    return merged(k->sums, length);
}

INLINE uint32_t bits_of(float x) {
    uint32_t bits;
    memcpy(&bits, &x, sizeof bits);
    return bits;
}

INLINE float with_bits(uint32_t bits) {
    float x;
    memcpy(&x, &bits, sizeof x);
    return x;
}

// Each sum as m with g above it. A sum is below 2^24, so a float holds it; its exponent is the bit length.
PLAIN_FLOATS static void words_of_tile(const int32_t *restrict sums, uint32_t *restrict words, int r) {
    float least = with_bits((uint32_t)(126 + r) << 23);
    uint32_t top = (uint32_t)(141 + r) << 16;
    for (int i = 0; i < TILE; i++) {
        float s = (float)sums[i], size = __builtin_fabsf(s);
        size = size > least ? size : least;
        uint32_t exponent = bits_of(size) & 0x7f800000;
        int32_t m = (int32_t)(s * with_bits((268u << 23) - exponent));
        words[i] = ((uint32_t)m & 0xffff) | (top - (exponent >> 7));
    }
}

// Three bytes of each word, two words at a time, and two bytes more, which what comes after writes over.
static void pack_tile(const uint32_t *restrict words, uint8_t *restrict out) {
    for (int i = 0; i < TILE; i += 16) {
        uint64_t pairs[8];
        memcpy(pairs, words + i, sizeof pairs);
        for (int j = 0; j < 8; j++) pairs[j] = (pairs[j] & 0xffffff) | (pairs[j] >> 8 & 0xffffff000000);
        for (int j = 0; j < 8; j++) memcpy(out + 3 * i + 6 * j, pairs + j, 8);
    }
}

static void write_samples(const int32_t *sums, uint8_t *out, size_t length, int r) {
    uint32_t words[TILE];
    uint8_t last[3 * TILE + 2];
    for (size_t i = 0; i < length; i += TILE) {
        words_of_tile(sums + i, words, r);
        bool whole = length - i >= TILE;
        pack_tile(words, whole ? out + 3 * i : last);
        if (!whole) memcpy(out + 3 * i, last, 3 * (length - i));
    }
}

uint8_t careful_cable(uint8_t p, uint8_t q, uint8_t n, uint8_t r, uint8_t l, uint32_t step,
                      const int16_t *response, size_t response_length, const int8_t *symbols,
                      size_t symbols_length, size_t training, uint8_t *trace, size_t trace_length) {
    if (!sizes_fit(p, q, n, r, l)) return 1;
    if (!admitted(p, q, r, l, step)) return 2;
    if (!lengths_fit(n, response_length, symbols_length, training, trace_length)) return 10;
    if (!are_symbols(symbols, symbols_length, (2 << r) - 1)) return 10;
    work k;
    if (all_sums(&k, response, response_length, symbols, symbols_length) >> (15 + r - l)) return 10;
    size_t count = symbols_length / n;
    uint8_t header[HEADER] = {p, q, n, r, l, 0, (uint8_t)count, (uint8_t)(count >> 8)};
    for (int i = 0; i < 4; i++) header[8 + i] = (uint8_t)(step >> 8 * i);
    memcpy(trace, header, HEADER);
    write_samples(k.sums, trace + HEADER, symbols_length, r);
    uint8_t *entries = trace + HEADER + 3 * symbols_length;
    memcpy(entries, symbols, training);
    memset(entries + training, 0, symbols_length - training);
    return 0;
}
