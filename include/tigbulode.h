/* The station equaliser for firmware: set-up, running a block, trying one, saving, loading. C99 and C++98, and later.
 *
 * `./tigbulode library firmware` proves and builds the archive to link, and prints its path. docs/FIRMWARE.md has the
 * lines for C and Rust, docs/EQUALISER.md what the numbers mean.
 *
 * tigbulode_common.h says what a caller owes. Written are the five lists of a block, the buffer of a save, and the
 * record where a block is run; a trial and a save only read the record, which is lent to them all the same. A record
 * with anything in it is taken like any other.
 *
 * An image has no check sum. So firmware keeps tigbulode_check_sum of each image beside it; after a loss of power it
 * loads only an image whose check sum is right, takes the state only if tigbulode_same_settings finds its own settings
 * in it, and sets up anew otherwise. examples/station.c does so, and looks before it runs a block, with a trial:
 * docs/FIRMWARE.md.
 *
 * The archive is code for x86-64; docs/CLAIMS.md says what another processor would need. The five functions in it are
 * proved; the static inline ones are plain C, and tests/station_interface.c tries them. */
#ifndef TIGBULODE_H
#define TIGBULODE_H

#include "tigbulode_common.h"

/* Of this interface. 2.1 adds tigbulode_same_state and, in tigbulode_common.h, the laboratory's numbers. */
#define TIGBULODE_VERSION_MAJOR 2
#define TIGBULODE_VERSION_MINOR 1
#define TIGBULODE_VERSION "2.1"

enum tigbulode_room {
    TIGBULODE_SLOTS = 32,        /* for weights, and as many for data: the taps of both filters */
    TIGBULODE_HEADER_BYTES = 12, /* an image has 12 + 4(p + q) bytes */
    TIGBULODE_IMAGE_BYTES = 140  /* the longest image */
};

/* The length of an image with these tap counts. */
#define TIGBULODE_IMAGE_LENGTH(p, q)                                                                                   \
    (TIGBULODE_HEADER_BYTES + 4 * (TIGBULODE_CAST(size_t, p) + TIGBULODE_CAST(size_t, q)))

/* The equaliser record, in the saved image's order. Slots at p + q and beyond are spare and 0. */
typedef struct tigbulode_equaliser {
    uint8_t p;                         /* feed forward taps */
    uint8_t q;                         /* feedback taps */
    uint8_t n;                         /* the block length N */
    uint8_t r;
    uint8_t l;                         /* the least gain L */
    uint8_t psi;                       /* the exponent that all weights share */
    uint8_t b;                         /* the last block's b */
    uint8_t bmax;                      /* the last block's B: the larger of its b and the previous block's b */
    uint32_t step;                     /* M: the step size is M / 2^30 */
    int16_t weights[TIGBULODE_SLOTS];  /* feed forward, then feedback */
    int16_t past[TIGBULODE_SLOTS];     /* p - 1 stored samples newest first, a 0, q symbols newest first */
} tigbulode_equaliser;

/* A number beside a state. */
typedef struct tigbulode_answer {
    uint8_t number;
    tigbulode_equaliser state;
} tigbulode_answer;

/* A number beside the length of an image; 0 where the save was turned down. */
typedef struct tigbulode_saved {
    uint8_t number;
    size_t length;
} tigbulode_saved;

TIGBULODE_ASSERT(record, sizeof(tigbulode_equaliser) == 140);
TIGBULODE_ASSERT(p, offsetof(tigbulode_equaliser, p) == 0);
TIGBULODE_ASSERT(bmax, offsetof(tigbulode_equaliser, bmax) == 7);
TIGBULODE_ASSERT(step, offsetof(tigbulode_equaliser, step) == 8);
TIGBULODE_ASSERT(weights, offsetof(tigbulode_equaliser, weights) == 12);
TIGBULODE_ASSERT(past, offsetof(tigbulode_equaliser, past) == 76);
TIGBULODE_ASSERT(answer, sizeof(tigbulode_answer) == 144);
TIGBULODE_ASSERT(state, offsetof(tigbulode_answer, state) == 4);
TIGBULODE_ASSERT(length, offsetof(tigbulode_saved, length) == sizeof(size_t));
TIGBULODE_ASSERT(saved, sizeof(tigbulode_saved) == 2 * sizeof(size_t));

#ifdef __cplusplus
extern "C" {
#endif

/* A fresh state: weights, exponent, past samples and symbols 0. Turned down with 1, then 2, the state is the fresh one
 * with p = q = N = 1 and r = L = M = 0. */
TIGBULODE_NUMBER
tigbulode_answer tigbulode_set_up(uint8_t p, uint8_t q, uint8_t n, uint8_t r, uint8_t l, uint32_t step);

/* Runs a block of N samples; the record is advanced in place. Sample i is samples[i] with the gain gains[i]; entries[i]
 * is its training symbol, or 0 to adapt from the decision. Per sample: the output is y[i] * 2^(xi[i] - 30), then the
 * decision, and the error is z[i] * 2^(theta[i] - 30). Turned down with 1, 2, 9 for the record, then 3, 4, 5, 6 for the
 * block. tigbulode_run_block below is the same call with the lists as named members. */
TIGBULODE_NUMBER
uint8_t tigbulode_run(tigbulode_equaliser *s,
                      const int16_t *samples, size_t samples_length,
                      const uint8_t *gains, size_t gains_length,
                      const int8_t *entries, size_t entries_length,
                      int32_t *y, size_t y_length,
                      uint8_t *xi, size_t xi_length,
                      int8_t *decision, size_t decision_length,
                      int32_t *z, size_t z_length,
                      uint8_t *theta, size_t theta_length);

/* A trial: answers and hands out what tigbulode_run would, on the record as it is, which is only read; beside the
 * number stands the state that would follow, or, turned down, the record's own. tigbulode_run on a copy gives the same
 * lists and leaves that state in the copy; so a caller takes the block by running it, or by storing that state in the
 * record. tigbulode_trial_block below is the same call with the lists as named members. */
TIGBULODE_NUMBER
tigbulode_answer tigbulode_trial(const tigbulode_equaliser *s,
                                 const int16_t *samples, size_t samples_length,
                                 const uint8_t *gains, size_t gains_length,
                                 const int8_t *entries, size_t entries_length,
                                 int32_t *y, size_t y_length,
                                 uint8_t *xi, size_t xi_length,
                                 int8_t *decision, size_t decision_length,
                                 int32_t *z, size_t z_length,
                                 uint8_t *theta, size_t theta_length);

/* Writes the image to the front of the buffer and gives its length; later bytes stay, and the record is only read.
 * Turned down with 1, 2, 9, 7. */
TIGBULODE_NUMBER
tigbulode_saved tigbulode_save(const tigbulode_equaliser *s, uint8_t *buffer, size_t length);

/* The state that an image holds. Turned down with 8 for less than 12 bytes, 1, 8 for any other wrong length, 2, 9, the
 * state is the fresh one with p = q = N = 1 and r = L = M = 0. */
TIGBULODE_NUMBER
tigbulode_answer tigbulode_load(const uint8_t *bytes, size_t length);

#ifdef __cplusplus
}
#endif

/* The lists of a block, each `length` long, and `length` is N. Fill its members by name: by place they can be
 * exchanged. */
typedef struct tigbulode_block {
    size_t length;
    const int16_t *samples; /* read */
    const uint8_t *gains;
    const int8_t *entries;
    int32_t *y;             /* handed out */
    uint8_t *xi;
    int8_t *decision;
    int32_t *z;
    uint8_t *theta;
} tigbulode_block;

/* Whether no list was left out. */
static inline int tigbulode_has_lists(const tigbulode_block *block) {
    return block->samples && block->gains && block->entries && block->y && block->xi && block->decision && block->z &&
           block->theta;
}

/* The block as given; where a list was left out, a block of empty lists that all point to `none`. */
static inline tigbulode_block tigbulode_lent_lists(const tigbulode_block *block, int32_t *none) {
    tigbulode_block lists = *block;
    void *empty = none;
    if (tigbulode_has_lists(block)) return lists;
    lists.length = 0;
    lists.samples = TIGBULODE_CAST(int16_t *, empty);
    lists.gains = TIGBULODE_CAST(uint8_t *, empty);
    lists.entries = TIGBULODE_CAST(int8_t *, empty);
    lists.y = none;
    lists.xi = TIGBULODE_CAST(uint8_t *, empty);
    lists.decision = TIGBULODE_CAST(int8_t *, empty);
    lists.z = none;
    lists.theta = TIGBULODE_CAST(uint8_t *, empty);
    return lists;
}

/* The lists of a block as the arguments of a run or a trial. */
#define TIGBULODE_ARGUMENTS(lists)                                                                                     \
    (lists).samples, (lists).length, (lists).gains, (lists).length, (lists).entries, (lists).length,                   \
        (lists).y, (lists).length, (lists).xi, (lists).length, (lists).decision, (lists).length,                       \
        (lists).z, (lists).length, (lists).theta, (lists).length

/* tigbulode_run with its lists as the members of a struct. Where a list is a null pointer, the lists count as empty, so
 * that the block is turned down with 3 (or before that with 1, 2 or 9). */
TIGBULODE_NUMBER
static inline uint8_t tigbulode_run_block(tigbulode_equaliser *s, const tigbulode_block *block) {
    int32_t none = 0;
    const tigbulode_block lists = tigbulode_lent_lists(block, &none);
    return tigbulode_run(s, TIGBULODE_ARGUMENTS(lists));
}

/* tigbulode_trial in the same way: what tigbulode_run_block would do, beside a record that is only read. */
TIGBULODE_NUMBER
static inline tigbulode_answer tigbulode_trial_block(const tigbulode_equaliser *s, const tigbulode_block *block) {
    int32_t none = 0;
    const tigbulode_block lists = tigbulode_lent_lists(block, &none);
    return tigbulode_trial(s, TIGBULODE_ARGUMENTS(lists));
}

#undef TIGBULODE_ARGUMENTS

/* The largest magnitude of a weight, in units of 2^(psi - 15): at most 16383 in a sound state. A block may raise psi or
 * lower it, so beside another record's compare this number times 2^psi. A record with anything in it is read at its 32
 * slots alone; -32768 counts as 32768. */
static inline uint16_t tigbulode_largest_weight(const tigbulode_equaliser *s) {
    int32_t largest = 0;
    int i;
    for (i = 0; i < TIGBULODE_SLOTS; i++) {
        const int32_t weight = s->weights[i];
        const int32_t magnitude = weight < 0 ? -weight : weight;
        if (magnitude > largest) largest = magnitude;
    }
    return TIGBULODE_CAST(uint16_t, largest);
}

/* Whether both records have the same p, q, N, r, L and M. */
static inline int tigbulode_same_settings(const tigbulode_equaliser *s, const tigbulode_equaliser *t) {
    return s->p == t->p && s->q == t->q && s->n == t->n && s->r == t->r && s->l == t->l && s->step == t->step;
}

/* Whether both records hold the same state, spare slots included. */
static inline int tigbulode_same_state(const tigbulode_equaliser *s, const tigbulode_equaliser *t) {
    int i;
    for (i = 0; i < TIGBULODE_SLOTS; i++)
        if (s->weights[i] != t->weights[i] || s->past[i] != t->past[i]) return 0;
    return tigbulode_same_settings(s, t) && s->psi == t->psi && s->b == t->b && s->bmax == t->bmax;
}

/* The check sum to keep beside an image: CRC-32, that of "123456789" is CBF43926. It finds every change of one byte,
 * and of any bytes within four in a row. */
static inline uint32_t tigbulode_check_sum(const uint8_t *bytes, size_t length) {
    uint32_t sum = 0xFFFFFFFFu;
    size_t i;
    int bit;
    for (i = 0; i < length; i++) {
        sum ^= bytes[i];
        for (bit = 0; bit < 8; bit++) sum = (sum >> 1) ^ ((sum & 1) ? 0xEDB88320u : 0);
    }
    return ~sum;
}

#endif
