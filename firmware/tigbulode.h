/* The station equaliser for firmware: set-up, running a block, trying one, saving, loading. C99 and C++98, and later.
 *
 * Link target/staticlib/libfirmware.a, which `./tigbulode library firmware` writes; firmware/README.md has the lines
 * for C and Rust, docs/EQUALISER.md what the numbers mean.
 *
 * What a caller owes: a pointer is not null, even beside a length of 0; it is aligned for its type and valid for as many
 * elements as its length says; what is written (the five lists, the buffer, and the record where a block is run) overlaps
 * nothing else that is lent to the same call, also not the record that a trial or a save only reads; until the call
 * returns, nothing else writes to what is lent, that record included, no interrupt, no DMA transfer and no thread, and
 * nothing else reads what is written; the stack has room (docs/PERFORMANCE.md has the bytes). Every value is taken, also
 * that of a record with anything in it (but C converts a value to its parameter's type first: 257 for p arrives as 1;
 * -Wconversion tells). What can't be used is turned down with a number, and the record and all lent memory are then as
 * they were.
 *
 * A trial shows what a block would do before the station takes it. A stored block from a spell in which the cable was
 * loud, faint or disturbed may pull the weights off, or raise psi, or be turned down with 6. psi falls again only where
 * every weight is below 4096, so the weights may keep a binary digit less when the cable is as it was. So an operator
 * looks at the number, at psi and at tigbulode_largest_weight of the state that would follow, beside those of the record,
 * and then has the station run the block or drop it. firmware/station.c does so.
 *
 * An image has no check sum: of the images that differ from a good one in one byte, three to five in ten load with 0,
 * as states that are sound but were never saved. So firmware keeps tigbulode_check_sum of each image beside it; after a loss
 * of power it loads only an image whose check sum is right, takes the state only if tigbulode_same_settings finds its own
 * settings in it, and sets up anew otherwise. firmware/station.c does so.
 *
 * The archive is code for x86-64. docs/CLAIMS.md, "What the proof does not cover", says what a station on another
 * processor would need. The five functions in the archive are proved; the static inline ones below are plain C, and
 * firmware/check tries them. */
#ifndef TIGBULODE_H
#define TIGBULODE_H

#include <stddef.h>
#include <stdint.h>

/* Of this interface. A larger minor number only adds to it, a larger major number changes a call, a field or a name.
 * 2.0: the field big is bmax, TIGBULODE_PLACES is TIGBULODE_SLOTS; calls and layout are those of 1.0. */
#define TIGBULODE_VERSION_MAJOR 2
#define TIGBULODE_VERSION_MINOR 0
#define TIGBULODE_VERSION "2.0"

#ifdef __cplusplus
extern "C" {
#endif

/* A number is to be looked at: GCC and Clang warn where it is not. */
#ifdef __GNUC__
#define TIGBULODE_NUMBER __attribute__((warn_unused_result))
#else
#define TIGBULODE_NUMBER
#endif

/* C99 and C++98 have no assertion at compile time: an array of length -1 stands in. */
#define TIGBULODE_ASSERT(name, holds) typedef char tigbulode_assert_##name[(holds) ? 1 : -1]

/* The number that each function answers with. */
enum tigbulode_number {
    TIGBULODE_ACCEPTED = 0,
    TIGBULODE_SIZES = 1,    /* a size is outside its limits */
    TIGBULODE_STEP = 2,     /* M is not admitted with these sizes */
    TIGBULODE_LENGTHS = 3,  /* a lent list is not N long */
    TIGBULODE_GAIN = 4,     /* a gain is below L or above 15 */
    TIGBULODE_ENTRY = 5,    /* a training entry is neither 0 nor a symbol */
    TIGBULODE_EXPONENT = 6, /* the weights' exponent would rise to 16 */
    TIGBULODE_BUFFER = 7,   /* the buffer is shorter than the image */
    TIGBULODE_IMAGE = 8,    /* the image has a wrong length */
    TIGBULODE_UNSOUND = 9   /* the state is not sound */
};

/* The limits. Sizes: p and q 1 to 16; N at least 1, at least p - 1, at most 128; r 0 to 3; L 0 to 15. */
enum tigbulode_limit {
    TIGBULODE_MOST_TAPS = 16,     /* of one filter */
    TIGBULODE_MOST_BLOCK = 128,   /* samples in a block */
    TIGBULODE_MOST_R = 3,         /* a symbol is odd, of magnitude at most 2^(r+1) - 1 */
    TIGBULODE_MOST_GAIN = 15,     /* of a sample, and so of L */
    TIGBULODE_MOST_EXPONENT = 15, /* of the weights */
    TIGBULODE_MOST_WEIGHT = 16383 /* in magnitude */
};

enum tigbulode_room {
    TIGBULODE_SLOTS = 32,        /* for weights, and as many for data: the taps of both filters */
    TIGBULODE_HEADER_BYTES = 12, /* an image has 12 + 4(p + q) bytes */
    TIGBULODE_IMAGE_BYTES = 140  /* the longest image */
};

/* The length of an image with these tap counts. */
#define TIGBULODE_IMAGE_LENGTH(p, q) (TIGBULODE_HEADER_BYTES + 4 * ((size_t)(p) + (size_t)(q)))

/* The equaliser record, in the saved image's order. Slots at p + q and beyond are spare and 0. */
typedef struct tigbulode_equaliser {
    uint8_t p;                         /* feed forward taps */
    uint8_t q;                         /* feedback taps */
    uint8_t n;                         /* the block length N */
    uint8_t r;
    uint8_t l;                         /* the least gain L */
    uint8_t psi;                       /* the exponent that all weights share */
    uint8_t b;                         /* the last block's b */
    uint8_t bmax;                      /* the last block's B: the larger of its b and the previous block's b */
    uint32_t step;                     /* M: the step size is M / 2^30 */
    int16_t weights[TIGBULODE_SLOTS];  /* feed forward, then feedback */
    int16_t past[TIGBULODE_SLOTS];     /* p - 1 stored samples newest first, a 0, q symbols newest first */
} tigbulode_equaliser;

/* A number beside a state. */
typedef struct tigbulode_answer {
    uint8_t number;
    tigbulode_equaliser state;
} tigbulode_answer;

/* A number beside the length of an image; 0 where the save was turned down. */
typedef struct tigbulode_saved {
    uint8_t number;
    size_t length;
} tigbulode_saved;

TIGBULODE_ASSERT(record, sizeof(tigbulode_equaliser) == 140);
TIGBULODE_ASSERT(p, offsetof(tigbulode_equaliser, p) == 0);
TIGBULODE_ASSERT(bmax, offsetof(tigbulode_equaliser, bmax) == 7);
TIGBULODE_ASSERT(step, offsetof(tigbulode_equaliser, step) == 8);
TIGBULODE_ASSERT(weights, offsetof(tigbulode_equaliser, weights) == 12);
TIGBULODE_ASSERT(past, offsetof(tigbulode_equaliser, past) == 76);
TIGBULODE_ASSERT(answer, sizeof(tigbulode_answer) == 144);
TIGBULODE_ASSERT(state, offsetof(tigbulode_answer, state) == 4);
TIGBULODE_ASSERT(length, offsetof(tigbulode_saved, length) == sizeof(size_t));
TIGBULODE_ASSERT(saved, sizeof(tigbulode_saved) == 2 * sizeof(size_t));

/* A fresh state: weights, exponent, past samples and symbols 0. Turned down with 1, then 2, the state is the fresh one
 * with p = q = N = 1 and r = L = M = 0. */
TIGBULODE_NUMBER
tigbulode_answer tigbulode_set_up(uint8_t p, uint8_t q, uint8_t n, uint8_t r, uint8_t l, uint32_t step);

/* Runs a block of N samples; the record is advanced in place. Sample i is samples[i] with the gain gains[i]; entries[i]
 * is its training symbol, or 0 to adapt from the decision. Per sample: the output is y[i] * 2^(xi[i] - 30), then the
 * decision, and the error is z[i] * 2^(theta[i] - 30). Turned down with 1, 2, 9 for the record, then 3, 4, 5, 6 for the
 * block. tigbulode_run_block below is the same call with the lists as named members. */
TIGBULODE_NUMBER
uint8_t tigbulode_run(tigbulode_equaliser *s,
                      const int16_t *samples, size_t samples_length,
                      const uint8_t *gains, size_t gains_length,
                      const int8_t *entries, size_t entries_length,
                      int32_t *y, size_t y_length,
                      uint8_t *xi, size_t xi_length,
                      int8_t *decision, size_t decision_length,
                      int32_t *z, size_t z_length,
                      uint8_t *theta, size_t theta_length);

/* A trial: answers and hands out what tigbulode_run would, on the record as it is, which is only read; beside the number
 * stands the state that would follow, or, turned down, the record's own. tigbulode_run on a copy gives the same lists and
 * leaves that state in the copy; so a caller takes the block by running it, or by storing that state in the record.
 * tigbulode_trial_block below is the same call with the lists as named members. */
TIGBULODE_NUMBER
tigbulode_answer tigbulode_trial(const tigbulode_equaliser *s,
                                 const int16_t *samples, size_t samples_length,
                                 const uint8_t *gains, size_t gains_length,
                                 const int8_t *entries, size_t entries_length,
                                 int32_t *y, size_t y_length,
                                 uint8_t *xi, size_t xi_length,
                                 int8_t *decision, size_t decision_length,
                                 int32_t *z, size_t z_length,
                                 uint8_t *theta, size_t theta_length);

/* Writes the image to the front of the buffer and gives its length; later bytes stay, and the record is only read. Turned
 * down with 1, 2, 9, 7. */
TIGBULODE_NUMBER
tigbulode_saved tigbulode_save(const tigbulode_equaliser *s, uint8_t *buffer, size_t length);

/* The state that an image holds. Turned down with 8 for less than 12 bytes, 1, 8 for any other wrong length, 2, 9, the
 * state is the fresh one with p = q = N = 1 and r = L = M = 0. */
TIGBULODE_NUMBER
tigbulode_answer tigbulode_load(const uint8_t *bytes, size_t length);

#ifdef __cplusplus
}
#endif

/* The lists of a block, each `length` long, and `length` is N. Fill its members by name: by place they can be exchanged. */
typedef struct tigbulode_block {
    size_t length;
    const int16_t *samples; /* read */
    const uint8_t *gains;
    const int8_t *entries;
    int32_t *y;             /* handed out */
    uint8_t *xi;
    int8_t *decision;
    int32_t *z;
    uint8_t *theta;
} tigbulode_block;

/* Whether no list was left out. */
static inline int tigbulode_has_lists(const tigbulode_block *block) {
    return block->samples && block->gains && block->entries && block->y && block->xi && block->decision && block->z &&
           block->theta;
}

/* The block as given; where a list was left out, a block of empty lists that all point to `none`. */
static inline tigbulode_block tigbulode_lent_lists(const tigbulode_block *block, int32_t *none) {
    tigbulode_block lists = *block;
    void *empty = none;
    if (tigbulode_has_lists(block)) return lists;
    lists.length = 0;
    lists.samples = (int16_t *)empty, lists.gains = (uint8_t *)empty, lists.entries = (int8_t *)empty;
    lists.y = none, lists.xi = (uint8_t *)empty, lists.decision = (int8_t *)empty;
    lists.z = none, lists.theta = (uint8_t *)empty;
    return lists;
}

/* The lists of a block as the arguments of a run or a trial. */
#define TIGBULODE_ARGUMENTS(lists)                                                                                     \
    (lists).samples, (lists).length, (lists).gains, (lists).length, (lists).entries, (lists).length,                   \
        (lists).y, (lists).length, (lists).xi, (lists).length, (lists).decision, (lists).length,                       \
        (lists).z, (lists).length, (lists).theta, (lists).length

/* tigbulode_run with its lists as the members of a struct. Where a list is a null pointer, the lists count as empty, so that
 * the block is turned down with 3 (or before that with 1, 2 or 9). */
TIGBULODE_NUMBER
static inline uint8_t tigbulode_run_block(tigbulode_equaliser *s, const tigbulode_block *block) {
    int32_t none = 0;
    const tigbulode_block lists = tigbulode_lent_lists(block, &none);
    return tigbulode_run(s, TIGBULODE_ARGUMENTS(lists));
}

/* tigbulode_trial in the same way: what tigbulode_run_block would do, beside a record that is only read. */
TIGBULODE_NUMBER
static inline tigbulode_answer tigbulode_trial_block(const tigbulode_equaliser *s, const tigbulode_block *block) {
    int32_t none = 0;
    const tigbulode_block lists = tigbulode_lent_lists(block, &none);
    return tigbulode_trial(s, TIGBULODE_ARGUMENTS(lists));
}

#undef TIGBULODE_ARGUMENTS

/* The largest magnitude of a weight, in units of 2^(psi - 15): at most 16383 in a sound state. A block may raise psi or
 * lower it, so beside another record's compare this number times 2^psi. A record with anything in it is read at its 32
 * slots alone; -32768 counts as 32768. */
static inline uint16_t tigbulode_largest_weight(const tigbulode_equaliser *s) {
    int32_t largest = 0;
    int i;
    for (i = 0; i < TIGBULODE_SLOTS; i++) {
        const int32_t weight = s->weights[i];
        const int32_t magnitude = weight < 0 ? -weight : weight;
        if (magnitude > largest) largest = magnitude;
    }
    return (uint16_t)largest;
}

/* The greatest M that set-up admits with these sizes; 0 where one of them is outside its limits. */
static inline uint32_t tigbulode_greatest_step(uint8_t p, uint8_t q, uint8_t r, uint8_t l) {
    if (p < 1 || p > TIGBULODE_MOST_TAPS || q < 1 || q > TIGBULODE_MOST_TAPS) return 0;
    if (r > TIGBULODE_MOST_R || l > TIGBULODE_MOST_GAIN) return 0;
    /* M * D <= 2^30 with D = 2^(2r+2-L) * (2^L * (q + 2) + p) */
    return (uint32_t)(((uint64_t)1 << (28 + l - 2 * r)) / ((((uint64_t)q + 2) << l) + p));
}

/* Whether both records have the same p, q, N, r, L and M. */
static inline int tigbulode_same_settings(const tigbulode_equaliser *s, const tigbulode_equaliser *t) {
    return s->p == t->p && s->q == t->q && s->n == t->n && s->r == t->r && s->l == t->l && s->step == t->step;
}

/* The check sum to keep beside an image: CRC-32, that of "123456789" is CBF43926. It finds every change of one byte, and
 * of any bytes within four in a row. */
static inline uint32_t tigbulode_check_sum(const uint8_t *bytes, size_t length) {
    uint32_t sum = 0xFFFFFFFFu;
    size_t i;
    int bit;
    for (i = 0; i < length; i++) {
        sum ^= bytes[i];
        for (bit = 0; bit < 8; bit++) sum = (sum >> 1) ^ ((sum & 1) ? 0xEDB88320u : 0);
    }
    return ~sum;
}

/* What a number says, in words. */
static inline const char *tigbulode_number_text(uint8_t number) {
    switch (number) {
    case TIGBULODE_ACCEPTED: return "accepted";
    case TIGBULODE_SIZES: return "a size is outside its limits";
    case TIGBULODE_STEP: return "M is not admitted with these sizes";
    case TIGBULODE_LENGTHS: return "a lent list is not N long";
    case TIGBULODE_GAIN: return "a gain is below L or above 15";
    case TIGBULODE_ENTRY: return "a training entry is neither 0 nor a symbol";
    case TIGBULODE_EXPONENT: return "the weights' exponent would rise to 16";
    case TIGBULODE_BUFFER: return "the buffer is shorter than the image";
    case TIGBULODE_IMAGE: return "the image has a wrong length";
    case TIGBULODE_UNSOUND: return "the state is not sound";
    default: return "no number of the equaliser";
    }
}

#endif
