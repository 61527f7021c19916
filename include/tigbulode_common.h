/* What tigbulode.h and tigbulode_laboratory.h share: the numbers that calls answer with, the limits of the settings and
 * the greatest M. C99 and C++98, and later. Either header includes it.
 *
 * What a caller owes to every call: a pointer is not null, even beside a length of 0; it is aligned for its type and
 * valid for as many elements as its length says; what is written overlaps nothing else that is lent to the same call;
 * until the call returns, nothing else writes to what is lent, no interrupt, no DMA transfer and no thread, and nothing
 * else reads what is written; the stack has room (docs/PERFORMANCE.md has the bytes). Every value is taken (but C
 * converts a value to its parameter's type first: 257 for p arrives as 1; -Wconversion tells). What can't be used is
 * turned down with a number, and all lent memory is then as it was.
 *
 * Of an interface's version a larger minor number only adds to it; a larger major number changes a call, a field or a
 * name. */
#ifndef TIGBULODE_COMMON_H
#define TIGBULODE_COMMON_H

#include <stddef.h>
#include <stdint.h>

/* A number is to be looked at: GCC and Clang warn where it is not. */
#ifdef __GNUC__
#define TIGBULODE_NUMBER __attribute__((warn_unused_result))
#else
#define TIGBULODE_NUMBER
#endif

/* C99 and C++98 have no assertion at compile time: an array of length -1 stands in. */
#define TIGBULODE_ASSERT(name, holds) typedef char tigbulode_assert_##name[(holds) ? 1 : -1]

/* A value of another type, in either language. */
#ifdef __cplusplus
#define TIGBULODE_CAST(type, value) static_cast<type>(value)
#else
#define TIGBULODE_CAST(type, value) ((type)(value))
#endif

/* The number that each function answers with: 0 to 9 the station's, 0, 1, 2, 10 and 11 the laboratory's.
 * tigbulode_number_text below says what each means. */
enum tigbulode_number {
    TIGBULODE_ACCEPTED = 0,
    TIGBULODE_SIZES = 1,
    TIGBULODE_STEP = 2,
    TIGBULODE_LENGTHS = 3,
    TIGBULODE_GAIN = 4,
    TIGBULODE_ENTRY = 5,
    TIGBULODE_EXPONENT = 6,
    TIGBULODE_BUFFER = 7,
    TIGBULODE_IMAGE = 8,
    TIGBULODE_UNSOUND = 9,
    TIGBULODE_CABLE = 10,
    TIGBULODE_READINGS = 11
};

/* The limits. Sizes: p and q 1 to 16; N at least 1, at least p - 1, at most 128; r 0 to 3; L 0 to 15. */
enum tigbulode_limit {
    TIGBULODE_MOST_TAPS = 16,     /* of one filter */
    TIGBULODE_MOST_BLOCK = 128,   /* samples in a block */
    TIGBULODE_MOST_R = 3,         /* a symbol is odd, of magnitude at most 2^(r+1) - 1 */
    TIGBULODE_MOST_GAIN = 15,     /* of a sample, and so of L */
    TIGBULODE_MOST_EXPONENT = 15, /* of the weights */
    TIGBULODE_MOST_WEIGHT = 16383 /* in magnitude */
};

/* The greatest M that is admitted with these sizes; 0 where one of them is outside its limits. */
static inline uint32_t tigbulode_greatest_step(uint8_t p, uint8_t q, uint8_t r, uint8_t l) {
    const uint64_t one = 1, two = 2;
    if (p < 1 || p > TIGBULODE_MOST_TAPS || q < 1 || q > TIGBULODE_MOST_TAPS) return 0;
    if (r > TIGBULODE_MOST_R || l > TIGBULODE_MOST_GAIN) return 0;
    /* M * D <= 2^30 with D = 2^(2r+2-L) * (2^L * (q + 2) + p) */
    return TIGBULODE_CAST(uint32_t, (one << (28 + l - 2 * r)) / (((two + q) << l) + p));
}

/* What a number says, in words. */
static inline const char *tigbulode_number_text(uint8_t number) {
    switch (number) {
    case TIGBULODE_ACCEPTED: return "accepted";
    case TIGBULODE_SIZES: return "a size is outside its limits";
    case TIGBULODE_STEP: return "M is not admitted with these sizes";
    case TIGBULODE_LENGTHS: return "a lent list is not N long";
    case TIGBULODE_GAIN: return "a gain is below L or above 15";
    case TIGBULODE_ENTRY: return "a training entry is neither 0 nor a symbol";
    case TIGBULODE_EXPONENT: return "the weights' exponent would rise to 16";
    case TIGBULODE_BUFFER: return "the buffer is shorter than the image";
    case TIGBULODE_IMAGE: return "the image has a wrong length";
    case TIGBULODE_UNSOUND: return "the state is not sound";
    case TIGBULODE_CABLE: return "the cable can't be simulated";
    case TIGBULODE_READINGS: return "the lists can't be read as a block's outputs";
    default: return "no number of these calls";
    }
}

#endif
