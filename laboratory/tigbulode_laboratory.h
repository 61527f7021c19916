/* The surface laboratory's operations: a cable on paper, and readings for plots. C99 and later, C++98 and later. It needs no
 * other header, and goes with firmware/tigbulode.h in one file, in either order.
 *
 * Link target/staticlib/liblaboratory.a, which `./tigbulode library laboratory` writes; laboratory/README.md
 * has the lines for C and Rust, docs/EQUALISER.md what the numbers mean.
 *
 * What a caller owes: a pointer is not null, even beside a length of 0; it is aligned for its type and valid for as many
 * elements as its length says; what is written overlaps nothing else that is lent to the same call; until the call returns,
 * nothing else writes to what is lent, and nothing else reads what is written; the stack has room (docs/PERFORMANCE.md has
 * the bytes); for the power of tigbulode_readings the processor is in its usual mode, rounding to nearest, in which every
 * program starts and which fesetround may change (the readings themselves are exact in any mode). Every value is taken (but C
 * converts a value to its parameter's type first: 257 for p arrives as 1; -Wconversion tells). What can't be used is turned
 * down with a number, and all lent memory is then as it was.
 *
 * The archive is code for x86-64. The two functions in it are proved; the static inline ones below are plain C, and
 * laboratory/check tries them. */
#ifndef TIGBULODE_LABORATORY_H
#define TIGBULODE_LABORATORY_H

#include <stddef.h>
#include <stdint.h>

/* Of this interface. A larger minor number only adds to it. */
#define TIGBULODE_LABORATORY_VERSION_MAJOR 0
#define TIGBULODE_LABORATORY_VERSION_MINOR 2
#define TIGBULODE_LABORATORY_VERSION "0.2"

/* A number is to be looked at: GCC and Clang warn where it is not. */
#ifdef __GNUC__
#define TIGBULODE_LABORATORY_NUMBER __attribute__((warn_unused_result))
#else
#define TIGBULODE_LABORATORY_NUMBER
#endif

/* C99 and C++98 have no assertion at compile time: an array of length -1 stands in. */
#define TIGBULODE_LABORATORY_ASSERT(name, holds) typedef char tigbulode_laboratory_assert_##name[(holds) ? 1 : -1]

/* The number that each function answers with; 1 and 2 are those of set-up. */
enum tigbulode_laboratory_number {
    TIGBULODE_LABORATORY_ACCEPTED = 0,
    TIGBULODE_LABORATORY_SIZES = 1, /* a size is outside its limits */
    TIGBULODE_LABORATORY_STEP = 2,  /* M is not admitted with these sizes */
    TIGBULODE_CABLE = 10,           /* the cable can't be simulated */
    TIGBULODE_READINGS = 11         /* the lists can't be read as a block's outputs */
};

/* The limits. Sizes are those of set-up: p and q 1 to 16; N at least 1, at least p - 1, at most 128; r 0 to 3; L 0 to 15. */
enum tigbulode_laboratory_limit {
    TIGBULODE_MOST_RESPONSE = 32, /* values of a response */
    TIGBULODE_MOST_TRACE = 65536  /* bytes of a trace */
};

/* Of the lists that a block hands out: a block hands out none outside these. */
enum tigbulode_reading_limit {
    TIGBULODE_MOST_READINGS = 128,        /* samples in a block; the least is 1 */
    TIGBULODE_LEAST_READING_EXPONENT = 1, /* of xi and theta */
    TIGBULODE_MOST_READING_EXPONENT = 24,
    TIGBULODE_MOST_Y = 536870911,         /* in magnitude: below 2^29 */
    TIGBULODE_MOST_Z = 1073741823         /* in magnitude: below 2^30 */
};

enum tigbulode_laboratory_room {
    TIGBULODE_TRACE_HEADER_BYTES = 12, /* a trace has 12 bytes, and 4 for each sample */
    TIGBULODE_MOST_SYMBOLS = 16381     /* in the longest trace */
};

/* The length of a trace of so many symbols. */
#define TIGBULODE_TRACE_LENGTH(symbols) (TIGBULODE_TRACE_HEADER_BYTES + 4 * (size_t)(symbols))

/* The output and the error of a sample, as a plotting tool takes them. */
typedef struct tigbulode_reading {
    double y;
    double error;
} tigbulode_reading;

/* A number beside the error power of a block. */
typedef struct tigbulode_power {
    uint8_t number;
    uint8_t is_floor; /* 0: the power is a mean; 1: it is only a floor */
    double power;
} tigbulode_power;

TIGBULODE_LABORATORY_ASSERT(double, sizeof(double) == 8);
TIGBULODE_LABORATORY_ASSERT(reading, sizeof(tigbulode_reading) == 16);
TIGBULODE_LABORATORY_ASSERT(reading_y, offsetof(tigbulode_reading, y) == 0);
TIGBULODE_LABORATORY_ASSERT(reading_error, offsetof(tigbulode_reading, error) == 8);
TIGBULODE_LABORATORY_ASSERT(answer, sizeof(tigbulode_power) == 16);
TIGBULODE_LABORATORY_ASSERT(number, offsetof(tigbulode_power, number) == 0);
TIGBULODE_LABORATORY_ASSERT(is_floor, offsetof(tigbulode_power, is_floor) == 1);
TIGBULODE_LABORATORY_ASSERT(power, offsetof(tigbulode_power, power) == 8);

#ifdef __cplusplus
extern "C" {
#endif

/* Writes the trace of symbols that went through a cable: header, samples with their gains, training entries. The response
 * is in units of 1/32768, its first value is that of the present symbol; the first `training` symbols are training
 * entries. Turned down with 1, then 2 for the settings; then with 10 where the response has not 1 to 32 values, the symbols
 * are not 1 to 65,535 whole blocks of N, there are more training entries than symbols, the trace would be longer than
 * 65,536 bytes, one of the symbols is none for this r, the trace lent is not TIGBULODE_TRACE_LENGTH(symbols_length) long, or
 * some gain would be below L or does not exist. tigbulode_run_cable below is the same call with what it reads as named
 * members. */
TIGBULODE_LABORATORY_NUMBER
uint8_t tigbulode_cable(uint8_t p, uint8_t q, uint8_t n, uint8_t r, uint8_t l, uint32_t step,
                        const int16_t *response, size_t response_length,
                        const int8_t *symbols, size_t symbols_length,
                        size_t training,
                        uint8_t *trace, size_t trace_length);

/* Gives a reading for each sample of a block, and the block's error power, from the lists Y, xi, Z and theta that
 * tigbulode_run or tigbulode_trial of the station handed out. A reading's y is exactly y[i] * 2^(xi[i] - 30) and its error
 * exactly z[i] * 2^(theta[i] - 30); nothing is rounded, and a zero is +0.
 *
 * The power is the mean of the squares of the errors, each error first cut towards 0 to whole steps of 1/256: with a the
 * whole part of 256 * |error|, or 65535 if that is smaller, it is the sum of a^2 divided by 65536 * N, N the lists' length.
 * Sum and divisor are exact, and the quotient is rounded once, to the nearest double.
 *
 * is_floor is 0 where no a was cut to 65535: the power is a mean, and the exact sum of (256 * error)^2 is at least the sum
 * of a^2 and less than the sum of (a + 1)^2. is_floor is 1 where some error is 256 or more in magnitude: the power is only a
 * floor, and says no more than that the mean of the squared errors is at least so much.
 *
 * Turned down with 11 where the five lists are not all of one length from 1 to 128, some |Y| is 2^29 or more, some |Z| is
 * 2^30 or more, or some xi or theta is outside 1 to 24; is_floor is then 0, the power +0, and the readings are as they were.
 * tigbulode_readings_of below is the same call with the lists as named members. */
TIGBULODE_LABORATORY_NUMBER
tigbulode_power tigbulode_readings(const int32_t *y, size_t y_length,
                                   const uint8_t *xi, size_t xi_length,
                                   const int32_t *z, size_t z_length,
                                   const uint8_t *theta, size_t theta_length,
                                   tigbulode_reading *readings, size_t readings_length);

#ifdef __cplusplus
}
#endif

/* What a cable is described by. Fill its members by name: by place they can be exchanged. */
typedef struct tigbulode_cable_description {
    uint8_t p;              /* feed forward taps */
    uint8_t q;              /* feedback taps */
    uint8_t n;              /* the block length N */
    uint8_t r;
    uint8_t l;              /* the least gain L */
    uint32_t step;          /* M: the step size is M / 2^30 */
    const int16_t *response;
    size_t response_length;
    const int8_t *symbols;
    size_t symbols_length;
    size_t training;        /* how many of the symbols, from the first, are training entries */
} tigbulode_cable_description;

/* tigbulode_cable with what it reads as the members of a struct. A null pointer counts as an empty list, so that the cable is
 * turned down with 10 (or before that with 1 or 2). */
TIGBULODE_LABORATORY_NUMBER
static inline uint8_t tigbulode_run_cable(const tigbulode_cable_description *c, uint8_t *trace, size_t trace_length) {
    const int16_t no_value = 0;
    const int8_t no_symbol = 0;
    uint8_t no_byte = 0;
    return tigbulode_cable(c->p, c->q, c->n, c->r, c->l, c->step,
                           c->response ? c->response : &no_value, c->response ? c->response_length : 0,
                           c->symbols ? c->symbols : &no_symbol, c->symbols ? c->symbols_length : 0, c->training,
                           trace ? trace : &no_byte, trace ? trace_length : 0);
}

/* The lists that a block handed out, and room for their readings, each `length` long. Fill its members by name: by place they
 * can be exchanged. */
typedef struct tigbulode_outputs {
    size_t length;
    const int32_t *y;            /* read */
    const uint8_t *xi;
    const int32_t *z;
    const uint8_t *theta;
    tigbulode_reading *readings; /* written */
} tigbulode_outputs;

/* tigbulode_readings with its lists as the members of a struct. A null pointer counts as an empty list, so that the lists are
 * turned down with 11. */
TIGBULODE_LABORATORY_NUMBER
static inline tigbulode_power tigbulode_readings_of(const tigbulode_outputs *o) {
    const int32_t no_mantissa = 0;
    const uint8_t no_exponent = 0;
    tigbulode_reading no_reading = {0, 0};
    return tigbulode_readings(o->y ? o->y : &no_mantissa, o->y ? o->length : 0,
                              o->xi ? o->xi : &no_exponent, o->xi ? o->length : 0,
                              o->z ? o->z : &no_mantissa, o->z ? o->length : 0,
                              o->theta ? o->theta : &no_exponent, o->theta ? o->length : 0,
                              o->readings ? o->readings : &no_reading, o->readings ? o->length : 0);
}

/* What a number says, in words. */
static inline const char *tigbulode_laboratory_number_text(uint8_t number) {
    switch (number) {
    case TIGBULODE_LABORATORY_ACCEPTED: return "accepted";
    case TIGBULODE_LABORATORY_SIZES: return "a size is outside its limits";
    case TIGBULODE_LABORATORY_STEP: return "M is not admitted with these sizes";
    case TIGBULODE_CABLE: return "the cable can't be simulated";
    case TIGBULODE_READINGS: return "the lists can't be read as a block's outputs";
    default: return "no number of the laboratory";
    }
}

#endif
