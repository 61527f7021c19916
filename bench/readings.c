#include "readings.h"

#include <stdbool.h>
#include <string.h>

#define TILE 16
#define MOST_A 65535
#ifndef LEAST_CUT
#define LEAST_CUT (MOST_A + 1)
#endif
#define INLINE static inline __attribute__((always_inline))

// No size is a NaN or a −0, so that a choice of the larger is one instruction.
#define PLAIN_FLOATS __attribute__((optimize("finite-math-only", "no-signed-zeros", "no-trapping-math")))

// The sum of a², and the largest 256·|error|.
typedef struct {
    uint64_t sum;
    double most;
} total;

INLINE uint32_t magnitude(int32_t mantissa) {
    uint32_t sign = (uint32_t)(mantissa >> 31);
    return ((uint32_t)mantissa ^ sign) - sign;
}

// The magnitudes of either list are merged: none is as large as a power of two where all of them together are not.
static bool are_mantissas(const int32_t *y, const int32_t *z, size_t length) {
    uint32_t any_y = 0, any_z = 0;
    for (size_t i = 0; i < length; i++) any_y |= magnitude(y[i]), any_z |= magnitude(z[i]);
    return any_y <= TIGBULODE_MOST_Y && any_z <= TIGBULODE_MOST_Z;
}

static bool are_exponents(const uint8_t *xi, const uint8_t *theta, size_t length) {
    uint8_t most = 0;
    for (size_t i = 0; i < length; i++) {
        uint8_t x = (uint8_t)(xi[i] - TIGBULODE_LEAST_READING_EXPONENT);
        uint8_t t = (uint8_t)(theta[i] - TIGBULODE_LEAST_READING_EXPONENT);
        uint8_t larger = x > t ? x : t;
        most = larger > most ? larger : most;
    }
    return most <= TIGBULODE_MOST_READING_EXPONENT - TIGBULODE_LEAST_READING_EXPONENT;
}

// The bits of 2^(exponent − 30).
INLINE uint64_t power_bits(uint8_t exponent) { return (uint64_t)(1023u - 30 + exponent) << 52; }

static void powers_of_tile(const uint8_t *restrict exponents, double *restrict powers) {
    for (int i = 0; i < TILE; i++) {
        uint64_t bits = power_bits(exponents[i]);
        memcpy(powers + i, &bits, sizeof bits);
    }
}

INLINE total with_error(total t, double error) {
    double size = __builtin_fabs(error) * 256;
    uint32_t a = (uint32_t)(int32_t)(size < MOST_A ? size : MOST_A);
    t.most = t.most > size ? t.most : size;
    t.sum += (uint64_t)a * a;
    return t;
}

INLINE total with_errors(total t, const double *errors) {
    for (int i = 0; i < TILE; i++) t = with_error(t, errors[i]);
    return t;
}

// The outputs and errors of a tile, in turn; the total with its errors. Each loop is one that compilers take in pairs.
PLAIN_FLOATS static total write_tile(const int32_t *restrict y, const uint8_t *restrict xi, const int32_t *restrict z,
                                     const uint8_t *restrict theta, double *restrict out, total t) {
    double of_y[TILE], of_z[TILE], errors[TILE];
    powers_of_tile(xi, of_y);
    powers_of_tile(theta, of_z);
    for (int i = 0; i < TILE; i++) {
        errors[i] = z[i] * of_z[i];
        out[2 * i] = y[i] * of_y[i];
        out[2 * i + 1] = errors[i];
    }
    return with_errors(t, errors);
}

INLINE double value(int32_t mantissa, uint8_t exponent) {
    uint64_t bits = power_bits(exponent);
    double power;
    memcpy(&power, &bits, sizeof power);
    return mantissa * power;
}

// What is left after the tiles.
INLINE total write_rest(const int32_t *y, const uint8_t *xi, const int32_t *z, const uint8_t *theta,
                        tigbulode_reading *readings, size_t length, total t) {
    for (size_t i = length / TILE * TILE; i < length; i++) {
        readings[i].y = value(y[i], xi[i]);
        readings[i].error = value(z[i], theta[i]);
        t = with_error(t, readings[i].error);
    }
    return t;
}

static total write_readings(const int32_t *y, const uint8_t *xi, const int32_t *z, const uint8_t *theta,
                            tigbulode_reading *readings, size_t length) {
    total t = {0, 0};
    for (size_t i = 0; i + TILE <= length; i += TILE)
        t = write_tile(y + i, xi + i, z + i, theta + i, &readings[i].y, t);
    return write_rest(y, xi, z, theta, readings, length, t);
}

tigbulode_power careful_readings(const int32_t *y, size_t y_length, const uint8_t *xi, size_t xi_length,
                                 const int32_t *z, size_t z_length, const uint8_t *theta, size_t theta_length,
                                 tigbulode_reading *readings, size_t readings_length) {
    const tigbulode_power turned_down = {TIGBULODE_READINGS, 0, 0};
    size_t n = readings_length;
    if (n < 1 || n > TIGBULODE_MOST_READINGS) return turned_down;
    if (y_length != n || xi_length != n || z_length != n || theta_length != n) return turned_down;
    if (!are_mantissas(y, z, n) || !are_exponents(xi, theta, n)) return turned_down;
    total t = write_readings(y, xi, z, theta, readings, n);
    tigbulode_power p = {TIGBULODE_ACCEPTED, t.most >= LEAST_CUT, 0};
    p.power = (double)(int64_t)t.sum / (double)(int64_t)(65536 * n);
    return p;
}
