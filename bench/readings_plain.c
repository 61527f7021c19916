#include "readings.h"

#include <math.h>
#include <stdbool.h>

#define MOST_A 65535

// 2^(exponent − 30), by the exponent.
static const double powers[TIGBULODE_MOST_READING_EXPONENT + 1] = {
    0x1p-30, 0x1p-29, 0x1p-28, 0x1p-27, 0x1p-26, 0x1p-25, 0x1p-24, 0x1p-23, 0x1p-22,
    0x1p-21, 0x1p-20, 0x1p-19, 0x1p-18, 0x1p-17, 0x1p-16, 0x1p-15, 0x1p-14, 0x1p-13,
    0x1p-12, 0x1p-11, 0x1p-10, 0x1p-9,  0x1p-8,  0x1p-7,  0x1p-6,
};

static bool is_exponent(uint8_t exponent) {
    return exponent >= TIGBULODE_LEAST_READING_EXPONENT && exponent <= TIGBULODE_MOST_READING_EXPONENT;
}

static bool are_outputs(const int32_t *y, const uint8_t *xi, const int32_t *z, const uint8_t *theta, size_t length) {
    for (size_t i = 0; i < length; i++) {
        if (y[i] < -TIGBULODE_MOST_Y || y[i] > TIGBULODE_MOST_Y) return false;
        if (z[i] < -TIGBULODE_MOST_Z || z[i] > TIGBULODE_MOST_Z) return false;
        if (!is_exponent(xi[i]) || !is_exponent(theta[i])) return false;
    }
    return true;
}

tigbulode_power plain_readings(const int32_t *y, size_t y_length, const uint8_t *xi, size_t xi_length, const int32_t *z,
                               size_t z_length, const uint8_t *theta, size_t theta_length,
                               tigbulode_reading *readings, size_t readings_length) {
    const tigbulode_power turned_down = {TIGBULODE_READINGS, 0, 0};
    size_t n = readings_length;
    if (n < 1 || n > TIGBULODE_MOST_READINGS) return turned_down;
    if (y_length != n || xi_length != n || z_length != n || theta_length != n) return turned_down;
    if (!are_outputs(y, xi, z, theta, n)) return turned_down;
    int64_t sum = 0;
    bool cut = false;
    for (size_t i = 0; i < n; i++) {
        readings[i].y = y[i] * powers[xi[i]];
        readings[i].error = z[i] * powers[theta[i]];
        int64_t a = (int64_t)(fabs(readings[i].error) * 256);
        if (a > MOST_A) {
            a = MOST_A;
            cut = true;
        }
        sum += a * a;
    }
    return (tigbulode_power){TIGBULODE_ACCEPTED, cut, (double)sum / (double)(65536 * n)};
}
