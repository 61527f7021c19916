/* A block of two samples on a station, and its readings: a line for each sample, as a plotting tool takes them. Both
 * calls have each list beside its length. */
#include "tigbulode.h"
#include "tigbulode_laboratory.h"
#include <stdio.h>

int main(void) {
    tigbulode_answer a = tigbulode_set_up(1, 1, 2, 0, 0, tigbulode_greatest_step(1, 1, 0, 0));
    if (a.number != TIGBULODE_ACCEPTED) return a.number;

    const int16_t samples[2] = {0x4000, 0x4000};
    const uint8_t gains[2] = {0, 0};
    const int8_t entries[2] = {1, 0};
    int32_t y[2], z[2];
    uint8_t xi[2], theta[2];
    int8_t decision[2];
    uint8_t number =
        tigbulode_run(&a.state, samples, 2, gains, 2, entries, 2, y, 2, xi, 2, decision, 2, z, 2, theta, 2);
    if (number != TIGBULODE_ACCEPTED) return number;

    tigbulode_reading readings[2];
    tigbulode_power p = tigbulode_readings(y, 2, xi, 2, z, 2, theta, 2, readings, 2);
    printf("%s: error power %.17g, a %s\n", tigbulode_number_text(p.number), p.power, p.is_floor ? "floor" : "mean");
    if (p.number != TIGBULODE_ACCEPTED) return p.number;

    for (int i = 0; i < 2; i++) printf("%.17g %.17g\n", readings[i].y, readings[i].error);
    return 0;
}
