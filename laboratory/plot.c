/* A block of two samples on a station, and its readings: a line for each sample, as a plotting tool takes them. */
#include "tigbulode.h"
#include "tigbulode_laboratory.h"
#include <stdio.h>

int main(void) {
    tigbulode_answer a = tigbulode_set_up(1, 1, 2, 0, 0, tigbulode_greatest_step(1, 1, 0, 0));
    int16_t samples[2] = {0x4000, 0x4000};
    uint8_t gains[2] = {0, 0}, xi[2] = {0, 0}, theta[2] = {0, 0};
    int8_t entries[2] = {1, 0}, decision[2] = {0, 0};
    int32_t y[2] = {0, 0}, z[2] = {0, 0};
    tigbulode_reading readings[2] = {{0, 0}, {0, 0}};
    tigbulode_block block;
    tigbulode_outputs outputs;
    int i;
    block.length = 2, block.samples = samples, block.gains = gains, block.entries = entries;
    block.y = y, block.xi = xi, block.decision = decision, block.z = z, block.theta = theta;
    if (tigbulode_run_block(&a.state, &block) != TIGBULODE_ACCEPTED) return 1;
    outputs.length = 2, outputs.y = y, outputs.xi = xi, outputs.z = z, outputs.theta = theta;
    outputs.readings = readings;
    tigbulode_power p = tigbulode_readings_of(&outputs);
    printf("%s: error power %.17g, a %s\n", tigbulode_laboratory_number_text(p.number), p.power, p.is_floor ? "floor" : "mean");
    for (i = 0; i < 2; i++) printf("%.17g %.17g\n", readings[i].y, readings[i].error);
    return p.number;
}
