/* One block of two samples; the symbol of the first is known. */
#include "tigbulode.h"
#include <stdio.h>

int main(void) {
    tigbulode_answer a = tigbulode_set_up(1, 1, 2, 0, 0, tigbulode_greatest_step(1, 1, 0, 0));
    int16_t samples[2] = {0x4000, 0x4000};
    uint8_t gains[2] = {0, 0}, xi[2] = {0, 0}, theta[2] = {0, 0};
    int8_t entries[2] = {1, 0}, decision[2] = {0, 0};
    int32_t y[2] = {0, 0}, z[2] = {0, 0};
    tigbulode_block block;
    block.length = 2;
    block.samples = samples, block.gains = gains, block.entries = entries;
    block.y = y, block.xi = xi, block.decision = decision, block.z = z, block.theta = theta;
    uint8_t number = tigbulode_run_block(&a.state, &block);
    printf("%s: y %ld * 2^(%d - 30), decision %d\n", tigbulode_number_text(number), (long)y[1], xi[1], decision[1]);
    return number;
}
