/* Six symbols over a cable with one echo; the first three are training entries. */
#include "tigbulode_laboratory.h"
#include <stdio.h>

int main(void) {
    const int16_t response[2] = {16384, -4096}; /* 1/2, and -1/8 one symbol later */
    const int8_t symbols[6] = {1, -3, 3, 1, -1, 3};
    uint8_t trace[TIGBULODE_TRACE_LENGTH(6)] = {0};
    tigbulode_cable_description cable;
    int i;
    cable.p = 2, cable.q = 1, cable.n = 2, cable.r = 1, cable.l = 0, cable.step = 1 << 20;
    cable.response = response, cable.response_length = 2;
    cable.symbols = symbols, cable.symbols_length = 6, cable.training = 3;
    uint8_t number = tigbulode_run_cable(&cable, trace, sizeof trace);
    printf("%s: m, gain and entry of each sample\n", tigbulode_laboratory_number_text(number));
    for (i = 0; i < 6; i++) {
        const uint8_t *sample = trace + TIGBULODE_TRACE_HEADER_BYTES + 3 * i;
        printf("%d %d %d\n", (int16_t)(sample[0] | sample[1] << 8), sample[2], (int8_t)trace[30 + i]);
    }
    return number;
}
