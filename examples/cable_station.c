/* A cable on paper, a station behind it and the error power of its blocks, with both headers and both libraries in one
 * program. Exit status 1: something was turned down. */
#include "tigbulode.h"
#include "tigbulode_laboratory.h"
#include <stdio.h>
#include <stdlib.h>

enum { N = 16, BLOCKS = 256, SYMBOLS = N * BLOCKS, TRAINING = SYMBOLS / 2 };

static const int16_t response[4] = {16000, -3500, 1700, -600};
static int8_t symbols[SYMBOLS];
static uint8_t trace[TIGBULODE_TRACE_LENGTH(SYMBOLS)];
static tigbulode_power powers[BLOCKS];

/* Goes on where a call was accepted, and tells of it otherwise. */
static void look_at(const char *call, uint8_t number) {
    if (number == TIGBULODE_ACCEPTED) return;
    printf("%s: %s\n", call, tigbulode_number_text(number));
    exit(EXIT_FAILURE);
}

/* Random symbols for r = 1. */
static void fill_symbols(void) {
    uint32_t random = 2026;
    int i;
    for (i = 0; i < SYMBOLS; i++) {
        random = random * 1664525u + 1013904223u;
        symbols[i] = (int8_t)(2 * (int32_t)(random >> 30) - 3);
    }
}

/* Runs a block of the trace; gives how many decisions are not the symbols that were sent. */
static unsigned run(tigbulode_equaliser *s, int block) {
    const uint8_t *sample = trace + TIGBULODE_TRACE_HEADER_BYTES + 3 * N * block;
    const uint8_t *entry = trace + TIGBULODE_TRACE_HEADER_BYTES + 3 * SYMBOLS + N * block;
    int16_t samples[N];
    uint8_t gains[N], xi[N], theta[N];
    int8_t entries[N], decision[N];
    int32_t y[N], z[N];
    tigbulode_reading readings[N];
    unsigned wrong = 0;
    int i;
    for (i = 0; i < N; i++, sample += 3) {
        samples[i] = (int16_t)(sample[0] | sample[1] << 8);
        gains[i] = sample[2];
        entries[i] = (int8_t)entry[i];
    }
    look_at("block", tigbulode_run(s, samples, N, gains, N, entries, N, y, N, xi, N, decision, N, z, N, theta, N));
    powers[block] = tigbulode_readings(y, N, xi, N, z, N, theta, N, readings, N);
    look_at("readings", powers[block].number);
    for (i = 0; i < N; i++) wrong += decision[i] != symbols[N * block + i];
    return wrong;
}

static void print_power(const char *about, const tigbulode_power *p) {
    printf("  error power of the %s block: %s %.12f\n", about, p->is_floor ? "floor" : "mean", p->power);
}

/* Prints a part of the run. */
static void run_blocks(tigbulode_equaliser *s, const char *name, int first, int end) {
    unsigned wrong = 0;
    int block;
    for (block = first; block < end; block++) wrong += run(s, block);
    printf("%s: %d symbols, wrong decisions %u\n", name, N * (end - first), wrong);
    print_power("first", &powers[first]);
    print_power("last", &powers[end - 1]);
}

int main(void) {
    const uint32_t step = tigbulode_greatest_step(4, 3, 1, 0) / 2;
    tigbulode_answer a = tigbulode_set_up(4, 3, N, 1, 0, step);
    look_at("set-up", a.number);
    fill_symbols();
    look_at("cable",
            tigbulode_cable(4, 3, N, 1, 0, step, response, 4, symbols, SYMBOLS, TRAINING, trace, sizeof trace));
    run_blocks(&a.state, "trained", 0, TRAINING / N);
    run_blocks(&a.state, "decided", TRAINING / N, BLOCKS);
    return EXIT_SUCCESS;
}
