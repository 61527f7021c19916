/* A cable on paper, a station behind it and the error power of its blocks, with both headers and both libraries in one
 * program: `both`. This file is C99, C11 and C++98 at once. Exit status 1: something was turned down. */
#include "tigbulode_laboratory.h"

#include "tigbulode.h"

#include "arguments.h"

enum { N = 16, BLOCKS = 256, SYMBOLS = N * BLOCKS, TRAINING = SYMBOLS / 2 };

static const int16_t response[4] = {16000, -3500, 1700, -600};
static int8_t symbols[SYMBOLS];
static uint8_t trace[TIGBULODE_TRACE_LENGTH(SYMBOLS)];
static tigbulode_power powers[BLOCKS];

/* Random symbols for r = 1. */
static void fill_symbols(void) {
    uint32_t random = 2026;
    int i;
    for (i = 0; i < SYMBOLS; i++) {
        random = random * 1664525u + 1013904223u;
        symbols[i] = (int8_t)(2 * (int32_t)(random >> 30) - 3);
    }
}

static uint8_t simulate(uint32_t step) {
    tigbulode_cable_description cable;
    cable.p = 4, cable.q = 3, cable.n = N, cable.r = 1, cable.l = 0, cable.step = step;
    cable.response = response, cable.response_length = 4;
    cable.symbols = symbols, cable.symbols_length = SYMBOLS, cable.training = TRAINING;
    return tigbulode_run_cable(&cable, trace, sizeof trace);
}

/* The error power of what a block handed out. */
static tigbulode_power power_of(const tigbulode_block *lists) {
    tigbulode_reading readings[N];
    tigbulode_outputs outputs;
    outputs.length = N, outputs.y = lists->y, outputs.xi = lists->xi, outputs.z = lists->z, outputs.theta = lists->theta;
    outputs.readings = readings;
    return tigbulode_readings_of(&outputs);
}

/* Runs a block of the trace; gives how many decisions are not the symbols that were sent. */
static unsigned run(tigbulode_equaliser *s, int block, uint8_t *number) {
    const uint8_t *sample = trace + TIGBULODE_TRACE_HEADER_BYTES + 3 * N * block;
    int16_t samples[N];
    uint8_t gains[N], xi[N], theta[N];
    int8_t entries[N], decision[N];
    int32_t y[N], z[N];
    tigbulode_block lists;
    unsigned i, wrong = 0;
    for (i = 0; i < N; i++, sample += 3) {
        samples[i] = (int16_t)(sample[0] | sample[1] << 8);
        gains[i] = sample[2];
        entries[i] = (int8_t)trace[TIGBULODE_TRACE_HEADER_BYTES + 3 * SYMBOLS + N * block + i];
    }
    lists.length = N, lists.samples = samples, lists.gains = gains, lists.entries = entries;
    lists.y = y, lists.xi = xi, lists.decision = decision, lists.z = z, lists.theta = theta;
    *number = tigbulode_run_block(s, &lists);
    for (i = 0; i < N && *number == TIGBULODE_ACCEPTED; i++) wrong += decision[i] != symbols[N * block + i];
    if (*number == TIGBULODE_ACCEPTED) powers[block] = power_of(&lists);
    return wrong;
}

static void print_power(const char *about, const tigbulode_power *p) {
    const char *number = tigbulode_laboratory_number_text(p->number);
    printf("  %s: %s, %s %.12f\n", about, number, p->is_floor ? "floor" : "mean", p->power);
}

static int are_read(void) {
    int block;
    for (block = 0; block < BLOCKS && powers[block].number == TIGBULODE_LABORATORY_ACCEPTED; block++) {}
    return block == BLOCKS;
}

/* Prints a part of the run; gives the number of its last block. */
static uint8_t run_blocks(tigbulode_equaliser *s, const char *name, int first, int end) {
    unsigned wrong = 0;
    uint8_t number = TIGBULODE_ACCEPTED;
    int block;
    for (block = first; block < end && number == TIGBULODE_ACCEPTED; block++) wrong += run(s, block, &number);
    printf("%s: %d symbols, %s; wrong decisions %u\n", name, N * (end - first), tigbulode_number_text(number), wrong);
    print_power("error power of the first block", &powers[first]);
    print_power("error power of the last block", &powers[end - 1]);
    return number;
}

int main(int argc, char **argv) {
    const uint32_t step = tigbulode_greatest_step(4, 3, 1, 0) / 2;
    tigbulode_answer a = tigbulode_set_up(4, 3, N, 1, 0, step);
    uint8_t number;
    take_arguments(argc, argv, 0, "both, without arguments: a cable on paper, a station behind it and its error power");
    fill_symbols();
    number = simulate(step);
    printf("cable: %s\n", tigbulode_laboratory_number_text(number));
    if (number != TIGBULODE_LABORATORY_ACCEPTED || a.number != TIGBULODE_ACCEPTED) return EXIT_FAILURE;
    number = run_blocks(&a.state, "trained", 0, TRAINING / N);
    if (number == TIGBULODE_ACCEPTED) number = run_blocks(&a.state, "decided", TRAINING / N, BLOCKS);
    return number == TIGBULODE_ACCEPTED && are_read() ? EXIT_SUCCESS : EXIT_FAILURE;
}
