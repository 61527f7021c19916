#define _XOPEN_SOURCE 700
#include "stack.h"

#include <string.h>
#include <ucontext.h>

#include "cables.h"
#include "channel.h"

#define SIZE 262144
#define PAINT 0xa5
#define N LONGEST_BLOCK

static unsigned char area[SIZE] __attribute__((aligned(64)));
static ucontext_t outside, inside;
static run_call *measured;
static cable_call *measured_cable;
static readings_call *measured_readings;
static cable longest;
static uint8_t room[CABLE_ROOM];
static tigbulode_equaliser state;
static channel_block block;
static int32_t y[N], z[N];
static uint8_t xi[N], theta[N], number;
static int8_t decision[N];
static tigbulode_reading readings[N];

static void run_once(void) {
    number = measured(&state, block.m, N, block.gains, N, block.sent, N, y, N, xi, N, decision, N, z, N, theta, N);
}

static uint8_t nothing(tigbulode_equaliser *s, const int16_t *m, size_t m_length, const uint8_t *gains,
                       size_t gains_length, const int8_t *entries, size_t entries_length, int32_t *y,
                       size_t y_length, uint8_t *xi, size_t xi_length, int8_t *decision,
                       size_t decision_length, int32_t *z, size_t z_length, uint8_t *theta,
                       size_t theta_length) {
    (void)s, (void)m, (void)m_length, (void)gains, (void)gains_length, (void)entries, (void)entries_length;
    (void)y, (void)y_length, (void)xi, (void)xi_length, (void)decision, (void)decision_length;
    (void)z, (void)z_length, (void)theta, (void)theta_length;
    return 0;
}

static void cable_once(void) { number = simulate(measured_cable, &longest, room); }

static uint8_t no_cable(uint8_t p, uint8_t q, uint8_t n, uint8_t r, uint8_t l, uint32_t step,
                        const int16_t *response, size_t response_length, const int8_t *symbols,
                        size_t symbols_length, size_t training, uint8_t *trace, size_t trace_length) {
    (void)p, (void)q, (void)n, (void)r, (void)l, (void)step, (void)response, (void)response_length;
    (void)symbols, (void)symbols_length, (void)training, (void)trace, (void)trace_length;
    return 0;
}

static void readings_once(void) { number = measured_readings(y, N, xi, N, z, N, theta, N, readings, N).number; }

static tigbulode_power no_readings(const int32_t *y, size_t y_length, const uint8_t *xi, size_t xi_length,
                                   const int32_t *z, size_t z_length, const uint8_t *theta, size_t theta_length,
                                   tigbulode_reading *readings, size_t readings_length) {
    (void)y, (void)y_length, (void)xi, (void)xi_length, (void)z, (void)z_length, (void)theta, (void)theta_length;
    (void)readings, (void)readings_length;
    return (tigbulode_power){0, 0, 0};
}

static size_t touched(void (*once)(void)) {
    memset(area, PAINT, SIZE);
    if (getcontext(&inside) != 0) return 0;
    inside.uc_stack.ss_sp = area, inside.uc_stack.ss_size = SIZE, inside.uc_link = &outside;
    makecontext(&inside, once, 0);
    if (swapcontext(&outside, &inside) != 0 || number != 0) return 0;
    size_t low = 0;
    while (low < SIZE && area[low] == PAINT) low++;
    return SIZE - low;
}

static size_t touched_by_run(run_call *run) {
    measured = run;
    return touched(run_once);
}

static size_t touched_by_cable(cable_call *call) {
    measured_cable = call;
    return touched(cable_once);
}

static size_t touched_by_readings(readings_call *call) {
    measured_readings = call;
    return touched(readings_once);
}

static size_t less(size_t with, size_t without) { return with > without ? with - without : 0; }

size_t stack_of(run_call *run) {
    channel c = {.r = 2, .l = 1};
    channel_next(&c, &block);
    state = tigbulode_set_up(16, 16, N, 2, 1, tigbulode_greatest_step(16, 16, 2, 1)).state;
    touched_by_run(run);
    return less(touched_by_run(run), touched_by_run(nothing));
}

size_t stack_of_cable(cable_call *call) {
    longest_cable(&longest);
    touched_by_cable(call);
    return less(touched_by_cable(call), touched_by_cable(no_cable));
}

size_t stack_of_readings(readings_call *call) {
    for (int i = 0; i < N; i++) y[i] = i * 1048576, z[i] = -i * 2097152, xi[i] = theta[i] = (uint8_t)(1 + i % 24);
    touched_by_readings(call);
    return less(touched_by_readings(call), touched_by_readings(no_readings));
}
