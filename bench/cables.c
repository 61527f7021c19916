#include "cables.h"

#include <string.h>

#include "../include/tigbulode.h"
#include "channel.h"

#define SHORT 200

static int16_t any_value(int limit) { return (int16_t)((int)any_below(2 * (uint32_t)limit) - limit); }

static void any_settings(cable *c) {
    c->p = (uint8_t)(1 + any_below(16)), c->q = (uint8_t)(1 + any_below(16));
    uint8_t least = c->p > 2 ? c->p - 1 : 1;
    c->n = (uint8_t)(any_below(4) ? least + any_below(4) : least + any_below(129u - least));
    c->r = (uint8_t)any_below(4);
    c->l = (uint8_t)(any_below(2) ? 0 : any_below(16));
    c->step = tigbulode_greatest_step(c->p, c->q, c->r, c->l);
    if (any_below(4) == 0) c->step = any_below(c->step + 1);
}

// Seldom as long as there is room.
static void any_symbols(cable *c) {
    uint32_t most = (any_below(64) ? SHORT : TIGBULODE_MOST_SYMBOLS) / c->n;
    c->symbols_length = c->n * (size_t)(1 + (most > 1 ? any_below(most) : 0));
    for (size_t i = 0; i < c->symbols_length; i++) c->symbols[i] = (int8_t)any_symbol(c->r);
    c->training = any_below((uint32_t)c->symbols_length + 1);
    c->trace_length = TIGBULODE_TRACE_LENGTH(c->symbols_length);
}

// Of a loudness at which the least gain is often just reached.
static void any_response(cable *c) {
    c->response_length = any_below(3) ? 1 + any_below(32) : any_below(2) ? 32 : 1;
    int limit = 32768 >> (any_below(4) ? (c->l < 15 ? c->l : 14) : any_below(15));
    for (size_t i = 0; i < c->response_length; i++)
        c->response[i] = any_value(1 + (int)(any_below((uint32_t)limit) / (1 + i)));
    if (any_below(8) == 0) c->response[0] = -32768;
}

static void spoil_settings(cable *c) {
    uint8_t *const sizes[5] = {&c->p, &c->q, &c->n, &c->r, &c->l};
    if (any_below(2))
        *sizes[any_below(5)] = (uint8_t)any_number();
    else
        c->step += any_below(2) ? 1 : any_number();
}

// Seldom something that is turned down, or stays acceptable by chance.
static void spoil(cable *c) {
    switch (any_below(32)) {
    case 0: c->response_length = any_below(2) ? 0 : 33; break;
    case 1: c->symbols_length += (size_t)any_below(4) - 1; break;
    case 2: c->symbols_length = any_below(3); break;
    case 3: c->training = c->symbols_length + any_below(3); break;
    case 4: c->trace_length += (size_t)any_below(3) - 1; break;
    case 5: c->symbols[any_below((uint32_t)c->symbols_length)] = (int8_t)any_number(); break;
    case 6: c->symbols[c->symbols_length - 1] = 0; break;
    case 7:
    case 8: spoil_settings(c); break;
    case 9: spoil_settings(c), c->response_length = 0; break;
    case 10:
        c->symbols_length = TIGBULODE_MOST_SYMBOLS + any_below(3);
        for (size_t i = 0; i < c->symbols_length; i++) c->symbols[i] = 1;
        c->training = 0, c->n = c->p = 1;
        c->trace_length = TIGBULODE_TRACE_LENGTH(any_below(2) ? c->symbols_length : TIGBULODE_MOST_SYMBOLS);
        break;
    default: break;
    }
}

// The lent bytes never reach the end of the room.
static void any_cable(cable *c) {
    memset(c, 0, sizeof *c);
    any_settings(c);
    any_symbols(c);
    any_response(c);
    spoil(c);
    if (c->symbols_length > sizeof c->symbols) c->symbols_length = sizeof c->symbols;
    if (c->trace_length > TIGBULODE_MOST_TRACE + AROUND) c->trace_length = TIGBULODE_MOST_TRACE + AROUND;
}

uint8_t simulate(cable_call *call, const cable *c, uint8_t room[CABLE_ROOM]) {
    return call(c->p, c->q, c->n, c->r, c->l, c->step, c->response, c->response_length, c->symbols,
                c->symbols_length, c->training, room + AROUND, c->trace_length);
}

uint8_t proved_simulation(const cable *c, uint8_t room[CABLE_ROOM]) { return simulate(tigbulode_cable, c, room); }
uint8_t careful_simulation(const cable *c, uint8_t room[CABLE_ROOM]) { return simulate(careful_cable, c, room); }
uint8_t native_simulation(const cable *c, uint8_t room[CABLE_ROOM]) { return simulate(careful_native_cable, c, room); }

int check_cables(simulation *other, unsigned calls, unsigned counts[11]) {
    static cable c;
    static uint8_t one[CABLE_ROOM], two[CABLE_ROOM];
    for (unsigned i = 0; i < calls; i++) {
        any_cable(&c);
        size_t length = c.trace_length + 2 * AROUND < CABLE_ROOM ? c.trace_length + 2 * AROUND : CABLE_ROOM;
        memset(one, 0x5a, length), memset(two, 0x5a, length);
        uint8_t number = proved_simulation(&c, one);
        if (number > TIGBULODE_CABLE || other(&c, two) != number) return 0;
        if (memcmp(one, two, length) != 0) return 0;
        counts[number]++;
    }
    return 1;
}

void longest_cable(cable *c) {
    memset(c, 0, sizeof *c);
    c->p = c->q = 2, c->n = 1, c->r = 2, c->l = 0;
    c->step = tigbulode_greatest_step(c->p, c->q, c->r, c->l);
    c->response_length = TIGBULODE_MOST_RESPONSE;
    c->response[0] = 9000, c->response[1] = -1500;
    for (int i = 2; i < TIGBULODE_MOST_RESPONSE; i++) c->response[i] = (int16_t)(c->response[i - 1] * -7 / 8);
    c->symbols_length = TIGBULODE_MOST_SYMBOLS;
    for (size_t i = 0; i < c->symbols_length; i++) c->symbols[i] = (int8_t)any_symbol(c->r);
    c->training = 1000;
    c->trace_length = TIGBULODE_TRACE_LENGTH(c->symbols_length);
}
