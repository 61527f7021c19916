/* Tries what tigbulode_laboratory.h has in plain C beside its functions, against those. This file is C99, C11 and C++98
 * at once. Exit status 1: a difference, or a change that was not told apart. */
#include "expected.h"
#include "tigbulode_laboratory.h"

enum { FEW = 200, CABLES = 500, BLOCKS = 500, ROOM = TIGBULODE_MOST_TRACE + 16, MOST = TIGBULODE_MOST_READINGS };

static const int16_t quiet[TIGBULODE_MOST_RESPONSE + 1] = {100, -20, 3};
static int8_t ones[TIGBULODE_MOST_SYMBOLS + 1];
static uint8_t trace[ROOM], other[ROOM];

static void try_number_texts(void) {
    int number;
    for (number = 0; number <= 12; number++)
        printf("number %d: %s\n", number, tigbulode_laboratory_number_text((uint8_t)number));
}

/* Blocks of one sample over a quiet cable. */
static tigbulode_cable_description plain_cable(size_t values, size_t symbols) {
    tigbulode_cable_description c;
    memset(ones, 1, sizeof ones);
    memset(&c, 0, sizeof c);
    c.p = c.q = c.n = 1;
    c.response = quiet;
    c.response_length = values;
    c.symbols = ones;
    c.symbols_length = c.training = symbols;
    return c;
}

static int is_accepted(size_t values, size_t symbols, size_t trace_length) {
    const tigbulode_cable_description c = plain_cable(values, symbols);
    const uint8_t number = tigbulode_run_cable(&c, trace, trace_length);
    expect(number == TIGBULODE_ACCEPTED || number == TIGBULODE_CABLE, "number of a cable", number);
    return number == TIGBULODE_ACCEPTED;
}

static void try_trace_length(unsigned symbols) {
    const size_t length = TIGBULODE_TRACE_LENGTH(symbols);
    expect(is_accepted(3, symbols, length), "trace length", symbols);
    count_change(!is_accepted(3, symbols, length - 1));
    count_change(!is_accepted(3, symbols, length + 1));
}

static void try_trace_lengths(void) {
    const unsigned most = TIGBULODE_MOST_SYMBOLS;
    unsigned symbols;
    for (symbols = 1; symbols <= FEW; symbols++) try_trace_length(symbols);
    try_trace_length(most);
    expect(TIGBULODE_TRACE_LENGTH(most) == TIGBULODE_MOST_TRACE, "longest trace", 0);
    count_change(!is_accepted(3, most + 1, TIGBULODE_TRACE_LENGTH(most + 1)));
    printf("trace lengths: 1 to %d symbols, and %u\n", FEW, most);
}

static void try_response_lengths(void) {
    const unsigned most = TIGBULODE_MOST_RESPONSE;
    unsigned values;
    for (values = 0; values <= most + 1; values++) {
        const int within = values >= 1 && values <= most;
        expect(is_accepted(values, 1, TIGBULODE_TRACE_LENGTH(1)) == within, "response length", values);
    }
    printf("response lengths: 1 to %u accepted, 0 and %u turned down\n", most, most + 1);
}

static tigbulode_cable_description any_cable(uint32_t *random, int16_t *response, int8_t *symbols) {
    tigbulode_cable_description c;
    size_t i;
    c.p = (uint8_t)(1 + any_number(random) % 4);
    c.q = (uint8_t)(1 + any_number(random) % 16);
    c.n = (uint8_t)(3 + any_number(random) % 8);
    c.r = (uint8_t)(any_number(random) % 4);
    c.l = (uint8_t)(any_number(random) % 3);
    c.step = any_number(random) % 2000000;
    c.response = response;
    c.response_length = 1 + any_number(random) % TIGBULODE_MOST_RESPONSE;
    c.symbols = symbols;
    c.symbols_length = (size_t)c.n * (1 + any_number(random) % 8);
    c.training = any_number(random) % c.symbols_length;
    for (i = 0; i < c.response_length; i++) response[i] = (int16_t)((int32_t)(any_number(random) % 2048) - 1024);
    for (i = 0; i < c.symbols_length; i++)
        symbols[i] = (int8_t)(2 * (int32_t)(any_number(random) % (2u << c.r)) - ((2 << c.r) - 1));
    return c;
}

/* Whether run_cable leaves the same answer and bytes as the plain call on another description. */
static int same_run(const tigbulode_cable_description *c, const tigbulode_cable_description *d, size_t length) {
    uint8_t number;
    memset(trace, SENTINEL, length + 16);
    memset(other, SENTINEL, length + 16);
    number = tigbulode_cable(c->p, c->q, c->n, c->r, c->l, c->step, c->response, c->response_length, c->symbols,
                             c->symbols_length, c->training, trace, length);
    return tigbulode_run_cable(d, other, length) == number && memcmp(trace, other, length + 16) == 0;
}

/* Both calls, and where the cable is accepted one with another training and one with p and q exchanged. */
static unsigned try_cable(const tigbulode_cable_description *c, unsigned place) {
    tigbulode_cable_description more = *c, exchanged = *c;
    const size_t length = TIGBULODE_TRACE_LENGTH(c->symbols_length);
    expect(same_run(c, c, length), "both calls", place);
    expect(same_run(c, c, length - 1), "both calls with a short trace", place);
    if (tigbulode_run_cable(c, trace, length) != TIGBULODE_ACCEPTED) return 0;
    more.training++;
    count_change(!same_run(c, &more, length));
    exchanged.p = c->q;
    exchanged.q = c->p;
    if (c->p != c->q) count_change(!same_run(c, &exchanged, length));
    return 1;
}

static void try_cables(void) {
    int16_t response[TIGBULODE_MOST_RESPONSE];
    int8_t symbols[128];
    uint32_t random = 2026;
    unsigned i, accepted = 0;
    for (i = 0; i < CABLES; i++) {
        const tigbulode_cable_description c = any_cable(&random, response, symbols);
        accepted += try_cable(&c, i);
    }
    printf("cables: %u by both calls, %u accepted\n", i, accepted);
}

/* A cable without one of its three lists. */
static void try_left_out(void) {
    const size_t length = TIGBULODE_TRACE_LENGTH(2);
    unsigned list;
    for (list = 0; list < 3; list++) {
        tigbulode_cable_description c = plain_cable(3, 2);
        uint8_t bytes[TIGBULODE_TRACE_LENGTH(2)] = {0};
        if (list == 0) c.response = NULL;
        if (list == 1) c.symbols = NULL;
        expect(tigbulode_run_cable(&c, list == 2 ? NULL : bytes, length) == TIGBULODE_CABLE, "a list left out", list);
        expect(bytes[0] == 0 && bytes[length - 1] == 0, "what was lent without list", list);
        c.step = 0xFFFFFFFFu;
        expect(tigbulode_run_cable(&c, bytes, length) == TIGBULODE_STEP, "settings before list", list);
    }
    printf("lists left out: %u, each turned down with %d\n", list, TIGBULODE_CABLE);
}

/* What a block hands out, and two rooms for its readings. */
static int32_t y[MOST + 1], z[MOST + 1];
static uint8_t xi[MOST + 1], theta[MOST + 1];
static tigbulode_reading readings[MOST + 1], others[MOST + 1];

static tigbulode_outputs outputs_of(size_t length) {
    tigbulode_outputs o;
    o.length = length;
    o.y = y;
    o.xi = xi;
    o.z = z;
    o.theta = theta;
    o.readings = readings;
    return o;
}

/* The same with zeros to read. */
static tigbulode_outputs zeros_of(size_t length) {
    memset(xi, 1, sizeof xi);
    memset(theta, 1, sizeof theta);
    memset(y, 0, sizeof y);
    memset(z, 0, sizeof z);
    return outputs_of(length);
}

/* Whether a sample with this output and error can be read. */
static int is_read(int32_t big_y, int e, int32_t big_z, int f) {
    const tigbulode_outputs o = outputs_of(1);
    y[0] = big_y;
    xi[0] = (uint8_t)e;
    z[0] = big_z;
    theta[0] = (uint8_t)f;
    return tigbulode_readings_of(&o).number == TIGBULODE_ACCEPTED;
}

static void try_exponents(void) {
    const int least = TIGBULODE_LEAST_READING_EXPONENT, most = TIGBULODE_MOST_READING_EXPONENT;
    int e;
    for (e = 0; e <= 255; e++) {
        const int within = e >= least && e <= most;
        expect(is_read(1, e, 1, 1) == within, "xi", (unsigned)e);
        expect(is_read(1, 1, 1, e) == within, "theta", (unsigned)e);
    }
    printf("xi and theta: %d to %d accepted, the others to 255 turned down\n", least, most);
}

static void try_mantissas(void) {
    const int32_t most_y = TIGBULODE_MOST_Y, most_z = TIGBULODE_MOST_Z;
    expect(is_read(most_y, 24, most_z, 24), "positive mantissas", 0);
    expect(is_read(-most_y, 24, -most_z, 24), "negative mantissas", 0);
    count_change(!is_read(most_y + 1, 24, 0, 24));
    count_change(!is_read(-most_y - 1, 24, 0, 24));
    count_change(!is_read(0, 24, most_z + 1, 24));
    count_change(!is_read(0, 24, -most_z - 1, 24));
    printf("magnitudes: Y to %d, Z to %d\n", TIGBULODE_MOST_Y, TIGBULODE_MOST_Z);
}

static void try_reading_lengths(void) {
    unsigned length;
    for (length = 0; length <= MOST + 1; length++) {
        const tigbulode_outputs o = zeros_of(length);
        const int number = length >= 1 && length <= MOST ? TIGBULODE_ACCEPTED : TIGBULODE_READINGS;
        expect(tigbulode_readings_of(&o).number == number, "length", length);
    }
    printf("lengths of readings: 1 to %d accepted, 0 and %d turned down\n", MOST, MOST + 1);
}

/* Every fourth block has an exponent that can't be read. */
static tigbulode_outputs any_outputs(uint32_t *random) {
    const tigbulode_outputs o = outputs_of(1 + any_number(random) % MOST);
    size_t i;
    for (i = 0; i < o.length; i++) {
        y[i] = ((int32_t)(any_number(random) % 16777215) - 8388607) * 64;
        xi[i] = (uint8_t)(1 + any_number(random) % 24);
        z[i] = ((int32_t)(any_number(random) % 16777215) - 8388607) * 128;
        theta[i] = (uint8_t)(1 + any_number(random) % 24);
    }
    if (any_number(random) % 4 == 0) theta[any_number(random) % o.length] = 25;
    return o;
}

/* Whether readings_of leaves the same answer and readings as the plain call on other outputs. */
static int same_readings(const tigbulode_outputs *o, tigbulode_outputs p) {
    const size_t n = o->length;
    tigbulode_power one, two;
    memset(readings, SENTINEL, sizeof readings);
    memset(others, SENTINEL, sizeof others);
    p.readings = others;
    one = tigbulode_readings(o->y, n, o->xi, n, o->z, n, o->theta, n, readings, n);
    two = tigbulode_readings_of(&p);
    return one.number == two.number && one.is_floor == two.is_floor &&
           memcmp(&one.power, &two.power, sizeof one.power) == 0 && memcmp(readings, others, sizeof readings) == 0;
}

/* Both calls, and where the lists are accepted one with a sample less and one with Y and Z exchanged. */
static unsigned try_outputs(const tigbulode_outputs *o, unsigned place) {
    tigbulode_outputs fewer = *o, exchanged = *o;
    expect(same_readings(o, *o), "both calls of readings", place);
    if (tigbulode_readings_of(o).number != TIGBULODE_ACCEPTED) return 0;
    fewer.length--;
    count_change(!same_readings(o, fewer));
    exchanged.y = o->z;
    exchanged.z = o->y;
    count_change(!same_readings(o, exchanged));
    return 1;
}

static void try_blocks(void) {
    uint32_t random = 2026;
    unsigned i, accepted = 0;
    for (i = 0; i < BLOCKS; i++) {
        const tigbulode_outputs o = any_outputs(&random);
        accepted += try_outputs(&o, i);
    }
    printf("blocks: %u by both calls, %u accepted\n", i, accepted);
}

/* Readings without one of the five lists, and then with all of them. */
static void try_readings_left_out(void) {
    unsigned list;
    for (list = 0; list <= 5; list++) {
        tigbulode_outputs o = zeros_of(2);
        tigbulode_power p;
        memset(readings, SENTINEL, sizeof readings);
        memset(others, SENTINEL, sizeof others);
        if (list == 0) o.y = NULL;
        if (list == 1) o.xi = NULL;
        if (list == 2) o.z = NULL;
        if (list == 3) o.theta = NULL;
        if (list == 4) o.readings = NULL;
        p = tigbulode_readings_of(&o);
        expect(p.number == (list < 5 ? TIGBULODE_READINGS : TIGBULODE_ACCEPTED) && p.is_floor == 0, "left out", list);
        expect((memcmp(readings, others, sizeof readings) == 0) == (list < 5), "readings lent without list", list);
    }
    printf("lists of readings left out: 5, each turned down with %d\n", TIGBULODE_READINGS);
}

int main(int argc, char **argv) {
    static void (*const parts[])(void) = {
        try_number_texts, try_trace_lengths, try_response_lengths, try_cables, try_left_out,
        try_exponents,    try_mantissas,     try_reading_lengths,  try_blocks, try_readings_left_out,
    };
    size_t i;
    take_arguments(argc, argv, 0, "laboratory_interface, without arguments: tries the plain C of its header");
    try_version(TIGBULODE_LABORATORY_VERSION_MAJOR, TIGBULODE_LABORATORY_VERSION_MINOR, TIGBULODE_LABORATORY_VERSION);
    for (i = 0; i < sizeof parts / sizeof parts[0]; i++) parts[i]();
    return end_of_program();
}
