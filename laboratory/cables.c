/* Simulates every cable of a file that the second implementation made and compares: `cables FILE`. The number, every byte
 * of the trace, and what lies around it; a cable that is turned down leaves everything as it was. Each cable is also
 * compared with changed expectations, which must be told apart. Exit status 1: a difference, with its place; 2: no such
 * file, or one that breaks off. */
#include "records.h"
#include "tigbulode_laboratory.h"

enum {
    AROUND = 64,
    MOST_LENT = 1 << 19,
    FIXED = 20, /* bytes of a description before its response */
    NUMBERS = TIGBULODE_CABLE + 1
};

/* A cable as it is lent, and what is expected. */
typedef struct {
    tigbulode_cable_description described;
    size_t bytes; /* of the whole record in the file */
    size_t trace_length;
    uint8_t number;
} cable;

/* What is lent of the file; the trace with what is around it; and what each is to be after the call. */
static int16_t response[MOST_VALUES], response_after[MOST_VALUES];
static int8_t symbols[MOST_FILE], symbols_after[MOST_FILE];
static uint8_t room[AROUND + MOST_LENT + AROUND], room_after[AROUND + MOST_LENT + AROUND];

static uint8_t call(const cable *c) {
    const tigbulode_cable_description *d = &c->described;
    memset(room, SENTINEL, c->trace_length + 2 * AROUND);
    return tigbulode_cable(d->p, d->q, d->n, d->r, d->l, d->step, d->response, d->response_length, d->symbols,
                           d->symbols_length, d->training, room + AROUND, c->trace_length);
}

/* What is wrong with the outcome of a call, or NULL. */
static const char *differs(const cable *c, uint8_t number) {
    const tigbulode_cable_description *d = &c->described;
    if (number != c->number) return "another answer";
    if (memcmp(room, room_after, c->trace_length + 2 * AROUND) != 0) return "another trace, or what is around it";
    if (memcmp(response, response_after, d->response_length * sizeof *response) != 0) return "the response is changed";
    if (memcmp(symbols, symbols_after, d->symbols_length) != 0) return "the symbols are changed";
    return NULL;
}

static void try_changed(const cable *c, uint8_t number) {
    count_tried(differs(c, number));
}

static void try_other_numbers(cable c, uint8_t number) {
    static const uint8_t numbers[] = {0, 1, 2, 10};
    for (size_t k = 0; k < sizeof numbers; k++) {
        c.number = numbers[k];
        if (c.number != number) try_changed(&c, number);
    }
}

/* One bit changed of a list of bytes. */
static void try_other_byte(const cable *c, uint8_t number, void *after, size_t length, size_t place) {
    if (length == 0) return;
    uint8_t *byte = (uint8_t *)after + place % length;
    *byte ^= 1;
    try_changed(c, number);
    *byte ^= 1;
}

static void try_other_bytes(const cable *c, uint8_t number, size_t place) {
    const tigbulode_cable_description *d = &c->described;
    try_other_byte(c, number, room_after, AROUND, place);
    try_other_byte(c, number, room_after + AROUND, c->trace_length, 7919 * place);
    try_other_byte(c, number, room_after + AROUND + c->trace_length, AROUND, place);
    try_other_byte(c, number, response_after, d->response_length * sizeof *response, place);
    try_other_byte(c, number, symbols_after, d->symbols_length, place);
}

/* The response and the symbols at a place of the file, to lend and to compare. */
static void take_lists(size_t place, size_t values, size_t count) {
    for (size_t i = 0; i < values; i++) response[i] = (int16_t)number_at(place + 2 * i, 2);
    memcpy(symbols, file + place + 2 * values, count);
    memcpy(response_after, response, values * sizeof *response);
    memcpy(symbols_after, symbols, count);
}

/* What the room holds after the call: the trace where there is one, and otherwise what it held. */
static void expect_room(const cable *c, const uint8_t *trace) {
    memset(room_after, SENTINEL, c->trace_length + 2 * AROUND);
    if (c->number == TIGBULODE_LABORATORY_ACCEPTED) memcpy(room_after + AROUND, trace, c->trace_length);
}

/* The cable at a place of the file: its description, the length of the trace, the number, and a trace after 0. */
static cable cable_at(size_t place) {
    cable c = {0};
    need(place, FIXED);
    const size_t values = number_at(place + 6, 2), count = number_at(place + 12, 4);
    c.described = (tigbulode_cable_description){
        .p = file[place], .q = file[place + 1], .n = file[place + 2], .r = file[place + 3], .l = file[place + 4],
        .step = (uint32_t)number_at(place + 8, 4), .response = response, .response_length = values,
        .symbols = symbols, .symbols_length = count, .training = number_at(place + 16, 4)};
    const size_t end = FIXED + 2 * values + count;
    need(place, end + 5);
    take_lists(place + FIXED, values, count);
    c.trace_length = number_at(place + end, 4);
    c.number = file[place + end + 4];
    c.bytes = end + 5 + (c.number == TIGBULODE_LABORATORY_ACCEPTED ? c.trace_length : 0);
    need(place, c.bytes);
    if (c.trace_length <= MOST_LENT) expect_room(&c, file + place + end + 5);
    return c;
}

/* Cables by their answers. */
static unsigned counts[NUMBERS];

static void print_counts(unsigned count) {
    printf("cables %u: accepted %u, turned down %u\n", count, counts[0], count - counts[0]);
    print_answers(counts, NUMBERS);
}

static const char *compare(size_t place, unsigned before, size_t *bytes) {
    const cable c = cable_at(place);
    if (c.number >= NUMBERS) return "no number of a cable";
    if (c.trace_length > MOST_LENT) return "a trace longer than this program lends";
    const uint8_t number = call(&c);
    const char *difference = differs(&c, number);
    if (difference != NULL) return difference;
    try_other_numbers(c, number);
    try_other_bytes(&c, number, before);
    counts[c.number]++;
    *bytes = c.bytes;
    return NULL;
}

int main(int argc, char **argv) {
    take_arguments(argc, argv, 1, "cables FILE: simulates every cable of a file such as laboratory/cables.bin, and compares");
    read_records("cables", argv[1]);
    print_counts(compare_records("cable", compare));
    return end_of_records(NULL);
}
