/* Simulates every cable of a file that the second implementation made and compares: `cables FILE`. The number, every
 * byte of the trace, and what lies around it; a cable that is turned down leaves everything as it was. Each cable is
 * also compared with changed expectations, which must be told apart. Exit status 1: a difference, with its place; 2: no
 * such file, or one that breaks off. */
#include "records.h"
#include "tigbulode_laboratory.h"

enum {
    AROUND = 64,
    MOST_LENT = 1 << 19,
    FIXED = 20, /* bytes of a description before its response */
    NUMBERS = TIGBULODE_CABLE + 1
};

static const uint8_t numbers[] = {0, 1, 2, 10};

/* A cable as it is lent, what is expected, and what was answered. */
static struct {
    tigbulode_cable_description described;
    size_t trace_length;
    uint8_t number, answered;
} cable;

/* What is lent of the file; the trace with what is around it; and what each is to be after the call. */
static int16_t response[MOST_VALUES], response_after[MOST_VALUES];
static int8_t symbols[MOST_FILE], symbols_after[MOST_FILE];
static uint8_t room[AROUND + MOST_LENT + AROUND], room_after[AROUND + MOST_LENT + AROUND];

static unsigned counts[NUMBERS];

static void call(void) {
    const tigbulode_cable_description *d = &cable.described;
    memset(room, SENTINEL, cable.trace_length + 2 * AROUND);
    cable.answered = tigbulode_cable(d->p, d->q, d->n, d->r, d->l, d->step, d->response, d->response_length, d->symbols,
                                     d->symbols_length, d->training, room + AROUND, cable.trace_length);
}

static const char *differs(void) {
    const tigbulode_cable_description *d = &cable.described;
    if (cable.answered != cable.number) return "another answer";
    if (memcmp(room, room_after, cable.trace_length + 2 * AROUND) != 0) return "another trace, or what is around it";
    if (memcmp(response, response_after, d->response_length * sizeof *response) != 0) return "the response is changed";
    if (memcmp(symbols, symbols_after, d->symbols_length) != 0) return "the symbols are changed";
    return NULL;
}

static void try_other_bytes(size_t before) {
    const tigbulode_cable_description *d = &cable.described;
    try_some_bit(room_after, AROUND, 8 * before);
    try_some_bit(room_after + AROUND, cable.trace_length, 8 * 7919 * before);
    try_some_bit(room_after + AROUND + cable.trace_length, AROUND, 8 * before);
    try_some_bit(response_after, d->response_length * sizeof *response, 8 * before);
    try_some_bit(symbols_after, d->symbols_length, 8 * before);
}

/* The response and the symbols at a place of the file, to lend and to compare. */
static void take_lists(size_t place, size_t values, size_t count) {
    for (size_t i = 0; i < values; i++) response[i] = (int16_t)number_at(place + 2 * i, 2);
    memcpy(symbols, file + place + 2 * values, count);
    memcpy(response_after, response, values * sizeof *response);
    memcpy(symbols_after, symbols, count);
}

/* The cable at a place of the file: its description, the length of the trace, the number, and a trace after 0. Gives
 * the bytes of all that. */
static size_t take_cable(size_t place) {
    need(place, FIXED);
    const size_t values = number_at(place + 6, 2), count = number_at(place + 12, 4);
    cable.described = (tigbulode_cable_description){
        .p = file[place], .q = file[place + 1], .n = file[place + 2], .r = file[place + 3], .l = file[place + 4],
        .step = (uint32_t)number_at(place + 8, 4), .response = response, .response_length = values,
        .symbols = symbols, .symbols_length = count, .training = number_at(place + 16, 4)};
    const size_t end = FIXED + 2 * values + count;
    need(place, end + 5);
    take_lists(place + FIXED, values, count);
    cable.trace_length = number_at(place + end, 4);
    cable.number = file[place + end + 4];
    if (cable.trace_length > MOST_LENT) give_up("a trace longer than this program lends", "the file");
    memset(room_after, SENTINEL, cable.trace_length + 2 * AROUND);
    if (cable.number != TIGBULODE_ACCEPTED) return end + 5;
    need(place, end + 5 + cable.trace_length);
    memcpy(room_after + AROUND, file + place + end + 5, cable.trace_length);
    return end + 5 + cable.trace_length;
}

static const char *compare(size_t place, unsigned before, size_t *bytes) {
    *bytes = take_cable(place);
    if (cable.number >= NUMBERS) return "no number of a cable";
    call();
    const char *difference = differs();
    if (difference != NULL) return difference;
    try_numbers(&cable.number, numbers, sizeof numbers);
    try_other_bytes(before);
    counts[cable.number]++;
    return NULL;
}

int main(int argc, char **argv) {
    take_arguments(argc, argv, 1, "cables FILE: simulates every cable of a file such as target/vectors/cables.bin");
    read_file(argv[1]);
    const unsigned count = compare_records("cable");
    printf("cables %u: accepted %u, turned down %u\n", count, counts[0], count - counts[0]);
    print_answers(counts, NUMBERS);
    return end_of_program();
}
