/* Gives the readings of every block of a file that the second implementation made and compares: `readings FILE`. The number,
 * whether the power is a floor, every bit of the power and of each reading, what lies around the readings, and the lists,
 * which stay; lists that are turned down leave everything as it was, every bit of the NaNs that the readings hold too. Each
 * answer is also compared with changed expectations, which must be told apart. Exit status 1: a difference, with its place;
 * 2: no such file, or one that breaks off. */
#include "records.h"
#include "tigbulode_laboratory.h"

#include <stdbool.h>

enum {
    AROUND = 4,   /* readings */
    LENGTHS = 10, /* bytes before the lists */
    QUIET = 51,   /* the bit of a double that tells a quiet NaN from a signalling one */
    SIGN = 63
};

/* What lent readings hold before a call: NaNs, quiet and signalling, of both signs, with the least, the largest and other
 * payloads. The proof knows only that a NaN is one, so their bits are compared here. */
static const uint64_t nans[] = {
    UINT64_C(0x7FF8000000000000), UINT64_C(0xFFF8000000000000), UINT64_C(0x7FF0000000000001), UINT64_C(0xFFF0000000000001),
    UINT64_C(0x7FF7FFFFFFFFFFFF), UINT64_C(0xFFF7FFFFFFFFFFFF), UINT64_C(0x7FFFFFFFFFFFFFFF), UINT64_C(0xFFFFFFFFFFFFFFFF),
    UINT64_C(0x7FF8000000000001), UINT64_C(0xFFFDEADBEEF00055), UINT64_C(0x7FF4000000000000),
};

/* What a call reads and writes, each list with room for its own length. */
typedef struct {
    int32_t y[MOST_VALUES], z[MOST_VALUES];
    uint8_t xi[MOST_VALUES], theta[MOST_VALUES];
    tigbulode_reading readings[AROUND + MOST_VALUES + AROUND];
} lists;

/* The lengths of the lists, and what is expected. */
typedef struct {
    size_t y, xi, z, theta, readings;
    size_t bytes; /* of the whole record in the file */
    tigbulode_power answer;
} block;

/* What is lent of the file, and what that is to be after the call. */
static lists lent, after;

/* The readings and what is around them, byte by byte: no NaN goes through a register of floats. */
static void hold_nans(lists *l, const block *b) {
    const size_t bytes = (b->readings + 2 * AROUND) * sizeof *l->readings;
    for (size_t i = 0; i < bytes; i++) ((uint8_t *)l->readings)[i] = ((const uint8_t *)nans)[i % sizeof nans];
}

static tigbulode_power call(const block *b) {
    hold_nans(&lent, b);
    return tigbulode_readings(lent.y, b->y, lent.xi, b->xi, lent.z, b->z, lent.theta, b->theta,
                              lent.readings + AROUND, b->readings);
}

/* What is wrong with the outcome of a call, or NULL. */
static const char *differs(const block *b, tigbulode_power answer) {
    if (answer.number != b->answer.number) return "another answer";
    if (answer.is_floor != b->answer.is_floor) return "a floor for a mean, or a mean for a floor";
    if (memcmp(&answer.power, &b->answer.power, sizeof answer.power) != 0) return "another power";
    if (memcmp(lent.readings, after.readings, (b->readings + 2 * AROUND) * sizeof *lent.readings) != 0)
        return "another reading, or what is around them";
    if (memcmp(lent.y, after.y, b->y * sizeof *lent.y) != 0) return "Y is changed";
    if (memcmp(lent.xi, after.xi, b->xi) != 0) return "xi is changed";
    if (memcmp(lent.z, after.z, b->z * sizeof *lent.z) != 0) return "Z is changed";
    if (memcmp(lent.theta, after.theta, b->theta) != 0) return "theta is changed";
    return NULL;
}

static void try_changed(const block *b, tigbulode_power answer) {
    count_tried(differs(b, answer));
}

/* One bit changed of so many bytes. */
static void try_other_bit(const block *b, tigbulode_power answer, void *bytes, size_t length, size_t bit) {
    if (length == 0) return;
    uint8_t *byte = (uint8_t *)bytes + bit / 8 % length;
    *byte ^= (uint8_t)(1 << bit % 8);
    try_changed(b, answer);
    *byte ^= (uint8_t)(1 << bit % 8);
}

static void try_other_answers(block b, tigbulode_power answer, size_t place) {
    b.answer.number ^= TIGBULODE_READINGS;
    try_changed(&b, answer);
    b.answer.number ^= TIGBULODE_READINGS;
    b.answer.is_floor ^= 1;
    try_changed(&b, answer);
    b.answer.is_floor ^= 1;
    try_other_bit(&b, answer, &b.answer.power, sizeof b.answer.power, place);
    try_other_bit(&b, answer, &b.answer.power, sizeof b.answer.power, SIGN);
}

/* A bit of what is around the readings, of the readings, the sign of one number of them and the bit by which a NaN is quiet,
 * and a bit of each list. */
static void try_other_lists(const block *b, tigbulode_power answer, size_t place) {
    const size_t around = AROUND * sizeof *after.readings, bytes = b->readings * sizeof *after.readings;
    tigbulode_reading *first = after.readings + AROUND;
    try_other_bit(b, answer, after.readings, around, place);
    try_other_bit(b, answer, first, bytes, 7919 * place);
    try_other_bit(b, answer, first, bytes, 64 * place + SIGN);
    try_other_bit(b, answer, first, bytes, 64 * place + QUIET);
    try_other_bit(b, answer, first + b->readings, around, place);
    try_other_bit(b, answer, after.y, b->y * sizeof *after.y, place);
    try_other_bit(b, answer, after.xi, b->xi, place);
    try_other_bit(b, answer, after.z, b->z * sizeof *after.z, place);
    try_other_bit(b, answer, after.theta, b->theta, place);
}

static double double_at(size_t place) {
    const uint64_t bits = number_at(place, 8);
    double number;
    memcpy(&number, &bits, sizeof number);
    return number;
}

static size_t take_mantissas(int32_t *list, size_t length, size_t place) {
    for (size_t i = 0; i < length; i++) list[i] = (int32_t)number_at(place + 4 * i, 4);
    return place + 4 * length;
}

static size_t take_exponents(uint8_t *list, size_t length, size_t place) {
    memcpy(list, file + place, length);
    return place + length;
}

/* The four lists at a place of the file, to lend or to compare. */
static void take_lists(lists *l, const block *b, size_t place) {
    place = take_mantissas(l->y, b->y, place);
    place = take_exponents(l->xi, b->xi, place);
    place = take_mantissas(l->z, b->z, place);
    take_exponents(l->theta, b->theta, place);
}

/* What the readings hold after the call: those at a place of the file, or what they held. */
static void expect_readings(const block *b, size_t place) {
    hold_nans(&after, b);
    if (b->answer.number != TIGBULODE_LABORATORY_ACCEPTED) return;
    for (size_t i = 0; i < b->readings; i++, place += 16) {
        after.readings[AROUND + i].y = double_at(place);
        after.readings[AROUND + i].error = double_at(place + 8);
    }
}

/* The block at a place of the file: five lengths, four lists, the number, and after 0 whether it is a floor, the power and the
 * readings. */
static block block_at(size_t place) {
    block b = {0};
    need(place, LENGTHS);
    b.y = number_at(place, 2), b.xi = number_at(place + 2, 2), b.z = number_at(place + 4, 2);
    b.theta = number_at(place + 6, 2), b.readings = number_at(place + 8, 2);
    const size_t end = LENGTHS + 4 * b.y + b.xi + 4 * b.z + b.theta;
    need(place, end + 1);
    take_lists(&lent, &b, place + LENGTHS);
    take_lists(&after, &b, place + LENGTHS);
    b.answer.number = file[place + end];
    const bool accepted = b.answer.number == TIGBULODE_LABORATORY_ACCEPTED;
    b.bytes = end + 1 + (accepted ? 9 + 16 * b.readings : 0);
    need(place, b.bytes);
    if (accepted) b.answer.is_floor = file[place + end + 1], b.answer.power = double_at(place + end + 2);
    expect_readings(&b, place + end + 10);
    return b;
}

/* Blocks that were accepted, those of them with a floor, their readings, and the zeros among these; the NaNs that were lent
 * to the others. */
static struct {
    unsigned accepted, floors, readings, zero_y, zero_error, nans;
} counts;

static void count(const block *b) {
    if (b->answer.number != TIGBULODE_LABORATORY_ACCEPTED) {
        counts.nans += 2 * (unsigned)b->readings;
        return;
    }
    counts.accepted++;
    counts.floors += b->answer.is_floor;
    counts.readings += (unsigned)b->readings;
    for (size_t i = 0; i < b->readings; i++) {
        counts.zero_y += lent.readings[AROUND + i].y == 0;
        counts.zero_error += lent.readings[AROUND + i].error == 0;
    }
}

static void print_counts(unsigned blocks) {
    printf("blocks %u: accepted %u, turned down %u\n", blocks, counts.accepted, blocks - counts.accepted);
    printf("means %u, floors %u\n", counts.accepted - counts.floors, counts.floors);
    printf("readings %u: zero in y %u, in the error %u\n", counts.readings, counts.zero_y, counts.zero_error);
    printf("NaNs lent to blocks that were turned down: %u, every bit as it was\n", counts.nans);
}

static const char *compare(size_t place, unsigned before, size_t *bytes) {
    const block b = block_at(place);
    if (b.answer.number != TIGBULODE_LABORATORY_ACCEPTED && b.answer.number != TIGBULODE_READINGS)
        return "no number of readings";
    const tigbulode_power answer = call(&b);
    const char *difference = differs(&b, answer);
    if (difference != NULL) return difference;
    try_other_answers(b, answer, before);
    try_other_lists(&b, answer, before);
    count(&b);
    *bytes = b.bytes;
    return NULL;
}

int main(int argc, char **argv) {
    take_arguments(argc, argv, 1, "readings FILE: the readings of every block of a file such as laboratory/readings.bin");
    read_records("readings", argv[1]);
    print_counts(compare_records("block", compare));
    return end_of_records(NULL);
}
