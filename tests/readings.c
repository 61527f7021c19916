/* Gives the readings of every block of a file that the second implementation made and compares: `readings FILE`. The
 * number, whether the power is a floor, every bit of the power and of each reading, what lies around the readings, and
 * the lists, which stay; lists that are turned down leave everything as it was, every bit of the NaNs that the readings
 * hold too. Each answer is also compared with changed expectations, which must be told apart. Exit status 1: a
 * difference, with its place; 2: no such file, or one that breaks off. */
#include "records.h"
#include "tigbulode_laboratory.h"

enum {
    AROUND = 4,   /* readings */
    LENGTHS = 10, /* bytes before the lists */
    QUIET = 51,   /* the bit of a double that tells a quiet NaN from a signalling one */
    SIGN = 63
};

/* What lent readings hold before a call: NaNs, quiet and signalling, of both signs, with the least, the largest and
 * other payloads. The proof knows only that a NaN is one, so their bits are compared here. */
static const uint64_t nans[] = {
    UINT64_C(0x7FF8000000000000), UINT64_C(0xFFF8000000000000), UINT64_C(0x7FF0000000000001),
    UINT64_C(0xFFF0000000000001), UINT64_C(0x7FF7FFFFFFFFFFFF), UINT64_C(0xFFF7FFFFFFFFFFFF),
    UINT64_C(0x7FFFFFFFFFFFFFFF), UINT64_C(0xFFFFFFFFFFFFFFFF), UINT64_C(0x7FF8000000000001),
    UINT64_C(0xFFFDEADBEEF00055), UINT64_C(0x7FF4000000000000),
};

/* What a call reads and writes, each list with room for its own length. */
typedef struct {
    int32_t y[MOST_VALUES], z[MOST_VALUES];
    uint8_t xi[MOST_VALUES], theta[MOST_VALUES];
    tigbulode_reading readings[AROUND + MOST_VALUES + AROUND];
} lists;

/* What is lent of the file, and what that is to be after the call. */
static lists lent, after;

/* The lengths of the lists, what is expected, and what was answered. */
static struct {
    size_t y, xi, z, theta, readings;
    tigbulode_power expected, answered;
} block;

/* Blocks that were accepted, those of them with a floor, their readings, and the zeros among these; the NaNs that were
 * lent to the others. */
static struct {
    unsigned accepted, floors, readings, zero_y, zero_error, nans;
} counts;

static size_t room(void) { return (block.readings + 2 * AROUND) * sizeof *lent.readings; }

/* The readings and what is around them, byte by byte: no NaN goes through a register of floats. */
static void hold_nans(lists *l) {
    for (size_t i = 0; i < room(); i++) ((uint8_t *)l->readings)[i] = ((const uint8_t *)nans)[i % sizeof nans];
}

static void call(void) {
    hold_nans(&lent);
    block.answered = tigbulode_readings(lent.y, block.y, lent.xi, block.xi, lent.z, block.z, lent.theta, block.theta,
                                        lent.readings + AROUND, block.readings);
}

static const char *differs(void) {
    const tigbulode_power *answered = &block.answered, *expected = &block.expected;
    if (answered->number != expected->number) return "another answer";
    if (answered->is_floor != expected->is_floor) return "a floor for a mean, or a mean for a floor";
    if (memcmp(&answered->power, &expected->power, sizeof answered->power) != 0) return "another power";
    if (memcmp(lent.readings, after.readings, room()) != 0) return "another reading, or what is around them";
    if (memcmp(lent.y, after.y, block.y * sizeof *lent.y) != 0) return "Y is changed";
    if (memcmp(lent.xi, after.xi, block.xi) != 0) return "xi is changed";
    if (memcmp(lent.z, after.z, block.z * sizeof *lent.z) != 0) return "Z is changed";
    if (memcmp(lent.theta, after.theta, block.theta) != 0) return "theta is changed";
    return NULL;
}

static void try_other_answers(size_t before) {
    static const uint8_t numbers[] = {TIGBULODE_ACCEPTED, TIGBULODE_READINGS};
    try_numbers(&block.expected.number, numbers, sizeof numbers);
    try_bit(&block.expected.is_floor, 0);
    try_some_bit(&block.expected.power, sizeof block.expected.power, before);
    try_bit(&block.expected.power, SIGN);
}

/* A bit of what is around the readings, of the readings, the sign of one number of them and the bit by which a NaN is
 * quiet, and a bit of each list. */
static void try_other_lists(size_t before) {
    const size_t around = AROUND * sizeof *after.readings, bytes = block.readings * sizeof *after.readings;
    tigbulode_reading *first = after.readings + AROUND;
    try_some_bit(after.readings, around, before);
    try_some_bit(first, bytes, 7919 * before);
    try_some_bit(first, bytes, 64 * before + SIGN);
    try_some_bit(first, bytes, 64 * before + QUIET);
    try_some_bit(first + block.readings, around, before);
    try_some_bit(after.y, block.y * sizeof *after.y, before);
    try_some_bit(after.xi, block.xi, before);
    try_some_bit(after.z, block.z * sizeof *after.z, before);
    try_some_bit(after.theta, block.theta, before);
}

static double double_at(size_t place) {
    const uint64_t bits = number_at(place, 8);
    double number;
    memcpy(&number, &bits, sizeof number);
    return number;
}

/* So many bytes of the file, which are in the processor's order. */
static size_t take(void *list, size_t bytes, size_t place) {
    memcpy(list, file + place, bytes);
    return place + bytes;
}

/* The four lists at a place of the file, to lend or to compare. */
static void take_lists(lists *l, size_t place) {
    place = take(l->y, block.y * sizeof *l->y, place);
    place = take(l->xi, block.xi, place);
    place = take(l->z, block.z * sizeof *l->z, place);
    take(l->theta, block.theta, place);
}

/* The block at a place of the file: five lengths, four lists, the number, and after 0 whether it is a floor, the power
 * and the readings. Gives the bytes of all that. */
static size_t take_block(size_t place) {
    need(place, LENGTHS);
    block.y = number_at(place, 2);
    block.xi = number_at(place + 2, 2);
    block.z = number_at(place + 4, 2);
    block.theta = number_at(place + 6, 2);
    block.readings = number_at(place + 8, 2);
    const size_t end = LENGTHS + 4 * block.y + block.xi + 4 * block.z + block.theta;
    need(place, end + 1);
    take_lists(&lent, place + LENGTHS);
    take_lists(&after, place + LENGTHS);
    hold_nans(&after);
    block.expected = (tigbulode_power){file[place + end], 0, 0};
    if (block.expected.number != TIGBULODE_ACCEPTED) return end + 1;
    const size_t bytes = end + 10 + 16 * block.readings;
    need(place, bytes);
    block.expected.is_floor = file[place + end + 1];
    block.expected.power = double_at(place + end + 2);
    take(after.readings + AROUND, 16 * block.readings, place + end + 10);
    return bytes;
}

static void count(void) {
    if (block.expected.number != TIGBULODE_ACCEPTED) {
        counts.nans += 2 * (unsigned)block.readings;
        return;
    }
    counts.accepted++;
    counts.floors += block.expected.is_floor;
    counts.readings += (unsigned)block.readings;
    for (size_t i = 0; i < block.readings; i++) {
        counts.zero_y += lent.readings[AROUND + i].y == 0;
        counts.zero_error += lent.readings[AROUND + i].error == 0;
    }
}

static void print_counts(unsigned blocks) {
    printf("blocks %u: accepted %u, turned down %u\n", blocks, counts.accepted, blocks - counts.accepted);
    printf("means %u, floors %u\n", counts.accepted - counts.floors, counts.floors);
    printf("readings %u: zero in y %u, in the error %u\n", counts.readings, counts.zero_y, counts.zero_error);
    printf("NaNs lent to blocks that were turned down: %u, every bit as it was\n", counts.nans);
}

static const char *compare(size_t place, unsigned before, size_t *bytes) {
    *bytes = take_block(place);
    if (block.expected.number != TIGBULODE_ACCEPTED && block.expected.number != TIGBULODE_READINGS)
        return "no number of readings";
    call();
    const char *difference = differs();
    if (difference != NULL) return difference;
    try_other_answers(before);
    try_other_lists(before);
    count();
    return NULL;
}

int main(int argc, char **argv) {
    take_arguments(argc, argv, 1, "readings FILE: the readings of a file such as target/vectors/readings.bin");
    read_file(argv[1]);
    print_counts(compare_records("block"));
    return end_of_program();
}
