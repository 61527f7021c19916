/* Runs and tries every block of a file that the second implementation made and compares: `blocks FILE`. The number, the
 * state that follows, the record, the eight lists and what lies around them, and what saving an accepted state gives; a
 * block that is turned down leaves everything as it was, and a trial leaves the record. Each outcome is also compared
 * with changed expectations and with changed bytes of the file, which must be told apart. Exit status 1: a difference,
 * with its place; 2: no such file, or one that breaks off. */
#include "records.h"
#include "states.h"

enum {
    AROUND = 4, /* values on either side of a list */
    ROOM = AROUND + MOST_VALUES + AROUND,
    READ = 3,   /* lists of a block that are only read; the others are handed out */
    LISTS = 8,
    FIXED = RECORD_BYTES + 2 * LISTS, /* bytes before the lists */
    HANDED = 11,                      /* bytes that a sample hands out */
    NUMBERS = TIGBULODE_UNSOUND + 1
};

static const uint8_t numbers[NUMBERS] = {0, 1, 2, 3, 4, 5, 6, 7, 8, 9};

/* What a call reads and writes. */
typedef struct {
    int16_t samples[ROOM];
    uint8_t gains[ROOM];
    int8_t entries[ROOM];
    int32_t y[ROOM];
    uint8_t xi[ROOM];
    int8_t decision[ROOM];
    int32_t z[ROOM];
    uint8_t theta[ROOM];
} lists;

static const struct {
    const char *differs;
    size_t place, width; /* in bytes, of the list and of a value */
} each[LISTS] = {
    {"the samples are changed", offsetof(lists, samples), 2},
    {"the gains are changed", offsetof(lists, gains), 1},
    {"the entries are changed", offsetof(lists, entries), 1},
    {"another Y, or what is around them", offsetof(lists, y), 4},
    {"another xi, or what is around them", offsetof(lists, xi), 1},
    {"another decision, or what is around them", offsetof(lists, decision), 1},
    {"another Z, or what is around them", offsetof(lists, z), 4},
    {"another theta, or what is around them", offsetof(lists, theta), 1},
};

/* The lists as they are lent, and as they are to be after the call. */
static lists lent, after;

/* A block as it is lent, and what is expected. */
static struct {
    tigbulode_equaliser given;
    size_t lengths[LISTS];
    size_t place, expected, bytes; /* of the file: its lists, what is handed out, and the bytes of the whole record */
    uint8_t number;
    tigbulode_equaliser state, record;    /* the state that follows, and the record after the call */
    uint8_t image[TIGBULODE_IMAGE_BYTES]; /* of that state, where it is accepted */
    size_t image_length;
} block;

/* What the call left. */
static tigbulode_answer answer;
static tigbulode_equaliser record;

/* Blocks by their answers. */
static unsigned counts[NUMBERS];

/* A list with what is around it, and how many bytes that is. */
static uint8_t *around(lists *l, int k) { return (uint8_t *)l + each[k].place; }

static size_t room(int k) { return (block.lengths[k] + 2 * AROUND) * each[k].width; }

/* The value of a list at a place of the file, whose bytes are in the processor's order. */
static size_t take_value(lists *l, int k, size_t i, size_t place) {
    memcpy(around(l, k) + (AROUND + i) * each[k].width, file + place, each[k].width);
    return place + each[k].width;
}

/* The lists before the call. */
static void take_lists(lists *l) {
    size_t place = block.place;
    for (int k = 0; k < LISTS; k++) {
        memset(around(l, k), SENTINEL, room(k));
        for (size_t i = 0; k < READ && i < block.lengths[k]; i++) place = take_value(l, k, i, place);
    }
}

static void take_record(tigbulode_equaliser *s, size_t place) {
    for (size_t i = 0; i < RECORD_BYTES; i++) *record_byte(s, i) = file[place + i];
}

/* What an accepted block hands out, the state that follows, and its image. A file with a changed byte may tell more
 * taps than there are. */
static void expect_accepted(size_t place) {
    for (size_t i = 0; i < block.lengths[0]; i++)
        for (int k = READ; k < LISTS; k++) place = take_value(&after, k, i, place);
    take_record(&block.state, place);
    if (block.state.p + block.state.q <= TIGBULODE_SLOTS) block.image_length = write_image(block.state, block.image);
}

/* The block at a place of the file: the record, eight lengths, three lists, the number, and after 0 what each sample
 * hands out and the record after the block. */
static void take_block(size_t place, bool trial) {
    need(place, FIXED);
    take_record(&block.given, place);
    for (int k = 0; k < LISTS; k++) block.lengths[k] = number_at(place + RECORD_BYTES + 2 * k, 2);
    block.place = place + FIXED;
    block.expected = block.place + 2 * block.lengths[0] + block.lengths[1] + block.lengths[2] + 1;
    need(place, block.expected - place);
    block.number = file[block.expected - 1];
    const bool accepted = block.number == TIGBULODE_ACCEPTED;
    block.bytes = block.expected - place + (accepted ? HANDED * block.lengths[0] + RECORD_BYTES : 0);
    need(place, block.bytes);
    take_lists(&after);
    block.state = block.given;
    block.image_length = 0;
    if (accepted) expect_accepted(block.expected);
    block.record = trial ? block.given : block.state;
}

#define LENT(list, k) lent.list + AROUND, block.lengths[k]
#define ARGUMENTS                                                                                                      \
    LENT(samples, 0), LENT(gains, 1), LENT(entries, 2), LENT(y, 3), LENT(xi, 4), LENT(decision, 5), LENT(z, 6),        \
        LENT(theta, 7)

static void call(bool trial) {
    take_lists(&lent);
    record = block.given;
    if (trial) {
        answer = tigbulode_trial(&record, ARGUMENTS);
    } else {
        answer.number = tigbulode_run(&record, ARGUMENTS);
        answer.state = record;
    }
}

static const char *differs(void) {
    if (answer.number != block.number) return "another answer";
    if (!tigbulode_same_state(&answer.state, &block.state)) return "another state";
    if (!tigbulode_same_state(&record, &block.record)) return "another record";
    for (int k = 0; k < LISTS; k++)
        if (memcmp(around(&lent, k), around(&after, k), room(k)) != 0) return each[k].differs;
    return block.number == TIGBULODE_ACCEPTED ? saves_differ(&answer.state, block.image, block.image_length) : NULL;
}

static void try_other_expectations(void) {
    try_numbers(&block.number, numbers, sizeof numbers);
    for (size_t i = 0; i < RECORD_BYTES; i++) {
        try_bit(record_byte(&block.state, i), 0);
        try_bit(record_byte(&block.record, i), 0);
    }
    try_bytes(block.image, block.image_length);
    for (int k = 0; k < LISTS; k++) try_bytes(around(&after, k), room(k));
}

/* Each byte changed of what the file says of an accepted block. */
static void try_other_file(size_t place, bool trial) {
    for (size_t i = block.expected; i < place + block.bytes; i++) {
        file[i] ^= 1;
        take_block(place, trial);
        call(trial);
        count_change(differs() != NULL);
        file[i] ^= 1;
    }
}

static const char *compare(size_t place, unsigned before, size_t *bytes) {
    static char text[80];
    (void)before;
    for (int trial = 0; trial < 2; trial++) {
        take_block(place, trial);
        if (block.number >= NUMBERS) return "no number of a block";
        call(trial);
        const char *difference = differs();
        snprintf(text, sizeof text, "%s: %s", trial ? "tried" : "run", difference ? difference : "");
        if (difference != NULL) return text;
        try_other_expectations();
        try_other_file(place, trial);
    }
    counts[block.number]++;
    *bytes = block.bytes;
    return NULL;
}

int main(int argc, char **argv) {
    take_arguments(argc, argv, 1, "blocks FILE: runs and tries the blocks of a file such as target/vectors/blocks.bin");
    read_file(argv[1]);
    const unsigned count = compare_records("block");
    printf("blocks %u, run and tried: accepted %u, turned down %u\n", count, counts[0], count - counts[0]);
    print_answers(counts, NUMBERS);
    return end_of_program();
}
