/* Runs and tries every block of a file that the second implementation made and compares: `blocks FILE`. The number, the
 * state that follows, the record, the eight lists and what lies around them, and what saving an accepted state gives; a
 * block that is turned down leaves everything as it was, and a trial leaves the record. Each outcome is also compared with
 * changed expectations and with changed bytes of the file, which must be told apart. Exit status 1: a difference, with its
 * place; 2: no such file, or one that breaks off. */
#include "saving.h"

enum {
    AROUND = 4, /* values on either side of a list */
    ROOM = AROUND + MOST_VALUES + AROUND,
    READ = 3,   /* lists of a block that are only read; the others are handed out */
    LISTS = 8,
    RECORD = sizeof(tigbulode_equaliser),
    FIXED = RECORD + 2 * LISTS, /* bytes before the lists */
    NUMBERS = TIGBULODE_UNSOUND + 1
};

/* What a call reads and writes. */
typedef struct {
    int16_t samples[ROOM];
    uint8_t gains[ROOM];
    int8_t entries[ROOM];
    int32_t y[ROOM];
    uint8_t xi[ROOM];
    int8_t decision[ROOM];
    int32_t z[ROOM];
    uint8_t theta[ROOM];
} lists;

static const struct {
    const char *differs;
    size_t place, width; /* in bytes, of the list and of a value */
} each[LISTS] = {
    {"the samples are changed", offsetof(lists, samples), 2},
    {"the gains are changed", offsetof(lists, gains), 1},
    {"the entries are changed", offsetof(lists, entries), 1},
    {"another Y, or what is around them", offsetof(lists, y), 4},
    {"another xi, or what is around them", offsetof(lists, xi), 1},
    {"another decision, or what is around them", offsetof(lists, decision), 1},
    {"another Z, or what is around them", offsetof(lists, z), 4},
    {"another theta, or what is around them", offsetof(lists, theta), 1},
};

/* A block as it is lent, and what is expected. */
typedef struct {
    tigbulode_equaliser given;
    size_t lengths[LISTS];
    size_t place;                         /* of its lists in the file */
    size_t expected, bytes;               /* of the file: before what is handed out, and of the whole record */
    uint8_t number;
    tigbulode_equaliser state, record;    /* the state that follows, and the record after the call */
    uint8_t image[TIGBULODE_IMAGE_BYTES]; /* of that state, where it is accepted */
    size_t image_length;
} block;

typedef struct {
    tigbulode_answer answer;
    tigbulode_equaliser record;
} outcome;

/* What is lent of the file, and what that is to be after the call. */
static lists lent, after;

/* A list with what is around it, and how many bytes that is. */
static uint8_t *around(lists *l, int k) { return (uint8_t *)l + each[k].place; }

static size_t room(const block *b, int k) { return (b->lengths[k] + 2 * AROUND) * each[k].width; }

/* The value of a list at a place of the file, whose bytes are in the processor's order. */
static size_t take_value(lists *l, int k, size_t i, size_t place) {
    memcpy(around(l, k) + (AROUND + i) * each[k].width, file + place, each[k].width);
    return place + each[k].width;
}

/* The lists before the call. */
static void take_lists(lists *l, const block *b) {
    size_t place = b->place;
    for (int k = 0; k < LISTS; k++) {
        memset(around(l, k), SENTINEL, room(b, k));
        for (size_t i = 0; k < READ && i < b->lengths[k]; i++) place = take_value(l, k, i, place);
    }
}

/* What an accepted block hands out, the state that follows, and its image. */
static void expect_accepted(block *b, size_t place) {
    for (size_t i = 0; i < b->lengths[0]; i++)
        for (int k = READ; k < LISTS; k++) place = take_value(&after, k, i, place);
    memcpy(&b->state, file + place, RECORD);
    const size_t taps = b->state.p + b->state.q, most = TIGBULODE_SLOTS, half = 2 * (taps < most ? taps : most);
    memcpy(b->image, &b->state, TIGBULODE_HEADER_BYTES + half);
    memcpy(b->image + TIGBULODE_HEADER_BYTES + half, b->state.past, half);
    b->image_length = TIGBULODE_HEADER_BYTES + 2 * half;
}

/* Bytes of what a sample hands out. */
static size_t handed(void) {
    size_t width = 0;
    for (int k = READ; k < LISTS; k++) width += each[k].width;
    return width;
}

/* The block at a place of the file: the record, eight lengths, three lists, the number, and after 0 what each sample hands
 * out and the record after the block. */
static block block_at(size_t place, bool trial) {
    block b = {.place = place + FIXED};
    need(place, FIXED);
    memcpy(&b.given, file + place, RECORD);
    for (int k = 0; k < LISTS; k++) b.lengths[k] = number_at(place + RECORD + 2 * k, 2);
    b.expected = FIXED + 2 * b.lengths[0] + b.lengths[1] + b.lengths[2] + 1;
    need(place, b.expected);
    b.number = file[place + b.expected - 1];
    const bool accepted = b.number == TIGBULODE_ACCEPTED;
    b.bytes = b.expected + (accepted ? handed() * b.lengths[0] + RECORD : 0);
    need(place, b.bytes);
    take_lists(&after, &b);
    b.state = b.given;
    if (accepted) expect_accepted(&b, place + b.expected);
    b.record = trial ? b.given : b.state;
    return b;
}

#define LENT(list, k) lent.list + AROUND, b->lengths[k]
#define ARGUMENTS                                                                                                      \
    LENT(samples, 0), LENT(gains, 1), LENT(entries, 2), LENT(y, 3), LENT(xi, 4), LENT(decision, 5), LENT(z, 6),        \
        LENT(theta, 7)

static outcome call(const block *b, bool trial) {
    outcome o = {.record = b->given};
    take_lists(&lent, b);
    if (trial) {
        o.answer = tigbulode_trial(&o.record, ARGUMENTS);
    } else {
        o.answer.number = tigbulode_run(&o.record, ARGUMENTS);
        o.answer.state = o.record;
    }
    return o;
}

/* What is wrong with the outcome of a call, or NULL. */
static const char *differs(const block *b, const outcome *o) {
    if (o->answer.number != b->number) return "another answer";
    if (memcmp(&o->answer.state, &b->state, RECORD) != 0) return "another state";
    if (memcmp(&o->record, &b->record, RECORD) != 0) return "another record";
    for (int k = 0; k < LISTS; k++)
        if (memcmp(around(&lent, k), around(&after, k), room(b, k)) != 0) return each[k].differs;
    return b->number == TIGBULODE_ACCEPTED ? saving_differs(&o->answer.state, b->image, b->image_length) : NULL;
}

/* Each byte changed of so many that are expected. */
static void try_other_bytes(const block *b, const outcome *o, void *bytes, size_t length) {
    for (uint8_t *byte = bytes; byte < (uint8_t *)bytes + length; byte++) {
        *byte ^= 1;
        count_tried(differs(b, o));
        *byte ^= 1;
    }
}

static void try_other_expectations(block *b, const outcome *o) {
    const uint8_t number = b->number;
    for (b->number = 0; b->number < NUMBERS; b->number++)
        if (b->number != number) count_tried(differs(b, o));
    b->number = number;
    try_other_bytes(b, o, &b->state, RECORD);
    try_other_bytes(b, o, &b->record, RECORD);
    try_other_bytes(b, o, b->image, b->image_length);
    for (int k = 0; k < LISTS; k++) try_other_bytes(b, o, around(&after, k), room(b, k));
}

/* Each byte changed of what the file says of an accepted block. */
static void try_other_file(const block *b, size_t place, bool trial) {
    for (size_t i = place + b->expected; i < place + b->bytes; i++) {
        file[i] ^= 1;
        const block other = block_at(place, trial);
        const outcome o = call(&other, trial);
        count_tried(differs(&other, &o));
        file[i] ^= 1;
    }
}

/* Blocks by their answers. */
static unsigned counts[NUMBERS];

static void print_counts(unsigned count) {
    printf("blocks %u, run and tried: accepted %u, turned down %u\n", count, counts[0], count - counts[0]);
    print_answers(counts, NUMBERS);
}

static const char *compare(size_t place, unsigned before, size_t *bytes) {
    static char text[80];
    (void)before;
    block b = block_at(place, false);
    if (b.number >= NUMBERS) return "no number of a block";
    for (int trial = 0; trial < 2; trial++) {
        b = block_at(place, trial);
        const outcome o = call(&b, trial);
        const char *difference = differs(&b, &o);
        if (difference != NULL) {
            snprintf(text, sizeof text, "%s: %s", trial ? "tried" : "run", difference);
            return text;
        }
        try_other_expectations(&b, &o);
        try_other_file(&b, place, trial);
    }
    counts[b.number]++;
    *bytes = b.bytes;
    return NULL;
}

int main(int argc, char **argv) {
    take_arguments(argc, argv, 1, "blocks FILE: runs and tries the blocks of a file such as firmware/blocks.bin, and compares");
    read_records("blocks", argv[1]);
    print_counts(compare_records("block", compare));
    return end_of_records(NULL);
}
