/* Tries what tigbulode.h has in plain C beside the five functions, against these: `interface`. This file is C99, C11 and
 * C++98 at once. Exit status 1: a difference, or a change that was not told apart. */
#include "arguments.h"
#include "expected.h"
#include "tigbulode.h"

enum { LONGEST = TIGBULODE_MOST_BLOCK, N = 16, BLOCKS = 32, RECORD = sizeof(tigbulode_equaliser) };
enum { SENTINEL = 0x55, ROOM = TIGBULODE_IMAGE_BYTES + 1 };

/* One more than the limit of each size, and all sizes up to there. */
enum {
    TAPS = TIGBULODE_MOST_TAPS + 2,
    RS = TIGBULODE_MOST_R + 2,
    GAINS = TIGBULODE_MOST_GAIN + 2,
    ALL_SIZES = TAPS * TAPS * RS * GAINS
};

typedef struct {
    uint8_t p, q, r, l;
} sizes;

/* What a block reads, and what it hands out. */
typedef struct {
    int16_t samples[N];
    uint8_t gains[N];
    int8_t entries[N];
} block;

typedef struct {
    int32_t y[N], z[N];
    uint8_t xi[N], theta[N];
    int8_t decision[N];
} outputs;

static void try_number_texts(void) {
    int number;
    for (number = 0; number <= 10; number++) printf("number %d: %s\n", number, tigbulode_number_text((uint8_t)number));
}

static uint8_t answer_of(sizes s, uint32_t step) { return tigbulode_set_up(s.p, s.q, LONGEST, s.r, s.l, step).number; }

static int is_greatest(sizes s, uint32_t step) {
    return answer_of(s, step) == TIGBULODE_ACCEPTED && answer_of(s, step + 1) == TIGBULODE_STEP;
}

/* The greatest step with these sizes, or 0; gives whether they are within the limits. */
static unsigned try_greatest_step(sizes s, unsigned place) {
    const uint32_t greatest = tigbulode_greatest_step(s.p, s.q, s.r, s.l);
    const uint8_t number = answer_of(s, 0);
    if (number != TIGBULODE_ACCEPTED) {
        expect(number == TIGBULODE_SIZES && greatest == 0, "sizes outside the limits", place);
        return 0;
    }
    expect(is_greatest(s, greatest), "greatest step", place);
    try_changed(is_greatest(s, greatest - 1));
    try_changed(is_greatest(s, greatest + 1));
    return 1;
}

static sizes sizes_of(unsigned number) {
    sizes s;
    s.p = (uint8_t)(number % TAPS);
    s.q = (uint8_t)(number / TAPS % TAPS);
    s.r = (uint8_t)(number / (TAPS * TAPS) % RS);
    s.l = (uint8_t)(number / (TAPS * TAPS * RS));
    return s;
}

static void try_greatest_steps(void) {
    unsigned number, within = 0;
    for (number = 0; number < ALL_SIZES; number++) within += try_greatest_step(sizes_of(number), number);
    printf("greatest step: %u sizes within the limits, %u outside\n", within, ALL_SIZES - within);
}

/* Each size from 0 to 255, the others being 1. */
static void try_any_size(void) {
    unsigned i, within = 0;
    for (i = 0; i < 4 * 256; i++) {
        sizes s = {1, 1, 1, 1};
        uint8_t *const each[4] = {&s.p, &s.q, &s.r, &s.l};
        *each[i / 256] = (uint8_t)(i % 256);
        within += try_greatest_step(s, i);
    }
    printf("greatest step, one size of any value: %u within the limits, %u outside\n", within, 4 * 256 - within);
}

static void try_image_lengths(void) {
    uint8_t image[TIGBULODE_IMAGE_LENGTH(TIGBULODE_MOST_TAPS, TIGBULODE_MOST_TAPS)];
    unsigned i;
    expect(sizeof image == TIGBULODE_IMAGE_BYTES, "longest image", 0);
    for (i = 0; i < 256; i++) {
        const unsigned p = 1 + i / 16, q = 1 + i % 16;
        const tigbulode_answer a = tigbulode_set_up((uint8_t)p, (uint8_t)q, LONGEST, 0, 0, 0);
        const tigbulode_saved saved = tigbulode_save(&a.state, image, sizeof image);
        expect(saved.number == TIGBULODE_ACCEPTED && saved.length == TIGBULODE_IMAGE_LENGTH(p, q), "image length", i);
        try_changed(saved.length == TIGBULODE_IMAGE_LENGTH(p, q + 1));
    }
    printf("image lengths: %u\n", i);
}

static int same_state(const tigbulode_equaliser *s, const tigbulode_equaliser *t) { return memcmp(s, t, sizeof *s) == 0; }

/* A sound state with something in each of its places. */
static tigbulode_equaliser any_state(unsigned p, unsigned q) {
    const uint32_t step = tigbulode_greatest_step((uint8_t)p, (uint8_t)q, 3, 0);
    tigbulode_equaliser s = tigbulode_set_up((uint8_t)p, (uint8_t)q, LONGEST, 3, 0, step).state;
    unsigned i;
    s.psi = 7, s.b = 29, s.bmax = 30;
    for (i = 0; i < p + q; i++) s.weights[i] = (int16_t)(1001 * (int)i - 16383);
    for (i = 0; i + 1 < p; i++) s.past[i] = (int16_t)(33 * (int)i - 255);
    for (i = 0; i < q; i++) s.past[p + i] = (int16_t)(15 - 2 * (int)i);
    return s;
}

static uint8_t byte_of(uint32_t word, int place) { return (uint8_t)(word >> (8 * place) & 0xFF); }

/* The image that a save should write. */
static void write_image(const tigbulode_equaliser *s, uint8_t *image) {
    const uint8_t sizes_and_exponents[8] = {s->p, s->q, s->n, s->r, s->l, s->psi, s->b, s->bmax};
    const int taps = s->p + s->q;
    int i;
    memcpy(image, sizes_and_exponents, 8);
    for (i = 0; i < 4; i++) image[8 + i] = byte_of(s->step, i);
    image += TIGBULODE_HEADER_BYTES;
    for (i = 0; i < 2 * taps; i++) {
        image[i] = byte_of((uint16_t)s->weights[i / 2], i % 2);
        image[2 * taps + i] = byte_of((uint16_t)s->past[i / 2], i % 2);
    }
}

/* Whether a save into a buffer of a length writes the image, or nothing where that is too short, and leaves the record. */
static int same_save(tigbulode_equaliser s, const uint8_t *image, size_t image_length, size_t length) {
    const tigbulode_equaliser before = s;
    const int fits = length >= image_length;
    uint8_t buffer[ROOM], expected[ROOM];
    tigbulode_saved saved;
    memset(buffer, SENTINEL, ROOM);
    memset(expected, SENTINEL, ROOM);
    if (fits) memcpy(expected, image, image_length);
    saved = tigbulode_save(&s, buffer, length);
    return saved.number == (fits ? TIGBULODE_ACCEPTED : TIGBULODE_BUFFER) && saved.length == (fits ? image_length : 0) &&
           memcmp(buffer, expected, ROOM) == 0 && same_state(&s, &before);
}

/* Saves into buffers of every length to one more than the image; gives how many are too short. */
static unsigned try_saves_of(unsigned p, unsigned q) {
    const tigbulode_equaliser s = any_state(p, q);
    const size_t image_length = TIGBULODE_IMAGE_LENGTH(p, q);
    uint8_t image[TIGBULODE_IMAGE_BYTES];
    size_t length;
    write_image(&s, image);
    for (length = 0; length <= image_length + 1; length++)
        expect(same_save(s, image, image_length, length), "save into a buffer of length", (unsigned)length);
    for (length = 0; length < image_length; length++) {
        image[length] ^= 1;
        try_changed(same_save(s, image, image_length, image_length));
        image[length] ^= 1;
    }
    return (unsigned)image_length;
}

static void try_saves(void) {
    unsigned i, short_of = 0;
    for (i = 0; i < 256; i++) short_of += try_saves_of(1 + i / 16, 1 + i % 16);
    printf("saves: %u into buffers that are long enough, %u into shorter ones\n", 2 * i, short_of);
}

/* Two weights, the other places 0: the larger magnitude counts, wherever it is. */
static void try_two_weights(tigbulode_equaliser s, unsigned place, unsigned other) {
    s.weights[place] = -300;
    s.weights[other] = 299;
    expect(tigbulode_largest_weight(&s) == 300, "the larger of two weights, place", place);
    try_changed(tigbulode_largest_weight(&s) == 299);
}

/* Every value in every place of a record with anything in it. */
static void try_largest_weights(void) {
    tigbulode_equaliser s;
    unsigned place, other, pairs = 0;
    long value;
    memset(&s, 0xFF, sizeof s);
    expect(tigbulode_largest_weight(&s) == 1, "largest weight of FF bytes", 0);
    memset(s.weights, 0, sizeof s.weights);
    expect(tigbulode_largest_weight(&s) == 0, "largest weight of zeros", 0);
    for (place = 0; place < TIGBULODE_SLOTS; place++) {
        for (value = -32768; value <= 32767; value++) {
            s.weights[place] = (int16_t)value;
            expect(tigbulode_largest_weight(&s) == (value < 0 ? -value : value), "largest weight, place", place);
        }
        s.weights[place] = 0;
        for (other = 0; other < TIGBULODE_SLOTS; other++)
            if (other != place) try_two_weights(s, place, other), pairs++;
    }
    printf("largest weight: 65536 values in each of %u places, %u pairs of places\n", place, pairs);
}

/* The check sum of the text that is usual for it, and of 0 to 140 bytes. */
static void try_check_sums(void) {
    static const char text[] = "123456789";
    uint8_t bytes[TIGBULODE_IMAGE_BYTES];
    uint32_t sum = tigbulode_check_sum((const uint8_t *)text, 9);
    size_t length;
    expect(sum == 0xCBF43926u, "check sum", 0);
    printf("check sum of %s: %08lX\n", text, (unsigned long)sum);
    sum = 0;
    for (length = 0; length < sizeof bytes; length++) {
        sum = 31 * sum + tigbulode_check_sum(bytes, length);
        bytes[length] = (uint8_t)(37 * length + 11);
    }
    printf("check sums of 0 to 139 bytes: %08lX\n", (unsigned long)sum);
}

/* Each byte of a record changed: the settings are the first five bytes and M. */
static void try_same_settings(void) {
    const tigbulode_equaliser s = tigbulode_set_up(3, 2, N, 1, 1, 1).state;
    unsigned i, other = 0;
    expect(tigbulode_same_settings(&s, &s), "settings of one record", 0);
    for (i = 0; i < RECORD; i++) {
        tigbulode_equaliser t = s;
        ((uint8_t *)&t)[i] ^= 1;
        const int same = tigbulode_same_settings(&s, &t);
        other += !same;
        expect(same == !(i < 5 || (i >= 8 && i < 12)) && same == tigbulode_same_settings(&t, &s), "settings", i);
    }
    printf("settings: %u bytes changed, %u of them told\n", i, other);
}

static block any_block(uint32_t *random) {
    block in;
    int i;
    for (i = 0; i < N; i++) {
        *random = *random * 1664525u + 1013904223u;
        in.samples[i] = (int16_t)((int32_t)(*random >> 16) - 32768);
        in.gains[i] = (uint8_t)(*random >> 8 & 3);
        in.entries[i] = (int8_t)(2 * (int32_t)(*random >> 4 & 1) - 1);
    }
    return in;
}

static tigbulode_block lists_of(const block *in, outputs *out, size_t length) {
    tigbulode_block lists;
    lists.length = length;
    lists.samples = in->samples;
    lists.gains = in->gains;
    lists.entries = in->entries;
    lists.y = out->y;
    lists.xi = out->xi;
    lists.decision = out->decision;
    lists.z = out->z;
    lists.theta = out->theta;
    return lists;
}

static outputs filled(void) {
    outputs out;
    memset(&out, SENTINEL, sizeof out);
    return out;
}

static int same_outputs(const outputs *out, const outputs *other) { return memcmp(out, other, sizeof *out) == 0; }

/* Whether run_block leaves the same answer, record and outputs as run. */
static int same_run(tigbulode_equaliser s, const block *in, size_t n, tigbulode_block lists, const outputs *handed) {
    tigbulode_equaliser t = s;
    outputs out = filled();
    const uint8_t number = tigbulode_run(&s, in->samples, n, in->gains, n, in->entries, n, out.y, n, out.xi, n,
                                         out.decision, n, out.z, n, out.theta, n);
    expect(number == (n == N ? TIGBULODE_ACCEPTED : TIGBULODE_LENGTHS), "answer to a block of length", (unsigned)n);
    return tigbulode_run_block(&t, &lists) == number && same_state(&s, &t) && same_outputs(&out, handed);
}

/* Whether trial_block and trial give the same answer, state and outputs, those of a run on a copy, and leave the record. */
static int same_trial(tigbulode_equaliser s, const block *in, size_t n, tigbulode_block lists, const outputs *handed) {
    const tigbulode_equaliser before = s;
    tigbulode_equaliser copy = s;
    outputs out = filled(), run_out = filled();
    const tigbulode_block run_lists = lists_of(in, &run_out, n);
    const uint8_t number = tigbulode_run_block(&copy, &run_lists);
    const tigbulode_answer plain = tigbulode_trial(&s, in->samples, n, in->gains, n, in->entries, n, out.y, n, out.xi, n,
                                                   out.decision, n, out.z, n, out.theta, n);
    const tigbulode_answer named = tigbulode_trial_block(&s, &lists);
    expect(plain.number == number && same_state(&plain.state, &copy), "state tried with a block of length", (unsigned)n);
    expect(same_outputs(&out, &run_out), "outputs tried with a block of length", (unsigned)n);
    return named.number == number && same_state(&named.state, &copy) && same_outputs(&out, handed) &&
           same_state(&s, &before);
}

typedef int comparison(tigbulode_equaliser s, const block *in, size_t n, tigbulode_block lists, const outputs *handed);

/* A block of a length by both calls, and with two lists in each other's places. */
static void try_block(comparison *same, const tigbulode_equaliser *s, const block *in, size_t length) {
    outputs out = filled();
    tigbulode_block lists = lists_of(in, &out, length);
    expect(same(*s, in, length, lists, &out), "both calls with a block of length", (unsigned)length);
    if (length != N) return;
    lists.y = out.z;
    lists.z = out.y;
    try_changed(same(*s, in, length, lists, &out));
    lists = lists_of(in, &out, length - 1);
    try_changed(same(*s, in, length, lists, &out));
}

static void leave_out(tigbulode_block *lists, unsigned list) {
    switch (list) {
    case 0: lists->samples = NULL; break;
    case 1: lists->gains = NULL; break;
    case 2: lists->entries = NULL; break;
    case 3: lists->y = NULL; break;
    case 4: lists->xi = NULL; break;
    case 5: lists->decision = NULL; break;
    case 6: lists->z = NULL; break;
    default: lists->theta = NULL; break;
    }
}

/* A block without one of its eight lists, run and tried. */
static void try_left_out(const tigbulode_equaliser *s, const block *in, unsigned list) {
    tigbulode_equaliser t = *s;
    const outputs lent = filled();
    outputs out = lent;
    tigbulode_block lists = lists_of(in, &out, N);
    tigbulode_answer a;
    leave_out(&lists, list);
    expect(tigbulode_run_block(&t, &lists) == TIGBULODE_LENGTHS, "answer without list", list);
    expect(same_state(&t, s) && same_outputs(&out, &lent), "what was lent without list", list);
    a = tigbulode_trial_block(&t, &lists);
    expect(a.number == TIGBULODE_LENGTHS && same_state(&a.state, s), "answer to a trial without list", list);
    expect(same_state(&t, s) && same_outputs(&out, &lent), "what was lent to a trial without list", list);
}

static void try_lists_left_out(void) {
    const tigbulode_equaliser s = tigbulode_set_up(4, 3, N, 0, 0, 0).state;
    uint32_t random = 2026;
    const block in = any_block(&random);
    unsigned list;
    for (list = 0; list < 8; list++) try_left_out(&s, &in, list);
    printf("lists left out: %u, run and tried, each turned down with %d\n", list, TIGBULODE_LENGTHS);
}

/* Takes a block by storing the state that its trial hands back, over the record that it read. */
static void take_tried(tigbulode_equaliser *s, const tigbulode_block *lists, unsigned place) {
    tigbulode_answer a;
    a.state = *s;
    a = tigbulode_trial_block(&a.state, lists);
    expect(tigbulode_run_block(s, lists) == TIGBULODE_ACCEPTED, "block", place);
    expect(a.number == TIGBULODE_ACCEPTED && same_state(&a.state, s), "state stored over its record", place);
}

static void try_blocks(void) {
    tigbulode_equaliser s = tigbulode_set_up(4, 3, N, 0, 0, tigbulode_greatest_step(4, 3, 0, 0)).state;
    uint32_t random = 2026;
    unsigned i;
    for (i = 0; i < BLOCKS; i++) {
        const block in = any_block(&random);
        outputs out;
        const tigbulode_block lists = lists_of(&in, &out, N);
        size_t length;
        for (length = 0; length <= N; length++) {
            try_block(same_run, &s, &in, length);
            try_block(same_trial, &s, &in, length);
        }
        take_tried(&s, &lists, i);
    }
    printf("blocks: %u of length %d, %u of other lengths, run and tried\n", i, N, i * N);
}

int main(int argc, char **argv) {
    take_arguments(argc, argv, 0, "interface, without arguments: tries the plain C of tigbulode.h against the library");
    try_version(TIGBULODE_VERSION_MAJOR, TIGBULODE_VERSION_MINOR, TIGBULODE_VERSION);
    try_number_texts();
    try_greatest_steps();
    try_any_size();
    try_image_lengths();
    try_saves();
    try_check_sums();
    try_same_settings();
    try_largest_weights();
    try_blocks();
    try_lists_left_out();
    printf("changed expectations told apart: %u of %u\n", told, changes);
    printf("differences: %u\n", differences);
    return differences == 0 && told == changes ? EXIT_SUCCESS : EXIT_FAILURE;
}
