/* Tries what tigbulode.h has in plain C beside the five functions, against these. This file is C99, C11 and C++98 at
 * once. Exit status 1: a difference, or a change that was not told apart. */
#include "states.h"

enum { LONGEST = TIGBULODE_MOST_BLOCK, N = 16, BLOCKS = 32, LISTS = 8 };

/* One more than the limit of each size, and all sizes up to there. */
enum {
    TAPS = TIGBULODE_MOST_TAPS + 2,
    RS = TIGBULODE_MOST_R + 2,
    GAINS = TIGBULODE_MOST_GAIN + 2,
    ALL_SIZES = TAPS * TAPS * RS * GAINS
};

typedef struct {
    uint8_t p, q, r, l;
} sizes;

static void try_number_texts(void) {
    int number;
    for (number = 0; number <= 12; number++) printf("number %d: %s\n", number, tigbulode_number_text((uint8_t)number));
}

static uint8_t answer_of(sizes s, uint32_t step) { return tigbulode_set_up(s.p, s.q, LONGEST, s.r, s.l, step).number; }

static int is_greatest(sizes s, uint32_t step) {
    return answer_of(s, step) == TIGBULODE_ACCEPTED && answer_of(s, step + 1) == TIGBULODE_STEP;
}

/* The greatest step with these sizes, or 0; gives whether they are within the limits. */
static unsigned try_greatest_step(sizes s, unsigned place) {
    const uint32_t greatest = tigbulode_greatest_step(s.p, s.q, s.r, s.l);
    const uint8_t number = answer_of(s, 0);
    if (number != TIGBULODE_ACCEPTED) {
        expect(number == TIGBULODE_SIZES && greatest == 0, "sizes outside the limits", place);
        return 0;
    }
    expect(is_greatest(s, greatest), "greatest step", place);
    count_change(!is_greatest(s, greatest - 1));
    count_change(!is_greatest(s, greatest + 1));
    return 1;
}

static sizes sizes_of(unsigned number) {
    sizes s;
    s.p = (uint8_t)(number % TAPS);
    s.q = (uint8_t)(number / TAPS % TAPS);
    s.r = (uint8_t)(number / (TAPS * TAPS) % RS);
    s.l = (uint8_t)(number / (TAPS * TAPS * RS));
    return s;
}

static void try_greatest_steps(void) {
    unsigned number, within = 0;
    for (number = 0; number < ALL_SIZES; number++) within += try_greatest_step(sizes_of(number), number);
    printf("greatest step: %u sizes within the limits, %u outside\n", within, ALL_SIZES - within);
}

/* Each size from 0 to 255, the others being 1. */
static void try_any_size(void) {
    unsigned i, within = 0;
    for (i = 0; i < 4 * 256; i++) {
        sizes s = {1, 1, 1, 1};
        uint8_t *const each[4] = {&s.p, &s.q, &s.r, &s.l};
        *each[i / 256] = (uint8_t)(i % 256);
        within += try_greatest_step(s, i);
    }
    printf("greatest step, one size of any value: %u within the limits, %u outside\n", within, 4 * 256 - within);
}

/* A sound state with something in each of its places. */
static tigbulode_equaliser any_state(unsigned p, unsigned q) {
    const uint32_t step = tigbulode_greatest_step((uint8_t)p, (uint8_t)q, 3, 0);
    tigbulode_equaliser s = tigbulode_set_up((uint8_t)p, (uint8_t)q, LONGEST, 3, 0, step).state;
    unsigned i;
    s.psi = 7;
    s.b = 29;
    s.bmax = 30;
    for (i = 0; i < p + q; i++) s.weights[i] = (int16_t)(1001 * (int)i - 16383);
    for (i = 0; i + 1 < p; i++) s.past[i] = (int16_t)(33 * (int)i - 255);
    for (i = 0; i < q; i++) s.past[p + i] = (int16_t)(15 - 2 * (int)i);
    return s;
}

/* Saves into buffers of every length to one more than the image; gives how many are too short. */
static unsigned try_saves_of(unsigned p, unsigned q) {
    const tigbulode_equaliser s = any_state(p, q);
    uint8_t image[TIGBULODE_IMAGE_BYTES];
    const size_t image_length = write_image(s, image);
    size_t length;
    expect(image_length == TIGBULODE_IMAGE_LENGTH(p, q), "image length", 16 * p + q);
    for (length = 0; length <= image_length + 1; length++)
        expect(save_differs(s, image, image_length, length) == NULL, "save into a buffer of length", (unsigned)length);
    for (length = 0; length < image_length; length++) {
        image[length] ^= 1;
        count_change(save_differs(s, image, image_length, image_length) != NULL);
        image[length] ^= 1;
    }
    return (unsigned)image_length;
}

static void try_saves(void) {
    unsigned i, short_of = 0;
    for (i = 0; i < 256; i++) short_of += try_saves_of(1 + i / 16, 1 + i % 16);
    printf("saves: %u into buffers that are long enough, %u into shorter ones\n", 2 * i, short_of);
}

/* The check sum of the text that is usual for it, and of 0 to 140 bytes. */
static void try_check_sums(void) {
    static const char text[] = "123456789";
    uint8_t bytes[TIGBULODE_IMAGE_BYTES];
    uint32_t sum = tigbulode_check_sum((const uint8_t *)text, 9);
    size_t length;
    expect(sum == 0xCBF43926u, "check sum", 0);
    printf("check sum of %s: %08lX\n", text, (unsigned long)sum);
    sum = 0;
    for (length = 0; length < sizeof bytes; length++) {
        sum = 31 * sum + tigbulode_check_sum(bytes, length);
        bytes[length] = (uint8_t)(37 * length + 11);
    }
    printf("check sums of 0 to 139 bytes: %08lX\n", (unsigned long)sum);
}

/* Each byte of a record changed: every one is another state, the first five and M are other settings. */
static void try_same(void) {
    const tigbulode_equaliser s = any_state(3, 2);
    unsigned i, settings = 0, states = 0;
    expect(tigbulode_same_settings(&s, &s) && tigbulode_same_state(&s, &s), "one record", 0);
    for (i = 0; i < RECORD_BYTES; i++) {
        tigbulode_equaliser t = s;
        *record_byte(&t, i) ^= 1;
        const int same = tigbulode_same_settings(&s, &t), same_state = tigbulode_same_state(&s, &t);
        expect(same == !(i < 5 || (i >= 8 && i < 12)) && same == tigbulode_same_settings(&t, &s), "settings", i);
        expect(!same_state && !tigbulode_same_state(&t, &s), "state", i);
        settings += !same;
        states += !same_state;
    }
    printf("bytes of a record changed: %u, told as other settings %u, as another state %u\n", i, settings, states);
}

/* Two weights, the other places 0: the larger magnitude counts, wherever it is. */
static void try_two_weights(tigbulode_equaliser s, unsigned place, unsigned other) {
    s.weights[place] = -300;
    s.weights[other] = 299;
    expect(tigbulode_largest_weight(&s) == 300, "the larger of two weights, place", place);
    count_change(tigbulode_largest_weight(&s) != 299);
}

/* Every value in every place of a record with anything in it. */
static void try_largest_weights(void) {
    tigbulode_equaliser s;
    unsigned place, other;
    long value;
    memset(&s, 0xFF, sizeof s);
    expect(tigbulode_largest_weight(&s) == 1, "largest weight of FF bytes", 0);
    memset(s.weights, 0, sizeof s.weights);
    expect(tigbulode_largest_weight(&s) == 0, "largest weight of zeros", 0);
    for (place = 0; place < TIGBULODE_SLOTS; place++) {
        for (value = -32768; value <= 32767; value++) {
            s.weights[place] = (int16_t)value;
            expect(tigbulode_largest_weight(&s) == (value < 0 ? -value : value), "largest weight, place", place);
        }
        s.weights[place] = 0;
        for (other = 0; other < TIGBULODE_SLOTS; other++)
            if (other != place) try_two_weights(s, place, other);
    }
    printf("largest weight: 65536 values in each of %u places, and all pairs of places\n", place);
}

/* What a block reads, and what it hands out. */
typedef struct {
    int16_t samples[N];
    uint8_t gains[N];
    int8_t entries[N];
} block;

typedef struct {
    int32_t y[N], z[N];
    uint8_t xi[N], theta[N];
    int8_t decision[N];
} outputs;

/* A call: whether it is a trial, its answer with the state that follows, the record and the lists that it leaves. */
typedef struct {
    int trial;
    tigbulode_answer answer;
    tigbulode_equaliser record;
    outputs out;
} outcome;

static block any_block(uint32_t *random) {
    block in;
    int i;
    for (i = 0; i < N; i++) {
        const int32_t any = (int32_t)any_number(random);
        in.samples[i] = (int16_t)((any >> 8) - 32768);
        in.gains[i] = (uint8_t)(any & 3);
        in.entries[i] = (int8_t)(any >> 7 & 1 ? 1 : -1);
    }
    return in;
}

/* Before a call. */
static outcome prepared(const tigbulode_equaliser *s, int trial) {
    outcome o;
    o.trial = trial;
    o.record = o.answer.state = *s;
    o.answer.number = TIGBULODE_LENGTHS;
    memset(&o.out, SENTINEL, sizeof o.out);
    return o;
}

static int same_outcome(const outcome *o, const outcome *other) {
    return o->answer.number == other->answer.number && tigbulode_same_state(&o->answer.state, &other->answer.state) &&
           tigbulode_same_state(&o->record, &other->record) && memcmp(&o->out, &other->out, sizeof o->out) == 0;
}

/* With another number, state or record it is another outcome. */
static void try_other_outcomes(const outcome *o) {
    outcome number = *o, state = *o, record = *o;
    number.answer.number ^= 1;
    state.answer.state.psi ^= 1;
    record.record.psi ^= 1;
    count_change(!same_outcome(o, &number));
    count_change(!same_outcome(o, &state));
    count_change(!same_outcome(o, &record));
}

/* A run or a trial with each list beside its length. */
static outcome plain_call(const tigbulode_equaliser *s, int trial, const block *in, const size_t *n) {
    outcome o = prepared(s, trial);
    if (trial) {
        o.answer = tigbulode_trial(&o.record, in->samples, n[0], in->gains, n[1], in->entries, n[2], o.out.y, n[3],
                                   o.out.xi, n[4], o.out.decision, n[5], o.out.z, n[6], o.out.theta, n[7]);
        return o;
    }
    o.answer.number = tigbulode_run(&o.record, in->samples, n[0], in->gains, n[1], in->entries, n[2], o.out.y, n[3],
                                    o.out.xi, n[4], o.out.decision, n[5], o.out.z, n[6], o.out.theta, n[7]);
    o.answer.state = o.record;
    return o;
}

static tigbulode_block lists_of(const block *in, outputs *out, size_t length) {
    tigbulode_block lists;
    lists.length = length;
    lists.samples = in->samples;
    lists.gains = in->gains;
    lists.entries = in->entries;
    lists.y = out->y;
    lists.xi = out->xi;
    lists.decision = out->decision;
    lists.z = out->z;
    lists.theta = out->theta;
    return lists;
}

/* The same with the lists as named members, which are those of the outcome. */
static void named_call(outcome *o, const tigbulode_block *lists) {
    if (o->trial) {
        o->answer = tigbulode_trial_block(&o->record, lists);
        return;
    }
    o->answer.number = tigbulode_run_block(&o->record, lists);
    o->answer.state = o->record;
}

/* Both calls with lists of one length, and the named one also with two lists in each other's places and with a length
 * less. */
static void try_length(const tigbulode_equaliser *s, int trial, const block *in, size_t length) {
    const size_t lengths[LISTS] = {length, length, length, length, length, length, length, length};
    const outcome plain = plain_call(s, trial, in, lengths), before = prepared(s, trial);
    outcome named = before;
    tigbulode_block lists = lists_of(in, &named.out, length);
    named_call(&named, &lists);
    expect(same_outcome(&plain, &named), "both calls with lists of length", (unsigned)length);
    expect(same_outcome(&plain, &before) == (length != N), "what a call leaves with lists of length", (unsigned)length);
    if (length != N) return;
    expect(plain.answer.number == TIGBULODE_ACCEPTED, "answer to a block", 0);
    try_other_outcomes(&plain);
    named = before;
    lists.y = named.out.z;
    lists.z = named.out.y;
    named_call(&named, &lists);
    count_change(!same_outcome(&plain, &named));
    named = before;
    lists = lists_of(in, &named.out, N - 1);
    named_call(&named, &lists);
    count_change(!same_outcome(&plain, &named));
}

/* One list of another length turns a block down with 3, and nothing is touched. */
static void try_other_lengths(const tigbulode_equaliser *s, int trial, const block *in) {
    const outcome before = prepared(s, trial);
    unsigned i;
    for (i = 0; i < LISTS * N; i++) {
        size_t lengths[LISTS] = {N, N, N, N, N, N, N, N};
        outcome o;
        lengths[i / N] = i % N;
        o = plain_call(s, trial, in, lengths);
        expect(same_outcome(&o, &before), "a list of another length", i);
    }
}

static void leave_out(tigbulode_block *lists, unsigned list) {
    switch (list) {
    case 0: lists->samples = NULL; break;
    case 1: lists->gains = NULL; break;
    case 2: lists->entries = NULL; break;
    case 3: lists->y = NULL; break;
    case 4: lists->xi = NULL; break;
    case 5: lists->decision = NULL; break;
    case 6: lists->z = NULL; break;
    default: lists->theta = NULL; break;
    }
}

/* Each list left out counts as one of another length. */
static void try_left_out(const tigbulode_equaliser *s, int trial, const block *in) {
    const outcome before = prepared(s, trial);
    unsigned list;
    for (list = 0; list < LISTS; list++) {
        outcome o = before;
        tigbulode_block lists = lists_of(in, &o.out, N);
        leave_out(&lists, list);
        named_call(&o, &lists);
        expect(same_outcome(&o, &before), "a list left out", list);
    }
}

/* A trial is a run on a copy. Its state may be stored over the record that it read. */
static void take_tried(tigbulode_equaliser *s, const block *in) {
    const size_t lengths[LISTS] = {N, N, N, N, N, N, N, N};
    const outcome run = plain_call(s, 0, in, lengths), tried = plain_call(s, 1, in, lengths);
    outcome o = prepared(s, 1);
    const tigbulode_block lists = lists_of(in, &o.out, N);
    expect(tigbulode_same_state(&tried.record, s), "record after a trial", 0);
    o.answer = tigbulode_trial_block(&o.answer.state, &lists);
    expect(tigbulode_same_state(&o.answer.state, &run.record), "state stored over its record", 0);
    o = tried;
    o.record = run.record;
    expect(same_outcome(&o, &run), "a trial and a run", 0);
    *s = run.record;
}

static void try_blocks(void) {
    tigbulode_equaliser s = tigbulode_set_up(4, 3, N, 0, 0, tigbulode_greatest_step(4, 3, 0, 0)).state;
    uint32_t random = 2026;
    unsigned i, trial;
    for (i = 0; i < BLOCKS; i++) {
        const block in = any_block(&random);
        for (trial = 0; trial < 2; trial++) {
            size_t length;
            for (length = 0; length <= N; length++) try_length(&s, (int)trial, &in, length);
            try_other_lengths(&s, (int)trial, &in);
            try_left_out(&s, (int)trial, &in);
        }
        take_tried(&s, &in);
    }
    printf("blocks: %u of length %d, run and tried\n", i, N);
    printf("turned down with %d: %u of other lengths, %u with one list of another length, %u with one left out\n",
           TIGBULODE_LENGTHS, i * N, i * LISTS * N, i * LISTS);
}

int main(int argc, char **argv) {
    static void (*const parts[])(void) = {try_number_texts, try_greatest_steps, try_any_size,        try_saves,
                                          try_check_sums,   try_same,           try_largest_weights, try_blocks};
    size_t i;
    take_arguments(argc, argv, 0, "station_interface, without arguments: tries the plain C of tigbulode.h");
    try_version(TIGBULODE_VERSION_MAJOR, TIGBULODE_VERSION_MINOR, TIGBULODE_VERSION);
    for (i = 0; i < sizeof parts / sizeof parts[0]; i++) parts[i]();
    return end_of_program();
}
