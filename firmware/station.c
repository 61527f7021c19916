/* A station as firmware would run it: it has one record, trains on known symbols, goes on from its own decisions, keeps
 * its state beside a check sum, loses power, recovers, and goes on. Then calls that are turned down, every bent byte in
 * what it keeps, and a spell whose blocks it tries before it takes them. Prints a line for each thing that happens; 1 is
 * the exit status where something that was turned down or tried left a mark, a block did something else than its trial,
 * or a bent image was taken. */
#include "arguments.h"
#include "tigbulode.h"

#include <inttypes.h>
#include <stdbool.h>

enum { P = 4, Q = 3, N = 16, R = 1, L = 0, RESPONSE = 4, IMAGE = TIGBULODE_IMAGE_LENGTH(P, Q) };
static const uint32_t STEP = 7456540; /* the greatest that is admitted */
static const int32_t response[RESPONSE] = {13000, 4000, -2000, 900}; /* of the cable, in units of 1/32768 */
enum { FAINT = 2, USUAL = 4, LOUD = 16 };                            /* its levels, in quarters of the usual one */

/* What a block reads, and what it hands out. */
typedef struct {
    int16_t samples[N];
    uint8_t gains[N];
    int8_t entries[N];
} block;

typedef struct {
    int32_t y[N];
    int32_t z[N];
    uint8_t xi[N];
    uint8_t theta[N];
    int8_t decision[N];
} outputs;

/* What lies in the memory that survives a loss of power. */
typedef struct {
    uint8_t image[IMAGE];
    uint32_t check_sum;
} kept;

/* What the station finds there. Only the first is taken. */
typedef enum { OWN_STATE, WRONG_CHECK_SUM, TURNED_DOWN, OTHER_SETTINGS, FINDINGS } finding;

static const char *const finding_texts[FINDINGS] = {
    "recovered",
    "set up anew, the check sum is wrong",
    "set up anew, the load is turned down",
    "set up anew, the settings are not the station's own",
};

static tigbulode_equaliser record;
static int marks;

static tigbulode_block lists_of(const block *in, size_t length, outputs *out) {
    const tigbulode_block lists = {
        .length = length, .samples = in->samples, .gains = in->gains, .entries = in->entries,
        .y = out->y, .xi = out->xi, .decision = out->decision, .z = out->z, .theta = out->theta,
    };
    return lists;
}

static uint8_t run(tigbulode_equaliser *s, const block *in, size_t length, outputs *out) {
    const tigbulode_block lists = lists_of(in, length, out);
    return tigbulode_run_block(s, &lists);
}

/* Keeps a state: its image, and the check sum of that. */
static tigbulode_saved keep(const tigbulode_equaliser *s, kept *k) {
    tigbulode_saved saved = tigbulode_save(s, k->image, IMAGE);
    if (saved.number == TIGBULODE_ACCEPTED) k->check_sum = tigbulode_check_sum(k->image, IMAGE);
    return saved;
}

/* The state after a loss of power: the kept one, if its check sum is right, it can be loaded and its settings are the
 * station's own; otherwise a fresh one. */
static finding recover(const kept *k, tigbulode_equaliser *s) {
    *s = tigbulode_set_up(P, Q, N, R, L, STEP).state;
    if (tigbulode_check_sum(k->image, IMAGE) != k->check_sum) return WRONG_CHECK_SUM;
    const tigbulode_answer a = tigbulode_load(k->image, IMAGE);
    if (a.number != TIGBULODE_ACCEPTED) return TURNED_DOWN;
    if (!tigbulode_same_settings(&a.state, s)) return OTHER_SETTINGS;
    *s = a.state;
    return OWN_STATE;
}

/* The far end of the cable and the converter. */
typedef struct {
    uint32_t random;
    int32_t sent[RESPONSE]; /* newest first */
    int32_t level;
} cable;

static uint32_t next_random(cable *c) {
    c->random = c->random * 1664525u + 1013904223u;
    return c->random;
}

/* The received sample of the next symbol, at the highest gain that the converter can take; it cuts what is too loud. */
static int8_t receive(cable *c, int16_t *m, uint8_t *gain) {
    memmove(c->sent + 1, c->sent, (RESPONSE - 1) * sizeof c->sent[0]);
    c->sent[0] = 2 * (int32_t)(next_random(c) >> 30) - 3;
    int32_t s = (int32_t)(next_random(c) >> 26) - 32;
    for (int i = 0; i < RESPONSE; i++) s += response[i] * c->sent[i];
    s = s * c->level / USUAL;
    int32_t size = s < 0 ? -s : s;
    uint8_t g = 0;
    while (g < TIGBULODE_MOST_GAIN && (int64_t)size << (g + 1) < (int64_t)1 << (15 + R)) g++;
    int64_t converted = ((int64_t)s * ((int64_t)1 << g)) / (1 << R);
    if (converted > INT16_MAX) converted = INT16_MAX;
    if (converted < INT16_MIN) converted = INT16_MIN;
    *m = (int16_t)converted;
    *gain = g;
    return (int8_t)c->sent[0];
}

/* The next block, without training entries, and the symbols that were sent. */
static block receive_block(cable *c, int8_t *sent) {
    block in = {{0}, {0}, {0}};
    for (int i = 0; i < N; i++) sent[i] = receive(c, &in.samples[i], &in.gains[i]);
    return in;
}

/* A sum over all that a block handed out. */
static uint32_t add_outputs(uint32_t sum, const outputs *out) {
    for (int i = 0; i < N; i++) {
        sum = (sum ^ (uint32_t)out->y[i]) * 16777619u;
        sum = (sum ^ out->xi[i]) * 16777619u;
        sum = (sum ^ (uint32_t)out->decision[i]) * 16777619u;
        sum = (sum ^ (uint32_t)out->z[i]) * 16777619u;
        sum = (sum ^ out->theta[i]) * 16777619u;
    }
    return sum;
}

/* Sixteen blocks in place, with known symbols or without. */
static void run_blocks(cable *c, unsigned first, bool trained) {
    unsigned wrong = 0;
    uint32_t sum = 2166136261u;
    for (unsigned b = 0; b < 16; b++) {
        int8_t sent[N];
        block in = receive_block(c, sent);
        outputs out;
        if (trained) memcpy(in.entries, sent, sizeof sent);
        uint8_t number = run(&record, &in, N, &out);
        if (number != TIGBULODE_ACCEPTED) {
            printf("block %u: answer %u\n", first + b, number);
            exit(EXIT_FAILURE);
        }
        for (int i = 0; i < N; i++) wrong += out.decision[i] != sent[i];
        sum = add_outputs(sum, &out);
    }
    printf("%s blocks %u to %u: wrong decisions %u of 256, psi %u, b %u, B %u, outputs %08" PRIX32 "\n",
           trained ? "trained" : "decided", first, first + 15, wrong, record.psi, record.b, record.bmax, sum);
}

static const char *unchanged(bool same) {
    if (!same) marks++;
    return same ? "kept" : "CHANGED";
}

static bool same_state(const tigbulode_equaliser *s, const tigbulode_equaliser *t) { return memcmp(s, t, sizeof *s) == 0; }

static void print_bytes(const uint8_t *bytes, size_t length) {
    for (size_t i = 0; i < length; i++) printf(" %02X", bytes[i]);
    printf("\n");
}

/* Keeps the record, which stays as it is, and prints what is kept. */
static void keep_record(kept *k) {
    const tigbulode_equaliser before = record;
    tigbulode_saved saved = keep(&record, k);
    if (!same_state(&record, &before)) marks++;
    printf("kept: answer %u, length %zu, check sum %08" PRIX32 "\nimage", saved.number, saved.length, k->check_sum);
    print_bytes(k->image, saved.length);
}

/* The two samples of the specification's example, and the image that they leave. */
static void worked_example(void) {
    tigbulode_equaliser s = tigbulode_set_up(1, 1, 1, 0, 0, 67108864).state;
    int16_t m = 0x4000;
    uint8_t gain = 0, xi = 0, theta = 0;
    int8_t entries[2] = {1, 0}, decision = 0;
    int32_t y = 0, z = 0;
    printf("worked example\n");
    for (int i = 0; i < 2; i++) {
        uint8_t number =
            tigbulode_run(&s, &m, 1, &gain, 1, &entries[i], 1, &y, 1, &xi, 1, &decision, 1, &z, 1, &theta, 1);
        if (number == TIGBULODE_ACCEPTED) printf("%d %" PRId32 " %u %d\n", i, y, xi, decision);
    }
    uint8_t image[TIGBULODE_IMAGE_BYTES];
    tigbulode_saved saved = tigbulode_save(&s, image, sizeof image);
    printf("image");
    print_bytes(image, saved.length);
}

static bool same_outputs(const outputs *out, const outputs *other) { return memcmp(out, other, sizeof *out) == 0; }

static outputs filled(void) {
    outputs out;
    memset(&out, 0x55, sizeof out);
    return out;
}

/* What a trial showed. */
typedef struct {
    tigbulode_equaliser before;
    tigbulode_answer answer;
    outputs out;
    const char *record; /* "kept", or "CHANGED" */
    bool taken;
    bool same; /* running it gave the same */
} trial;

static trial try_block(const tigbulode_equaliser *s, const block *in, size_t length) {
    trial t = {.before = *s, .out = filled()};
    const tigbulode_block lists = lists_of(in, length, &t.out);
    t.answer = tigbulode_trial_block(s, &lists);
    t.record = unchanged(same_state(s, &t.before));
    return t;
}

/* A block that is turned down, and its trial, which hands back the record's own state. */
static void refuse_block(const char *about, tigbulode_equaliser s, const block *in, size_t length) {
    const tigbulode_equaliser before = s;
    const outputs lent = filled();
    outputs out = lent;
    const uint8_t number = run(&s, in, length, &out);
    printf("%s: answer %u, record %s, ", about, number, unchanged(same_state(&s, &before)));
    printf("outputs %s; ", unchanged(same_outputs(&out, &lent)));
    s = before;
    const trial t = try_block(&s, in, length);
    if (t.answer.number != number) marks++;
    printf("its trial: answer %u, record %s, ", t.answer.number, t.record);
    printf("outputs %s, ", unchanged(same_outputs(&t.out, &lent)));
    printf("state %s\n", unchanged(same_state(&t.answer.state, &t.before)));
}

static void refused_lists(cable c) {
    int8_t sent[N];
    const block in = receive_block(&c, sent);
    refuse_block("block with lists of 15", record, &in, N - 1);
    block other = in;
    other.gains[N - 1] = TIGBULODE_MOST_GAIN + 1;
    refuse_block("block with a gain of 16", record, &other, N);
    other = in;
    other.entries[N - 1] = 2;
    refuse_block("block with an entry of 2", record, &other, N);
}

static void refused_records(void) {
    block in = {{0}, {0}, {0}};
    tigbulode_equaliser s = record;
    s.q = 0;
    refuse_block("block on a record with q 0", s, &in, N);
    s = record;
    s.step = STEP + 1;
    refuse_block("block on a record with too large a step", s, &in, N);
    s = record;
    s.weights[P + Q] = 1;
    refuse_block("block on a record with something in a spare slot", s, &in, N);
    s = tigbulode_set_up(1, 1, 1, 0, 0, 67108864).state;
    s.psi = TIGBULODE_MOST_EXPONENT;
    s.weights[0] = TIGBULODE_MOST_WEIGHT;
    s.weights[1] = -TIGBULODE_MOST_WEIGHT;
    s.past[1] = 1;
    in.samples[0] = 0x2000;
    in.entries[0] = 1;
    refuse_block("block that would raise psi to 16", s, &in, 1);
}

static void refused_save(void) {
    const tigbulode_equaliser before = record;
    uint8_t buffer[IMAGE - 1], lent[IMAGE - 1];
    memset(buffer, 0x55, sizeof buffer);
    memcpy(lent, buffer, sizeof lent);
    tigbulode_saved saved = tigbulode_save(&record, buffer, sizeof buffer);
    printf("save to %zu bytes: answer %u, length %zu, ", sizeof buffer, saved.number, saved.length);
    printf("record %s, ", unchanged(same_state(&record, &before)));
    printf("buffer %s\n", unchanged(memcmp(buffer, lent, sizeof lent) == 0));
}

static void print_refused(const char *about, tigbulode_answer a) {
    const tigbulode_equaliser *s = &a.state;
    printf("%s: answer %u, state p %u q %u N %u r %u L %u M %" PRIu32 "\n", about, a.number, s->p, s->q, s->n, s->r,
           s->l, s->step);
}

static void refused_set_ups_and_loads(const uint8_t *image) {
    uint8_t damaged[IMAGE];
    print_refused("set-up with 17 taps", tigbulode_set_up(17, Q, N, R, L, 0));
    print_refused("set-up with too large a step", tigbulode_set_up(P, Q, N, R, L, STEP + 1));
    print_refused("load of a byte less", tigbulode_load(image, IMAGE - 1));
    memcpy(damaged, image, IMAGE);
    damaged[3] = 4;
    print_refused("load with r 4", tigbulode_load(damaged, IMAGE));
    memcpy(damaged, image, IMAGE);
    damaged[11] = 0xFF;
    print_refused("load with too large a step", tigbulode_load(damaged, IMAGE));
    memcpy(damaged, image, IMAGE);
    damaged[13] = 0x40;
    print_refused("load with a weight of 16384 or more", tigbulode_load(damaged, IMAGE));
}

static void lose_power_and_recover(const kept *k) {
    const tigbulode_equaliser before = record;
    const block in = {{0}, {0}, {0}};
    memset(&record, 0xFF, sizeof record);
    printf("power lost\n");
    refuse_block("block on a record of FF bytes", record, &in, N);
    printf("%s, ", finding_texts[recover(k, &record)]);
    printf("record of before the loss %s\n", unchanged(same_state(&record, &before)));
}

/* Counts what the station finds. Where it doesn't recover it has the fresh state. */
static void count_finding(const kept *k, unsigned *counts) {
    const tigbulode_equaliser fresh = tigbulode_set_up(P, Q, N, R, L, STEP).state;
    tigbulode_equaliser s;
    const finding found = recover(k, &s);
    counts[found]++;
    if (found != OWN_STATE && !same_state(&s, &fresh)) marks++;
}

/* What the station finds with one byte of the image bent in every way. The check sum stays that of the good image, or is
 * made right, as if there were none. */
static void bend_byte(kept k, int place, bool made_right, unsigned *counts) {
    const uint8_t good = k.image[place];
    for (unsigned bend = 1; bend < 256; bend++) {
        k.image[place] = (uint8_t)(good ^ bend);
        if (made_right) k.check_sum = tigbulode_check_sum(k.image, IMAGE);
        count_finding(&k, counts);
    }
}

/* Bends every byte of the image. Without a check sum some must be taken, or the bending would show nothing. */
static void bend_image(const kept *k) {
    unsigned counts[FINDINGS] = {0}, without[FINDINGS] = {0};
    for (int place = 0; place < IMAGE; place++) {
        bend_byte(*k, place, false, counts);
        bend_byte(*k, place, true, without);
    }
    printf("bent images: %d; a load alone takes %u of them as sound states, %u of these with other settings; ", IMAGE * 255,
           without[OWN_STATE] + without[OTHER_SETTINGS], without[OTHER_SETTINGS]);
    printf("taken after check sum and settings: %u\n", counts[OWN_STATE]);
    if (counts[OWN_STATE] != 0 || without[OWN_STATE] == 0) marks++;
}

/* Bends every byte of the check sum. */
static void bend_check_sum(kept k) {
    const uint32_t good = k.check_sum;
    unsigned counts[FINDINGS] = {0};
    for (unsigned i = 0; i < 4 * 255; i++) {
        k.check_sum = good ^ (1 + i % 255) << (8 * (i / 255));
        count_finding(&k, counts);
    }
    printf("bent check sums: %d; taken: %u\n", 4 * 255, counts[OWN_STATE]);
    if (counts[OWN_STATE] != 0) marks++;
}

/* The station recovers from memory that doesn't hold its own state. */
static void recover_from(const char *about, const kept *k) {
    const finding found = recover(k, &record);
    printf("%s: %s\n", about, finding_texts[found]);
    if (found == OWN_STATE) marks++;
}

/* The state of another station, kept as that one would keep it. */
static void recover_from_other(const char *about, uint8_t p, uint8_t q, uint32_t step) {
    const tigbulode_equaliser other = tigbulode_set_up(p, q, N, R, L, step).state;
    kept k;
    if (keep(&other, &k).number != TIGBULODE_ACCEPTED) marks++;
    recover_from(about, &k);
}

static void recover_from_anything(kept k) {
    k.image[13] = 0x40;
    k.check_sum = tigbulode_check_sum(k.image, IMAGE);
    recover_from("image with a weight of 16384 or more, its check sum right", &k);
    recover_from_other("image of a station with p 3 q 4", Q, P, tigbulode_greatest_step(Q, P, R, L));
    recover_from_other("image of a station with a smaller step", P, Q, STEP - 1);
    memset(&k, 0, sizeof k);
    recover_from("memory of zeros", &k);
    memset(&k, 0xFF, sizeof k);
    recover_from("memory of FF bytes", &k);
}

/* The largest weight in units of 2^-15, whatever psi is. */
static int64_t largest_value(const tigbulode_equaliser *s) { return (int64_t)tigbulode_largest_weight(s) << s->psi; }

/* The rule of a trained station. It takes a block whose trial is accepted, does not raise psi, and changes the value of
 * the largest weight by less than a sixteenth. */
static bool is_taken(const trial *t) {
    const tigbulode_equaliser *before = &t->before, *after = &t->answer.state;
    if (t->answer.number != TIGBULODE_ACCEPTED || after->psi > before->psi) return false;
    return 16 * llabs(largest_value(after) - largest_value(before)) < largest_value(before);
}

/* Runs a block that was tried: whether the number, the state and the lists are those of its trial. */
static bool runs_as_tried(tigbulode_equaliser *s, const block *in, const trial *t) {
    outputs out = filled();
    const uint8_t number = run(s, in, N, &out);
    const bool same = number == t->answer.number && same_state(s, &t->answer.state) && same_outputs(&out, &t->out);
    if (!same) marks++;
    return same;
}

/* Tries a block and takes it, or runs it on a copy only. */
static trial offer(tigbulode_equaliser *s, const block *in) {
    tigbulode_equaliser copy = *s;
    trial t = try_block(s, in, N);
    t.taken = is_taken(&t);
    t.same = runs_as_tried(t.taken ? s : &copy, in, &t);
    return t;
}

static void print_trial(const char *about, const trial *t) {
    const tigbulode_equaliser *after = &t->answer.state;
    printf("tried %s: answer %u, psi %u to %u, ", about, t->answer.number, t->before.psi, after->psi);
    printf("largest weight %u to %u, ", tigbulode_largest_weight(&t->before), tigbulode_largest_weight(after));
    printf("record %s; %s ", t->record, t->taken ? "taken, and the run" : "not taken, and a run on a copy");
    printf("gives %s\n", t->same ? "the same" : "SOMETHING ELSE");
}

/* The next block at a level, its symbols known. */
static block known_block(cable *c, int32_t level) {
    int8_t sent[N];
    c->level = level;
    block in = receive_block(c, sent);
    c->level = USUAL;
    memcpy(in.entries, sent, sizeof sent);
    return in;
}

/* Blocks at a level. The station takes those that its rule admits, and prints the first trial in which psi moves; the
 * other record takes them all. */
static void offer_blocks(cable *c, const char *kind, int32_t level, unsigned count, tigbulode_equaliser *other) {
    unsigned taken = 0, moved = 0;
    char about[32];
    snprintf(about, sizeof about, "a %s block", kind);
    for (unsigned b = 0; b < count; b++) {
        const block in = known_block(c, level);
        const trial t = offer(&record, &in);
        outputs out;
        if (t.answer.state.psi != t.before.psi && moved++ == 0) print_trial(about, &t);
        taken += t.taken;
        if (run(other, &in, N, &out) != TIGBULODE_ACCEPTED) marks++;
    }
    printf("%s blocks taken: %u of %u, psi %u, largest weight %u; ", kind, taken, count, record.psi,
           tigbulode_largest_weight(&record));
    printf("by a station that takes them all: psi %u, largest weight %u\n", other->psi, tigbulode_largest_weight(other));
}

/* A spell in which the cable is faint, then as before, then loud. */
static void levels(cable *c) {
    tigbulode_equaliser other = record;
    offer_blocks(c, "faint", FAINT, 61, &other);
    offer_blocks(c, "usual", USUAL, 61, &other);
    offer_blocks(c, "loud", LOUD, 2, &other);
}

/* The record as a release could have left it in which psi only rose. */
static tigbulode_equaliser older_record(void) {
    tigbulode_equaliser s = record;
    s.psi = (uint8_t)(s.psi + 4);
    for (int i = 0; i < P + Q; i++) s.weights[i] = (int16_t)(s.weights[i] / 16);
    return s;
}

/* The record with the greatest exponent, and every weight at its limit. */
static tigbulode_equaliser full_record(void) {
    tigbulode_equaliser s = record;
    s.psi = TIGBULODE_MOST_EXPONENT;
    for (int i = 0; i < P + Q; i++) s.weights[i] = i % 2 == 0 ? TIGBULODE_MOST_WEIGHT : -TIGBULODE_MOST_WEIGHT;
    return s;
}

/* The next block at a level is tried. */
static void offer_one(cable *c, const char *about, int32_t level, tigbulode_equaliser *s) {
    const block in = known_block(c, level);
    const trial t = offer(s, &in);
    print_trial(about, &t);
}

/* Blocks of several levels, the symbols known. */
static void spell(cable *c) {
    offer_one(c, "a usual block", USUAL, &record);
    offer_one(c, "a loud block", LOUD, &record);
    levels(c);
    tigbulode_equaliser older = older_record(), full = full_record();
    offer_one(c, "a usual block on an older release's record", USUAL, &older);
    offer_one(c, "a usual block on a record with psi 15", USUAL, &full);
}

int main(int argc, char **argv) {
    take_arguments(argc, argv, 0, "station, without arguments: the lines of a station that uses the static library");
    worked_example();
    cable c = {2026, {0}, USUAL};
    kept k;
    tigbulode_answer a = tigbulode_set_up(P, Q, N, R, L, STEP);
    printf("set-up p %d q %d N %d r %d L %d M %" PRIu32 ": answer %u\n", P, Q, N, R, L, STEP, a.number);
    record = a.state;
    for (unsigned first = 0; first < 64; first += 16) run_blocks(&c, first, true);
    for (unsigned first = 64; first < 128; first += 16) run_blocks(&c, first, false);
    keep_record(&k);
    lose_power_and_recover(&k);
    for (unsigned first = 128; first < 192; first += 16) run_blocks(&c, first, false);
    refused_lists(c);
    refused_records();
    refused_save();
    refused_set_ups_and_loads(k.image);
    run_blocks(&c, 192, false);
    keep_record(&k);
    bend_image(&k);
    bend_check_sum(k);
    recover_from_anything(k);
    for (unsigned first = 208; first < 240; first += 16) run_blocks(&c, first, true);
    run_blocks(&c, 240, false);
    spell(&c);
    run_blocks(&c, 384, true);
    return marks == 0 ? EXIT_SUCCESS : EXIT_FAILURE;
}
