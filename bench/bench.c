#define _POSIX_C_SOURCE 200809L
#include <stdio.h>
#include <stdlib.h>
#include <string.h>
#include <time.h>

#include "cables.h"
#include "channel.h"
#include "check.h"
#include "lists.h"
#include "plain.h"
#include "stack.h"

#define BLOCKS 32
#define ROUNDS 301
#define N LONGEST_BLOCK
#define FALLS 15
#define PASSES 16

enum { PROVED, CAREFUL, NATIVE, PLAIN, CONTENDERS };

// The record that the timed blocks begin with: trained on a channel with psi above 0, on a loud one with psi 0, or
// that one frozen with a quarter of its weights, all below 4096.
typedef enum { USUAL, LOUD, SMALL } kind;

// An earlier release's tigbulode_run, where bench/run was given its library.
run_call before_tigbulode_run __attribute__((weak));

static run_call *const runs[] = {tigbulode_run, careful_run, careful_native_run};
static simulation *const simulations[] = {proved_simulation, careful_simulation, native_simulation};
static readings_call *const readers[] = {tigbulode_readings, careful_readings, careful_native_readings,
                                         plain_readings};

typedef struct {
    channel_block blocks[BLOCKS];
    tigbulode_equaliser state[PLAIN], begun;
    plain_equaliser plain;
} setting;

typedef struct {
    double median[CONTENDERS], least[CONTENDERS], ratio[CONTENDERS];
} figures;

static int8_t decided[N], decision[N];
static int32_t y[N], z[N];
static uint8_t xi[N], theta[N];
static float error[N];

static void fail(const char *what) {
    fprintf(stderr, "bench: %s\n", what);
    exit(1);
}

static void run_block(setting *s, int who, const channel_block *b, const int8_t *entries) {
    if (who == PLAIN)
        plain_run(&s->plain, b->x, entries, N, decision, error);
    else if (runs[who](&s->state[who], b->m, N, b->gains, N, entries, N, y, N, xi, N, decision, N, z, N, theta, N))
        fail("a block of the channel was refused");
}

static void quarter(tigbulode_equaliser *s) {
    for (int i = 0; i < s->p + s->q; i++) s->weights[i] /= 4;
    s->step = 0;
}

static bool of_kind(const tigbulode_equaliser *s, kind what) {
    return (s->psi > 0) == (what == USUAL) && (tigbulode_largest_weight(s) < 4096) == (what == SMALL);
}

// Trained on the channel, so that the timed blocks run on decisions.
static void prepare(setting *s, int p, int q, kind what) {
    channel c = {.r = 2, .l = what == USUAL, .loud = what != USUAL};
    channel_block b;
    uint32_t m = tigbulode_greatest_step((uint8_t)p, (uint8_t)q, (uint8_t)c.r, (uint8_t)c.l);
    for (int who = 0; who < PLAIN; who++)
        s->state[who] = tigbulode_set_up((uint8_t)p, (uint8_t)q, N, (uint8_t)c.r, (uint8_t)c.l, m).state;
    plain_set_up(&s->plain, p, q, c.r, (float)m / 1073741824.0f);
    for (int i = 0; i < 1000; i++) {
        channel_next(&c, &b);
        for (int who = 0; who < CONTENDERS; who++) run_block(s, who, &b, b.sent);
    }
    for (int i = 0; i < BLOCKS; i++) channel_next(&c, &s->blocks[i]);
    for (int who = 0; who < PLAIN && what == SMALL; who++) quarter(&s->state[who]);
    s->begun = s->state[PROVED];
    if (!of_kind(&s->begun, what)) fail("the record to be timed is not of its kind");
}

static double now(void) {
    struct timespec t;
    clock_gettime(CLOCK_MONOTONIC, &t);
    return (double)t.tv_sec * 1e9 + (double)t.tv_nsec;
}

static setting current;
static cable longest;

// Nanoseconds per sample.
static double timed_run(int who) {
    double start = now();
    for (int i = 0; i < BLOCKS; i++) run_block(&current, who, &current.blocks[i], decided);
    return (now() - start) / (BLOCKS * N);
}

// Who is timed at a place of a round.
static int turn(int round, int place, int contenders) { return (round + place) % contenders; }

// Nanoseconds per sample of a trial, or of a run.
static double timed_trial(int tried) {
    const tigbulode_equaliser *s = &current.state[PROVED];
    double start = now();
    for (int i = 0; i < BLOCKS; i++) {
        const channel_block *b = &current.blocks[i];
        if (!tried)
            run_block(&current, PROVED, b, decided);
        else if (tigbulode_trial(s, b->m, N, b->gains, N, decided, N, y, N, xi, N, decision, N, z, N, theta, N).number)
            fail("a trial on the channel was refused");
    }
    return (now() - start) / (BLOCKS * N);
}

// The timed blocks in pieces of k samples.
static void run_pieces(run_call *run, tigbulode_equaliser *s, size_t k) {
    for (int i = 0; i < BLOCKS; i++) {
        const channel_block *b = &current.blocks[i];
        for (size_t at = 0; at < N; at += k)
            if (run(s, b->m + at, k, b->gains + at, k, decided, k, y, k, xi, k, decision, k, z, k, theta, k))
                fail("a block of the channel was refused");
    }
}

// The states of this library and of the earlier one, and the samples in a block of either.
static struct {
    _Alignas(64) tigbulode_equaliser state;
} releases[2];
static size_t piece;

// Nanoseconds per sample of this library, or of the earlier one.
static double timed_release(int earlier) {
    run_call *run = earlier ? before_tigbulode_run : tigbulode_run;
    double start = now();
    run_pieces(run, &releases[earlier].state, piece);
    return (now() - start) / (BLOCKS * N);
}

// Runs the rounds that were timed once more: how many samples halve the weights. Ends where one doubles them.
static unsigned count_halvings(tigbulode_equaliser begun, const tigbulode_equaliser *ended, size_t k) {
    careful_halvings = careful_doublings = 0;
    for (int i = 0; i < ROUNDS; i++) run_pieces(careful_counted_run, &begun, k);
    if (careful_doublings > 0) fail("a sample of a timed block doubles the weights");
    if (!tigbulode_same_state(&begun, ended)) fail("counted rounds left another record than the timed ones");
    return careful_halvings;
}

// The same for rounds of runs and of trials; a trial is a run of a copy.
static unsigned count_trial_halvings(tigbulode_equaliser begun, const tigbulode_equaliser *ended) {
    careful_halvings = careful_doublings = 0;
    for (int i = 0; i < 2 * ROUNDS; i++) {
        int tried = turn(i / 2, i % 2, 2);
        for (int k = 0; k < BLOCKS; k++) {
            const channel_block *b = &current.blocks[k];
            tigbulode_equaliser copy = begun;
            if (careful_counted_run(tried ? &copy : &begun, b->m, N, b->gains, N, decided, N, y, N, xi, N, decision, N,
                                    z, N, theta, N))
                fail("a block of the channel was refused");
        }
    }
    if (careful_doublings > 0) fail("a sample of a timed trial or run doubles the weights");
    if (!tigbulode_same_state(&begun, ended)) fail("counted rounds left another record than the timed ones");
    return careful_halvings;
}

// Records with psi 15, which falls at each of 15 samples, and with psi 0. The weights are 0 at first, and the step is
// so small that they stay below 4096.
static tigbulode_equaliser falling[2];

// The first samples of a block, from a copy of a record.
static void run_from(const tigbulode_equaliser *from, run_call *run, tigbulode_equaliser *s, const channel_block *b,
                     const int8_t *entries) {
    const size_t k = from->n;
    *s = *from;
    if (run(s, b->m, k, b->gains, k, entries, k, y, k, xi, k, decision, k, z, k, theta, k))
        fail("a block of the channel was refused");
}

static void run_falling(run_call *run, const tigbulode_equaliser *from, const channel_block *b) {
    tigbulode_equaliser s;
    run_from(from, run, &s, b, b->sent);
    if (s.psi != 0) fail("psi does not fall at each sample");
}

// Nanoseconds per sample where psi falls, then where it is 0; of the library and of careful C.
static double timed_falling(int who) {
    double start = now();
    for (int i = 0; i < BLOCKS; i++) run_falling(runs[who % 2], &falling[who / 2], &current.blocks[i]);
    return (now() - start) / (BLOCKS * FALLS);
}

// How many samples double the weights in the blocks of either record.
static unsigned doublings(const tigbulode_equaliser *from) {
    careful_halvings = careful_doublings = 0;
    for (int i = 0; i < BLOCKS; i++) run_falling(careful_counted_run, from, &current.blocks[i]);
    return careful_doublings;
}

static void prepare_falling(int p, int q) {
    prepare(&current, p, q, USUAL);
    falling[0] = falling[1] =
        tigbulode_set_up((uint8_t)p, (uint8_t)q, FALLS, 2, 1, current.begun.step / 64).state;
    falling[0].psi = FALLS;
    if (doublings(&falling[0]) != BLOCKS * FALLS || doublings(&falling[1]) != 0)
        fail("psi does not fall at each sample");
}

static bool same_records(void) { return tigbulode_same_state(&releases[0].state, &releases[1].state); }

// Records with psi 0: the newest symbol is 1 and its weight 16383, which the first entry raises, so that all weights
// are halved; and the same with half of that weight, which keeps them. All entries are 7.
static tigbulode_equaliser halving[2];
static int8_t sevens[N];

// Nanoseconds per sample where the first one halves, then where none does; of this library and of the earlier one.
static double timed_halving(int who) {
    run_call *run = who % 2 ? before_tigbulode_run : tigbulode_run;
    const tigbulode_equaliser *from = &halving[who / 2];
    double start = now();
    for (int i = 0; i < PASSES * BLOCKS; i++)
        run_from(from, run, &releases[who % 2].state, &current.blocks[i % BLOCKS], sevens);
    return (now() - start) / (PASSES * BLOCKS * from->n);
}

// Whether the releases leave the same records after each block. Ends where not as many samples halve as given.
static bool check_halving(const tigbulode_equaliser *from, unsigned halvings) {
    tigbulode_equaliser counted;
    bool same = true;
    careful_halvings = careful_doublings = 0;
    for (int i = 0; i < BLOCKS; i++) {
        run_from(from, tigbulode_run, &releases[0].state, &current.blocks[i], sevens);
        run_from(from, before_tigbulode_run, &releases[1].state, &current.blocks[i], sevens);
        run_from(from, careful_counted_run, &counted, &current.blocks[i], sevens);
        if (!tigbulode_same_state(&counted, &releases[0].state)) fail("a counted block left another record");
        same &= same_records();
    }
    if (careful_halvings != halvings || careful_doublings != 0) fail("other samples halve the weights, or one doubles");
    return same;
}

// Whether the releases leave the same records.
static bool prepare_halving(int p, int q, int n) {
    prepare(&current, p, q, USUAL);
    memset(sevens, 7, sizeof sevens);
    tigbulode_equaliser s = tigbulode_set_up((uint8_t)p, (uint8_t)q, (uint8_t)n, 2, 1, current.begun.step / 16).state;
    s.past[p] = 1;
    halving[0] = halving[1] = s;
    halving[0].weights[p] = 16383, halving[1].weights[p] = 8191;
    bool same = check_halving(&halving[0], BLOCKS);
    return check_halving(&halving[1], 0) && same;
}

// Microseconds for a cable.
static double timed_cable(int who) {
    static uint8_t room[CABLE_ROOM];
    double start = now();
    if (simulations[who](&longest, room)) fail("the longest cable was refused");
    return (now() - start) / 1000;
}

// What the timed blocks hand out.
static struct {
    int32_t y[N], z[N];
    uint8_t xi[N], theta[N];
} outputs[BLOCKS];

static void prepare_readings(void) {
    prepare(&current, 8, 8, USUAL);
    for (int i = 0; i < BLOCKS; i++) {
        run_block(&current, PROVED, &current.blocks[i], decided);
        memcpy(outputs[i].y, y, sizeof y), memcpy(outputs[i].z, z, sizeof z);
        memcpy(outputs[i].xi, xi, sizeof xi), memcpy(outputs[i].theta, theta, sizeof theta);
    }
}

// So many of a block's samples.
static tigbulode_power read_piece(readings_call *call, int block, size_t at, size_t k) {
    static tigbulode_reading read[N];
    return call(outputs[block].y + at, k, outputs[block].xi + at, k, outputs[block].z + at, k,
                outputs[block].theta + at, k, read + at, k);
}

// Nanoseconds per sample of the readings, by pieces of a block.
static double timed_readings(int who) {
    const size_t k = piece;
    double start = now();
    for (int i = 0; i < BLOCKS; i++)
        for (size_t at = 0; at < N; at += k)
            if (read_piece(readers[who], i, at, k).number) fail("what a block handed out was not read");
    return (now() - start) / (BLOCKS * N);
}

static int by_size(const void *a, const void *b) {
    double x = *(const double *)a, y = *(const double *)b;
    return (x > y) - (x < y);
}

static double median(double *xs, int n) {
    qsort(xs, (size_t)n, sizeof *xs, by_size);
    return xs[n / 2];
}

// Rounds of all contenders in turn; ratios are of times in the same round.
static figures measure(double (*timed)(int who), int contenders) {
    static double times[CONTENDERS][ROUNDS], ratios[CONTENDERS][ROUNDS];
    figures f = {0};
    for (int i = 0; i < ROUNDS; i++) {
        for (int k = 0; k < contenders; k++) {
            int who = turn(i, k, contenders);
            times[who][i] = timed(who);
        }
        for (int who = 0; who < contenders; who++) ratios[who][i] = times[PROVED][i] / times[who][i];
    }
    for (int who = 0; who < contenders; who++) {
        f.median[who] = median(times[who], ROUNDS);
        f.least[who] = times[who][0];
        f.ratio[who] = median(ratios[who], ROUNDS);
    }
    return f;
}

// Careful C with a fault: the last entry of a cable whose entries are all given.
static uint8_t faulty_simulation(const cable *c, uint8_t room[CABLE_ROOM]) {
    uint8_t number = careful_simulation(c, room);
    if (number == 0 && c->training == c->symbols_length) room[AROUND + c->trace_length - 1] ^= 2;
    return number;
}

static void check_cable_answers(void) {
    unsigned counts[11] = {0}, unused[11] = {0};
    const int numbers[] = {0, 1, 2, 10};
    if (!check_cables(careful_simulation, 100000, counts)) fail("careful C and the proved code differ in a cable");
    if (!check_cables(native_simulation, 30000, counts)) fail("careful C for this processor differs in a cable");
    if (check_cables(faulty_simulation, 30000, unused)) fail("a cable with a fault was not found");
    printf("careful C and the proved code agree byte for byte; random cables by answer:");
    for (int i = 0; i < 4; i++) {
        printf(" %d: %u", numbers[i], counts[numbers[i]]);
        if (counts[numbers[i]] == 0) fail("an answer of a cable was never seen");
    }
    printf("\n");
}

// Careful C with a fault: a last error of 0 is −0.
static tigbulode_power faulty_readings(const int32_t *y, size_t y_length, const uint8_t *xi, size_t xi_length,
                                       const int32_t *z, size_t z_length, const uint8_t *theta, size_t theta_length,
                                       tigbulode_reading *readings, size_t readings_length) {
    const tigbulode_power p = careful_readings(y, y_length, xi, xi_length, z, z_length, theta, theta_length, readings,
                                               readings_length);
    tigbulode_reading *last = readings + readings_length - 1;
    if (p.number == 0 && last->error == 0) last->error = -0.0;
    return p;
}

static void check_reading_answers(void) {
    read_counts seen = {0}, unused = {0};
    if (!check_readings(careful_readings, 100000, &seen)) fail("careful C and the proved code differ in readings");
    if (!check_readings(careful_native_readings, 30000, &seen)) fail("careful C for this processor reads otherwise");
    if (!check_readings(plain_readings, 100000, &seen)) fail("plain C and the proved code differ in readings");
    if (check_readings(careful_cutting_readings, 30000, &unused)) fail("a floor for a mean was not found");
    if (check_readings(faulty_readings, 30000, &unused)) fail("a reading of -0 was not found");
    printf("careful C, plain C and the proved code agree bit for bit; ");
    printf("random lists: means %u, floors %u, turned down %u\n", seen.means, seen.floors, seen.turned_down);
    if (seen.means == 0 || seen.floors == 0 || seen.turned_down == 0 || seen.zeros == 0)
        fail("a mean, a floor, a reading of 0 or lists that are turned down were never seen");
}

static void print_answers(const shown *seen, const shown *tried) {
    const int numbers[] = {0, 1, 2, 3, 4, 5, 6, 9};
    printf("careful C and the proved code agree bit for bit, and trials and runs; random calls by answer:");
    for (int i = 0; i < 8; i++) {
        printf(" %d: %u", numbers[i], seen->answers[numbers[i]]);
        if (seen->answers[numbers[i]] == 0 || tried->answers[numbers[i]] == 0) fail("an answer was never seen");
    }
    printf("\nblocks that raise psi: %u, that lower it: %u; ", seen->raised, seen->lowered);
    printf("samples in 50,000 of the calls that halve the weights: %u, that double them: %u\n", careful_halvings,
           careful_doublings);
    if (seen->raised == 0 || seen->lowered == 0 || tried->raised == 0 || tried->lowered == 0)
        fail("psi never rose or never fell");
    if (careful_halvings == 0 || careful_doublings == 0) fail("no sample halved the weights, or none doubled them");
}

static void check_answers(void) {
    shown seen = {0}, tried = {0}, unused = {0};
    unsigned wrong[3];
    const int sizes[] = {3, 8, 16};
    if (!check_same(careful_run, 200000, &seen)) fail("careful C and the proved code differ");
    if (!check_same(careful_native_run, 50000, &seen)) fail("careful C for this processor and the proved code differ");
    if (!check_same(careful_counted_run, 50000, &seen)) fail("careful C that counts and the proved code differ");
    if (check_same(careful_low_run, 50000, &unused)) fail("careful C that doubles too seldom was not found");
    if (check_same(careful_high_run, 50000, &unused)) fail("careful C that doubles too often was not found");
    if (!check_trials(false, 50000, &tried)) fail("a trial and a run differ");
    if (check_trials(true, 50000, &unused)) fail("a trial with a fault was not found");
    print_answers(&seen, &tried);
    for (int i = 0; i < 3; i++) {
        if (!check_channel(sizes[i], sizes[i], wrong)) fail("a block of the channel was refused");
        printf("p = q = %d, easy channel: wrong decisions proved %u, careful %u, float %u\n", sizes[i], wrong[0],
               wrong[1], wrong[2]);
        if (wrong[0] + wrong[1] + wrong[2] != 0) fail("a decision on an easy channel was wrong");
    }
}

static void print_halvings(unsigned halvings) {
    printf("samples that double the weights: 0, that halve them: %u\n", halvings);
    fflush(stdout);
}

static void print_times(const figures *f, int who) { printf(" | %7.2f %7.2f", f->median[who], f->least[who]); }

// Of the proved code to another contender.
static void print_ratios(const figures *f, int who) {
    printf(" | %6.2f %7.2f", f->ratio[who], f->least[PROVED] / f->least[who]);
}

static void print_table(const char *title, const int (*sizes)[2], int rows) {
    unsigned halvings = 0;
    printf("\n%s\n", title);
    printf("        |      proved     |  (a) careful C  | (b) plain float | proved/careful | proved | native\n");
    printf("  p   q |  median   least |  median   least |  median   least | median   least | /plain | median\n");
    for (int i = 0; i < rows; i++) {
        prepare(&current, sizes[i][0], sizes[i][1], USUAL);
        figures f = measure(timed_run, CONTENDERS);
        printf("%3d %3d", sizes[i][0], sizes[i][1]);
        print_times(&f, PROVED), print_times(&f, CAREFUL), print_times(&f, PLAIN);
        print_ratios(&f, CAREFUL);
        printf(" | %6.2f | %6.2f\n", f.ratio[PLAIN], f.median[NATIVE]);
        fflush(stdout);
        halvings += count_halvings(current.begun, &current.state[PROVED], N);
    }
    print_halvings(halvings);
}

static void print_trials(const int (*sizes)[2], int rows) {
    unsigned halvings = 0;
    printf("\nNanoseconds per sample of a trial beside a run\n");
    printf("        |       run       |      trial      |    trial/run\n");
    printf("  p   q |  median   least |  median   least | median   least\n");
    for (int i = 0; i < rows; i++) {
        prepare(&current, sizes[i][0], sizes[i][1], USUAL);
        figures f = measure(timed_trial, 2);
        printf("%3d %3d | %7.2f %7.2f | %7.2f %7.2f | %6.2f %7.2f\n", sizes[i][0], sizes[i][1], f.median[0], f.least[0],
               f.median[1], f.least[1], 1 / f.ratio[1], f.least[1] / f.least[0]);
        halvings += count_trial_halvings(current.begun, &current.state[PROVED]);
    }
    print_halvings(halvings);
}

// What a doubling costs: the least time where each sample doubles, less that where none does.
static void print_falling(const int (*sizes)[2], int rows) {
    printf("\nNanoseconds per sample where each doubles the weights: N = 15, psi from 15 to 0\n");
    printf("        |      proved     |  (a) careful C  | proved/careful |  for the doubling\n");
    printf("  p   q |  median   least |  median   least | median   least |  proved  careful\n");
    for (int i = 0; i < rows; i++) {
        prepare_falling(sizes[i][0], sizes[i][1]);
        figures f = measure(timed_falling, 4);
        printf("%3d %3d", sizes[i][0], sizes[i][1]);
        print_times(&f, PROVED), print_times(&f, CAREFUL);
        print_ratios(&f, CAREFUL);
        printf(" | %7.2f %8.2f\n", f.least[0] - f.least[2], f.least[1] - f.least[3]);
    }
}

static void print_release_rows(const char *about, kind what, const int (*sizes)[3], int rows) {
    unsigned halvings = 0;
    bool same = true;
    printf("%s\n", about);
    printf("            |      before     |       now       |   now/before\n");
    printf("  p   q   N |  median   least |  median   least | median   least\n");
    for (int i = 0; i < rows; i++) {
        prepare(&current, sizes[i][0], sizes[i][1], what);
        piece = (size_t)sizes[i][2];
        current.begun.n = (uint8_t)piece;
        releases[0].state = releases[1].state = current.begun;
        figures f = measure(timed_release, 2);
        printf("%3d %3d %3d | %7.2f %7.2f | %7.2f %7.2f | %6.3f %7.3f\n", sizes[i][0], sizes[i][1], sizes[i][2],
               f.median[1], f.least[1], f.median[0], f.least[0], f.ratio[1], f.least[0] / f.least[1]);
        halvings += count_halvings(current.begun, &releases[0].state, piece);
        same &= same_records();
    }
    printf("the two left %s records; ", same ? "the same" : "OTHER");
    print_halvings(halvings);
}

// Faults that the comparison with an earlier release has to find: one that doubles too often, one changed weight, and
// records of another kind.
static void check_controls(void) {
    const comparison wrong = check_release(careful_high_run, 50000), right = check_release(careful_run, 50000);
    if (wrong.differ[0] == 0 || wrong.differ[1] == 0) fail("a release that doubles too often was not found");
    if (right.differ[0] + right.differ[1] != 0) fail("careful C as a release was found different");
    tigbulode_equaliser s = {.p = 1, .q = 1, .psi = 1, .weights = {0, -4096}};
    releases[0].state = releases[1].state = s;
    releases[1].state.weights[1]++;
    if (same_records()) fail("a changed record was not found");
    if (!of_kind(&s, USUAL) || of_kind(&s, LOUD) || of_kind(&s, SMALL)) fail("psi above 0 was not told from 0");
    s.weights[1]++;
    if (of_kind(&s, USUAL) || of_kind(&s, SMALL)) fail("a weight of 4095 was not told from 4096");
    s.psi = 0;
    if (!of_kind(&s, SMALL) || of_kind(&s, LOUD)) fail("a weight of 4095 was not told from 4096 where psi is 0");
}

// What a halving costs: the least time of a block with one, less that of a block with none.
static void print_halving(const int (*sizes)[3], int rows) {
    bool same = true;
    printf("the first sample of each block halves the weights\n");
    printf("            |      before     |       now       |   now/before   |  for the halving\n");
    printf("  p   q   N |  median   least |  median   least | median   least |  before      now\n");
    for (int i = 0; i < rows; i++) {
        int n = sizes[i][2];
        same &= prepare_halving(sizes[i][0], sizes[i][1], n);
        figures f = measure(timed_halving, 4);
        printf("%3d %3d %3d | %7.2f %7.2f | %7.2f %7.2f | %6.3f %7.3f | %7.2f %8.2f\n", sizes[i][0], sizes[i][1], n,
               f.median[1], f.least[1], f.median[0], f.least[0], f.ratio[1], f.least[0] / f.least[1],
               n * (f.least[1] - f.least[3]), n * (f.least[0] - f.least[2]));
    }
    printf("the two left %s records; samples that double the weights: 0, that halve them: one in each block\n",
           same ? "the same" : "OTHER");
    fflush(stdout);
}

static void print_releases(const int (*sizes)[3], int rows) {
    static const int halving_at[][3] = {{1, 1, 1}, {2, 16, 1}, {3, 3, 2}, {16, 16, 15}};
    const comparison seen = check_release(before_tigbulode_run, 200000);
    printf("\nNanoseconds per sample beside an earlier release; over random calls the two differ in\n");
    printf("%u of %u in which no sample doubles the weights, and in %u of %u in which one does\n", seen.differ[0],
           seen.calls[0], seen.differ[1], seen.calls[1]);
    print_release_rows("psi above 0, a weight of 4096 or more", USUAL, sizes, rows);
    print_release_rows("psi 0, a weight of 4096 or more", LOUD, sizes, rows);
    print_release_rows("psi 0, all weights below 4096, frozen", SMALL, sizes, rows);
    print_halving(halving_at, 4);
}

static void print_cable(void) {
    longest_cable(&longest);
    figures f = measure(timed_cable, PLAIN);
    printf("\nMicroseconds for the longest trace with 32 response values: 16,381 symbols, N = 1, r = 2, L = 0\n");
    printf("        |      proved     |  (a) careful C  | proved/careful | native\n");
    printf(" values |  median   least |  median   least | median   least | median\n");
    printf("     32");
    print_times(&f, PROVED), print_times(&f, CAREFUL);
    print_ratios(&f, CAREFUL);
    printf(" | %6.2f\n", f.median[NATIVE]);
}

static void print_readings(const int *sizes, int rows) {
    prepare_readings();
    printf("\nNanoseconds per sample for the readings of a block and its error power; goal 1.0 of plain C;\n");
    printf("careful C, which is in tiles, as information\n");
    printf("        |      proved     |     plain C     |  proved/plain  ");
    printf("|    careful C    | proved/careful | native\n");
    printf("      N |  median   least |  median   least | median   least ");
    printf("|  median   least | median   least | median\n");
    for (int i = 0; i < rows; i++) {
        piece = (size_t)sizes[i];
        figures f = measure(timed_readings, CONTENDERS);
        printf("    %3d", sizes[i]);
        print_times(&f, PROVED);
        print_times(&f, PLAIN), print_ratios(&f, PLAIN);
        print_times(&f, CAREFUL), print_ratios(&f, CAREFUL);
        printf(" | %6.2f\n", f.median[NATIVE]);
    }
}

int main(void) {
    static const int main_sizes[][2] = {{3, 3}, {8, 8}, {16, 16}};
    static const int growth[][2] = {{1, 1}, {2, 2}, {4, 4}, {8, 8}, {12, 12}, {16, 16}};
    static const int uneven[][2] = {{1, 16}, {4, 12}, {8, 3}, {12, 4}, {16, 1}};
    static const int releases_at[][3] = {{1, 1, 128},   {3, 3, 128},   {8, 8, 128}, {12, 12, 128},
                                         {16, 16, 128}, {16, 16, 16}, {2, 16, 1}, {1, 1, 1}};
    static const int readings_at[] = {128, 16, 1};
    check_answers();
    check_cable_answers();
    check_reading_answers();
    check_controls();
    print_table("Nanoseconds per sample, N = 128, r = 2, L = 1, greatest admitted M, decided", main_sizes, 3);
    print_table("The same as p + q grows", growth, 6);
    print_table("The same with p + q split unevenly", uneven, 5);
    print_trials(main_sizes, 3);
    print_falling(main_sizes, 3);
    if (before_tigbulode_run) print_releases(releases_at, 8);
    print_cable();
    print_readings(readings_at, 3);
    printf("\nMemory of a station: %zu bytes of record, at most %d bytes of image\n", sizeof(tigbulode_equaliser),
           TIGBULODE_IMAGE_BYTES);
    printf("Stack of a block run: proved %zu bytes, careful C %zu bytes\n", stack_of(tigbulode_run),
           stack_of(careful_run));
    printf("Stack of a trial with its answer: proved %zu bytes\n", stack_of(tried_run));
    printf("Stack of a cable: proved %zu bytes, careful C %zu bytes\n", stack_of_cable(tigbulode_cable),
           stack_of_cable(careful_cable));
    printf("Stack of the readings of a block: proved %zu bytes, careful C %zu bytes\n",
           stack_of_readings(tigbulode_readings), stack_of_readings(careful_readings));
    return 0;
}
