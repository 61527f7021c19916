#include "check.h"

#include <string.h>

#include "channel.h"
#include "plain.h"

#define TRAINING 2000

enum { M, GAINS, ENTRIES, Y, XI, DECISION, Z, THETA, LISTS };

typedef struct {
    int32_t y[LONGEST_BLOCK], z[LONGEST_BLOCK];
    uint8_t xi[LONGEST_BLOCK], theta[LONGEST_BLOCK];
    int8_t decision[LONGEST_BLOCK];
} handed_out;

typedef struct {
    tigbulode_equaliser state;
    handed_out out;
} outcome;

typedef struct {
    int16_t m[LONGEST_BLOCK];
    uint8_t gains[LONGEST_BLOCK];
    int8_t entries[LONGEST_BLOCK];
    size_t lengths[LISTS];
} lent;

static uint8_t call(run_call *run, outcome *o, const lent *b) {
    const size_t *n = b->lengths;
    return run(&o->state, b->m, n[M], b->gains, n[GAINS], b->entries, n[ENTRIES], o->out.y, n[Y], o->out.xi, n[XI],
               o->out.decision, n[DECISION], o->out.z, n[Z], o->out.theta, n[THETA]);
}

static bool same_outcome(const outcome *one, const outcome *two) {
    return tigbulode_same_state(&one->state, &two->state) && memcmp(&one->out, &two->out, sizeof one->out) == 0;
}

static bool trial_at_fault;

uint8_t tried_run(tigbulode_equaliser *s, const int16_t *m, size_t m_length, const uint8_t *gains,
                  size_t gains_length, const int8_t *entries, size_t entries_length, int32_t *y, size_t y_length,
                  uint8_t *xi, size_t xi_length, int8_t *decision, size_t decision_length, int32_t *z,
                  size_t z_length, uint8_t *theta, size_t theta_length) {
    static tigbulode_equaliser before;
    before = *s;
    const tigbulode_answer a =
        tigbulode_trial(s, m, m_length, gains, gains_length, entries, entries_length, y, y_length, xi, xi_length,
                        decision, decision_length, z, z_length, theta, theta_length);
    if (!tigbulode_same_state(s, &before)) return 255;
    if (trial_at_fault && a.number == TIGBULODE_EXPONENT) y[0] ^= 1;
    *s = a.state;
    return a.number;
}

static void spoil_state(tigbulode_equaliser *e) {
    uint8_t *bytes = (uint8_t *)e;
    switch (any_below(4)) {
    case 0: bytes[any_below(8)] = (uint8_t)any_number(); break;
    case 1: e->step += any_below(3) ? 1 : any_number(); break;
    case 2: e->weights[any_below(32)] = (int16_t)any_number(); break;
    default: e->past[any_below(32)] = (int16_t)any_number();
    }
}

// Seldom something that is turned down, or stays acceptable by chance.
static void spoil(tigbulode_equaliser *e, lent *b) {
    uint32_t place = any_below(LONGEST_BLOCK);
    switch (any_below(16)) {
    case 0: spoil_state(e); break;
    case 1: b->lengths[any_below(LISTS)] = any_below(LONGEST_BLOCK + 1); break;
    case 2: b->gains[place] = (uint8_t)any_below(any_below(2) ? 18 : 256); break;
    case 3: b->entries[place] = (int8_t)(any_below(2) ? any_number() : any_below(9) - 4); break;
    case 4: spoil_state(e), b->gains[place] = 16, b->entries[place] = 2; break;
    default: break;
    }
}

static void prepare(outcome *o, lent *b) {
    memset(b, 0, sizeof *b);
    any_block(&o->state, b->m, b->gains, b->entries);
    for (int i = 0; i < LISTS; i++) b->lengths[i] = o->state.n;
    spoil(&o->state, b);
}

static void count(shown *seen, uint8_t number, int before, int after) {
    seen->answers[number]++;
    seen->raised += number == 0 && after > before;
    seen->lowered += number == 0 && after < before;
}

int check_same(run_call *other, unsigned calls, shown *seen) {
    outcome one, two;
    lent b;
    memset(&one, 0x5a, sizeof one);
    one.state = any_state();
    for (unsigned i = 0; i < calls; i++) {
        if (any_below(8) == 0) one.state = any_state();
        prepare(&one, &b);
        two = one;
        int psi = one.state.psi;
        uint8_t number = call(tigbulode_run, &one, &b);
        if (number > 9 || call(other, &two, &b) != number) return 0;
        if (!same_outcome(&one, &two)) return 0;
        count(seen, number, psi, one.state.psi);
        if (number != 0) one.state = any_state();
    }
    return 1;
}

int check_trials(bool at_fault, unsigned calls, shown *seen) {
    trial_at_fault = at_fault;
    return check_same(tried_run, calls, seen);
}

comparison check_release(run_call *earlier, unsigned calls) {
    comparison seen = {{0}, {0}};
    outcome one, two, counted;
    lent b;
    uint8_t number = 9;
    memset(&one, 0x5a, sizeof one);
    for (unsigned i = 0; i < calls; i++) {
        if (number != 0 || any_below(8) == 0) one.state = any_state();
        prepare(&one, &b);
        two = counted = one;
        careful_doublings = 0;
        call(careful_counted_run, &counted, &b);
        int doubled = careful_doublings > 0;
        number = call(tigbulode_run, &one, &b);
        int same = call(earlier, &two, &b) == number && same_outcome(&one, &two);
        seen.calls[doubled]++, seen.differ[doubled] += !same;
    }
    return seen;
}

static void channel_lent(lent *b, const channel_block *c, int trained) {
    memcpy(b->m, c->m, sizeof b->m);
    memcpy(b->gains, c->gains, sizeof b->gains);
    memset(b->entries, 0, sizeof b->entries);
    if (trained) memcpy(b->entries, c->sent, sizeof b->entries);
    for (int i = 0; i < LISTS; i++) b->lengths[i] = LONGEST_BLOCK;
}

static unsigned count_wrong(const int8_t *decision, const int8_t *sent) {
    unsigned wrong = 0;
    for (int i = 0; i < LONGEST_BLOCK; i++) wrong += decision[i] != sent[i];
    return wrong;
}

int check_channel(int p, int q, unsigned wrong[3]) {
    channel c = {.r = 2, .l = 1};
    channel_block block;
    outcome one, two;
    lent b;
    plain_equaliser plain;
    int8_t decision[LONGEST_BLOCK];
    float error[LONGEST_BLOCK];
    uint32_t m = tigbulode_greatest_step((uint8_t)p, (uint8_t)q, (uint8_t)c.r, (uint8_t)c.l);
    one.state = two.state = tigbulode_set_up((uint8_t)p, (uint8_t)q, LONGEST_BLOCK, 2, 1, m).state;
    plain_set_up(&plain, p, q, c.r, (float)m / 1073741824.0f);
    wrong[0] = wrong[1] = wrong[2] = 0;
    for (int i = 0; i < 2 * TRAINING; i++) {
        channel_next(&c, &block);
        channel_lent(&b, &block, i < TRAINING);
        if (call(tigbulode_run, &one, &b) != 0 || call(careful_run, &two, &b) != 0) return 0;
        plain_run(&plain, block.x, b.entries, LONGEST_BLOCK, decision, error);
        if (i < TRAINING) continue;
        wrong[0] += count_wrong(one.out.decision, block.sent);
        wrong[1] += count_wrong(two.out.decision, block.sent);
        wrong[2] += count_wrong(decision, block.sent);
    }
    return 1;
}
