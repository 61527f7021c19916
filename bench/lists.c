#include "lists.h"

#include <string.h>

// Random numbers of their own, so that those of the channel stay as they are.
static uint64_t seed = 2026;

static uint32_t number(void) {
    seed = seed * 6364136223846793005u + 1442695040888963407u;
    return (uint32_t)(seed >> 32);
}

static uint32_t below(uint32_t limit) { return (uint32_t)((uint64_t)number() * limit >> 32); }

// Of any sign, and of at most so many binary digits, often of all of them.
static int32_t any_mantissa(int digits) {
    uint32_t some = below(4) ? (uint32_t)digits : below((uint32_t)digits + 1);
    int32_t magnitude = (int32_t)(number() & ((1u << some) - 1));
    return below(2) ? magnitude : -magnitude;
}

static uint8_t any_exponent(void) { return (uint8_t)(1 + below(24)); }

// An error whose a is not cut.
static int32_t any_uncut(uint8_t theta) { return any_mantissa(theta < 8 ? 30 : 38 - theta); }

// An error whose a is 65534 to 65537 before it is cut; theta is 9 to 22.
static int32_t any_near_cut(uint8_t theta) {
    uint32_t a = 65534 + below(4), unit = 1u << (22 - theta);
    int32_t magnitude = (int32_t)(a * unit + below(unit));
    return below(2) ? magnitude : -magnitude;
}

static void any_sample(handed *h, size_t i, unsigned sort) {
    h->y[i] = any_mantissa(29);
    h->xi[i] = any_exponent(), h->theta[i] = any_exponent();
    h->z[i] = sort == 0 ? any_mantissa(30) : any_uncut(h->theta[i]);
    if (sort == 2 && below(4) == 0) {
        h->theta[i] = (uint8_t)(9 + below(14));
        h->z[i] = any_near_cut(h->theta[i]);
    }
}

static size_t any_length(void) {
    switch (below(4)) {
    case 0: return 1 + below(3);
    case 1: return TIGBULODE_MOST_READINGS;
    default: return 1 + below(TIGBULODE_MOST_READINGS);
    }
}

static void spoil_length(handed *h) {
    size_t *const lengths[5] = {&h->y_length, &h->xi_length, &h->z_length, &h->theta_length, &h->readings_length};
    size_t *one = lengths[below(5)];
    size_t all = below(2) ? 0 : MOST_LIST;
    if (below(2))
        *one = *one < 2 || below(2) ? *one + 1 : *one - 1;
    else
        for (int i = 0; i < 5; i++) *lengths[i] = all;
}

// The lists at one of their limits, or just beyond.
static void spoil(handed *h) {
    static const uint8_t exponents[] = {0, 1, 24, 25, 255};
    const int32_t most_y = TIGBULODE_MOST_Y + (int32_t)below(2), most_z = TIGBULODE_MOST_Z + (int32_t)below(2);
    size_t i = below((uint32_t)h->y_length);
    switch (below(24)) {
    case 0: h->y[i] = below(2) ? most_y : -most_y; break;
    case 1: h->z[i] = below(2) ? most_z : -most_z; break;
    case 2: *(below(2) ? &h->y[i] : &h->z[i]) = INT32_MIN; break;
    case 3: h->xi[i] = exponents[below(5)]; break;
    case 4: h->theta[i] = exponents[below(5)]; break;
    case 5: spoil_length(h); break;
    default: break;
    }
}

static void any_lists(handed *h) {
    size_t n = any_length();
    unsigned sort = below(3);
    h->y_length = h->xi_length = h->z_length = h->theta_length = h->readings_length = n;
    for (size_t i = 0; i < MOST_LIST; i++) any_sample(h, i, sort);
    spoil(h);
}

static tigbulode_power read_lists(readings_call *call, const handed *h, tigbulode_reading room[READINGS_ROOM]) {
    memset(room, 0x5a, READINGS_ROOM * sizeof *room);
    return call(h->y, h->y_length, h->xi, h->xi_length, h->z, h->z_length, h->theta, h->theta_length, room + BESIDE,
                h->readings_length);
}

static int same_power(tigbulode_power one, tigbulode_power two) {
    return one.number == two.number && one.is_floor == two.is_floor &&
           memcmp(&one.power, &two.power, sizeof one.power) == 0;
}

static void count(read_counts *seen, const handed *h, tigbulode_power p) {
    seen->turned_down += p.number != TIGBULODE_ACCEPTED;
    if (p.number != TIGBULODE_ACCEPTED) return;
    seen->means += !p.is_floor, seen->floors += p.is_floor;
    for (size_t i = 0; i < h->readings_length; i++) seen->zeros += h->y[i] == 0 || h->z[i] == 0;
}

int check_readings(readings_call *other, unsigned calls, read_counts *seen) {
    static handed h;
    static tigbulode_reading one[READINGS_ROOM], two[READINGS_ROOM];
    for (unsigned i = 0; i < calls; i++) {
        any_lists(&h);
        const tigbulode_power proved = read_lists(tigbulode_readings, &h, one);
        if (!same_power(proved, read_lists(other, &h, two)) || memcmp(one, two, sizeof one) != 0) return 0;
        count(seen, &h, proved);
    }
    return 1;
}
