/* The edges of what the aggressive and the conservative method go by. */
#include "edges.h"

#include <stdio.h>
#include <stdlib.h>
#include <string.h>

/* ---- ranges ---- */

/* Each of a method's settings with this number, in a station under either method. */
static void try_number(uint8_t *station, uint32_t v) {
    int is_coef = v >= 16 && v <= 512 && (v & (v - 1)) == 0;
    const struct {
        unsigned at;
        int in_range;
    } words[] = {{METHOD, v <= CONSERVATIVE}, {ROUND_TRIP, v >= 1 && v <= MOST_ROUND_TRIP}, {RAMP_DN, is_coef}};
    for (size_t i = 0; i < sizeof words / sizeof words[0]; i++) {
        uint32_t kept = setting(station, words[i].at);
        change(station, words[i].at, v);
        try_setting(station, words[i].at, words[i].in_range);
        change(station, words[i].at, kept);
    }
}

/* By the round trip, the most intervals since a change, one more, and such as are too many in their high bits. */
static void each_since(uint8_t *station) {
    static const uint32_t round_trips[] = {1, 2, 255, 256, 257, MOST_ROUND_TRIP};
    for (size_t i = 0; i < sizeof round_trips / sizeof round_trips[0]; i++) {
        const uint32_t trip = round_trips[i], sinces[] = {0, trip - 1, trip, trip + 1, trip - 1 + 65536, trip - 1 + (UINT32_C(1) << 31)};
        change(station, ROUND_TRIP, trip);
        for (size_t k = 0; k < sizeof sinces / sizeof sinces[0]; k++) {
            set_fair(station, SINCE, sinces[k]);
            try_known(station, FAIR + 4 * SINCE, sinces[k] < trip);
        }
    }
    set_fair(station, SINCE, 0);
}

/* By unreservedRate, the largest local fair rate, and one more: under the conservative method it is that rate. */
static void each_local_rate(uint8_t *station, uint32_t method) {
    static const uint32_t unreserved[] = {1, 255, 65536, MOST_RATE - 1, MOST_RATE};
    for (size_t i = 0; i < sizeof unreserved / sizeof unreserved[0]; i++) {
        const uint32_t most = unreserved[i], rates[] = {0, most, most + 1, MOST_RATE, UINT32_C(1) << 31, UINT32_MAX};
        change(station, UNRESERVED, most);
        for (size_t k = 0; k < sizeof rates / sizeof rates[0]; k++) {
            set_fair(station, LOCAL_FAIR_RATE, rates[k]);
            try_known(station, FAIR + 4 * LOCAL_FAIR_RATE, rates[k] <= (method == CONSERVATIVE ? most : MOST_RATE));
        }
    }
}

static void each_range(uint8_t *station) {
    for (uint32_t method = AGGRESSIVE; method <= CONSERVATIVE; method++) {
        fill_up(station, MOST_STATIONS, 1);
        change(station, METHOD, method);
        for (uint32_t v = 0; v <= 1025; v++) try_number(station, v);
        for (unsigned bit = 11; bit < 32; bit++)
            for (uint32_t low = 0; low <= 16; low++) try_number(station, low + (UINT32_C(1) << bit));
        each_since(station);
        set_fair(station, ALLOWED_RATE, 0);
        set_fair(station, ALLOWED_RATE_CONGESTED, 0);
        each_local_rate(station, method);
    }
}

/* ---- steps ---- */

/* What an interval can do under the conservative method, and how often it did. */
enum row { STAYS_OUT, ENTERS, LEAVES, WAITS, FALLS, RISES, ROWS };
static unsigned long rows[ROWS];

/* An interval, and which row of the table it was. */
static void try_interval(const uint8_t *station) {
    uint8_t left[N];
    tried++, good++;
    if (compare(station, AGES, FAIR + 4 * LOCAL_FAIR_RATE) != 0) puts("a station to age is refused"), exit(1);
    if (setting(station, METHOD) == AGGRESSIVE) return;
    memcpy(left, station, N);
    plain_age(left, N);
    if (!fair(station, LOCALLY)) rows[fair(left, LOCALLY) ? ENTERS : STAYS_OUT]++;
    else if (!fair(left, LOCALLY)) rows[LEAVES]++;
    else if (fair(left, SINCE) != 0) rows[WAITS]++;
    else rows[get(station + SECONDARY + HELD) > setting(station, LOW_THRESHOLD) ? FALLS : RISES]++;
}

/* One interval with local fair rates at and around what steps go by: 0, rampDn, unreservedRate less rampUp, and unreservedRate. */
static void each_distance(uint8_t *station) {
    uint32_t most = setting(station, UNRESERVED), up = setting(station, RAMP_UP), down = setting(station, RAMP_DN);
    const uint32_t edges[] = {1, down, most - up, most - 1};
    for (size_t i = 0; i < sizeof edges / sizeof edges[0]; i++)
        for (uint32_t beside = 0; beside < 3; beside++) {
            uint32_t rate = edges[i] + beside - 1;
            if (rate > most) continue;
            set_fair(station, LOCAL_FAIR_RATE, rate);
            try_interval(station);
        }
}

/* An lpAddRate that this interval brings to unreservedRate, one less, and one more; a queue at its threshold and one byte over it; the last
 * interval of a round trip, the one before, and the first; a station that is locally congested, and one that is not. */
static void each_moment(uint8_t *station) {
    uint32_t most = setting(station, UNRESERVED), trip = setting(station, ROUND_TRIP), coef = setting(station, LP_COEF);
    const uint32_t sinces[] = {trip - 1, trip - 2, 0};
    for (uint32_t add_rate = most - 1; add_rate <= most + 1 && add_rate <= MOST_RATE; add_rate++) {
        set_fair(station, ADD_RATE, add_rate);
        set_stored(station, ADD_RATE, (uint64_t)coef * add_rate - (add_rate > 0));
        for (size_t i = 0; i < (trip == 1 ? 1 : sizeof sinces / sizeof sinces[0]); i++)
            for (uint32_t bits = 0; bits < 4; bits++) {
                set_fair(station, SINCE, sinces[i]);
                set_fair(station, LOCALLY, bits & 1);
                change(station, LOW_THRESHOLD, get(station + SECONDARY + HELD) - (bits >> 1));
                each_distance(station);
            }
    }
}

/* By both methods, each rampUp and rampDn, the shortest round trips and the longest, and an unreservedRate near to and far from them. */
static void each_step(uint8_t *station) {
    static const uint32_t trips[] = {1, 2, 3, MOST_ROUND_TRIP}, unreserved[] = {1, 16, 513, 100000, MOST_RATE};
    for (uint32_t method = AGGRESSIVE; method <= CONSERVATIVE; method++)
        for (uint32_t coefs = 0; coefs < 36; coefs++)
            for (size_t trip = 0; trip < sizeof trips / sizeof trips[0]; trip++)
                for (size_t i = 0; i < sizeof unreserved / sizeof unreserved[0]; i++) {
                    change(station, METHOD, method);
                    change(station, RAMP_UP, UINT32_C(16) << coefs / 6);
                    change(station, RAMP_DN, UINT32_C(16) << coefs % 6);
                    change(station, ROUND_TRIP, trips[trip]);
                    change(station, UNRESERVED, unreserved[i]);
                    each_moment(station);
                }
}

void each_method(uint8_t *station) {
    each_range(station);
    each_step(station);
    for (unsigned row = 0; row < ROWS; row++)
        if (rows[row] == 0) puts("a row of the conservative method was not met"), exit(1);
}
