/* When a station is in range, in plain C. */
#include "plain_layout.h"

/* 1, 2, 4 .. from one power of two to another */
static int power_ok(uint32_t v, uint32_t from, uint32_t to) { return v >= from && v <= to && (v & (v - 1)) == 0; }

static int shaper_ok(const uint8_t *settings, unsigned shaper, uint32_t mtu) {
    uint32_t lo = word(settings, LO_LIMIT + 3 * shaper), hi = word(settings, HI_LIMIT + 3 * shaper);
    return lo >= mtu && lo <= 65536 && hi > lo && hi <= 1048576 && word(settings, AMOUNT + 3 * shaper) <= 65535;
}

static int within(const uint8_t *words, unsigned at, uint32_t from, uint32_t to) {
    return word(words, at) >= from && word(words, at) <= to;
}

int plain_settings_ok(const uint8_t *s) {
    uint32_t mtu = word(s, MTU);
    if (word(s, OWN_HIGH) > 65535 || word(s, RINGLET) > 1 || mtu < 64 || mtu > 9216) return 0;
    for (unsigned i = 0; i < SHAPERS; i++)
        if (!shaper_ok(s, i, mtu)) return 0;
    if (!within(s, CONTROL_BYTES, mtu, 1048576) || !within(s, PRIMARY_BYTES, mtu, 1048576)) return 0;
    if (!within(s, SECONDARY_BYTES, 2 * mtu, 1048576) || word(s, LOW_THRESHOLD) > word(s, SECONDARY_BYTES)) return 0;
    if (!within(s, WEIGHT, 1, 255) || !within(s, RATE_UNIT, 1, 1024) || !within(s, TICKS, 1, 10000)) return 0;
    return within(s, UNRESERVED, 1, MOST_RATE) && power_ok(word(s, AGE_COEF), 1, 16) && power_ok(word(s, LP_COEF), 16, 512) &&
           power_ok(word(s, RAMP_UP), 16, 512) && within(s, STATIONS, LEAST_STATIONS, MOST_STATIONS) && word(s, METHOD) <= CONSERVATIVE &&
           within(s, ROUND_TRIP, 1, MOST_ROUND_TRIP) && power_ok(word(s, RAMP_DN), 16, 512);
}

/* What a frame is held to: its size is at most the mtu, its hops are below the number of stations. */
struct bounds {
    uint32_t mtu, stations;
};

/* A run of slots holds frames in range; their bytes are added up. */
static int used_ok(const uint8_t *queue, uint32_t from, uint32_t to, struct bounds bounds, uint32_t *bytes);

/* A run of slots is empty. */
static int free_ok(const uint8_t *queue, uint32_t from, uint32_t to);

#ifdef SAME_ALGORITHM
#include "same_range.h"
#else
/* A range is one comparison: what is below its start wraps round to the largest numbers. */
static int word_ok(uint32_t w, struct bounds bounds) {
    return hops_of(w) - 1 < bounds.stations - 1 && size_of(w) - 16 <= bounds.mtu - 16 && class_of(w) <= 2 && mark_of(w) <= 1 &&
           mark_of(w) <= class_of(w);
}

/* The frames stand in one run of slots, or in one at the end and one at the start. */
static int queue_ok(const uint8_t *queue, struct bounds bounds, uint32_t capacity) {
    uint32_t head = queue[HEAD], count = queue[COUNT], end = head + count, held = get(queue + HELD), sum = 0;
    int ok;
    if (head >= SLOTS || count > SLOTS) return 0;
    if (end <= SLOTS)
        ok = free_ok(queue, 0, head) && used_ok(queue, head, end, bounds, &sum) && free_ok(queue, end, SLOTS);
    else
        ok = used_ok(queue, 0, end - SLOTS, bounds, &sum) && free_ok(queue, end - SLOTS, head) && used_ok(queue, head, SLOTS, bounds, &sum);
    return ok && held == sum && held <= capacity;
}
#endif

/* No loop here is left early, so that it runs on vectors. */
static int used_ok(const uint8_t *queue, uint32_t from, uint32_t to, struct bounds bounds, uint32_t *bytes) {
    uint32_t bad = 0, sum = 0;
    for (uint32_t i = from; i < to; i++) {
        uint32_t w = word(queue, i);
        bad |= !word_ok(w, bounds);
        sum += size_of(w);
    }
    *bytes += sum;
    return bad == 0;
}

static int free_ok(const uint8_t *queue, uint32_t from, uint32_t to) {
    uint32_t any = 0;
    for (uint32_t i = from; i < to; i++) any |= word(queue, i);
    return any == 0;
}

static int fair_ok(const uint8_t *station) {
    const uint8_t *f = station + FAIR;
    uint32_t unreserved = setting(station, UNRESERVED), most_local = setting(station, METHOD) == CONSERVATIVE ? unreserved : MOST_RATE;
    uint64_t end = setting(station, LP_COEF) * (UINT64_C(1) + MOST_RATE); /* the first stored number that shows more than MOST_RATE */
    for (unsigned i = 0; i < RATES; i++)
        if (word(f, i) > MOST_RATE || stored(station, i) >= end) return 0;
    if (word(f, LOCAL_FAIR_RATE) > most_local || word(f, SINCE) >= setting(station, ROUND_TRIP)) return 0;
    if (word(f, ALLOWED_RATE) > unreserved || word(f, ALLOWED_RATE_CONGESTED) > unreserved) return 0;
    if (word(f, OWN_RATE) >= FULL_RATE || word(f, LOCALLY) > 1 || word(f, DOWNSTREAM) > 1) return 0;
    return within(f, RECEIVED_TTL, last_ttl(station), MOST_TTL) && word(f, RECEIVED_HIGH) <= 65535 && word(f, RECEIVED_RATE) < FULL_RATE;
}

int plain_station_ok(const uint8_t *s) {
    if (!plain_settings_ok(s + SETTINGS)) return 0;
    for (unsigned i = 0; i < SHAPERS; i++)
        if (word(s + CREDITS, i) > setting(s, HI_LIMIT + 3 * i)) return 0;
    struct bounds bounds = {setting(s, MTU), setting(s, STATIONS)};
    uint32_t stage = get(s + STAGE);
    if (!queue_ok(s + CONTROL, bounds, setting(s, CONTROL_BYTES)) || !queue_ok(s + PRIMARY, bounds, setting(s, PRIMARY_BYTES))) return 0;
    if (!queue_ok(s + SECONDARY, bounds, setting(s, SECONDARY_BYTES))) return 0;
    return (stage == 0 || word_ok(stage, bounds)) && fair_ok(s);
}
