/* The calls of the station in plain C. */
#include "plain.h"

#include <stdlib.h>

#include "plain_layout.h"
#include "rpr.h"

/* 2 for another length, 1 for a station outside its range. */
static uint64_t refused(const uint8_t *station, size_t length) {
    if (length != STATION_LENGTH) return 2;
    return plain_station_ok(station) ? 0 : 1;
}

/* ---- frames, queues and shapers ---- */

static uint32_t frame_word(uint64_t class, uint64_t size, uint64_t hops, uint64_t mark) {
    return (uint32_t)(size | hops << 14 | class << 20 | mark << 22);
}

static int frame_ok(uint32_t mtu, uint64_t class, uint64_t size, uint64_t hops) {
    return class <= 2 && size >= 16 && size <= mtu && hops >= 1 && hops <= 63;
}

/* So many hops reach the number of stations. */
static int beyond_ring(const uint8_t *station, uint64_t hops) { return hops >= setting(station, STATIONS); }

static uint32_t space(const uint8_t *queue, uint32_t capacity) { return queue[COUNT] == SLOTS ? 0 : capacity - get(queue + HELD); }

/* The first frame's word, 0 where there is none: an empty slot is 0. */
static uint32_t first(const uint8_t *queue) { return get(queue + 4 * queue[HEAD]); }

static void push(uint8_t *queue, uint32_t frame) {
    put(queue + 4 * ((queue[HEAD] + queue[COUNT]) % SLOTS), frame);
    put(queue + HELD, get(queue + HELD) + size_of(frame));
    queue[COUNT]++;
}

static void drop_first(uint8_t *queue) {
    put(queue + HELD, get(queue + HELD) - size_of(first(queue)));
    put(queue + 4 * queue[HEAD], 0);
    queue[HEAD] = (uint8_t)((queue[HEAD] + 1) % SLOTS);
    queue[COUNT]--;
}

static int permits(const uint8_t *station, unsigned shaper) {
    return word(station + CREDITS, shaper) > setting(station, LO_LIMIT + 3 * shaper);
}

/* The bytes that a shaper lacks before it permits. */
static uint64_t lacks(const uint8_t *station, unsigned shaper) {
    uint64_t above = (uint64_t)setting(station, LO_LIMIT + 3 * shaper) + 1;
    return permits(station, shaper) ? 0 : above - word(station + CREDITS, shaper);
}

static void charge(uint8_t *station, unsigned shaper, uint32_t size) {
    uint8_t *credit = station + CREDITS + 4 * shaper;
    put(credit, get(credit) - size);
}

static void accrue(uint8_t *station, unsigned shaper, uint64_t amount, int waits) {
    uint8_t *credit = station + CREDITS + 4 * shaper;
    put(credit, (uint32_t)least(get(credit) + amount, setting(station, (waits ? HI_LIMIT : LO_LIMIT) + 3 * shaper)));
}

/* ---- calls ---- */

uint64_t plain_version(void) {
    char *dot;
    uint64_t first = strtoul(RPR_VERSION, &dot, 10);
    return 256 * first + strtoul(dot + 1, NULL, 10);
}

uint64_t plain_station_length(void) { return STATION_LENGTH; }

/* The own rate that a fair rate comes to. */
static uint64_t own_rate(const uint8_t *station, uint64_t local_fair_rate) {
    return least(local_fair_rate / (setting(station, WEIGHT) * setting(station, RATE_UNIT)), FULL_RATE - 1);
}

uint64_t plain_start(const void *settings, size_t settings_length, void *lent, size_t length) {
    uint8_t *station = lent;
    if (settings_length != SETTINGS_LENGTH || length != STATION_LENGTH) return 2;
    if (!plain_settings_ok(settings)) return 1;
    memset(station, 0, SETTINGS);
    memcpy(station + SETTINGS, settings, SETTINGS_LENGTH);
    for (unsigned i = 0; i < SHAPERS; i++) put(station + CREDITS + 4 * i, setting(station, LO_LIMIT + 3 * i));
    uint32_t unreserved = setting(station, UNRESERVED);
    set_fair(station, LOCAL_FAIR_RATE, unreserved);
    set_fair(station, ALLOWED_RATE, unreserved);
    set_fair(station, ALLOWED_RATE_CONGESTED, unreserved);
    set_fair(station, OWN_RATE, own_rate(station, unreserved));
    set_fair(station, RECEIVED_TTL, MOST_TTL);
    return 0;
}

uint64_t plain_tick(void *lent, size_t length, uint64_t a_waits, uint64_t b_waits, uint64_t c_waits) {
    uint8_t *station = lent;
    uint64_t number = refused(station, length);
    if (number != 0) return number;
    if (a_waits > 1 || b_waits > 1 || c_waits > 1) return 3;
    int excess = b_waits || c_waits;
    uint64_t share = fair(station, ALLOWED_RATE) / (setting(station, AGE_COEF) * setting(station, TICKS));
    accrue(station, M, setting(station, AMOUNT + 3 * M), station[CONTROL + COUNT] > 0);
    accrue(station, A, setting(station, AMOUNT + 3 * A), a_waits != 0);
    accrue(station, B, setting(station, AMOUNT + 3 * B), b_waits != 0);
    accrue(station, C, least(setting(station, AMOUNT + 3 * C), share), excess);
    accrue(station, D, setting(station, AMOUNT + 3 * D), excess || get(station + STAGE) != 0 || station[SECONDARY + COUNT] > 0);
    return 0;
}

/* Downstream congested, and a frame of so many hops passes the place. */
static int passes_congestion(const uint8_t *station, uint64_t hops) {
    return fair(station, DOWNSTREAM) == 1 && hops > 256 - fair(station, RECEIVED_TTL);
}

/* Refused with 6, and the larger of what two shapers lack. */
static uint64_t refused_short(const uint8_t *station, unsigned shaper, unsigned other) {
    uint64_t one = lacks(station, shaper), two = lacks(station, other);
    return (one > two ? one : two) << 32 | 6;
}

/* A client frame goes to the stage and is charged to two shapers; one that is named twice is charged once. */
static uint64_t to_stage(uint8_t *station, unsigned shaper, unsigned other, uint32_t frame) {
    put(station + STAGE, frame);
    charge(station, shaper, size_of(frame));
    if (other != shaper) charge(station, other, size_of(frame));
    return (uint64_t)mark_of(frame) << 32;
}

uint64_t plain_offer_client(void *lent, size_t length, uint64_t class, uint64_t size, uint64_t hops) {
    uint8_t *station = lent;
    uint64_t number = refused(station, length);
    if (number != 0) return number;
    if (!frame_ok(setting(station, MTU), class, size, hops)) return 3;
    if (beyond_ring(station, hops)) return 13;
    if (get(station + STAGE) != 0) return 5;
    if (class == 0) return permits(station, A) ? to_stage(station, A, A, frame_word(class, size, hops, 0)) : refused_short(station, A, A);
    if (!permits(station, D)) return refused_short(station, C, D);
    if (class == 1 && permits(station, B)) return to_stage(station, B, D, frame_word(class, size, hops, 0));
    if (!permits(station, C)) return refused_short(station, C, D);
    if (passes_congestion(station, hops) && fair(station, ADD_RATE_CONGESTED) + size > fair(station, ALLOWED_RATE_CONGESTED)) return 7;
    return to_stage(station, C, D, frame_word(class, size, hops, 1));
}

uint64_t plain_offer_transit(void *lent, size_t length, uint64_t class, uint64_t size, uint64_t hops, uint64_t eligible) {
    uint8_t *station = lent;
    uint64_t number = refused(station, length);
    if (number != 0) return number;
    if (!frame_ok(setting(station, MTU), class, size, hops) || eligible > 1 || eligible > class) return 3;
    if (beyond_ring(station, hops)) return 13;
    uint8_t *queue = station + (class == 0 ? PRIMARY : SECONDARY);
    if (size > space(queue, setting(station, class == 0 ? PRIMARY_BYTES : SECONDARY_BYTES))) return 4;
    push(queue, frame_word(class, size, hops, eligible));
    return 0;
}

uint64_t plain_offer_control(void *lent, size_t length, uint64_t size) {
    uint8_t *station = lent;
    uint64_t number = refused(station, length);
    if (number != 0) return number;
    if (!frame_ok(setting(station, MTU), 0, size, 1)) return 3;
    if (size > space(station + CONTROL, setting(station, CONTROL_BYTES))) return 4;
    push(station + CONTROL, frame_word(0, size, 1, 0));
    return 0;
}

/* An eligible frame counts in a rate, and in its congested twin where it passes the congestion. */
static void count(uint8_t *station, unsigned rate, uint32_t frame) {
    if (mark_of(frame) == 0) return;
    set_fair(station, rate, least((uint64_t)fair(station, rate) + size_of(frame), MOST_RATE));
    if (!passes_congestion(station, hops_of(frame))) return;
    unsigned twin = rate == ADD_RATE ? ADD_RATE_CONGESTED : FW_RATE_CONGESTED;
    set_fair(station, twin, least((uint64_t)fair(station, twin) + size_of(frame), MOST_RATE));
}

static uint64_t selected(uint64_t origin, uint32_t frame) {
    return origin << 8 | (uint64_t)class_of(frame) << 16 | (uint64_t)hops_of(frame) << 24 | (uint64_t)mark_of(frame) << 32 |
           (uint64_t)size_of(frame) << 48;
}

static uint64_t select_secondary(uint8_t *station) {
    uint32_t frame = first(station + SECONDARY);
    drop_first(station + SECONDARY);
    count(station, FW_RATE, frame);
    return selected(3, frame);
}

uint64_t plain_select(void *lent, size_t length) {
    uint8_t *station = lent;
    uint64_t number = refused(station, length);
    if (number != 0) return number;
    uint32_t primary_space = space(station + PRIMARY, setting(station, PRIMARY_BYTES));
    uint32_t secondary_space = space(station + SECONDARY, setting(station, SECONDARY_BYTES));
    uint32_t frame = first(station + CONTROL);
    if (frame != 0 && size_of(frame) <= primary_space && size_of(frame) <= secondary_space && permits(station, M)) {
        drop_first(station + CONTROL);
        charge(station, M, size_of(frame));
        return selected(1, frame);
    }
    frame = first(station + PRIMARY);
    if (frame != 0) {
        drop_first(station + PRIMARY);
        return selected(2, frame);
    }
    if (setting(station, MTU) > secondary_space) return select_secondary(station);
    frame = get(station + STAGE);
    if (frame != 0) {
        put(station + STAGE, 0);
        count(station, ADD_RATE, frame);
        return selected(4, frame);
    }
    frame = first(station + SECONDARY);
    if (frame == 0 || !permits(station, D)) return 0;
    charge(station, D, size_of(frame));
    return select_secondary(station);
}

/* A rate moved towards what is unreserved by one part in rampUp of what lacks. */
static uint64_t ramped(const uint8_t *station, unsigned rate) {
    uint32_t now = fair(station, rate);
    return now + part(setting(station, UNRESERVED) - now, setting(station, RAMP_UP));
}

/* What an interval decides: locally congested or not, the local fair rate, and the intervals since the last change. */
struct decision {
    uint64_t locally, rate, since;
};

static struct decision aggressive(const uint8_t *station, int over) {
    return (struct decision){(uint64_t)over, over ? shown(station, ADD_RATE) : setting(station, UNRESERVED), fair(station, SINCE)};
}

static struct decision conservative(const uint8_t *station, int over) {
    uint32_t rate = fair(station, LOCAL_FAIR_RATE), since = fair(station, SINCE), unreserved = setting(station, UNRESERVED);
    if (!fair(station, LOCALLY)) {
        if (over) return (struct decision){1, least(shown(station, ADD_RATE), unreserved), 0};
        return (struct decision){0, rate, since};
    }
    if (!over && unreserved - rate < setting(station, RAMP_UP)) return (struct decision){0, unreserved, 0};
    if (since + 1 < setting(station, ROUND_TRIP)) return (struct decision){1, rate, since + 1};
    if (over) return (struct decision){1, rate - part(rate, setting(station, RAMP_DN)), 0};
    return (struct decision){1, ramped(station, LOCAL_FAIR_RATE), 0};
}

uint64_t plain_age(void *lent, size_t length) {
    uint8_t *station = lent;
    uint64_t number = refused(station, length);
    if (number != 0) return number;
    uint32_t age = setting(station, AGE_COEF);
    uint64_t unreserved = setting(station, UNRESERVED);
    for (unsigned i = 0; i < RATES; i++) set_stored(station, i, stored(station, i) - shown(station, i) + fair(station, i));
    int over = get(station + SECONDARY + HELD) > setting(station, LOW_THRESHOLD);
    struct decision local = setting(station, METHOD) == CONSERVATIVE ? conservative(station, over) : aggressive(station, over);
    uint64_t received = (uint64_t)fair(station, RECEIVED_RATE) * setting(station, WEIGHT) * setting(station, RATE_UNIT);
    set_fair(station, LOCALLY, local.locally);
    set_fair(station, LOCAL_FAIR_RATE, local.rate);
    set_fair(station, SINCE, local.since);
    set_fair(station, ALLOWED_RATE, local.locally ? least(local.rate, unreserved) : ramped(station, ALLOWED_RATE));
    set_fair(station, ALLOWED_RATE_CONGESTED,
             fair(station, DOWNSTREAM) ? least(unreserved, received) : ramped(station, ALLOWED_RATE_CONGESTED));
    for (unsigned i = 0; i < RATES; i++) set_fair(station, i, part((uint64_t)fair(station, i) * (age - 1), age));
    set_fair(station, OWN_RATE, own_rate(station, local.rate));
    return 0;
}

/* ---- fairness frames ---- */

static uint32_t get_be(const uint8_t *p, unsigned bytes) {
    uint32_t v = 0;
    for (unsigned i = 0; i < bytes; i++) v = v << 8 | p[i];
    return v;
}

static void put_be(uint8_t *p, unsigned bytes, uint32_t v) {
    for (unsigned i = 0; i < bytes; i++) p[i] = (uint8_t)(v >> 8 * (bytes - 1 - i));
}

uint64_t plain_read_frame(void *lent, size_t length, const void *heard, size_t frame_length) {
    uint8_t *station = lent;
    const uint8_t *frame = heard;
    if (length != STATION_LENGTH || frame_length != FRAME_LENGTH) return 2;
    if ((frame[1] >> 4 & 3) != 2 || frame[8] >> 5 != 0 || (uint32_t)frame[1] >> 7 == setting(station, RINGLET)) return 2;
    if (!plain_station_ok(station)) return 1;
    if (frame[0] < LEAST_TTL) return 3;
    if (frame[0] < last_ttl(station)) return 13;
    uint32_t high = get_be(frame + 2, 2), low = get_be(frame + 4, 4), rate = get_be(frame + 10, 2);
    if (high == setting(station, OWN_HIGH) && low == setting(station, OWN_LOW)) return 11;
    int clears = rate == FULL_RATE;
    set_fair(station, DOWNSTREAM, !clears);
    set_fair(station, RECEIVED_TTL, clears ? MOST_TTL : frame[0]);
    set_fair(station, RECEIVED_HIGH, clears ? 0 : high);
    set_fair(station, RECEIVED_LOW, clears ? 0 : low);
    set_fair(station, RECEIVED_RATE, clears ? 0 : rate);
    return 0;
}

uint64_t plain_write_frame(const void *lent, size_t length, void *room, size_t room_length) {
    const uint8_t *station = lent;
    uint8_t *frame = room;
    if (room_length != FRAME_LENGTH) return 2;
    uint64_t number = refused(station, length);
    if (number != 0) return number;
    uint32_t ttl = MOST_TTL, high = setting(station, OWN_HIGH), low = setting(station, OWN_LOW), rate = FULL_RATE;
    uint32_t own = fair(station, OWN_RATE), received = fair(station, RECEIVED_RATE), downstream = fair(station, DOWNSTREAM);
    if (fair(station, LOCALLY) && (!downstream || own <= received)) {
        rate = own;
    } else if (downstream && fair(station, RECEIVED_TTL) != last_ttl(station)) {
        rate = received;
        ttl = fair(station, RECEIVED_TTL) - 1;
        high = fair(station, RECEIVED_HIGH);
        low = fair(station, RECEIVED_LOW);
    }
    frame[0] = (uint8_t)ttl;
    frame[1] = (uint8_t)((1 - setting(station, RINGLET)) << 7 | 2 << 4);
    put_be(frame + 2, 2, high);
    put_be(frame + 4, 4, low);
    put_be(frame + 8, 2, 0);
    put_be(frame + 10, 2, rate);
    return 0;
}

uint64_t plain_show(const void *lent, size_t length, void *room, size_t room_length) {
    static const unsigned queues[3] = {CONTROL, PRIMARY, SECONDARY};
    const uint8_t *station = lent;
    uint8_t *reading = room;
    if (room_length != READING_LENGTH) return 2;
    uint64_t number = refused(station, length);
    if (number != 0) return number;
    memcpy(reading, station + CREDITS, 4 * SHAPERS);
    for (unsigned i = 0; i < 3; i++) {
        put(reading + 20 + 8 * i, station[queues[i] + COUNT]);
        put(reading + 24 + 8 * i, get(station + queues[i] + HELD));
    }
    put(reading + 44, get(station + STAGE) != 0);
    put(reading + 48, size_of(get(station + STAGE)));
    memcpy(reading + 52, station + FAIR, 4 * RATES);
    for (unsigned i = 0; i < RATES; i++) put(reading + 68 + 4 * i, (uint32_t)shown(station, i));
    memcpy(reading + 84, station + FAIR + 4 * LOCAL_FAIR_RATE, 4 * (SINCE - LOCAL_FAIR_RATE));
    memcpy(reading + 104, station + FAIR + 4 * DOWNSTREAM, 4 * (FAIR_WORDS - DOWNSTREAM));
    return 0;
}
