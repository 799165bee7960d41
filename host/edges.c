/*
 * Stations with one thing changed, the library beside plain C: each byte set to each value, at each place each number at which
 * some range ends, the ends of the stored numbers' range, which goes by lpCoef, the most hops and one more in each place that
 * has hops, by the number of stations, and what the methods' ranges and steps go by, at and around each edge. Every call answers
 * and leaves the same on both sides; a refused call leaves every byte as it was.
 */
#include "edges.h"

#include <stdio.h>
#include <stdlib.h>
#include <string.h>

/* Numbers at which a range of documents 01 and 02 ends; their neighbours are tried too. */
static const uint32_t fixed[] = {0,   1,    2,    16,   63,    64,    128,   192,   193,     255,        256,     512,
                                 513, 1000, 1024, 9216, 10000, 16384, 65534, 65535, 1048576, 2147483647, 4194304, 4294967295};

/* Frames that a station hears from a neighbour: one on each ringlet, of which one is its own. */
static const uint8_t heard[2][RPR_FRAME_LENGTH] = {{252, 0x20, 0, 0, 0, 0, 0, 9, 0, 0, 0, 50}, {252, 0xa0, 0, 0, 0, 0, 0, 9, 0, 0, 0, 50}};

unsigned long tried, good;
static unsigned long lacking, beyond;

static uint64_t ask(const struct calls *side, int call, uint8_t *s, uint8_t *room) {
    switch (call) {
        case 0: return side->show(s, N, room, RPR_READING_LENGTH);
        case 1: return side->tick(s, N, 1, 0, 1);
        case 2: return side->offer_client(s, N, RPR_CLASS_A, 40, 3);
        case 3: return side->offer_client(s, N, RPR_CLASS_C, 64, 5);
        case 4: return side->offer_transit(s, N, RPR_CLASS_A, 64, 3, 0);
        case 5: return side->offer_transit(s, N, RPR_CLASS_B, 16, 3, 1);
        case 6: return side->offer_control(s, N, 64);
        case 7: return side->select(s, N);
        case AGES: return side->age(s, N);
        case 9: return side->read_frame(s, N, heard[0], RPR_FRAME_LENGTH);
        case 10: return side->read_frame(s, N, heard[1], RPR_FRAME_LENGTH);
        case 11: return side->offer_client(s, N, RPR_CLASS_B, 40, 3);
        default: return side->write_frame(s, N, room, RPR_FRAME_LENGTH);
    }
}

uint64_t compare(const uint8_t *station, int call, size_t place) {
    uint8_t ours[N], theirs[N], room[2][RPR_READING_LENGTH];
    memcpy(ours, station, N);
    memcpy(theirs, station, N);
    memset(room, 0x5a, sizeof room);
    uint64_t answer = ask(&library, call, ours, room[0]), other = ask(&plain, call, theirs, room[1]);
    int same = memcmp(ours, theirs, N) == 0 && memcmp(room[0], room[1], RPR_READING_LENGTH) == 0;
    int kept = rpr_refusal_of(answer) == 0 || memcmp(ours, station, N) == 0;
    lacking += rpr_shortfall_of(answer) > 0;
    beyond += rpr_refusal_of(answer) == RPR_BEYOND_RING;
    if (answer == other && same && kept) return answer;
    printf("call %d, changed at %zu: answer %#llx, plain C %#llx%s%s\n", call, place, (unsigned long long)answer, (unsigned long long)other,
           same ? "" : "; lent bytes differ", kept ? "" : "; a refusal wrote");
    exit(1);
}

/* Every call on a station in range, else the range's own call and another in turn. */
static void try_station(const uint8_t *station, size_t place) {
    tried++;
    if (compare(station, 0, place) != 0) {
        compare(station, 1 + (int)(tried % CALLS), place);
        return;
    }
    good++;
    for (int call = 1; call <= CALLS; call++) compare(station, call, place);
}

static void each_byte(uint8_t *station) {
    for (size_t at = 0; at < N; at++) {
        uint8_t kept = station[at];
        for (unsigned v = 0; v < 256; v++) {
            station[at] = (uint8_t)v;
            try_station(station, at);
        }
        station[at] = kept;
    }
}

static void each_end(uint8_t *station, const uint32_t *words) {
    for (size_t at = 0; at + 4 <= N; at++) {
        uint32_t kept, v;
        memcpy(&kept, station + at, sizeof kept);
        for (size_t i = 0; i < sizeof fixed / 4 + SETTINGS_WORDS + 1; i++) {
            v = i < sizeof fixed / 4 ? fixed[i] : i < sizeof fixed / 4 + SETTINGS_WORDS ? words[i - sizeof fixed / 4] : kept;
            for (uint32_t beside = 0; beside < 3; beside++) {
                uint32_t near = v + beside - 1;
                memcpy(station + at, &near, sizeof near);
                try_station(station, at);
            }
        }
        memcpy(station + at, &kept, sizeof kept);
    }
}

void try_known(const uint8_t *station, size_t place, int in_range) {
    tried++;
    if ((compare(station, 0, place) == 0) != in_range) {
        printf("changed at %zu, lpCoef %u, %u stations, method %u: %s\n", place, setting(station, LP_COEF), setting(station, STATIONS),
               setting(station, METHOD), in_range ? "in range, and refused" : "out of range, and not refused");
        exit(1);
    }
    good += (unsigned)in_range;
    for (int call = 1; call <= CALLS; call++) compare(station, call, place);
}

/* By each lpCoef, each stored number at the ends of its range, beside a counter of 0 and of the most: the last that shows a rate one below
 * the largest, the first and the last that show the largest, the first that shows one more, and such as are too large in their high bits. */
static void each_stored(const uint8_t *station) {
    for (unsigned at = 0; at < 2 * RATES; at++) {
        for (uint32_t lp_coef = 16; lp_coef <= 512; lp_coef *= 2) {
            uint64_t end = (uint64_t)lp_coef << 31;
            const uint64_t numbers[] = {end - lp_coef - 1, end - lp_coef, end - 1, end, 2 * end, UINT64_C(1) << 63, UINT64_MAX};
            uint8_t changed[N];
            memcpy(changed, station, N);
            change(changed, LP_COEF, lp_coef);
            set_fair(changed, at % RATES, at < RATES ? 0 : MOST_RATE);
            for (size_t i = 0; i < sizeof numbers / sizeof numbers[0]; i++) {
                set_stored(changed, at % RATES, numbers[i]);
                try_known(changed, stored_at(at % RATES), numbers[i] < end);
            }
        }
    }
}

/* ---- hops and the ring ---- */

static const unsigned queues[] = {CONTROL, PRIMARY, SECONDARY};
enum { QUEUES = sizeof queues / sizeof queues[0], ONE_HOP = 1 << 14 };

/* Frames of 16 bytes and so many hops in so many slots of a queue from this one on, and in no other. */
static void hold(uint8_t *station, unsigned queue, uint32_t hops, uint8_t head, uint8_t count) {
    uint32_t kind = queue == SECONDARY ? 5 : 0; /* of class B and marked, or of class A */
    memset(station + queue, 0, 4 * SLOTS);
    for (unsigned i = 0; i < count; i++) put(station + queue + 4 * ((head + i) % SLOTS), 16 + hops * ONE_HOP + (kind << 20));
    put(station + queue + HELD, 16u * count);
    station[queue + HEAD] = head;
    station[queue + COUNT] = count;
}

void fill_up(uint8_t *station, uint32_t stations, uint32_t hops) {
    uint32_t settings[SETTINGS_WORDS];
    memcpy(settings, sample_settings[1], sizeof settings);
    if (rpr_start(settings, sizeof settings, station, N) != 0) puts("a station to fill is refused"), exit(1);
    change(station, STATIONS, stations);
    for (unsigned i = 0; i < SHAPERS; i++) put(station + CREDITS + 4 * i, setting(station, HI_LIMIT + 3 * i));
    for (unsigned q = 0; q < QUEUES; q++) hold(station, queues[q], hops, (uint8_t)(50 * q), SLOTS);
    put(station + STAGE, 16 + hops * ONE_HOP + (6 << 20)); /* of class C and marked */
}

/* The frame in this slot has one hop more, which is one too many. */
static void try_one_more(uint8_t *station, size_t slot) {
    uint32_t kept = get(station + slot);
    put(station + slot, kept + ONE_HOP);
    try_known(station, slot, 0);
    put(station + slot, kept);
}

/* Frames with the most hops: one more in each slot of full queues, in the stage, and in each slot that is a queue's only one. */
static void each_slot(uint8_t *station, uint32_t stations) {
    fill_up(station, stations, stations - 1);
    try_known(station, SETTINGS + 4 * STATIONS, 1);
    try_one_more(station, STAGE);
    for (unsigned q = 0; q < QUEUES; q++)
        for (unsigned slot = 0; slot < SLOTS; slot++) try_one_more(station, queues[q] + 4 * slot);
    for (unsigned q = 0; q < QUEUES; q++)
        for (unsigned slot = 0; slot < SLOTS; slot++) {
            hold(station, queues[q], stations - 1, (uint8_t)slot, 1);
            try_known(station, queues[q] + 4 * slot, 1);
            try_one_more(station, queues[q] + 4 * slot);
        }
}

/* A received ttl from the last hop of the ring, one from beyond it, and such as are no ttl, congested downstream or not. */
static void each_ttl(uint8_t *station, uint32_t stations) {
    const uint32_t ttls[] = {0, LEAST_TTL - 1, 256 - stations, 257 - stations, MOST_TTL, MOST_TTL + 1};
    fill_up(station, stations, 1);
    for (unsigned congested = 0; congested < 2; congested++)
        for (size_t i = 0; i < sizeof ttls / sizeof ttls[0]; i++) {
            set_fair(station, DOWNSTREAM, congested);
            set_fair(station, RECEIVED_TTL, ttls[i]);
            try_known(station, FAIR + 4 * RECEIVED_TTL, ttls[i] >= 257 - stations && ttls[i] <= MOST_TTL);
        }
}

void try_setting(const uint8_t *station, unsigned at, int in_range) {
    const uint8_t *settings = station + SETTINGS;
    uint8_t ours[N], theirs[N];
    memset(ours, 0x5a, N);
    memset(theirs, 0x5a, N);
    uint64_t answer = rpr_start(settings, SETTINGS_LENGTH, ours, N), other = plain_start(settings, SETTINGS_LENGTH, theirs, N);
    if (answer != other || answer != (in_range ? 0 : RPR_SETTING) || memcmp(ours, theirs, N) != 0) {
        printf("start, word %u is %u: answer %#llx, plain C %#llx\n", at, word(settings, at), (unsigned long long)answer,
               (unsigned long long)other);
        exit(1);
    }
    try_known(station, SETTINGS + 4 * at, in_range);
}

/* A ring of so many, which may be none: a start; frames of one hop; and none, so that what is offered is taken or goes beyond the ring. */
static void try_ring(uint8_t *station, uint32_t stations) {
    int is_ring = stations >= LEAST_STATIONS && stations <= MOST_STATIONS;
    fill_up(station, stations, 1);
    try_setting(station, STATIONS, is_ring);
    for (unsigned q = 0; q < QUEUES; q++) hold(station, queues[q], 1, 0, 0);
    put(station + STAGE, 0);
    try_known(station, SETTINGS + 4 * STATIONS, is_ring);
}

/* Each ring, and each number of one byte, alone and with a bit set above it. */
static void each_ring(uint8_t *station) {
    for (uint32_t stations = LEAST_STATIONS; stations <= MOST_STATIONS; stations++) {
        each_slot(station, stations);
        each_ttl(station, stations);
    }
    for (uint32_t number = 0; number < 256; number++) {
        try_ring(station, number);
        for (unsigned bit = 8; bit < 32; bit++) try_ring(station, number + (UINT32_C(1) << bit));
    }
}

/* Stations to change, which have heard of congestion. Busy: credit, and frames in each queue and the stage. Staged: in the secondary
 * queue and the stage alone, whose turn comes last. Short: a free stage and too little credit, A, B, C and D each lacking something else. */
enum state { BUSY, STAGED, SHORT };
static const struct {
    int sample;
    enum state state;
} stations[] = {{0, BUSY}, {1, STAGED}, {2, BUSY}, {1, SHORT}};

static uint64_t fill(uint8_t *station, enum state state) {
    uint64_t refused = 0;
    for (int i = 0; i < 4; i++) refused |= rpr_tick(station, N, 1, 1, 1);
    refused |= rpr_offer_client(station, N, RPR_CLASS_C, 64, 5) & 0xff;
    for (int i = 0; i < 2; i++) {
        refused |= rpr_offer_transit(station, N, RPR_CLASS_B, 64, 3, 1);
        if (state != BUSY) continue;
        refused |= rpr_offer_transit(station, N, RPR_CLASS_A, 64, 3, 0);
        refused |= rpr_offer_control(station, N, 64);
    }
    return refused;
}

static void live(uint8_t *station, const uint32_t *settings, enum state state) {
    static const uint32_t credits[] = {65536, 65000, 300, 64000, 65530}; /* of M to D, the first words of a station */
    uint8_t bytes[RPR_SETTINGS_LENGTH];
    memcpy(bytes, settings, sizeof bytes);
    uint64_t refused = rpr_start(bytes, sizeof bytes, station, N);
    if (state == SHORT) memcpy(station, credits, sizeof credits);
    else refused |= fill(station, state);
    refused |= rpr_read_frame(station, N, heard[1 - settings[2]], RPR_FRAME_LENGTH);
    refused |= rpr_age(station, N);
    if (refused != 0) puts("a station to change is refused"), exit(1);
}

int main(void) {
    static uint8_t station[N];
    for (size_t i = 0; i < sizeof stations / sizeof stations[0]; i++) {
        const uint32_t *settings = sample_settings[stations[i].sample];
        live(station, settings, stations[i].state);
        each_byte(station);
        each_end(station, settings);
        each_stored(station);
    }
    each_ring(station);
    each_method(station);
    each_item();
    each_pattern();
    printf("%lu stations, %lu of them in range, %lu offers short of credit, %lu frames beyond the ring: ", tried, good, lacking, beyond);
    puts("the library and plain C do the same");
    return lacking > 0 && beyond > 0 ? 0 : 1;
}
