/*
 * Before a time is taken: the library and C with its algorithm answer as plain C does, and leave the same bytes. Records and patterns at random, and such with a fault; stations as
 * random calls leave them, and such with a byte or a word changed.
 */
#include <string.h>

#include "bench.h"

enum { N = RPR_STATION_LENGTH, HEADER = RPR_RECORD_HEADER_LENGTH, EVENT = RPR_RECORD_EVENT_LENGTH };
enum { RECORDS = 20000, LONGEST = 400, MOVED = HEADER + EVENT * LONGEST, STEPS = 40000, KINDS = 10 };
enum { SUMS, ROLLS, UNROLLS };

static const struct calls *const others[] = {&library, &same};

/* A number at which some range ends, or any. */
static uint32_t any_number(void) {
    static const uint32_t edges[] = {0,   1,   2,   3,   4,   5,   6,   7,   15,  16,   62,   63,   64,    65,    127,   128,
                                     129, 192, 193, 194, 250, 251, 255, 256, 512, 1024, 9216, 9217, 65534, 65535, 65536, 1048576};
    unsigned k = below(2 * sizeof edges / sizeof edges[0]);
    return k < sizeof edges / sizeof edges[0] ? edges[k] : next_random() >> below(31);
}

/* ---- records ---- */

static uint64_t ask(const struct calls *side, int call, const uint8_t *record, size_t length, uint8_t *room, size_t room_length) {
    switch (call) {
        case SUMS: return side->summarize(record, length, room, room_length);
        case ROLLS: return side->roll(record, length, room, room_length);
        default: return side->unroll(record, length, room, room_length);
    }
}

static void compare_one(int call, const uint8_t *record, size_t length, size_t room) {
    static uint8_t ours[MOVED], theirs[MOVED];
    memset(theirs, 0x5a, MOVED);
    uint64_t answer = ask(&plain, call, record, length, theirs, room);
    for (size_t i = 0; i < sizeof others / sizeof others[0]; i++) {
        memset(ours, 0x5a, MOVED);
        if (ask(others[i], call, record, length, ours, room) != answer || memcmp(ours, theirs, MOVED) != 0)
            give_up("a record is summed, rolled or unrolled otherwise than by plain C");
    }
}

/* It is moved into a room of any length, and into one that is long enough unless its runs are long. */
static void compare_record(const uint8_t *record, size_t length) {
    compare_one(SUMS, record, length, RPR_SUMMARY_LENGTH);
    for (int call = ROLLS; call <= UNROLLS; call++) {
        compare_one(call, record, length, MOVED);
        compare_one(call, record, length, below(MOVED));
    }
}

/* Up to some events with settings that are easily met, hardly met, or in between; sends are none, some, or most of them. */
static size_t random_record(uint8_t *record) {
    static const uint32_t settings[][3] = {{64, 64, 65}, {64, 100, 300}, {1500, 16384, 262144}, {9216, 65536, 1048576}, {300, 2000, 2100}};
    const uint32_t *s = settings[below(sizeof settings / sizeof settings[0])];
    unsigned sends = below(5), most = below(2) ? 65536 : s[0], events = below(LONGEST);
    put_header(record, s[0], s[1], s[2]);
    for (unsigned i = 0; i < events; i++) {
        if (below(4) < sends)
            put_event(record, i, 3, 16 + below(s[0] - 15));
        else
            put_event(record, i, 1 + below(2), below(most));
    }
    return HEADER + EVENT * (size_t)events;
}

/* Up to some items, of which few or all are runs, and few or many of these long, up to over a million events; ticks have few amounts, so that equal ones stand side by
 * side. */
static size_t random_items(uint8_t *record) {
    unsigned items = below(LONGEST / 2), rare = 1 + below(3) * 70, rarely_long = below(2) ? 3 : 90;
    size_t at = HEADER;
    put_header(record, 64, 100, 300);
    for (unsigned i = 0; i < items; i++) {
        unsigned count = 2 + below(below(rarely_long) == 0 ? 65534 : 5);
        if (below(rare) == 0)
            at = put_item(record, at, 1 + below(2), any_number() & 0xffff, count);
        else if (below(4) == 0)
            at = put_item(record, at, 3, 16 + below(49), 1);
        else
            at = put_item(record, at, 1 + below(2), 5 * below(2), 1);
    }
    return at;
}

/* One event is no event or hardly one, one byte is another, or the end is missing. */
static size_t damaged_record(uint8_t *record, size_t length) {
    unsigned place = below(LONGEST);
    switch (below(4)) {
        case 0: put_event(record, place, any_number() & 0xffff, any_number() & 0xffff); break;
        case 1: put_event(record, place, 3, any_number() & 0xffff); break;
        case 2: record[below((unsigned)length)] = (uint8_t)next_random(); break;
        default: length = below((unsigned)length + 1);
    }
    return length;
}

static void compare_records(void) {
    static uint8_t record[HEADER + EVENT * LONGEST];
    for (int i = 0; i < RECORDS; i++) {
        size_t length = i % 2 == 0 ? random_record(record) : random_items(record);
        compare_record(record, length);
        compare_record(record, damaged_record(record, length));
    }
}

/* A million events, without and with a byte and an event more, and with a fault in the last block. */
static void compare_longest(uint8_t *record) {
    size_t length = HEADER + EVENT * (size_t)RPR_MOST_EVENTS;
    put_header(record, 1500, 16384, 262144);
    for (size_t i = 0; i <= RPR_MOST_EVENTS; i++) put_event(record, i, 1 + below(3), 16 + below(1485));
    for (size_t more = 0; more <= EVENT; more++) compare_record(record, length + more);
    put_event(record, RPR_MOST_EVENTS - 1 - below(64), 3, 15);
    compare_record(record, length + 1);
}

/* ---- patterns ---- */

/* Few times, or about as often as a million events allow, or any number of times. Plain C goes through all of them: most are few. */
static uint64_t random_repeats(unsigned events) {
    switch (below(100)) {
        case 0: return RPR_MOST_EVENTS / (events + 1) + below(3);
        case 1: return (uint64_t)next_random() << 33 >> below(60);
        default: return below(40);
    }
}

static void compare_pattern(const uint8_t *pattern, size_t length, uint64_t repeats) {
    uint64_t answer = plain.heartbeat(pattern, length, repeats);
    for (size_t i = 0; i < sizeof others / sizeof others[0]; i++)
        if (others[i]->heartbeat(pattern, length, repeats) != answer) give_up("a pattern is answered otherwise than by plain C");
}

/* Records, of which many have too many events; and their fronts, which have up to 256, or a few more. */
static void compare_patterns(void) {
    static uint8_t record[HEADER + EVENT * LONGEST];
    for (int i = 0; i < RECORDS; i++) {
        size_t length = i % 2 == 0 ? random_record(record) : random_items(record), most = HEADER + EVENT * (size_t)below(RPR_HEARTBEAT_EVENTS + 4);
        if (i % 4 < 3 && length > most) length = most;
        compare_pattern(record, length, random_repeats((unsigned)(length - HEADER) / EVENT));
        length = damaged_record(record, length);
        compare_pattern(record, length, random_repeats(below(RPR_HEARTBEAT_EVENTS)));
    }
}

/* ---- stations ---- */

/* A call that changes a station, with numbers that are mostly in range. */
struct call {
    unsigned kind;
    uint64_t numbers[4];
};

static uint64_t make(const struct calls *side, const struct call *c, uint8_t *s, uint8_t *room) {
    static const uint8_t heard[2][RPR_FRAME_LENGTH] = {{252, 0x20, 0, 0, 0, 0, 0, 9, 0, 0, 0, 50}, {252, 0xa0, 0, 0, 0, 0, 0, 9, 0, 0, 0, 50}};
    const uint64_t *n = c->numbers;
    switch (c->kind) {
        case 0: return side->tick(s, N, n[0], n[0], n[0]);
        case 1: return side->offer_client(s, N, n[0], n[1], n[2]);
        case 2: return side->offer_transit(s, N, n[0], n[1], n[2], n[3]);
        case 3: return side->offer_control(s, N, n[1]);
        case 4: return side->select(s, N);
        case 5: return side->age(s, N);
        case 6: return side->read_frame(s, N, heard[0], RPR_FRAME_LENGTH);
        case 7: return side->read_frame(s, N, heard[1], RPR_FRAME_LENGTH);
        case 8: return side->write_frame(s, N, room, RPR_FRAME_LENGTH);
        default: return side->show(s, N, room, RPR_READING_LENGTH);
    }
}

static void compare_call(const struct call *c, const uint8_t *station) {
    static uint8_t ours[N], theirs[N], room[2][RPR_READING_LENGTH];
    memcpy(theirs, station, N);
    memset(room[1], 0x5a, sizeof room[1]);
    uint64_t answer = make(&plain, c, theirs, room[1]);
    for (size_t i = 0; i < sizeof others / sizeof others[0]; i++) {
        memcpy(ours, station, N);
        memset(room[0], 0x5a, sizeof room[0]);
        if (make(others[i], c, ours, room[0]) != answer || memcmp(ours, theirs, N) != 0 || memcmp(room[0], room[1], sizeof room[0]) != 0)
            give_up("a station's call does otherwise than plain C's");
    }
}

/* Frames come in while the queues are to fill, and leave while they are to empty. Most have few enough hops for a ring of six. */
static struct call random_call(int fills) {
    unsigned often = below(3), most_hops = below(4) == 0 ? 63 : 5;
    struct call c = {often == 0 ? below(KINDS) : fills ? 2 : 4, {below(3), 16 + below(100), 1 + below(most_hops), 0}};
    if (c.kind == 0) c.numbers[0] = below(2);
    c.numbers[3] = c.numbers[0] > 0 ? below(2) : 0;
    return c;
}

/* A byte or a word is another, or two words change places. */
static void damage(uint8_t *s) {
    uint32_t v = any_number();
    uint8_t *p = s + below(N - 3), *q = s + below(N - 3), kept[4];
    switch (below(3)) {
        case 0: *p = (uint8_t)v; break;
        case 1: memcpy(p, &v, sizeof v); break;
        default:
            memcpy(kept, p, sizeof kept);
            memmove(p, q, sizeof kept);
            memcpy(q, kept, sizeof kept);
    }
}

/* A fresh station of sample settings, under either method. */
static void start_any(uint8_t *station) {
    uint32_t settings[SETTINGS_WORDS];
    memcpy(settings, sample_settings[below(SAMPLES)], sizeof settings);
    settings[offsetof(struct rpr_settings, method) / 4] = below(2);
    if (plain.start(settings, sizeof settings, station, N) != 0) give_up("settings are refused");
}

static void compare_stations(void) {
    static uint8_t station[N], changed[N], room[RPR_READING_LENGTH];
    for (int i = 0; i < STEPS; i++) {
        if (i % (STEPS / 16) == 0) start_any(station);
        struct call c = random_call(i / 300 % 2 == 0);
        compare_call(&c, station);
        memcpy(changed, station, N);
        damage(changed);
        compare_call(&c, changed);
        make(&plain, &c, station, room);
    }
}

void compare_sides(uint8_t *room) {
    compare_records();
    compare_longest(room);
    compare_patterns();
    compare_stations();
}
