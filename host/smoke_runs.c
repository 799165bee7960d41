/* Sums, rolls and unrolls records with runs as a host would, and says what differs from document 02. */
#include <stdlib.h>

#include "smoke_record.h"

/* ---- summaries ---- */

/* Both records have this summary: one in runs, and the same events one by one. */
#define EITHER(what, runs, events, ...)        \
    do {                                       \
        summarize(what, runs, 0);              \
        holds(what, __VA_ARGS__);              \
        summarize(what, events, 0);            \
        holds(what ", unrolled", __VA_ARGS__); \
    } while (0)

static void summaries(void) {
    EITHER("two ticks", BYTES(HEADER, RUN(WAITS, 20, 2)), BYTES(HEADER, WAITING(20), WAITING(20)), 2, 40, 0, 300, 0);
    /* 300 - 64 + 60 = 296. The last send needs 101 - 60 + 64. */
    EITHER("each tick counts", BYTES(HEADER, SEND(64), RUN(WAITS, 20, 3), SEND(60)),
           BYTES(HEADER, SEND(64), WAITING(20), WAITING(20), WAITING(20), SEND(60)), 5, 60, 124, 236, 105);
    /* 300 - 64 is above loLimit: the first idle tick cuts it. */
    EITHER("idle from above", BYTES(HEADER, SEND(64), RUN(IDLES, 1, 3)), BYTES(HEADER, SEND(64), IDLE(1), IDLE(1), IDLE(1)), 4, 3,
           64, 100, 101);
    EITHER("nothing accrues", BYTES(HEADER, SEND(64), RUN(WAITS, 0, 2)), BYTES(HEADER, SEND(64), WAITING(0), WAITING(0)), 3, 0, 64,
           236, 101);
}

/* Four sends of 64 leave 300 - 256 = 44; the last of them needs 101 + 192. So many idle ticks stop short of loLimit, at it, and would pass it. */
static void idle_runs(void) {
    summarize("short of loLimit", BYTES(HEADER, SEND(64), SEND(64), SEND(64), SEND(64), RUN(IDLES, 11, 5)), 0);
    holds("short of loLimit", 9, 55, 256, 99, 293);
    summarize("at loLimit", BYTES(HEADER, SEND(64), SEND(64), SEND(64), SEND(64), RUN(IDLES, 8, 7)), 0);
    holds("at loLimit", 11, 56, 256, 100, 293);
    summarize("past loLimit", BYTES(HEADER, SEND(64), SEND(64), SEND(64), SEND(64), RUN(IDLES, 19, 3)), 0);
    holds("past loLimit", 7, 57, 256, 100, 293);
    summarize("too late", BYTES(HEADER, SEND(64), SEND(64), SEND(64), SEND(64), RUN(IDLES, 19, 3), SEND(16)), 0);
    holds("too late", 8, 57, 272, 84, 301);
}

/* The same with traffic waiting: 300 - 64 = 236. And the most that a run brings: 65,535 times 65,535. */
static void waiting_runs(void) {
    summarize("short of hiLimit", BYTES(HEADER, SEND(64), RUN(WAITS, 21, 3)), 0);
    holds("short of hiLimit", 4, 63, 64, 299, 101);
    summarize("at hiLimit", BYTES(HEADER, SEND(64), RUN(WAITS, 16, 4)), 0);
    holds("at hiLimit", 5, 64, 64, 300, 101);
    summarize("past hiLimit", BYTES(HEADER, SEND(64), RUN(WAITS, 13, 5)), 0);
    holds("past hiLimit", 6, 65, 64, 300, 101);
    summarize("the most", BYTES(HEADER, RUN(WAITS, 65535, 65535)), 0);
    holds("the most", 65535, 4294836225, 0, 300, 0);
    summarize("the most, idle", BYTES(HEADER, RUN(IDLES, 65535, 65535), SEND(16)), 0);
    holds("the most, idle", 65536, 4294836225, 16, 84, 301);
}

/* A record cut within a run: 7 ticks as 4 and 3, 6 and 1, 1 and 6. The summaries of the pieces join to the whole's. */
static void cuts(void) {
    static const uint8_t four[] = {HEADER, SEND(64), RUN(IDLES, 3, 4)}, three[] = {HEADER, RUN(IDLES, 3, 3), SEND(60)};
    static const uint8_t six[] = {HEADER, SEND(64), RUN(IDLES, 3, 6)}, last[] = {HEADER, IDLE(3), SEND(60)};
    static const uint8_t one[] = {HEADER, SEND(64), IDLE(3)}, others[] = {HEADER, RUN(IDLES, 3, 6), SEND(60)};
    static const struct {
        const uint8_t *first, *second;
        size_t first_length, second_length;
    } pieces[] = {{four, three, sizeof four, sizeof three}, {six, last, sizeof six, sizeof last}, {one, others, sizeof one, sizeof others}};
    summarize("the whole", BYTES(HEADER, SEND(64), RUN(IDLES, 3, 7), SEND(60)), 0);
    holds("the whole", 9, 21, 124, 40, 301); /* the last send comes when the ceiling is loLimit */
    for (size_t i = 0; i < sizeof pieces / sizeof pieces[0]; i++) {
        lend_summary(FIRST, pieces[i].first, pieces[i].first_length);
        lend_summary(SECOND, pieces[i].second, pieces[i].second_length);
        join("two pieces", 0);
        holds("two pieces", 9, 21, 124, 40, 301);
    }
}

/* ---- rolling and unrolling ---- */

typedef uint64_t mover(const void *record, size_t record_length, void *room, size_t room_length);

/* With a room of so many bytes, which all were `fill`: these bytes are written and answered, and behind them the room is as it was. */
static void writes(const char *what, mover *move, const uint8_t *bytes, size_t length, uint8_t fill, size_t room) {
    const uint8_t *left = slices[ROOM].memory + GUARD;
    lend_filled(ROOM, fill, room);
    uint64_t answer = move(LENT(RECORD), LENT(ROOM));
    answered(what, answer, ROOM, (uint64_t)length << 32);
    expect(what, rpr_written_of(answer), length);
    int same = memcmp(left, bytes, length) == 0;
    for (size_t i = length; i < room; i++) same = same && left[i] == fill;
    if (same) return;
    printf("%s: other bytes in a room of %zu\n", what, room);
    failures++;
}

/* A room of so many bytes: refused, and as it was. */
static void refuses(const char *what, mover *move, size_t room, uint64_t want) {
    lend_filled(ROOM, 0xaa, room);
    answered(what, move(LENT(RECORD), LENT(ROOM)), ROOM, want);
    expect(what, rpr_written_of(want), 0);
}

/* The record is moved into rooms that are just long enough, or longer; and refused for any that are shorter. */
static void moves(const char *what, mover *move, const uint8_t *from, size_t n, const uint8_t *to, size_t m) {
    lend(RECORD, from, n);
    writes(what, move, to, m, 0xaa, m);
    writes(what, move, to, m, 0x55, m + 1);
    writes(what, move, to, m, 0xaa, m + 300);
    for (size_t room = 0; room < m; room++) refuses(what, move, room, RPR_SHORT_ROOM);
}

/* These are the two forms of one record, and each is moved to the other. */
static void both_ways(const char *what, const uint8_t *old, size_t n, const uint8_t *rolled, size_t m) {
    moves(what, rpr_roll, old, n, rolled, m);
    moves(what, rpr_unroll, rolled, m, old, n);
    moves(what, rpr_unroll, old, n, old, n); /* what has no runs is copied */
}

static void forms(void) {
    both_ways("no event", BYTES(HEADER), BYTES(HEADER));
    both_ways("a tick", BYTES(HEADER, WAITING(5)), BYTES(HEADER, WAITING(5)));
    both_ways("two ticks", BYTES(HEADER, WAITING(5), WAITING(5)), BYTES(HEADER, RUN(WAITS, 5, 2)));
    both_ways("three idle ticks", BYTES(HEADER, IDLE(0), IDLE(0), IDLE(0)), BYTES(HEADER, RUN(IDLES, 0, 3)));
    both_ways("equal sends", BYTES(HEADER, SEND(20), SEND(20), SEND(20)), BYTES(HEADER, SEND(20), SEND(20), SEND(20)));
    both_ways("another kind", BYTES(HEADER, WAITING(5), IDLE(5), WAITING(5)), BYTES(HEADER, WAITING(5), IDLE(5), WAITING(5)));
    both_ways("another amount", BYTES(HEADER, IDLE(5), IDLE(6), IDLE(5)), BYTES(HEADER, IDLE(5), IDLE(6), IDLE(5)));
    both_ways("another amount, in its high byte", BYTES(HEADER, 6, 0, 2, 0, 5, 1, IDLE(5), 6, 0, 2, 0, 5, 1),
              BYTES(HEADER, 6, 0, 2, 0, 5, 1, IDLE(5), 6, 0, 2, 0, 5, 1));
    both_ways("an amount of two bytes", BYTES(HEADER, 6, 0, 2, 0, 255, 255, 6, 0, 2, 0, 255, 255), BYTES(HEADER, RUN(IDLES, 65535, 2)));
    both_ways("a send between", BYTES(HEADER, IDLE(5), IDLE(5), SEND(20), IDLE(5), IDLE(5), IDLE(5)),
              BYTES(HEADER, RUN(IDLES, 5, 2), SEND(20), RUN(IDLES, 5, 3)));
    both_ways("a send as large as a tick", BYTES(HEADER, IDLE(20), SEND(20), IDLE(20)), BYTES(HEADER, IDLE(20), SEND(20), IDLE(20)));
    both_ways("one run behind another",
              BYTES(HEADER, WAITING(5), WAITING(5), IDLE(5), IDLE(5), IDLE(5), IDLE(6), SEND(20), SEND(20), IDLE(6), IDLE(6)),
              BYTES(HEADER, RUN(WAITS, 5, 2), RUN(IDLES, 5, 3), IDLE(6), SEND(20), SEND(20), RUN(IDLES, 6, 2)));
}

/* Runs that could be longer unroll as any others, and roll to the longest. */
static void shorter_runs(void) {
    static const uint8_t six[] = {HEADER, IDLE(5), IDLE(5), IDLE(5), IDLE(5), IDLE(5), IDLE(5)};
    moves("two runs", rpr_unroll, BYTES(HEADER, RUN(IDLES, 5, 2), RUN(IDLES, 5, 4)), six, sizeof six);
    moves("a run and a tick", rpr_unroll, BYTES(HEADER, RUN(IDLES, 5, 5), IDLE(5)), six, sizeof six);
    moves("a tick and a run", rpr_unroll, BYTES(HEADER, IDLE(5), RUN(IDLES, 5, 5)), six, sizeof six);
    moves("ticks around a run", rpr_unroll, BYTES(HEADER, IDLE(5), IDLE(5), RUN(IDLES, 5, 3), IDLE(5)), six, sizeof six);
    moves("the longest", rpr_roll, six, sizeof six, BYTES(HEADER, RUN(IDLES, 5, 6)));
}

/* ---- faults ---- */

/* The record is refused by all three calls, before a room that is too short is: rpr_roll may have another reason. */
static void refused(const char *what, const uint8_t *bytes, size_t length, uint64_t want, uint64_t want_of_roll) {
    summarize(what, bytes, length, want);
    refuses(what, rpr_unroll, 300, want);
    refuses(what, rpr_unroll, 0, want);
    refuses(what, rpr_roll, 300, want_of_roll);
    refuses(what, rpr_roll, 0, want_of_roll);
}

/* A record of events and runs that rpr_roll alone refuses. */
static void only_unrolls(const char *what, const uint8_t *bytes, size_t length) {
    summarize(what, bytes, length, 0);
    lend(RECORD, bytes, length);
    refuses(what, rpr_roll, 300, RPR_BYTES);
    refuses(what, rpr_roll, 0, RPR_BYTES);
    refuses(what, rpr_unroll, HEADER_LENGTH, RPR_SHORT_ROOM);
}

static void wrong_runs(void) {
    static const uint8_t good[] = {HEADER, RUN(WAITS, 5, 2)};
    refused("a count of 0", BYTES(HEADER, RUN(WAITS, 5, 0)), RPR_BYTES, RPR_BYTES);
    refused("a count of 1", BYTES(HEADER, RUN(WAITS, 5, 1)), RPR_BYTES, RPR_BYTES);
    refused("ticks of kind 0", BYTES(HEADER, RUN(0, 5, 2)), RPR_BYTES, RPR_BYTES);
    refused("ticks of kind 3", BYTES(HEADER, RUN(RPR_SEND, 20, 2)), RPR_BYTES, RPR_BYTES);
    refused("ticks of kind 4", BYTES(HEADER, RUN(RPR_RUN, 5, 2)), RPR_BYTES, RPR_BYTES);
    refused("ticks of kind 257", BYTES(HEADER, RUN(257, 5, 2)), RPR_BYTES, RPR_BYTES);
    refused("ticks of kind 258", BYTES(HEADER, RUN(258, 5, 2)), RPR_BYTES, RPR_BYTES);
    for (uint8_t length = 0; length < 20; length++)
        if (length != 10) refused("a run of another length", BYTES(HEADER, length, 0, 4, 0, 1, 0, 5, 0, 2, 0), RPR_BYTES, RPR_BYTES);
    refused("a run of length 266", BYTES(HEADER, 10, 1, 4, 0, 1, 0, 5, 0, 2, 0), RPR_BYTES, RPR_BYTES);
    for (uint8_t kind = 0; kind < 20; kind++)
        if (kind != 4) refused("a length of 10, another kind", BYTES(HEADER, 10, 0, kind, 0, 1, 0, 5, 0, 2, 0), RPR_BYTES, RPR_BYTES);
    refused("kind 260", BYTES(HEADER, 10, 0, 4, 1, 1, 0, 5, 0, 2, 0), RPR_BYTES, RPR_BYTES);
    refused("an event of kind 4", BYTES(HEADER, 6, 0, 4, 0, 5, 0), RPR_BYTES, RPR_BYTES);
    for (size_t length = HEADER_LENGTH + 1; length < sizeof good; length++) refused("a run cut short", good, length, RPR_BYTES, RPR_BYTES);
    only_unrolls("a good run", good, sizeof good);
}

/* The earliest fault counts, header first. To rpr_roll a run is one, whatever it holds. */
static void earliest(void) {
    static const uint8_t good[] = {HEADER, IDLE(5), IDLE(5)};
    for (size_t length = 0; length < HEADER_LENGTH; length++) refused("a cut header", good, length, RPR_BYTES, RPR_BYTES);
    refused("a header of another kind", BYTES(14, 0, 4, 0, 64, 0, 100, 0, 0, 0, 44, 1, 0, 0), RPR_BYTES, RPR_BYTES);
    refused("mtu 63, and a wrong run", BYTES(14, 0, 16, 0, 63, 0, 100, 0, 0, 0, 44, 1, 0, 0, RUN(0, 5, 2)), RPR_SETTING, RPR_SETTING);
    refused("hiLimit as loLimit", BYTES(14, 0, 16, 0, 64, 0, 100, 0, 0, 0, 100, 0, 0, 0, RUN(WAITS, 5, 2)), RPR_SETTING, RPR_SETTING);
    refused("a cut event", good, sizeof good - 1, RPR_BYTES, RPR_BYTES);
    refused("an unknown kind", BYTES(HEADER, IDLE(5), 6, 0, 5, 0, 5, 0), RPR_BYTES, RPR_BYTES);
    refused("a send of 15", BYTES(HEADER, SEND(15)), RPR_RANGE, RPR_RANGE);
    refused("a send of 65", BYTES(HEADER, IDLE(5), IDLE(5), SEND(65)), RPR_RANGE, RPR_RANGE);
    refused("3, then 2", BYTES(HEADER, SEND(65), RUN(WAITS, 5, 1)), RPR_RANGE, RPR_RANGE);
    refused("2, then 3", BYTES(HEADER, RUN(WAITS, 5, 1), SEND(65)), RPR_BYTES, RPR_BYTES);
    refused("a run, then 3", BYTES(HEADER, RUN(WAITS, 5, 2), SEND(65)), RPR_RANGE, RPR_BYTES);
    only_unrolls("runs among events", BYTES(HEADER, SEND(20), RUN(WAITS, 5, 2), IDLE(5), RUN(IDLES, 5, 3)));
}

/* ---- long runs, and the million ---- */

enum { LONG_RUNS = 15, IN_LONG_RUNS = LONG_RUNS * RPR_MOST_COUNT, REST = RPR_MOST_EVENTS - IN_LONG_RUNS };

/* A record of a million ticks is 15 runs of 65,535 and one of 16,975. */
static uint8_t runs[HEADER_LENGTH + 10 * LONG_RUNS + 64], *ticks, *room;

/* These items behind the long runs, which are 983,025 ticks, are refused so. rpr_roll refuses the first run. */
static void behind_runs(const char *what, const uint8_t *items, size_t length, uint64_t want) {
    size_t at = HEADER_LENGTH + 10 * LONG_RUNS;
    memcpy(runs + at, items, length);
    refused(what, runs, at + length, want, RPR_BYTES);
}

/* One event is left, two, or none. */
static void passed(void) {
    behind_runs("a run that passes by one", BYTES(RUN(IDLES, 7, REST + 1)), RPR_MANY_EVENTS);
    behind_runs("a run that passes by most", BYTES(RUN(IDLES, 7, 65535)), RPR_MANY_EVENTS);
    behind_runs("two where one is left", BYTES(RUN(IDLES, 7, REST - 1), RUN(IDLES, 7, 2)), RPR_MANY_EVENTS);
    behind_runs("three where two are left", BYTES(RUN(IDLES, 7, REST - 2), RUN(IDLES, 7, 3)), RPR_MANY_EVENTS);
    behind_runs("ticks of kind 3: 2 is before 9", BYTES(RUN(IDLES, 7, REST - 1), RUN(RPR_SEND, 7, 2)), RPR_BYTES);
    behind_runs("a count of 1: 2", BYTES(RUN(IDLES, 7, REST - 1), RUN(IDLES, 7, 1)), RPR_BYTES);
    behind_runs("a run cut short: 2 is before 9", BYTES(RUN(IDLES, 7, REST - 1), 10, 0, 4, 0, 2, 0, 7, 0, 2), RPR_BYTES);
    behind_runs("the millionth is a send of 65", BYTES(RUN(IDLES, 7, REST - 1), SEND(65)), RPR_RANGE);
    behind_runs("a byte behind", BYTES(RUN(IDLES, 7, REST), 6), RPR_MANY_EVENTS);
    behind_runs("a tick behind", BYTES(RUN(IDLES, 7, REST), IDLE(7)), RPR_MANY_EVENTS);
    behind_runs("a run behind", BYTES(RUN(IDLES, 7, REST), RUN(IDLES, 7, 2)), RPR_MANY_EVENTS);
    behind_runs("a wrong run behind", BYTES(RUN(IDLES, 7, REST), RUN(0, 7, 0)), RPR_MANY_EVENTS);
    behind_runs("a send of 15 behind", BYTES(RUN(IDLES, 7, REST - 2), IDLE(7), IDLE(7), SEND(15)), RPR_MANY_EVENTS);
}

/* A move of memory that is not lent in slices: it writes the bytes, or it writes nothing; a byte behind the room stays. */
static void moves_long(const char *what, mover *move, const uint8_t *from, size_t n, const uint8_t *to, size_t m, uint64_t want) {
    memset(room, 0xaa, m + 1);
    expect(what, move(from, n, room, m), want);
    if (want >> 32 != 0) expect(what, (uint64_t)memcmp(room, to, m), 0);
    for (size_t i = 0; want >> 32 == 0 && i < m; i++)
        if (room[i] != 0xaa) expect(what, room[i], 0xaa);
    expect(what, room[m], 0xaa);
}

/* So many equal ticks, and the items that they roll to. */
static void long_runs(const char *what, size_t count, const uint8_t *items, size_t length) {
    uint8_t rolled[HEADER_LENGTH + 64];
    size_t n = HEADER_LENGTH + 6 * count, m = HEADER_LENGTH + length;
    memcpy(rolled, runs, HEADER_LENGTH);
    memcpy(rolled + HEADER_LENGTH, items, length);
    moves_long(what, rpr_roll, ticks, n, rolled, m, (uint64_t)m << 32);
    moves_long(what, rpr_roll, ticks, n, rolled, m - 1, RPR_SHORT_ROOM);
    moves_long(what, rpr_unroll, rolled, m, ticks, n, (uint64_t)n << 32);
    moves_long(what, rpr_unroll, rolled, m, ticks, n - 1, RPR_SHORT_ROOM);
}

/* The millionth event, or what is behind it, is other than a tick, and the record is refused by rpr_roll so. */
static void ends_otherwise(const char *what, size_t at, const uint8_t *item, size_t length, uint64_t want) {
    uint8_t kept[16];
    memcpy(kept, ticks + at, length);
    memcpy(ticks + at, item, length);
    moves_long(what, rpr_roll, ticks, at + length, ticks, HEADER_LENGTH + 10 * (LONG_RUNS + 1), want);
    memcpy(ticks + at, kept, length);
}

static void a_million(void) {
    static const uint8_t last[] = {RUN(IDLES, 7, REST)};
    size_t m = HEADER_LENGTH + 10 * (LONG_RUNS + 1), millionth = RPR_RECORD_MOST - 6;
    memcpy(runs + m - 10, last, sizeof last);
    summarize("a million ticks", runs, m, 0);
    holds("a million ticks", 1000000, 7000000, 0, 100, 0);
    moves_long("a million ticks", rpr_unroll, runs, m, ticks, RPR_RECORD_MOST, (uint64_t)6000014 << 32);
    moves_long("a million ticks", rpr_unroll, runs, m, ticks, RPR_RECORD_MOST - 1, RPR_SHORT_ROOM);
    moves_long("a million ticks", rpr_unroll, ticks, RPR_RECORD_MOST, ticks, RPR_RECORD_MOST, (uint64_t)6000014 << 32);
    moves_long("a million ticks", rpr_roll, ticks, RPR_RECORD_MOST, runs, m, (uint64_t)174 << 32);
    moves_long("a million ticks", rpr_roll, ticks, RPR_RECORD_MOST, runs, m - 1, RPR_SHORT_ROOM);
    ends_otherwise("a byte behind", RPR_RECORD_MOST, BYTES(6), RPR_MANY_EVENTS);
    ends_otherwise("a run behind", RPR_RECORD_MOST, BYTES(RUN(IDLES, 7, 2)), RPR_MANY_EVENTS);
    ends_otherwise("a run that passes: 2", millionth, BYTES(RUN(IDLES, 7, 2)), RPR_BYTES);
    ends_otherwise("the millionth is a send of 15", millionth, BYTES(SEND(15), 6), RPR_RANGE);
    ends_otherwise("the millionth is cut short", millionth, BYTES(6, 0, 2, 0, 7), RPR_BYTES);
}

/* ---- answers ---- */

/* Of a refusal nothing was written, whatever its other bytes are. */
static void answers(void) {
    expect("14 written", rpr_written_of((uint64_t)14 << 32), 14);
    expect("6,000,014 written", rpr_written_of((uint64_t)6000014 << 32), 6000014);
    expect("refused", rpr_written_of(RPR_SHORT_ROOM | (uint64_t)14 << 32), 0);
    expect("the longest record", RPR_RECORD_MOST, 6000014);
    expect("its words", (uint64_t)strcmp(rpr_refusal_text(12), rpr_refusal_text(0)) == 0, 0);
}

int main(void) {
    static const uint8_t header[] = {HEADER}, tick[] = {IDLE(7)}, run[] = {RUN(IDLES, 7, 65535)};
    summaries();
    idle_runs();
    waiting_runs();
    cuts();
    forms();
    shorter_runs();
    wrong_runs();
    earliest();
    ticks = malloc(RPR_RECORD_MOST + 16), room = malloc(RPR_RECORD_MOST + 16);
    if (ticks == NULL || room == NULL) exit(2);
    memcpy(ticks, header, sizeof header);
    for (size_t i = 0; i < RPR_MOST_EVENTS; i++) memcpy(ticks + HEADER_LENGTH + 6 * i, tick, sizeof tick);
    memcpy(runs, header, sizeof header);
    for (size_t i = 0; i < LONG_RUNS; i++) memcpy(runs + HEADER_LENGTH + 10 * i, run, sizeof run);
    passed();
    long_runs("65,534 ticks", 65534, BYTES(RUN(IDLES, 7, 65534)));
    long_runs("65,535 ticks", 65535, BYTES(RUN(IDLES, 7, 65535)));
    long_runs("65,536 ticks", 65536, BYTES(RUN(IDLES, 7, 65535), IDLE(7)));
    long_runs("65,537 ticks", 65537, BYTES(RUN(IDLES, 7, 65535), RUN(IDLES, 7, 2)));
    long_runs("131,071 ticks", 131071, BYTES(RUN(IDLES, 7, 65535), RUN(IDLES, 7, 65535), IDLE(7)));
    a_million();
    answers();
    free(ticks), free(room);
    return told("runs: the library answers as document 02 says");
}
