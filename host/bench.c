/*
 * bench FILE: ns per event and per call of the library, beside plain C that does the same work with the same checks, and beside C with the library's own algorithm,
 * in one run. A line goes to FILE for each row that is above its bound. Without FILE the three are compared, and nothing is timed.
 */
#include "bench.h"

#include <stdio.h>
#include <stdlib.h>
#include <string.h>

enum { EVENTS = RPR_MOST_EVENTS, LENGTH = RPR_RECORD_HEADER_LENGTH + RPR_RECORD_EVENT_LENGTH * EVENTS, SHORT = 64 };
static const unsigned CALLS = 20000;

/* ---- records ---- */

static void put16(uint8_t *p, unsigned v) { p[0] = (uint8_t)v, p[1] = (uint8_t)(v >> 8); }
static void put32(uint8_t *p, uint32_t v) { put16(p, v & 0xffff), put16(p + 2, v >> 16); }

void put_header(uint8_t *record, uint32_t mtu, uint32_t lo, uint32_t hi) {
    put16(record, RPR_RECORD_HEADER_LENGTH), put16(record + 2, 16), put16(record + 4, mtu), put32(record + 6, lo), put32(record + 10, hi);
}

size_t put_item(uint8_t *record, size_t at, unsigned kind, unsigned number, unsigned count) {
    uint8_t *p = record + at;
    if (count == 1) {
        put16(p, RPR_RECORD_EVENT_LENGTH), put16(p + 2, kind), put16(p + 4, number);
        return at + RPR_RECORD_EVENT_LENGTH;
    }
    put16(p, RPR_RECORD_RUN_LENGTH), put16(p + 2, RPR_RUN), put16(p + 4, kind), put16(p + 6, number), put16(p + 8, count);
    return at + RPR_RECORD_RUN_LENGTH;
}

void put_event(uint8_t *record, size_t place, unsigned kind, unsigned number) {
    put_item(record, RPR_RECORD_HEADER_LENGTH + RPR_RECORD_EVENT_LENGTH * place, kind, number, 1);
}

/* A record of a million events: a regular pattern of ticks and sends, or kinds and numbers at random. */
static void fill(uint8_t *record, int mixed) {
    put_header(record, 1500, 16384, 262144);
    for (size_t i = 0; i < EVENTS; i++) {
        unsigned kind = mixed ? next_random() % 3 + 1 : (i % 2 ? 3 : 1);
        unsigned number = kind == 3 ? (mixed ? next_random() % 1485 + 16 : 1000) : (mixed ? next_random() % 2000 : 1000);
        put_event(record, i, kind, number);
    }
}

/* The bytes of a summary in one number. */
static uint64_t mixed_up(const uint8_t *room) {
    uint64_t all = 0;
    for (size_t i = 0; i < RPR_SUMMARY_LENGTH; i++) all = 31 * all + room[i];
    return all;
}

static double sum_record(const struct calls *side, const void *record, uint64_t *answers) {
    uint8_t room[RPR_SUMMARY_LENGTH];
    double from = now();
    if (side->summarize(record, LENGTH, room, sizeof room) != 0) give_up("a record is refused");
    double ns = now() - from;
    *answers = mixed_up(room);
    return ns;
}

/* Plain C's loop over events once more, where two flags put it. */
uint64_t flagged_summarize(const void *record, size_t length, void *room, size_t room_length);
static const struct calls flagged = {.summarize = flagged_summarize};

static void bench_records(uint8_t *record) {
    bench_heading("a record of 1,000,000 events, ns per event", NULL);
    fill(record, 0);
    bench_row(&(struct row){"rpr_summarize, a tick, a send, in turn", NULL, BOUND_PLACED, EVENTS, 2, sum_record, record, NULL});
    bench_row(&(struct row){"the same, plain C where two flags put it", NULL, BOUND_FLAGS, EVENTS, 2, sum_record, record, &flagged});
    fill(record, 1);
    bench_row(&(struct row){"rpr_summarize, kinds and numbers at random", NULL, BOUND_MIXED, EVENTS, 2, sum_record, record, NULL});
}

/* ---- calls on numbers and summaries ---- */

static uint8_t short_record[RPR_RECORD_HEADER_LENGTH + RPR_RECORD_EVENT_LENGTH * SHORT], halves[2][RPR_SUMMARY_LENGTH];

typedef uint64_t loop(const struct calls *);

/* All answers of CALLS calls added up; i is the number of the call. */
#define LOOP(name, call)                                        \
    static uint64_t name(const struct calls *side) {            \
        uint64_t all = 0;                                       \
        for (uint64_t i = 0; i < CALLS; i++) all += (call);     \
        return all;                                             \
    }

/* Rings of 63 stations with link 40 down: from station 20 to each of the 40 stations after it. */
#define RING 63, 20, 21 + i % 40, UINT64_C(0x7ffffeffffffffff)
LOOP(choose, side->choose(RING, RPR_SIDE_DEFAULT, RPR_PROTECTED, RPR_WRAPPING))
LOOP(walk, side->path(RING, RPR_RIGHT))
LOOP(settle, side->settle(halves[0], RPR_SUMMARY_LENGTH, i))

static uint64_t summarize(const struct calls *side) {
    uint8_t room[RPR_SUMMARY_LENGTH];
    uint64_t all = 0;
    for (unsigned i = 0; i < CALLS; i++) {
        all += side->summarize(short_record, sizeof short_record, room, sizeof room);
        all += room[40 + i % 8];
    }
    return all;
}

static uint64_t join(const struct calls *side) {
    uint8_t room[RPR_SUMMARY_LENGTH];
    uint64_t all = 0;
    for (unsigned i = 0; i < CALLS; i++) {
        all += side->join(halves[i & 1], sizeof room, halves[1], sizeof room, room, sizeof room);
        all += room[40 + i % 8];
    }
    return all;
}

static const struct measured {
    const char *name;
    loop *run;
    double bound;
    const struct calls *peer;
} measured[] = {
    {"rpr_choose, 63 stations, one link down", choose, BOUND, NULL},
    {"rpr_path, 63 stations, one link down", walk, BOUND, NULL},
    {"rpr_summarize, 64 events at random", summarize, BOUND_PLACED, NULL},
    {"the same, plain C where two flags put it", summarize, BOUND_FLAGS, &flagged},
    {"rpr_join", join, BOUND, NULL},
    {"rpr_settle", settle, BOUND, NULL},
};

static double run_loop(const struct calls *side, const void *of, uint64_t *answers) {
    const struct measured *m = of;
    double from = now();
    *answers = m->run(side);
    return now() - from;
}

/* The record's first events are at random. */
static void bench_calls(const uint8_t *record) {
    memcpy(short_record, record, sizeof short_record);
    for (size_t i = 0; i < 2; i++)
        if (rpr_summarize(record, RPR_RECORD_HEADER_LENGTH + RPR_RECORD_EVENT_LENGTH * 40 * (i + 1), halves[i], RPR_SUMMARY_LENGTH) != 0) give_up("a record is refused");
    bench_heading("calls without a station, ns per call", NULL);
    for (size_t i = 0; i < sizeof measured / sizeof measured[0]; i++)
        bench_row(&(struct row){measured[i].name, NULL, measured[i].bound, CALLS, 1, run_loop, &measured[i], measured[i].peer});
}

int main(int count, char **words) {
    uint8_t *record = malloc(LENGTH + RPR_RECORD_EVENT_LENGTH);
    if (record == NULL) give_up("no memory");
    compare_sides(record);
    puts("the library, plain C and C with the library's own algorithm do the same");
    if (count > 1) {
        open_above(words[1]);
        bench_records(record);
        bench_calls(record);
        bench_runs();
        bench_heartbeat();
        bench_station();
        close_above();
    }
    free(record);
    return 0;
}
