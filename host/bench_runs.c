/* Records in runs: ns per event of rolling and unrolling, and how much faster a million ticks are summed in runs than one by one. */
#include "bench.h"

#include <stdlib.h>

enum { HEADER = RPR_RECORD_HEADER_LENGTH, EVENTS = RPR_MOST_EVENTS, CALLS = 20000 };

/* A record of a million events in the old form and in runs, and the room that it is moved into. */
static uint8_t *old, *rolled, *room;
static size_t rolled_length;

/* ---- records ---- */

/* Idle ticks, all equal. */
static void fill_idle(void) {
    for (size_t i = 0; i < EVENTS; i++) put_event(old, i, RPR_IDLE_TICK, 1000);
}

/* Sends, and ticks of either kind, each second time up to 40 of the same. */
static void fill_stretches(void) {
    for (size_t i = 0; i < EVENTS;) {
        unsigned kind = 1 + below(3), number = 16 + below(1485), count = kind == RPR_SEND || below(2) ? 1 : 1 + below(40);
        for (; count > 0 && i < EVENTS; count--) put_event(old, i++, kind, number);
    }
}

/* Kinds and numbers at random: hardly a run. */
static void fill_mixed(void) {
    for (size_t i = 0; i < EVENTS; i++) put_event(old, i, 1 + below(3), 16 + below(1485));
}

static void set_up(void (*fill)(void)) {
    put_header(old, 1500, 16384, 262144);
    fill();
    uint64_t answer = rpr_roll(old, RPR_RECORD_MOST, rolled, RPR_RECORD_MOST);
    if (rpr_refusal_of(answer) != 0) give_up("a record to measure is refused");
    rolled_length = rpr_written_of(answer);
}

/* ---- rolling and unrolling ---- */

/* What was written, in one number, is found while no clock runs. */
static uint64_t mixed_up(uint64_t answer) {
    uint64_t all = answer;
    if (rpr_refusal_of(answer) != 0) give_up("a record is refused");
    for (size_t i = 0; i < rpr_written_of(answer); i++) all = 31 * all + room[i];
    return all;
}

static double roll(const struct calls *side, const void *of, uint64_t *answers) {
    (void)of;
    double from = now();
    uint64_t answer = side->roll(old, RPR_RECORD_MOST, room, RPR_RECORD_MOST);
    double ns = now() - from;
    *answers = mixed_up(answer);
    return ns;
}

static double unroll(const struct calls *side, const void *of, uint64_t *answers) {
    (void)of;
    double from = now();
    uint64_t answer = side->unroll(rolled, rolled_length, room, RPR_RECORD_MOST);
    double ns = now() - from;
    *answers = mixed_up(answer);
    return ns;
}

static void bench_moves(void) {
    bench_heading("a record of 1,000,000 events, ns per event", NULL);
    set_up(fill_idle);
    bench_row(&(struct row){"rpr_roll, idle ticks, all equal", NULL, BOUND_RUNS, EVENTS, 2, roll, NULL, NULL});
    bench_row(&(struct row){"rpr_unroll, these, 16 runs", NULL, BOUND_RUNS, EVENTS, 2, unroll, NULL, NULL});
    set_up(fill_stretches);
    bench_row(&(struct row){"rpr_roll, sends and equal ticks at random", NULL, BOUND_RUNS, EVENTS, 2, roll, NULL, NULL});
    bench_row(&(struct row){"rpr_unroll, these, in runs", NULL, BOUND_RUNS, EVENTS, 2, unroll, NULL, NULL});
    set_up(fill_mixed);
    bench_row(&(struct row){"rpr_roll, kinds and numbers at random", NULL, BOUND_RUNS, EVENTS, 2, roll, NULL, NULL});
    bench_row(&(struct row){"rpr_unroll, these, hardly a run", NULL, BOUND_RUNS, EVENTS, 2, unroll, NULL, NULL});
}

/* ---- summaries ---- */

static uint64_t sum(const struct calls *side, const uint8_t *record, size_t length) {
    struct rpr_summary s;
    if (side->summarize(record, length, &s, sizeof s) != 0) give_up("a record is refused");
    return s.accrued + (uint64_t)s.ceiling + s.events;
}

static double sum_old(const struct calls *side, const void *of, uint64_t *answers) {
    (void)of;
    double from = now();
    *answers = sum(side, old, RPR_RECORD_MOST);
    return now() - from;
}

static double sum_runs(const struct calls *side, const void *of, uint64_t *answers) {
    (void)of;
    double from = now();
    *answers = 0;
    for (int i = 0; i < CALLS; i++) *answers += sum(side, rolled, rolled_length);
    return now() - from;
}

static void bench_sums(void) {
    bench_heading("1,000,000 idle ticks, all equal, ns per record", NULL);
    set_up(fill_idle);
    struct times each = bench_row(&(struct row){"rpr_summarize, one by one", NULL, BOUND, 1, 0, sum_old, NULL, NULL});
    struct times runs = bench_row(&(struct row){"rpr_summarize, 16 runs", NULL, BOUND_RUNS, CALLS, 0, sum_runs, NULL, NULL});
    bench_faster("rpr_summarize, times faster in runs", each.library / runs.library);
}

void bench_runs(void) {
    old = malloc(RPR_RECORD_MOST), rolled = malloc(RPR_RECORD_MOST), room = malloc(RPR_RECORD_MOST);
    if (old == NULL || rolled == NULL || room == NULL) give_up("no memory");
    bench_moves();
    bench_sums();
    free(old), free(rolled), free(room);
}
