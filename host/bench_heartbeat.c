/* Patterns that are repeated: ns per call, beside plain C, which goes through every repeat, and beside C that doubles as the library does. */
#include "bench.h"

enum { HEADER = RPR_RECORD_HEADER_LENGTH, EVENTS = RPR_HEARTBEAT_EVENTS, MILLION = RPR_MOST_EVENTS };

/* A pattern, how often it is repeated, and how many calls make a round. */
struct beat {
    const uint8_t *pattern;
    size_t length;
    uint64_t repeats;
    unsigned calls;
};

static uint8_t tick[RPR_HEARTBEAT_MOST], pattern[RPR_HEARTBEAT_MOST];

static double ask(const struct calls *side, const void *of, uint64_t *answers) {
    const struct beat *b = of;
    double from = now();
    *answers = 0;
    for (unsigned i = 0; i < b->calls; i++) *answers += side->heartbeat(b->pattern, b->length, b->repeats);
    return now() - from;
}

/* A row, beside plain C or who stands in for it. */
static struct times beats(const char *what, double bound, const struct beat *b, const struct calls *peer) {
    if (!rpr_settled_permitted(rpr_heartbeat(b->pattern, b->length, b->repeats))) give_up("a pattern to measure is not permitted");
    return bench_row(&(struct row){what, NULL, bound, b->calls, 0, ask, b, peer});
}

/* A tick; and 256 events, a tick that brings 1,000 and a send of 900, in turn. */
static void set_up(void) {
    put_header(tick, 1500, 16384, 262144);
    put_event(tick, 0, RPR_WAITING_TICK, 1000);
    put_header(pattern, 1500, 16384, 262144);
    for (size_t i = 0; i < EVENTS; i++) put_event(pattern, i, i % 2 ? RPR_SEND : RPR_WAITING_TICK, i % 2 ? 900 : 1000);
}

void bench_heartbeat(void) {
    const size_t one = HEADER + RPR_RECORD_EVENT_LENGTH, most = sizeof pattern;
    set_up();
    bench_heading("a pattern, repeated, ns per call", NULL);
    beats("rpr_heartbeat, 256 events, no repeat", BOUND, &(struct beat){pattern, most, 0, 2000}, NULL);
    beats("rpr_heartbeat, 256 events, once", BOUND, &(struct beat){pattern, most, 1, 2000}, NULL);
    beats("rpr_heartbeat, 256 events, 3,906 times, C doubles", BOUND_DOUBLED, &(struct beat){pattern, most, MILLION / EVENTS, 2000}, &same);
    struct times walked = beats("rpr_heartbeat, a tick, 1,000,000 times", BOUND, &(struct beat){tick, one, MILLION, 20}, NULL);
    bench_faster("rpr_heartbeat, times faster than plain C", walked.plain / walked.library);
}
