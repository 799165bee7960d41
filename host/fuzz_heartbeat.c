/*
 * What must hold of a pattern that is repeated, judged by the other calls: it is refused as the record that it is, and answered as the record is in which it is written
 * out, by that record where it is short, and by the pattern's summary, joined one behind the other. A steady pattern fits.
 */
#include "fuzz.h"

#include <string.h>

enum { HEADER = RPR_RECORD_HEADER_LENGTH, EVENTS = RPR_HEARTBEAT_EVENTS, MOST_JOINED = 300 };

/* What the pattern is refused with, and its summary where that is 0. Its record's refusal is its own where the items before are 256 events at most, and fewer where an item
 * comes behind them. */
static unsigned fault_of(const uint8_t *pattern, size_t length, struct rpr_summary *sum) {
    unsigned number = rpr_refusal_of(rpr_summarize(pattern, length, sum, sizeof *sum));
    for (size_t at = HEADER; at <= length && rpr_summarize(pattern, at, sum, sizeof *sum) == 0;) {
        if (sum->events > EVENTS || (sum->events == EVENTS && at < length)) return RPR_RANGE;
        if (length - at < 2) break;
        size_t stated = get16(pattern + at);
        at += stated > 0 ? stated : 1;
    }
    return number;
}

/* The bytes of the record in which the pattern, which is good, is written out; 0 where they are more than a slice may have. */
static size_t write_out(const struct slice *pattern, uint64_t repeats, uint8_t *room) {
    uint64_t answer = rpr_unroll(pattern->bytes, pattern->length, room, MOST_LENGTH);
    size_t once = rpr_written_of(answer) - HEADER, times = once == 0 ? 0 : (size_t)repeats;
    if (once > 0 && times > (MOST_LENGTH - HEADER) / once) return 0;
    for (size_t i = 1; i < times; i++) memcpy(room + HEADER + once * i, room + HEADER, once);
    return HEADER + once * times;
}

/* The answer by the record that is written out, where it can be. */
static void check_written_out(const struct request *r, uint64_t answer) {
    static uint8_t room[MOST_LENGTH];
    struct rpr_summary sum;
    size_t length = write_out(&r->slices[0], r->numbers[1], room);
    if (length == 0) return;
    if (rpr_summarize(room, length, &sum, sizeof sum) != 0 || rpr_settle(&sum, sizeof sum, sum.lo_limit) != answer)
        fail(r, answer, "another answer than that of the record written out");
}

/* The answer by the summary, joined so many times, where these are few. */
static void check_joined(const struct request *r, uint64_t answer, const struct rpr_summary *one) {
    struct rpr_summary all = {.mtu = one->mtu, .lo_limit = one->lo_limit, .hi_limit = one->hi_limit, .ceiling = one->hi_limit}, more;
    if (r->numbers[1] > MOST_JOINED) return;
    for (uint64_t i = 0; i < r->numbers[1]; i++) {
        if (rpr_join(&all, sizeof all, one, sizeof *one, &more, sizeof more) != 0) fail(r, answer, "the summaries of repeats do not join");
        all = more;
    }
    if (rpr_settle(&all, sizeof all, all.lo_limit) != answer) fail(r, answer, "another answer than that of the summaries joined");
}

void check_heartbeat(const struct request *r, uint64_t answer) {
    const struct slice *pattern = &r->slices[0];
    struct rpr_summary one;
    unsigned fault = fault_of(pattern->bytes, pattern->length, &one);
    if (fault == 0 && one.events > 0 && r->numbers[1] > RPR_MOST_EVENTS / one.events) fault = RPR_MANY_EVENTS;
    if (rpr_refusal_of(answer) != fault) fail(r, answer, "a pattern is refused otherwise than its record and the repeats say");
    if (fault != 0) return;
    check_written_out(r, answer);
    check_joined(r, answer, &one);
    uint64_t once = rpr_heartbeat(pattern->bytes, pattern->length, 1);
    int steady = rpr_settled_permitted(once) && rpr_settled_end_credit(once) >= one.lo_limit;
    if (steady && (!rpr_settled_permitted(answer) || rpr_settled_end_credit(answer) < one.lo_limit)) fail(r, answer, "a steady pattern does not fit");
}
