/*
 * Heartbeats in C with the library's own algorithm; part of plain_heartbeat.c where it is compiled with SAME_ALGORITHM. The pattern is summed as any record is, and its
 * summary is joined with itself for each binary digit of the repeats, the highest first, and with one more where the digit is 1. What C does here that the library's text
 * does not: it asks for too many events by a division, before it joins, where the library's joins refuse them.
 */
#ifndef SAME_HEARTBEAT_H
#define SAME_HEARTBEAT_H

/* The summary of a pattern: 0, or its first fault. No event takes more than 6 bytes. So of a longer record the front is enough: a fault, or more than 256 events, is found there,
 * and an item that is cut off by it stands behind those. */
static uint64_t sum_pattern(const uint8_t *bytes, size_t length, struct rpr_summary *one) {
    enum { MOST_BYTES = RPR_HEARTBEAT_MOST + RUN };
    struct sum sum;
    size_t end, looked_at = length < MOST_BYTES ? length : MOST_BYTES;
    uint64_t refusal = sum_header(bytes, length, &sum);
    if (refusal != 0) return refusal;
    refusal = sum_items(bytes + HEADER, looked_at - HEADER, &sum, &end);
    if (sum.events > MOST_OF_PATTERN || (sum.events == MOST_OF_PATTERN && refusal != 0)) return 3;
    *one = summary_of(&sum);
    return refusal;
}

static void join_next(struct rpr_summary *all, const struct rpr_summary *next) {
    plain_join(all, sizeof *all, next, sizeof *next, all, sizeof *all);
}

uint64_t plain_heartbeat(const void *lent, size_t length, uint64_t repeats) {
    struct rpr_summary one;
    uint64_t refusal = sum_pattern(lent, length, &one);
    if (refusal != 0) return refusal;
    if (too_many(one.events, repeats)) return 9;
    struct rpr_summary all = {.mtu = one.mtu, .lo_limit = one.lo_limit, .hi_limit = one.hi_limit, .ceiling = one.hi_limit};
    for (int digit = repeats == 0 ? 0 : 64 - __builtin_clzll(repeats); digit-- > 0;) {
        join_next(&all, &all);
        if (repeats >> digit & 1) join_next(&all, &one);
    }
    return plain_settle(&all, sizeof all, all.lo_limit);
}

#endif
