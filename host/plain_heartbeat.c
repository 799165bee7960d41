/* Heartbeats in plain C: the pattern's events are gone through from loLimit, so many times. */
#include "plain.h"

#include "plain_record.h"
#include "rpr_heartbeat.h"

enum { MOST_OF_PATTERN = RPR_HEARTBEAT_EVENTS };

/* So many repeats have over a million events. */
static int too_many(int64_t events, uint64_t repeats) { return events > 0 && repeats > MOST_EVENTS / (uint64_t)events; }

#ifdef SAME_ALGORITHM
#include "same_heartbeat.h"
#else

/* A pattern: its settings and how many events it has, and these one by one. */
struct pattern {
    struct sum of;
    struct item events[MOST_OF_PATTERN];
};

/* The item behind these events, as many times as it counts: 0, or what it is refused with. */
static uint64_t add_item(const uint8_t *bytes, size_t length, struct pattern *pattern, struct item *item) {
    if (pattern->of.events == MOST_OF_PATTERN) return 3;
    uint64_t refusal = read_item(bytes, length, pattern->of.events, pattern->of.mtu, item);
    if (refusal != 0) return refusal;
    if (item->count > MOST_OF_PATTERN - pattern->of.events) return 3;
    for (uint32_t i = 0; i < item->count; i++) pattern->events[pattern->of.events++] = *item;
    return 0;
}

/* 0, or the pattern's first fault. */
static uint64_t read_pattern(const uint8_t *bytes, size_t length, struct pattern *pattern) {
    struct item item;
    uint64_t refusal = sum_header(bytes, length, &pattern->of);
    for (size_t at = HEADER; refusal == 0 && at < length; at += item.length) refusal = add_item(bytes + at, length - at, pattern, &item);
    return refusal;
}

/* The credit behind the pattern's events, or -1 where a send is not permitted. */
static int64_t once(const struct pattern *pattern, int64_t credit) {
    int64_t lo = pattern->of.lo, hi = pattern->of.hi;
    for (int64_t i = 0; i < pattern->of.events; i++) {
        const struct item *event = &pattern->events[i];
        if (event->kind == RPR_SEND) {
            if (credit <= lo) return -1;
            credit -= event->number;
        } else {
            int64_t cut = event->kind == RPR_WAITING_TICK ? hi : lo;
            credit = credit + event->number < cut ? credit + event->number : cut;
        }
    }
    return credit;
}

/* Permitted throughout, up to this credit. */
static uint64_t permitted(int64_t end) { return 1 << 8 | (uint64_t)end << 32; }

uint64_t plain_heartbeat(const void *lent, size_t length, uint64_t repeats) {
    struct pattern pattern;
    uint64_t refusal = read_pattern(lent, length, &pattern);
    if (refusal != 0) return refusal;
    if (too_many(pattern.of.events, repeats)) return 9;
    int64_t credit = pattern.of.lo;
    if (pattern.of.events == 0) return permitted(credit);
    for (; repeats > 0 && credit >= 0; repeats--) credit = once(&pattern, credit);
    return credit < 0 ? 0 : permitted(credit);
}
#endif
