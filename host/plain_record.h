/*
 * How plain C reads a record of either form, item by item: for plain_record.c, and for the programs plain_compare.c and plain_summarize.c, which read one in
 * windows. The functions stand here, and not in a file of their own, so that the compiler can draw them into the loops that are timed.
 */
#ifndef PLAIN_RECORD_H
#define PLAIN_RECORD_H

#include <string.h>

#include "rpr.h"

enum { MOST_EVENTS = RPR_MOST_EVENTS, HEADER = RPR_RECORD_HEADER_LENGTH, EVENT = RPR_RECORD_EVENT_LENGTH, RUN = RPR_RECORD_RUN_LENGTH };

static inline uint32_t get16(const uint8_t *p) {
    uint16_t v;
    memcpy(&v, p, sizeof v);
    return v;
}

static inline uint32_t get32(const uint8_t *p) {
    uint32_t v;
    memcpy(&v, p, sizeof v);
    return v;
}

static inline int settings_ok(uint32_t mtu, uint32_t lo, uint32_t hi) {
    return mtu >= 64 && mtu <= 9216 && lo >= mtu && lo <= 65536 && hi > lo && hi <= 1048576;
}

/* A record up to some item: its settings, how many events there were, and what they come to. */
struct sum {
    int64_t mtu, lo, hi, events;
    int64_t accrued, sent, ceiling, need;
};

/* A record's header: 0, or what it is refused with. */
static inline uint64_t sum_header(const uint8_t *record, size_t length, struct sum *sum) {
    if (length < HEADER || get16(record) != HEADER || get16(record + 2) != RPR_HEADER) return 2;
    uint32_t mtu = get16(record + 4), lo = get32(record + 6), hi = get32(record + 10);
    if (!settings_ok(mtu, lo, hi)) return 1;
    *sum = (struct sum){.mtu = mtu, .lo = lo, .hi = hi, .ceiling = hi};
    return 0;
}

/* An item: `count` times an event of this kind, with this amount or size. */
struct item {
    uint32_t kind, number, count;
    size_t length;
};

static inline struct item event_of(const uint8_t *bytes) { return (struct item){get16(bytes + 2), get16(bytes + 4), 1, EVENT}; }
static inline struct item run_of(const uint8_t *bytes) { return (struct item){get16(bytes + 4), get16(bytes + 6), get16(bytes + 8), RUN}; }

/* The event at the front of these bytes, behind so many others of a record with this mtu: 0, or its first fault. */
static inline uint64_t read_event(const uint8_t *bytes, size_t length, int64_t events, int64_t mtu, struct item *item) {
    if (events == MOST_EVENTS) return 9;
    if (length < EVENT || get16(bytes) != EVENT) return 2;
    *item = event_of(bytes);
    if (item->kind < RPR_WAITING_TICK || item->kind > RPR_SEND) return 2;
    return item->kind == RPR_SEND && (item->number < 16 || item->number > mtu) ? 3 : 0;
}

/* The same of an event or a run. */
static inline uint64_t read_item(const uint8_t *bytes, size_t length, int64_t events, int64_t mtu, struct item *item) {
    if (length < EVENT || get16(bytes + 2) != RPR_RUN) return read_event(bytes, length, events, mtu, item);
    if (events == MOST_EVENTS) return 9;
    if (length < RUN || get16(bytes) != RUN) return 2;
    *item = run_of(bytes);
    if ((item->kind != RPR_WAITING_TICK && item->kind != RPR_IDLE_TICK) || item->count < 2) return 2;
    return item->count > MOST_EVENTS - events ? 9 : 0;
}

/* Events one by one, at most so many, up to an item that has a fault or is a run. How many they are. */
static inline size_t sum_events(const uint8_t *items, size_t most, struct sum *sum) {
    int64_t hi = sum->hi, lo = sum->lo, mtu = sum->mtu;
    struct sum t = *sum;
    size_t i = 0;
    for (; i < most; i++) {
        const uint8_t *event = items + EVENT * i;
        uint32_t kind = get16(event + 2);
        int64_t number = get16(event + 4);
        if (get16(event) != EVENT) break;
        if (kind == RPR_WAITING_TICK || kind == RPR_IDLE_TICK) {
            int64_t cut = kind == RPR_WAITING_TICK ? hi : lo;
            t.accrued += number;
            t.ceiling = t.ceiling + number < cut ? t.ceiling + number : cut;
        } else if (kind == RPR_SEND) {
            if (number < 16 || number > mtu) break;
            int64_t asked = t.ceiling <= lo ? hi + 1 : lo + 1 - t.accrued + t.sent;
            if (asked > t.need) t.need = asked;
            t.sent += number;
            t.ceiling -= number;
        } else {
            break;
        }
    }
    t.events += (int64_t)i;
    *sum = t;
    return i;
}

/* So many equal ticks at once. The credit that they leave is cut once, which comes to the same as a cut after each. */
static inline void sum_run(const struct item *run, struct sum *sum) {
    int64_t brought = (int64_t)run->count * run->number, cut = run->kind == RPR_WAITING_TICK ? sum->hi : sum->lo;
    sum->events += run->count;
    sum->accrued += brought;
    sum->ceiling = sum->ceiling + brought < cut ? sum->ceiling + brought : cut;
}

#ifdef SAME_ALGORITHM
#include "same_record.h"
#endif

/* The items of these bytes, behind those before: 0, or what the first with a fault is refused with. `end` is where the last good one ends. */
static inline uint64_t sum_items(const uint8_t *bytes, size_t length, struct sum *sum, size_t *end) {
    size_t at = 0;
    uint64_t refusal = 0;
    while (at < length) {
        size_t whole = (length - at) / EVENT, left = (size_t)(MOST_EVENTS - sum->events), most = whole < left ? whole : left, done = 0;
#ifdef SAME_ALGORITHM
        done = sum_blocks(bytes + at, most, sum);
#endif
        at += EVENT * (done + sum_events(bytes + at + EVENT * done, most - done, sum));
        if (at == length) break;
        struct item run;
        refusal = read_item(bytes + at, length - at, sum->events, sum->mtu, &run);
        if (refusal != 0) break;
        sum_run(&run, sum);
        at += RUN;
    }
    *end = at;
    return refusal;
}

/* The summary of what was read. */
static inline struct rpr_summary summary_of(const struct sum *t) {
    int64_t never = t->hi + 1, need = t->need < never ? t->need : never;
    return (struct rpr_summary){(uint32_t)t->mtu, (uint32_t)t->lo, (uint32_t)t->hi, (uint32_t)t->events,
                                (uint64_t)t->accrued, (uint64_t)t->sent, t->ceiling, (uint64_t)need};
}

#endif
