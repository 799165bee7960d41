/* What the smoke tests of records share: document 01's limits, items, and the summary of a record. */
#ifndef SMOKE_RECORD_H
#define SMOKE_RECORD_H

#include "smoke.h"

enum { RECORD, FIRST, SECOND, ROOM };

/* Document 01's limits, mtu 64, loLimit 100, hiLimit 300, and events with a number of one byte. */
#define HEADER 14, 0, 16, 0, 64, 0, 100, 0, 0, 0, 44, 1, 0, 0
#define WAITING(amount) 6, 0, 1, 0, (amount), 0
#define IDLE(amount) 6, 0, 2, 0, (amount), 0
#define SEND(size) 6, 0, 3, 0, (size), 0

/* Two bytes, and a run: the ticks' kind, their amount and their count. */
#define TWO(number) (uint8_t)((number) & 0xff), (uint8_t)((number) >> 8)
#define RUN(kind, amount, count) 10, 0, 4, 0, TWO(kind), TWO(amount), TWO(count)

enum { WAITS = RPR_WAITING_TICK, IDLES = RPR_IDLE_TICK, HEADER_LENGTH = RPR_RECORD_HEADER_LENGTH };

static inline void summarize(const char *what, const uint8_t *bytes, size_t length, uint64_t want) {
    lend(RECORD, bytes, length);
    lend_filled(ROOM, 0xaa, RPR_SUMMARY_LENGTH);
    answered(what, rpr_summarize(LENT(RECORD), LENT(ROOM)), ROOM, want);
}

/* The room holds a summary with document 01's limits. */
static inline void holds(const char *what, uint32_t events, uint64_t accrued, uint64_t sent, int64_t ceiling, uint64_t need) {
    struct rpr_summary got, want = {64, 100, 300, events, accrued, sent, ceiling, need};
    memcpy(&got, slices[ROOM].memory + GUARD, sizeof got);
    if (memcmp(&got, &want, sizeof got) == 0) return;
    printf("%s: events %u accrued %llu sent %llu ceiling %lld need %llu\n", what, got.events,
           (unsigned long long)got.accrued, (unsigned long long)got.sent, (long long)got.ceiling,
           (unsigned long long)got.need);
    failures++;
}

/* Lends the summary of a record. */
static inline void lend_summary(int slice, const uint8_t *bytes, size_t length) {
    summarize("a piece", bytes, length, 0);
    lend(slice, LENT(ROOM));
}

static inline void join(const char *what, uint64_t want) {
    lend_filled(ROOM, 0xaa, RPR_SUMMARY_LENGTH);
    answered(what, rpr_join(LENT(FIRST), LENT(SECOND), LENT(ROOM)), ROOM, want);
}

#endif
