/*
 * Records in C with the library's own algorithm; part of plain_record.h where it is compiled with SAME_ALGORITHM. Whole blocks of 64 events are summed without a
 * branch on what the events hold: eight parts of eight events each, every part from a neutral start, so that they run beside each other in the lanes of
 * vectors, and then the parts one behind the other. A block with a fault or a run, and what follows up to that item, is left to the loop over single events; behind a
 * run blocks begin anew. A low that comes too late is 0 at once here, where the library counts such lows and asks at the end.
 */
#ifndef SAME_RECORD_H
#define SAME_RECORD_H

#include <stdbool.h>

enum { PARTS = 8, PART = 8, BLOCK = PARTS * PART };

/* The length and the kind of an event, as one word. */
enum { WAITING = 1 << 16 | EVENT, IDLE = 2 << 16 | EVENT, SEND = 3 << 16 | EVENT };

/* How far above hiLimit less loLimit the level of a part begins, which is more than its events take off it; and the low of a part in which nothing was sent. */
enum { ROOM = 1 << 20, UNSENT = 1 << 24 };

/*
 * What a stretch of events does to the level, which is what ticks brought less what was sent. hiLimit less the ceiling is how far the level lies below the top: the
 * highest that it was behind an event, where an idle tick counts as `rise` higher, hiLimit less loLimit. The top is kept less `rise`: a send at it or below comes when
 * the ceiling is at most loLimit.
 */
struct part {
    int32_t level, top;
    int32_t low;   /* the least level before a send, or 0 where one came too late */
    int32_t total; /* all numbers */
    bool good;     /* whether no event has a fault */
};

/* What is cut and tested by: hiLimit less loLimit; and the largest size less the smallest, in the upper half of a word that counts from the least number on. */
struct cuts {
    int32_t rise, most;
};

static inline struct part grow(struct part p, struct cuts c, const uint8_t *event) {
    uint32_t tail = get32(event + 2);
    int32_t head = (int32_t)get32(event), number = (int32_t)(tail >> 16);
    bool send = head == SEND, idle = head == IDLE, waits = head == WAITING;
    int32_t bar = p.top < p.level ? p.level : 0;
    int32_t level = send ? p.level - number : p.level + number, cut = level - (idle ? 0 : c.rise);
    bool sized = (int32_t)(tail + (UINT32_C(1) << 31) - (UINT32_C(16) << 16)) <= c.most;
    return (struct part){
        .level = level,
        .top = p.top < cut ? cut : p.top,
        .low = (send & (bar < p.low)) ? bar : p.low,
        .total = p.total + number,
        .good = p.good & ((send & sized) | idle | waits),
    };
}

static inline struct part eight(struct cuts c, const uint8_t *event) {
    struct part p = {.level = c.rise + ROOM, .top = 0, .low = UNSENT, .total = 0, .good = true};
    for (int i = 0; i < PART; i++) p = grow(p, c, event + EVENT * i);
    return p;
}

/* What the blocks so far come to. The level begins so high that no part's low is below 0; a low of 0 is a need that no credit meets. */
struct chain {
    int64_t accrued, level, top, low;
};

#define LEVEL (INT64_C(1) << 40)

/* A block behind those before it: 0 where an event has a fault, and then nothing is changed. */
static inline int add_block(struct chain *sum, struct cuts c, const uint8_t *block) {
    int32_t levels[PARTS], tops[PARTS], lows[PARTS], total = 0;
    bool good = true;
    for (int i = 0; i < PARTS; i++) { /* no part waits for another here */
        struct part p = eight(c, block + EVENT * PART * i);
        levels[i] = p.level, tops[i] = p.top, lows[i] = p.low;
        total += p.total, good = good & p.good;
    }
    if (!good) return 0;
    struct chain t = *sum;
    int64_t begin = c.rise + ROOM, base = t.level - begin, peak = t.top - c.rise;
    for (int i = 0; i < PARTS; i++) {
        int64_t low = base + lows[i], top = base + tops[i], bar = low <= peak ? 0 : low;
        t.low = bar < t.low ? bar : t.low;
        peak = top > peak ? top : peak;
        base += levels[i] - begin;
    }
    t.level = base + begin;
    t.top = peak + c.rise;
    t.accrued += (total + t.level - sum->level) / 2;
    *sum = t;
    return 1;
}

/* The whole blocks of these events, at most so many events, up to the first with a fault or a run. How many events they hold. */
static inline size_t sum_blocks(const uint8_t *items, size_t most, struct sum *sum) {
    int64_t hi = sum->hi, lo = sum->lo, level = LEVEL + sum->accrued - sum->sent;
    struct cuts c = {(int32_t)(hi - lo), INT32_MIN + (((int32_t)sum->mtu - 16) << 16 | 0xffff)};
    struct chain t = {.accrued = sum->accrued, .level = level, .top = level + hi - sum->ceiling, .low = LEVEL + lo + 1 - sum->need};
    size_t done = 0;
    while (most - done >= BLOCK && add_block(&t, c, items + EVENT * done)) done += BLOCK;
    sum->events += (int64_t)done;
    sum->accrued = t.accrued;
    sum->sent = t.accrued + LEVEL - t.level;
    sum->ceiling = hi - (t.top - t.level);
    sum->need = LEVEL + lo + 1 - t.low;
    return done;
}

#endif
