/* Shaper records and their summaries in plain C. */
#include "plain.h"

#include "plain_record.h"

enum { MOST_AMOUNT = 65535, MOST_SIZE = 9216 };

/* ---- summaries of records ---- */

uint64_t plain_summarize(const void *lent, size_t length, void *room, size_t room_length) {
    const uint8_t *record = lent;
    struct sum sum;
    size_t end;
    if (room_length != RPR_SUMMARY_LENGTH) return 2;
    uint64_t refusal = sum_header(record, length, &sum);
    if (refusal == 0) refusal = sum_items(record + HEADER, length - HEADER, &sum, &end);
    if (refusal != 0) return refusal;
    struct rpr_summary s = summary_of(&sum);
    memcpy(room, &s, sizeof s);
    return 0;
}

/* ---- shorter records, and the way back: tested and measured first, then written ---- */

static void put16(uint8_t *p, uint32_t v) {
    uint16_t low = (uint16_t)v;
    memcpy(p, &low, sizeof low);
}

/* The answer of a call that wrote so many bytes. */
static uint64_t wrote(size_t bytes) { return (uint64_t)bytes << 32; }

/* A record of the old form: 0, or its first fault; and the bytes that it takes in runs. The second of equal ticks makes a run of the first, and no other of the
 * run takes a byte. */
static uint64_t measure_rolled(const uint8_t *record, size_t length, size_t *bytes) {
    struct sum sum;
    uint64_t refusal = sum_header(record, length, &sum);
    if (refusal != 0) return refusal;
    size_t run = 0, taken = HEADER;
    for (size_t at = HEADER; at < length; at += EVENT) {
        struct item item;
        refusal = read_event(record + at, length - at, sum.events++, sum.mtu, &item);
        if (refusal != 0) return refusal;
        if (item.kind == RPR_SEND) run = 0;
        else if (run > 0 && run < RPR_MOST_COUNT && memcmp(record + at, record + at - EVENT, EVENT) == 0) run++;
        else run = 1;
        taken += run < 2 ? EVENT : run == 2 ? RUN - EVENT : 0;
    }
    *bytes = taken;
    return 0;
}

/* How many equal ticks begin with this event, at most as many as a run counts; a send is alone. */
static size_t equal_ticks(const uint8_t *event, const uint8_t *end) {
    size_t count = 1;
    if (get16(event + 2) == RPR_SEND) return count;
    for (const uint8_t *next = event + EVENT; next < end && count < RPR_MOST_COUNT && memcmp(next, event, EVENT) == 0; next += EVENT) count++;
    return count;
}

uint64_t plain_roll(const void *lent, size_t length, void *room, size_t room_length) {
    const uint8_t *event = lent, *end = event + length;
    uint8_t *to = room;
    size_t bytes;
    uint64_t refusal = measure_rolled(lent, length, &bytes);
    if (refusal != 0) return refusal;
    if (room_length < bytes) return 12;
    memcpy(to, event, HEADER);
    to += HEADER, event += HEADER;
    while (event < end) {
        size_t count = equal_ticks(event, end);
        if (count == 1) {
            memcpy(to, event, EVENT);
            to += EVENT;
        } else {
            put16(to, RUN), put16(to + 2, RPR_RUN);
            memcpy(to + 4, event + 2, EVENT - 2);
            put16(to + 8, (uint32_t)count);
            to += RUN;
        }
        event += EVENT * count;
    }
    return wrote(bytes);
}

/* A record of either form: 0, or its first fault; and the bytes that it takes without runs. */
static uint64_t measure_unrolled(const uint8_t *record, size_t length, size_t *bytes) {
    struct sum sum;
    struct item item;
    uint64_t refusal = sum_header(record, length, &sum);
    if (refusal != 0) return refusal;
    for (size_t at = HEADER; at < length; at += item.length) {
        refusal = read_item(record + at, length - at, sum.events, sum.mtu, &item);
        if (refusal != 0) return refusal;
        sum.events += item.count;
    }
    *bytes = HEADER + EVENT * (size_t)sum.events;
    return 0;
}

uint64_t plain_unroll(const void *lent, size_t length, void *room, size_t room_length) {
    const uint8_t *item = lent, *end = item + length;
    uint8_t *to = room;
    size_t bytes;
    uint64_t refusal = measure_unrolled(lent, length, &bytes);
    if (refusal != 0) return refusal;
    if (room_length < bytes) return 12;
    memcpy(to, item, HEADER);
    to += HEADER, item += HEADER;
    while (item < end) {
        if (get16(item) == EVENT) {
            memcpy(to, item, EVENT);
            to += EVENT, item += EVENT;
            continue;
        }
        uint8_t tick[EVENT];
        put16(tick, EVENT);
        memcpy(tick + 2, item + 4, EVENT - 2);
        for (size_t count = get16(item + 8); count > 0; count--, to += EVENT) memcpy(to, tick, EVENT);
        item += RUN;
    }
    return wrote(bytes);
}

/* ---- summaries ---- */

static int64_t gain_of(const struct rpr_summary *s) { return (int64_t)s->accrued - (int64_t)s->sent; }

static int summary_ok(const struct rpr_summary *s) {
    if (!settings_ok(s->mtu, s->lo_limit, s->hi_limit) || s->events > MOST_EVENTS) return 0;
    if (s->accrued > (uint64_t)MOST_AMOUNT * s->events || s->sent > (uint64_t)MOST_SIZE * s->events) return 0;
    int64_t hi = s->hi_limit, gain = gain_of(s);
    if (s->ceiling > hi || s->ceiling > hi + gain || s->ceiling < -(int64_t)MOST_SIZE * s->events) return 0;
    if (s->need > (uint64_t)hi + 1) return 0;
    return s->need == (uint64_t)hi + 1 || (s->ceiling >= 0 && (int64_t)s->need + gain >= 0);
}

/* The least credit that permits the sends of both: what the second needs is less by the first's gain, within its ceiling. */
static int64_t need_of(const struct rpr_summary *first, const struct rpr_summary *second) {
    int64_t never = (int64_t)first->hi_limit + 1, one = (int64_t)first->need, two = (int64_t)second->need - gain_of(first);
    if (first->ceiling < (int64_t)second->need) return never;
    int64_t more = one > two ? one : two;
    return more < never ? more : never;
}

uint64_t plain_join(const void *first, size_t first_length, const void *second, size_t second_length, void *room, size_t room_length) {
    struct rpr_summary a, b;
    if (first_length != sizeof a || second_length != sizeof b || room_length != sizeof a) return 2;
    memcpy(&a, first, sizeof a);
    memcpy(&b, second, sizeof b);
    if (!summary_ok(&a) || !summary_ok(&b)) return 3;
    if (a.mtu != b.mtu || a.lo_limit != b.lo_limit || a.hi_limit != b.hi_limit) return 10;
    if (a.events + b.events > MOST_EVENTS) return 9;
    int64_t need = need_of(&a, &b), ceiling = a.ceiling + gain_of(&b);
    a.events += b.events;
    a.accrued += b.accrued;
    a.sent += b.sent;
    a.ceiling = ceiling < b.ceiling ? ceiling : b.ceiling;
    a.need = (uint64_t)need;
    memcpy(room, &a, sizeof a);
    return 0;
}

uint64_t plain_settle(const void *summary, size_t summary_length, uint64_t start) {
    struct rpr_summary s;
    if (summary_length != sizeof s) return 2;
    memcpy(&s, summary, sizeof s);
    if (!summary_ok(&s) || start > s.hi_limit) return 3;
    if (start < s.need) return 0;
    int64_t end = (int64_t)start + gain_of(&s);
    return 1 << 8 | (uint64_t)(end < s.ceiling ? end : s.ceiling) << 32;
}
