/*
 * What must hold of a record that is summed, rolled or unrolled, judged from the answer and the bytes: by its summary, by the move there and back, by the items that
 * were written, and by the least room.
 */
#include "fuzz.h"

#include <string.h>

enum { HEADER = RPR_RECORD_HEADER_LENGTH, EVENT = RPR_RECORD_EVENT_LENGTH, RUN = RPR_RECORD_RUN_LENGTH };

/* The number that the record is refused with, or its summary. */
static unsigned sum_of(const uint8_t *record, size_t length, struct rpr_summary *sum) {
    memset(sum, 0, sizeof *sum);
    return rpr_refusal_of(rpr_summarize(record, length, sum, sizeof *sum));
}

/* Two records that come to the same. */
static int same_sum(const uint8_t *one, size_t length, const uint8_t *two, size_t other_length) {
    struct rpr_summary a, b;
    return sum_of(one, length, &a) == 0 && sum_of(two, other_length, &b) == 0 && memcmp(&a, &b, sizeof a) == 0;
}

/* The events of a record, counted by its items; -1 where one of them is none: an event of kinds 1 to 3, or a run of kind 1 or 2 that counts 2 at least. */
static int64_t events_of(const uint8_t *record, size_t length) {
    int64_t events = 0;
    for (size_t at = HEADER, left = length - HEADER; left > 0; left = length - at) {
        int run = left >= RUN && get16(record + at) == RUN && get16(record + at + 2) == RPR_RUN;
        uint32_t kind = left < EVENT ? 0 : get16(record + at + (run ? 4 : 2)), count = run ? get16(record + at + 8) : 1;
        if (kind < RPR_WAITING_TICK || kind > (run ? RPR_IDLE_TICK : RPR_SEND) || (run ? count < 2 : get16(record + at) != EVENT)) return -1;
        events += count;
        at += run ? RUN : EVENT;
    }
    return events;
}

/* Whether a run stands among the items up to the first that is none. */
static int has_run(const uint8_t *record, size_t length) {
    size_t at = HEADER;
    while (length >= at + EVENT && get16(record + at) == EVENT && get16(record + at + 2) <= RPR_SEND) at += EVENT;
    return length >= at + 4 && get16(record + at + 2) == RPR_RUN;
}

/* Whether the items of this record, which are good, are the fewest: no tick, and no run that could be longer, stands before an equal one. */
static int is_longest(const uint8_t *record, size_t length) {
    uint32_t kind = 0, amount = 0, count = 0;
    for (size_t at = HEADER; at < length; at += get16(record + at)) {
        const uint8_t *tick = record + at + (get16(record + at) == RUN ? 4 : 2);
        if (get16(tick) != RPR_SEND && get16(tick) == kind && get16(tick + 2) == amount && count < RPR_MOST_COUNT) return 0;
        kind = get16(tick), amount = get16(tick + 2), count = get16(record + at) == RUN ? get16(tick + 4) : 1;
    }
    return 1;
}

/* The record unrolls to these bytes, with a room that is just long enough, and with none that is shorter. */
static int unrolls_to(const uint8_t *record, size_t length, const uint8_t *old, size_t bytes) {
    static uint8_t room[MOST_LENGTH];
    uint64_t enough = rpr_unroll(record, length, room, bytes), less = rpr_unroll(record, length, room, bytes - 1);
    return enough == (uint64_t)bytes << 32 && less == RPR_SHORT_ROOM && memcmp(room, old, bytes) == 0;
}

/* A record of the old form is rolled to no more bytes than it has, to the longest runs, and unrolls to what it was. One that is refused for its room takes more than
 * that. Any other refusal is the summary's, or stands for a run. */
static void check_roll(const struct request *r, uint64_t answer, const uint8_t *room) {
    static uint8_t rolled[MOST_LENGTH];
    const struct slice *record = &r->slices[0];
    unsigned number = rpr_refusal_of(answer);
    size_t written = rpr_written_of(answer);
    struct rpr_summary sum;
    if (number == RPR_SHORT_ROOM) {
        uint64_t again = rpr_roll(record->bytes, record->length, rolled, record->length);
        if (rpr_refusal_of(again) != 0 || rpr_written_of(again) <= r->slices[1].length) fail(r, answer, "a room that is long enough is refused");
    } else if (number != 0) {
        if (number != sum_of(record->bytes, record->length, &sum) && !(number == RPR_BYTES && has_run(record->bytes, record->length)))
            fail(r, answer, "a record is rolled with another refusal than it is summed with");
    } else {
        if (written > record->length) fail(r, answer, "a rolled record is longer");
        if (!same_sum(record->bytes, record->length, room, written)) fail(r, answer, "a rolled record has another summary");
        if (!is_longest(room, written)) fail(r, answer, "a run could be longer");
        if (!unrolls_to(room, written, record->bytes, record->length)) fail(r, answer, "a rolled record does not unroll to what it was");
    }
}

/* A record unrolls in 14 bytes and 6 for each event of its summary, to what has the same summary, and no runs: it rolls. It is refused as its summary is, and then for
 * a shorter room. */
static void check_unroll(const struct request *r, uint64_t answer, const uint8_t *room) {
    static uint8_t rolled[MOST_LENGTH];
    const struct slice *record = &r->slices[0];
    struct rpr_summary sum;
    unsigned refused = sum_of(record->bytes, record->length, &sum), number = rpr_refusal_of(answer);
    size_t bytes = HEADER + EVENT * (size_t)sum.events;
    if (refused == 0 && r->slices[1].length < bytes) refused = RPR_SHORT_ROOM;
    if (number != refused) fail(r, answer, "a record is unrolled with another refusal than it is summed with");
    if (number != 0) return;
    if (rpr_written_of(answer) != bytes) fail(r, answer, "not 6 bytes for each event");
    if (!same_sum(record->bytes, record->length, room, bytes)) fail(r, answer, "an unrolled record has another summary");
    uint64_t again = rpr_roll(room, bytes, rolled, bytes);
    if (rpr_refusal_of(again) != 0 || !unrolls_to(rolled, rpr_written_of(again), room, bytes)) fail(r, answer, "an unrolled record does not roll and unroll");
    int back = rpr_written_of(again) == record->length && memcmp(rolled, record->bytes, record->length) == 0;
    if (back != is_longest(record->bytes, record->length)) fail(r, answer, "runs come back that could be longer, or the longest do not");
}

/* A record has the summary of its unrolled form, where that is not too long to be looked at. */
static void check_summary(const struct request *r, uint64_t answer, const uint8_t *room) {
    static uint8_t old[MOST_LENGTH];
    const struct slice *record = &r->slices[0];
    if (answer != 0) return;
    uint64_t unrolled = rpr_unroll(record->bytes, record->length, old, sizeof old);
    if (rpr_refusal_of(unrolled) == RPR_SHORT_ROOM) return;
    struct rpr_summary sum;
    if (rpr_refusal_of(unrolled) != 0 || sum_of(old, rpr_written_of(unrolled), &sum) != 0 || memcmp(&sum, room, sizeof sum) != 0)
        fail(r, answer, "the unrolled record has another summary");
}

/* Bytes of the room behind those written are as they were. */
static void check_rest(const struct request *r, uint64_t answer, const uint8_t *room) {
    const struct slice *before = &r->slices[1];
    size_t written = rpr_written_of(answer);
    if (written > before->length || memcmp(room + written, before->bytes + written, before->length - written) != 0)
        fail(r, answer, "bytes behind those written changed");
}

void check_runs(const struct request *r, uint64_t answer, const uint8_t *room) {
    const struct slice *record = &r->slices[0];
    struct rpr_summary sum;
    if (sum_of(record->bytes, record->length, &sum) == 0 && (sum.events > RPR_MOST_EVENTS || events_of(record->bytes, record->length) != sum.events))
        fail(r, answer, "what is no record is summed, or its events are counted otherwise");
    if (r->call == call_summarize) {
        check_summary(r, answer, room);
        return;
    }
    check_rest(r, answer, room);
    if (r->call == call_roll) check_roll(r, answer, room);
    else check_unroll(r, answer, room);
}
