/*
 * Heartbeats that always fit: whether a shaper permits a pattern of events, repeated a number of times, throughout.
 *
 * A library of its own above the station's: librpr_heartbeat. host/example_heartbeat.c is the page to start from.
 * Document 02 says what the call does, this header how it is called. Numbers, slices, answers, memory, threads and
 * machines are as in rpr.h, which also has the form of a record; rpr_answer.h has the refusals. Of these two a host
 * needs the headers alone: one that makes no call of rpr.h is linked with librpr_heartbeat and without librpr.
 */
#ifndef RPR_HEARTBEAT_H
#define RPR_HEARTBEAT_H

#include "rpr.h"

#ifdef __cplusplus
extern "C" {
#endif

/* Marks a call whose answer must be looked at, and that takes no null pointer. */
#if defined(__GNUC__)
#define RPR_LENT __attribute__((warn_unused_result, nonnull))
#else
#define RPR_LENT
#endif

enum {
    RPR_HEARTBEAT_EVENTS = 256, /* the most events of a pattern, counted unrolled */
    RPR_HEARTBEAT_MOST = RPR_RECORD_HEADER_LENGTH + RPR_RECORD_EVENT_LENGTH * RPR_HEARTBEAT_EVENTS /* bytes: 1,550 */
};

/*
 * Whether a pattern, repeated so many times, one right behind the other, is permitted throughout from lo_limit, and the
 * credit at the end. The pattern is a shaper record of either form: its header has class A's mtu, lo_limit and
 * hi_limit, its items are RPR_HEARTBEAT_EVENTS events at most. No pattern is longer than RPR_HEARTBEAT_MOST bytes.
 *
 * Answers   as rpr_settle: rpr_settled_permitted, and rpr_settled_end_credit, which is 0 where not permitted. Not to be
 *           permitted is no refusal. The answer is the one that rpr_summarize, and rpr_settle from lo_limit, give of
 *           the record in which the pattern is written out so many times. Zero repeats are permitted and end at
 *           lo_limit, even where one is not; so is any number of repeats of a pattern without events.
 * Fewer     repeats than were permitted are permitted too: the most that are can be found by halving.
 * Steady.   Where one run of the pattern is permitted and ends at lo_limit or above, every number of repeats that is
 *           not refused is permitted. So one call, with 1, tells of a heartbeat that it always fits. This is proved.
 * Refuses   the pattern's earliest fault, header first and then item by item. The header: 2 (not a whole header), 1 (a
 *           setting). At an item: 3 (any byte behind 256 events), 2 (cut short, another length than its kind's, no
 *           known kind), 3 (a send's size), 2 (the ticks' kind or the count of a run), 3 (a run that passes 256
 *           events). Then 9, where repeats times events exceeds 1,000,000; `repeats` may be any number, the largest
 *           too. A pattern with a fault is refused with it whatever `repeats` is, 0 too. rpr_refusal_text has the words
 *           of the station's calls: 3 is here a send's size, or more than 256 events.
 * Time.     The repeats are not walked through. The pattern is summed once, and its summary joined with itself: for
 *           each binary digit of `repeats`, the highest first, what there is so far is joined with itself, and with one
 *           more where the digit is 1. That is two joins a digit at most, 2 ceil(log2(repeats + 1)): 40 for a million.
 */
RPR_LENT uint64_t rpr_heartbeat(const void *pattern, size_t pattern_length, uint64_t repeats);

#undef RPR_LENT

#ifdef __cplusplus
}
#endif

#endif
