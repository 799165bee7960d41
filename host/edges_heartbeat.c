/*
 * Patterns at their edges, the library beside plain C, which goes through every event of every repeat: items around the 256th event, cut at each byte; repeats
 * around a million events and around each power of two; and credits that come to loLimit or to hiLimit, or just not. It is known of each what it is refused with.
 */
#include "edges_items.h"

#include <stdio.h>
#include <stdlib.h>
#include <string.h>

enum { EVENTS = RPR_HEARTBEAT_EVENTS };

static unsigned long asked, fitting, unfit;

/* ---- one pattern ---- */

/* Both sides on the same bytes of the record. The answer. */
static uint64_t both(size_t length, uint64_t repeats) {
    uint64_t answer = library.heartbeat(record, length, repeats), other = plain.heartbeat(record, length, repeats);
    asked++;
    fitting += rpr_settled_permitted(answer);
    unfit += answer == 0;
    if (answer == other) return answer;
    printf("a pattern, %llu times, of which plain C answers %#llx: ", (unsigned long long)repeats, (unsigned long long)other);
    end_with(length, answer, "that is another answer");
}

/* So many repeats, of which it is known what they are refused with: with nothing where that is 0. */
static void try_repeats(size_t length, uint64_t repeats, uint64_t known) {
    uint64_t answer = both(length, repeats);
    if (rpr_refusal_of(answer) == known) return;
    printf("a pattern, %llu times, to be refused with %llu: ", (unsigned long long)repeats, (unsigned long long)known);
    end_with(length, answer, "another answer is known");
}

void try_pattern(size_t length, uint64_t fault, uint32_t events) {
    for (uint64_t repeats = 0; repeats < 4; repeats++) try_repeats(length, repeats, fault);
    try_repeats(length, UINT64_MAX, fault != 0 ? fault : events == 0 ? 0 : RPR_MANY_EVENTS);
}

/* ---- around the 256th event ---- */

/* The first bytes of an item, all of them, and one more, which is no item. */
static void try_last(size_t front, size_t length, uint32_t left, uint64_t fault, uint64_t of_roll) {
    uint32_t count = length == EVENT ? 1 : record[front + 8] | (uint32_t)record[front + 9] << 8;
    (void)of_roll;
    record[front + length] = EVENT;
    for (size_t bytes = 1; bytes <= length + 1; bytes++) {
        uint64_t known = left == 0 ? RPR_RANGE : bytes < length ? RPR_BYTES : fault;
        if (known == 0 && bytes > length) known = count == left ? RPR_RANGE : RPR_BYTES;
        try_pattern(front + bytes, known, EVENTS - left + count);
    }
}

/* So many ticks but for the last few, one by one, in a run, or in both. */
static void each_front(uint32_t left) {
    static const uint32_t rolled[] = {0, 2, 100, 200};
    for (size_t i = 0; i <= sizeof rolled / sizeof rolled[0]; i++) {
        uint32_t count = EVENTS - left, in_run = i < sizeof rolled / sizeof rolled[0] ? rolled[i] : count;
        size_t front = HEADER;
        if (in_run > 0) front = add_run(front, RPR_WAITING_TICK, 1, in_run);
        for (; in_run < count; in_run++) front = add_event(front, RPR_WAITING_TICK, 1);
        try_pattern(front, 0, count);
        each_last(front, left, RPR_RANGE, try_last);
    }
}

/* ---- repeats ---- */

/* The most repeats of so many events, one less and one more; each power of two above, and the number whose product passes it, with their neighbours. */
static void each_number(uint32_t events) {
    uint64_t most = RPR_MOST_EVENTS / events;
    size_t length = events == 1 ? add_event(HEADER, RPR_WAITING_TICK, 1) : add_run(HEADER, RPR_WAITING_TICK, 1, events);
    try_repeats(length, most - 1, 0);
    try_repeats(length, most, 0);
    try_repeats(length, most + 1, RPR_MANY_EVENTS);
    for (unsigned bits = 20; bits < 64; bits++)
        for (uint64_t around = 0; around < 5; around++) {
            uint64_t power = UINT64_C(1) << bits;
            try_repeats(length, power - 2 + around, RPR_MANY_EVENTS);
            try_repeats(length, power / events + around, RPR_MANY_EVENTS);
        }
    for (uint64_t less = 0; less < 5; less++) try_repeats(length, UINT64_MAX - less, RPR_MANY_EVENTS);
    for (uint64_t more = 1; events > 1 && more < 3; more++) try_repeats(length, UINT64_MAX / events + more, RPR_MANY_EVENTS);
}

/* Under the widest limits, loLimit 65,536 and hiLimit 1,048,576, the credit counts the repeats of a tick of 1. */
static void each_count(void) {
    static const uint8_t tick[] = {14, 0, 16, 0, 0, 36, 0, 0, 1, 0, 0, 0, 16, 0, 6, 0, 1, 0, 1, 0};
    memcpy(record, tick, sizeof tick);
    for (uint64_t repeats = 0; repeats <= RPR_MOST_EVENTS; repeats += 1 + repeats / 20) {
        uint64_t answer = both(sizeof tick, repeats), end = repeats < 983040 ? 65536 + repeats : 1048576;
        if (answer != (end << 32 | 1 << 8)) end_with(sizeof tick, answer, "a tick of 1 brings something else");
    }
    begin_record();
}

/* Without an event no number is too large. */
static void no_event(void) {
    for (unsigned bits = 0; bits < 64; bits++)
        for (uint64_t around = 0; around < 3; around++)
            if (both(HEADER, (UINT64_C(1) << bits) - 1 + around) != ((uint64_t)LOW << 32 | 1 << 8)) end_with(HEADER, 0, "no event is not permitted");
    try_pattern(HEADER, 0, 0);
}

/* ---- credits ---- */

/* Ticks of many amounts, sends of every third size, and a second tick: the pattern gains, loses or stands, and is cut at loLimit or at hiLimit, or nearly. */
static void each_credit(uint32_t second, uint32_t amount) {
    static const uint64_t repeats[] = {1, 2, 3, 7, 30, 1000};
    for (uint32_t brought = 0; brought <= HIGH; brought += brought < 80 || brought >= 198 ? 1 : 20)
        for (uint32_t size = 16; size <= LARGEST; size += 3) {
            size_t length = add_event(add_event(add_event(HEADER, RPR_WAITING_TICK, brought), RPR_SEND, size), second, amount);
            for (size_t i = 0; i < sizeof repeats / sizeof repeats[0]; i++) try_repeats(length, repeats[i], 0);
        }
}

void each_pattern(void) {
    begin_record();
    for (uint32_t left = 0; left <= 4; left++) each_front(left);
    no_event();
    each_count();
    for (uint32_t events = 1; events <= EVENTS; events++) each_number(events);
    for (uint32_t amount = 0; amount <= 12; amount += 3) {
        each_credit(RPR_IDLE_TICK, amount);
        each_credit(RPR_WAITING_TICK, amount);
    }
    printf("%lu repeats of patterns, %lu of them permitted, %lu not: the library and plain C do the same\n", asked, fitting, unfit);
    if (fitting == 0 || unfit == 0) exit(1);
}
