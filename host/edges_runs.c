/*
 * Records at the edges of an item, the library beside plain C: each number of an event and of a run set to each value, records cut at each byte, neighbours that
 * differ in one bit, runs around the longest, and items around the millionth event. It is known of each what it is refused with. rpr_summarize, rpr_roll and
 * rpr_unroll answer and leave the same on both sides, with rooms that are long enough and one byte too short.
 */
#include "edges_items.h"

#include <stdio.h>
#include <stdlib.h>
#include <string.h>

enum { SUMS, ROLLS, UNROLLS, SOME_ROOM = 40, LONG_ROOM = 4000, BEHIND = 16, FILL = 0x5a };

static const char *const names[] = {"summarize", "roll", "unroll"};
static const uint8_t header[HEADER] = {14, 0, 16, 0, LARGEST, 0, LOW, 0, 0, 0, HIGH % 256, HIGH / 256, 0, 0};

uint8_t record[RPR_RECORD_MOST + RPR_RECORD_RUN_LENGTH];

/* The rooms of both sides. */
static uint8_t *ours, *theirs;
static unsigned long records, moved;

/* The events before the item that is tried, where they are many. */
static uint32_t before;

/* ---- one record ---- */

static uint64_t ask(const struct calls *side, int call, size_t length, uint8_t *room, size_t room_length) {
    switch (call) {
        case SUMS: return side->summarize(record, length, room, room_length);
        case ROLLS: return side->roll(record, length, room, room_length);
        default: return side->unroll(record, length, room, room_length);
    }
}

void end_with(size_t length, uint64_t answer, const char *what) {
    printf("%zu bytes: answer %#llx; %s; the last bytes are", length, (unsigned long long)answer, what);
    for (size_t i = length > 24 ? length - 24 : 0; i < length; i++) printf(" %02x", record[i]);
    putchar('\n');
    exit(1);
}

_Noreturn static void differs(int call, size_t length, size_t room, uint64_t answer, const char *what) {
    printf("%s, a room of %zu: ", names[call], room);
    end_with(length, answer, what);
}

/* Both sides on the same record, with a room of so many bytes. The answer. Behind what is written all stays. */
static uint64_t both(int call, size_t length, size_t room) {
    memset(ours, FILL, room + BEHIND);
    memset(theirs, FILL, room + BEHIND);
    uint64_t answer = ask(&library, call, length, ours, room), other = ask(&plain, call, length, theirs, room);
    size_t written = call == SUMS ? (answer == 0 ? room : 0) : rpr_written_of(answer);
    if (answer != other) differs(call, length, room, answer, "plain C answers otherwise");
    if (written > room || memcmp(ours, theirs, room + BEHIND) != 0) differs(call, length, room, answer, "plain C leaves other bytes");
    for (size_t i = written; i < room + BEHIND; i++)
        if (ours[i] != FILL) differs(call, length, room, answer, "bytes changed behind what was written");
    return answer;
}

/* A move that is refused with a known number, whatever the room. Where that is 0 it takes so many bytes: no room, one a byte too short, one just long enough, and a longer
 * one. */
static void try_move(int call, size_t length, uint64_t known, size_t bytes) {
    const size_t rooms[] = {0, known != 0 ? SOME_ROOM : bytes - 1, bytes, bytes + BEHIND};
    for (size_t i = 0; i < (known != 0 ? 2 : sizeof rooms / sizeof rooms[0]); i++) {
        uint64_t want = known != 0 ? known : rooms[i] < bytes ? RPR_SHORT_ROOM : (uint64_t)bytes << 32;
        uint64_t answer = both(call, length, rooms[i]);
        if (answer != want) differs(call, length, rooms[i], answer, "another answer is known");
    }
    moved += known == 0;
}

/* The record is refused with this number by all but rpr_roll, which refuses it with that. Where that is 0 it rolls to so many bytes. Long ways back are left out. As a pattern it is
 * refused with this number too, where it has no more events than a pattern may have. */
static void try_record(size_t length, uint64_t known, uint64_t of_roll, size_t rolled) {
    struct rpr_summary sum;
    records++;
    uint64_t answer = both(SUMS, length, RPR_SUMMARY_LENGTH);
    if (answer != known) differs(SUMS, length, RPR_SUMMARY_LENGTH, answer, "another answer is known");
    memcpy(&sum, ours, sizeof sum);
    size_t unrolled = HEADER + EVENT * (size_t)sum.events;
    if (known == 0 && unrolled > LONG_ROOM && length < LONG_ROOM) {
        if (both(UNROLLS, length, LONG_ROOM) != RPR_SHORT_ROOM) differs(UNROLLS, length, LONG_ROOM, answer, "the room is too short");
    } else {
        try_move(UNROLLS, length, known, unrolled);
    }
    try_move(ROLLS, length, of_roll, rolled);
    uint32_t events = known == 0 ? sum.events : before;
    try_pattern(length, events > RPR_HEARTBEAT_EVENTS ? RPR_RANGE : known, events);
}

/* ---- items ---- */

void begin_record(void) { memcpy(record, header, HEADER); }

static void put16(uint8_t *p, uint32_t v) { p[0] = (uint8_t)v, p[1] = (uint8_t)(v >> 8); }

size_t add_event(size_t at, uint32_t kind, uint32_t number) {
    put16(record + at, EVENT), put16(record + at + 2, kind), put16(record + at + 4, number);
    return at + EVENT;
}

size_t add_run(size_t at, uint32_t kind, uint32_t amount, uint32_t count) {
    put16(record + at, RUN), put16(record + at + 2, RPR_RUN), put16(record + at + 4, kind), put16(record + at + 6, amount), put16(record + at + 8, count);
    return at + RUN;
}

static int is_tick(uint32_t kind) { return kind == RPR_WAITING_TICK || kind == RPR_IDLE_TICK; }

/* What an event is refused with. */
static uint64_t fault_of_event(uint32_t length, uint32_t kind, uint32_t number) {
    if (length != EVENT || (!is_tick(kind) && kind != RPR_SEND)) return RPR_BYTES;
    return kind == RPR_SEND && (number < 16 || number > LARGEST) ? RPR_RANGE : 0;
}

/* An event with each of its three numbers set to each value, between others that are no ticks. */
static void each_event(uint32_t kind, uint32_t number) {
    for (size_t field = 0; field < 3; field++)
        for (uint32_t v = 0; v <= 65535; v++) {
            size_t at = add_event(HEADER, RPR_SEND, 20), length = add_event(at, kind, number), end = add_event(length, RPR_SEND, 21);
            put16(record + at + 2 * field, v);
            uint64_t fault = fault_of_event(field == 0 ? v : EVENT, field == 1 ? v : kind, field == 2 ? v : number);
            try_record(end, fault, fault, end);
        }
}

/* A run with each of its five numbers set to each value, between events. */
static void each_run(uint32_t kind) {
    for (size_t field = 0; field < 5; field++)
        for (uint32_t v = 0; v <= 65535; v++) {
            size_t at = add_event(HEADER, kind, 5), length = add_run(at, kind, 5, 7), end = add_event(length, RPR_SEND, 20);
            put16(record + at + 2 * field, v);
            int good = field == 0 ? v == RUN : field == 1 ? v == RPR_RUN : field == 2 ? is_tick(v) : field == 4 ? v >= 2 : 1;
            try_record(end, good ? 0 : RPR_BYTES, RPR_BYTES, 0);
        }
}

/* Records cut at each byte: a whole one ends with an item. Two ticks of the old form make a run. */
static void each_cut(void) {
    size_t one = add_run(HEADER, RPR_IDLE_TICK, 5, 9), two = add_event(one, RPR_SEND, 20), three = add_run(two, RPR_WAITING_TICK, 5, 2);
    for (size_t length = HEADER; length <= three; length++) {
        int whole = length == HEADER || length == one || length == two || length == three;
        try_record(length, whole ? 0 : RPR_BYTES, length == HEADER ? 0 : RPR_BYTES, HEADER);
    }
    one = add_event(HEADER, RPR_IDLE_TICK, 5), two = add_event(one, RPR_IDLE_TICK, 5), three = add_event(two, RPR_SEND, 20);
    for (size_t length = 0; length <= three; length++) {
        uint64_t fault = length == HEADER || length == one || length == two || length == three ? 0 : RPR_BYTES;
        try_record(length, fault, fault, length < two ? length : length - 2 * EVENT + RUN);
    }
}

/* Two neighbours of each two kinds, whose numbers are the same or differ in one bit: equal ticks alone become a run. */
static void each_pair(void) {
    for (uint32_t kinds = 0; kinds < 9; kinds++)
        for (uint32_t bit = 0; bit <= 16; bit++) {
            uint32_t one = 1 + kinds / 3, two = 1 + kinds % 3, number = 20, other = (number ^ 1u << bit) & 0xffff;
            size_t end = add_event(add_event(HEADER, one, number), two, other);
            uint64_t fault = fault_of_event(EVENT, two, other);
            try_record(end, fault, fault, one == two && is_tick(one) && number == other ? HEADER + RUN : end);
        }
}

/* ---- long runs, and the million ---- */

/* So many equal ticks take so many bytes in runs: each full one 10, and what is left 10, or 6 where it is one tick. */
static size_t in_runs(size_t count) {
    size_t rest = count % RPR_MOST_COUNT;
    return RUN * (count / RPR_MOST_COUNT) + (rest == 0 ? 0 : rest == 1 ? EVENT : RUN);
}

/* Stretches of ticks around one and two of the longest runs, alone and with a tick of another amount before and behind. */
static void each_stretch(void) {
    static const size_t counts[] = {3, 65534, 65535, 65536, 65537, 131069, 131070, 131071, 131072};
    for (size_t i = 0; i < sizeof counts / sizeof counts[0]; i++)
        for (unsigned around = 0; around < 4; around++) {
            size_t at = HEADER, rolled = HEADER + in_runs(counts[i]) + EVENT * ((around & 1) + (around >> 1));
            if (around & 1) at = add_event(at, RPR_IDLE_TICK, 6);
            for (size_t k = 0; k < counts[i]; k++) at = add_event(at, RPR_IDLE_TICK, 5);
            if (around & 2) at = add_event(at, RPR_IDLE_TICK, 6);
            try_record(at, 0, 0, rolled);
            memcpy(record, ours, rolled); /* what was left last: the rolled form */
            try_move(UNROLLS, rolled, 0, at);
        }
}

/* The first bytes of an item and then all of them, or in the old form all but the last and then all, behind a million events but so many. In a record with runs before it
 * rpr_roll refuses those. */
static void try_last(size_t front, size_t length, uint32_t left, int old, uint64_t fault, uint64_t of_roll) {
    for (size_t bytes = old ? length - 1 : 1; bytes <= length; bytes++) {
        uint64_t early = left == 0 ? RPR_MANY_EVENTS : bytes < length ? RPR_BYTES : 0;
        uint64_t known = early != 0 ? early : fault, known_of_roll = !old ? RPR_BYTES : early != 0 ? early : of_roll;
        try_record(front + bytes, known, known_of_roll, HEADER + in_runs(RPR_MOST_EVENTS - left) + EVENT);
    }
}

static void behind_runs(size_t front, size_t length, uint32_t left, uint64_t fault, uint64_t of_roll) { try_last(front, length, left, 0, fault, of_roll); }
static void behind_events(size_t front, size_t length, uint32_t left, uint64_t fault, uint64_t of_roll) { try_last(front, length, left, 1, fault, of_roll); }

void each_last(size_t front, uint32_t left, uint64_t late, try_item *try) {
    static const uint32_t counts[] = {0, 1, 2, 3, 4, 65535}, numbers[] = {15, 20, LARGEST + 1};
    for (uint32_t kind = 0; kind <= 5; kind++)
        for (size_t i = 0; i < sizeof numbers / sizeof numbers[0]; i++) {
            uint64_t fault = fault_of_event(EVENT, kind, numbers[i]);
            add_event(front, kind, numbers[i]);
            try(front, EVENT, left, fault, fault);
        }
    for (uint32_t kind = 0; kind <= 3; kind++)
        for (size_t i = 0; i < sizeof counts / sizeof counts[0]; i++) {
            uint64_t fault = !is_tick(kind) || counts[i] < 2 ? RPR_BYTES : counts[i] > left ? late : 0;
            add_run(front, kind, 20, counts[i]);
            try(front, RUN, left, fault, RPR_BYTES);
        }
}

/* A million ticks but so many, in runs and one by one, alone and with an item behind. */
static void each_million(uint32_t left) {
    size_t front = HEADER, count = before = RPR_MOST_EVENTS - left;
    for (; count > RPR_MOST_COUNT; count -= RPR_MOST_COUNT) front = add_run(front, RPR_IDLE_TICK, 5, RPR_MOST_COUNT);
    front = add_run(front, RPR_IDLE_TICK, 5, (uint32_t)count);
    try_record(front, 0, RPR_BYTES, 0);
    try_move(UNROLLS, front, 0, HEADER + EVENT * (size_t)(RPR_MOST_EVENTS - left));
    each_last(front, left, RPR_MANY_EVENTS, behind_runs);
    front = HEADER;
    for (count = RPR_MOST_EVENTS - left; count > 0; count--) front = add_event(front, RPR_IDLE_TICK, 5);
    try_record(front, 0, 0, HEADER + in_runs(RPR_MOST_EVENTS - left));
    if (left < 3) each_last(front, left, RPR_MANY_EVENTS, behind_events);
    before = 0;
}

void each_item(void) {
    ours = malloc(RPR_RECORD_MOST + 2 * BEHIND), theirs = malloc(RPR_RECORD_MOST + 2 * BEHIND);
    if (ours == NULL || theirs == NULL) puts("no memory"), exit(1);
    begin_record();
    each_cut();
    each_pair();
    for (uint32_t kind = RPR_WAITING_TICK; kind <= RPR_SEND; kind++) each_event(kind, 20);
    for (uint32_t kind = RPR_WAITING_TICK; kind <= RPR_IDLE_TICK; kind++) each_run(kind);
    each_stretch();
    for (uint32_t left = 0; left <= 3; left++) each_million(left);
    printf("%lu records, moved %lu times to the other form: the library and plain C do the same\n", records, moved);
    free(ours), free(theirs);
}
