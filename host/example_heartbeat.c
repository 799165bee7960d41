/*
 * A host program: does a heartbeat always fit?
 *
 * A cluster is to send two heartbeats in ten ticks of a station's clock, under the shaper of class A. The host asks
 * beforehand whether the shaper permits this again and again, and nothing has to be played through for that. It asks
 * the same of a bulk copy that takes a little more than ticks bring: how often does that go well? In the end the bulk
 * copy is written out as a record, and summarized as any record is: it comes to the same. Anything unexpected ends the
 * program with status 1.
 *
 *     cc -std=c11 example_heartbeat.c $(pkg-config --cflags --libs rpr_heartbeat) -o example_heartbeat
 */
#include <stdio.h>
#include <stdlib.h>
#include <string.h>

#include "rpr_heartbeat.h"

/* Class A's settings: those of host/example.c. */
enum { MTU = 1500, LO_LIMIT = MTU, HI_LIMIT = 6000, AMOUNT = 30 };

/* A pattern: its name, how many events it has, and its bytes, a header and then items. */
struct pattern {
    const char *name;
    unsigned events;
    size_t length;
    uint8_t bytes[RPR_HEARTBEAT_MOST];
};

static void must(int holds, const char *what) {
    if (holds) return;
    fprintf(stderr, "this must hold: %s\n", what);
    exit(1);
}

/* ---- patterns ---- */

/* Appends a number of two bytes, the lowest first. */
static void put(struct pattern *p, unsigned number) {
    must(p->length + 2 <= sizeof p->bytes, "a pattern of 256 events has room");
    p->bytes[p->length++] = (uint8_t)number;
    p->bytes[p->length++] = (uint8_t)(number >> 8);
}

static void begin(struct pattern *p, const char *name) {
    *p = (struct pattern){.name = name};
    put(p, RPR_RECORD_HEADER_LENGTH), put(p, RPR_HEADER), put(p, MTU);
    put(p, LO_LIMIT), put(p, LO_LIMIT >> 16);
    put(p, HI_LIMIT), put(p, HI_LIMIT >> 16);
}

static void add_send(struct pattern *p, unsigned size) {
    put(p, RPR_RECORD_EVENT_LENGTH), put(p, RPR_SEND), put(p, size);
    p->events++;
}

/* Equal ticks, two or more, are a run. */
static void add_ticks(struct pattern *p, enum rpr_kind kind, unsigned count) {
    put(p, count > 1 ? RPR_RECORD_RUN_LENGTH : RPR_RECORD_EVENT_LENGTH);
    if (count > 1) put(p, RPR_RUN);
    put(p, kind), put(p, AMOUNT);
    if (count > 1) put(p, count);
    p->events += count;
}

/* Two heartbeats of 100 bytes. The second waits three ticks for its credit; then nothing waits. Ten ticks in all. */
static void heartbeats(struct pattern *p) {
    begin(p, "Heartbeats, 2 of 100 bytes in 10 ticks");
    add_ticks(p, RPR_WAITING_TICK, 1);
    add_send(p, 100);
    add_ticks(p, RPR_WAITING_TICK, 3);
    add_send(p, 100);
    add_ticks(p, RPR_IDLE_TICK, 6);
}

/* Ten ticks bring 300 bytes, and 310 are sent. */
static void bulk_copy(struct pattern *p) {
    begin(p, "A bulk copy, 310 bytes in 10 ticks");
    add_ticks(p, RPR_WAITING_TICK, 10);
    add_send(p, 310);
}

/* ---- what the library answers ---- */

static uint64_t ask(const struct pattern *p, uint64_t repeats) { return rpr_heartbeat(p->bytes, p->length, repeats); }

/* Says what became of so many repeats. A refusal has a number; not to be permitted is none. */
static uint64_t tell(const struct pattern *p, uint64_t repeats) {
    uint64_t answer = ask(p, repeats);
    printf("    repeats %llu: ", (unsigned long long)repeats);
    if (rpr_refusal_of(answer) != RPR_CARRIED_OUT)
        printf("refused %u, %s\n", rpr_refusal_of(answer), rpr_refusal_text(answer));
    else if (rpr_settled_permitted(answer) == RPR_YES)
        printf("permitted throughout, from credit %d to %u\n", LO_LIMIT, rpr_settled_end_credit(answer));
    else
        puts("not permitted throughout");
    return answer;
}

/* What is permitted so often is permitted any fewer times. So the most is found by halving: `fits` always fits, and
 * `beyond` never, as a million events are the limit. Each question takes at most 40 joins. */
static uint64_t most_repeats(const struct pattern *p) {
    uint64_t fits = 0, beyond = RPR_MOST_EVENTS + 1;
    while (beyond - fits > 1) {
        uint64_t middle = fits + (beyond - fits) / 2;
        if (rpr_settled_permitted(ask(p, middle)) == RPR_YES) fits = middle;
        else beyond = middle;
    }
    return fits;
}

/* One run tells whether a pattern always fits: it does where the run ends at loLimit or above. */
static uint64_t judge(const struct pattern *p) {
    printf("%s, %u events:\n", p->name, p->events);
    uint64_t once = tell(p, 1), most = most_repeats(p);
    int steady = rpr_settled_permitted(once) == RPR_YES && rpr_settled_end_credit(once) >= LO_LIMIT;
    must(rpr_settled_permitted(tell(p, most)) == RPR_YES, "the most repeats are permitted");
    must(rpr_settled_permitted(tell(p, most + 1)) == RPR_NO, "one more is refused, or not permitted");
    must(!steady || most == RPR_MOST_EVENTS / p->events, "what is steady fits as often as may be asked");
    puts(steady ? "One run ends no lower than it began: it always fits.\n" : "One run ends lower than it began.\n");
    return most;
}

/* The record in which a pattern stands so many times, summarized and settled from loLimit, comes to the same. */
static void write_out(const struct pattern *p, uint64_t repeats) {
    static uint8_t record[100000];
    struct rpr_summary sum;
    size_t items = p->length - RPR_RECORD_HEADER_LENGTH, length = p->length;
    must(repeats > 0 && repeats < (sizeof record - p->length) / items, "the record has room");
    memcpy(record, p->bytes, p->length);
    for (uint64_t i = 1; i < repeats; i++, length += items)
        memcpy(record + length, p->bytes + RPR_RECORD_HEADER_LENGTH, items);
    must(rpr_summarize(record, length, &sum, sizeof sum) == RPR_CARRIED_OUT, "the record is one");
    uint64_t settled = rpr_settle(&sum, sizeof sum, sum.lo_limit);
    must(settled == ask(p, repeats), "the repeats come to what the record written out does");
    printf("Written out %llu times it is a record of %u events, from credit %u to %u: the same.\n",
           (unsigned long long)repeats, sum.events, sum.lo_limit, rpr_settled_end_credit(settled));
}

int main(void) {
    static struct pattern heartbeat, bulk;
    heartbeats(&heartbeat);
    bulk_copy(&bulk);
    printf("Class A: mtu %d, loLimit %d, hiLimit %d; a tick brings %d bytes.\n\n", MTU, LO_LIMIT, HI_LIMIT, AMOUNT);
    uint64_t most = judge(&heartbeat);
    must(most == 83333, "12 events fit 83,333 times in a million");
    most = judge(&bulk);
    must(most == 30, "each run ends 10 bytes lower, and ten ticks bring 300: the 31st send would come at loLimit");
    write_out(&bulk, most);
    return fflush(stdout) == 0 ? 0 : 1;
}
