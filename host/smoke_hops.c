/* Holds frames of every kind to the number of stations, as a host would, and says what differs from documents 01 and 02. */
#include "smoke_station.h"

/* Fairness frames of stations 02005e000002, which is good, and 02005e000003, whose card is faulty. */
#define GOOD(ttl, rate) BYTES((uint8_t)(ttl), 0xa0, 2, 0, 0x5e, 0, 0, 2, 0, 0, (rate) >> 8, (rate) & 0xff)
#define FAULTY(ttl, rate) BYTES((uint8_t)(ttl), 0xa0, 2, 0, 0x5e, 0, 0, 3, 0, 0, (rate) >> 8, (rate) & 0xff)
#define OWN(ttl, rate) BYTES((uint8_t)(ttl), 0xa0, 2, 0, 0x5e, 0, 0, 1, 0, 0, (rate) >> 8, (rate) & 0xff)

/* A fresh station of a ring of so many. Its credits are at loLimit: 110, 120, 130 and 140 of A, B, C and D. */
static void start_in(uint32_t stations) {
    struct rpr_settings s = plain;
    s.stations = stations;
    start(&s);
}

/* The same with credit: A 212, B 224, C 236, D 248. */
static void start_with_credit(uint32_t stations) {
    start_in(stations);
    tick(1, 1, 1, 0);
    tick(1, 1, 1, 0);
}

/* ---- the most hops, and one more ---- */

/* Client and transit frames of each class: one hop less than there are stations is the most. */
static void most_hops(uint32_t stations) {
    start_with_credit(stations);
    for (unsigned class = A; class <= C; class++) {
        unsigned mark = class == C, queue = class == A ? RPR_FROM_PRIMARY : RPR_FROM_SECONDARY;
        client("a client's hops reach the stations", class, 20, stations, RPR_BEYOND_RING);
        client("a client's most hops", class, 20, stations - 1, mark ? MARKED : 0);
        selects("a client's most hops", RPR_FROM_STAGE, class, stations - 1, mark, 20);
        transit("passing hops reach the stations", class, 20, stations, mark, RPR_BEYOND_RING);
        transit("the most passing hops", class, 20, stations - 1, mark, 0);
        selects("the most passing hops", queue, class, stations - 1, mark, 20);
    }
    client("63 hops, in any ring", A, 20, 63, RPR_BEYOND_RING);
    transit("63 hops, in any ring", A, 20, 63, 0, RPR_BEYOND_RING);
}

/* Fairness frames: the hops are 256 less the ttl, whatever the rate. */
static void most_heard(uint32_t stations) {
    start_in(stations);
    hear("the hops reach the stations", GOOD(256 - stations, 13), RPR_BEYOND_RING);
    hear("63 hops, in any ring", GOOD(193, 13), RPR_BEYOND_RING);
    expect("not congested", show().downstream_congested, 0);
    hear("the most hops", GOOD(257 - stations, 13), 0);
    expect("the most hops", show().received_ttl, 257 - stations);
    hear("FULL_RATE from as far as there are stations", GOOD(256 - stations, RPR_FULL_RATE), RPR_BEYOND_RING);
    expect("congested as before", show().downstream_congested, 1);
    hear("FULL_RATE with the most hops", GOOD(257 - stations, RPR_FULL_RATE), 0);
    expect("not congested any more", show().downstream_congested, 0);
}

/* A control frame has 1 hop, and any ring has room for that. */
static void control_frames(void) {
    start_in(2);
    control("size 15", 15, RPR_RANGE);
    control("two stations", 50, 0);
    control("51 in 50", 51, RPR_NO_ROOM);
    tick(0, 0, 0, 0);
    selects("two stations", RPR_FROM_CONTROL, A, 1, 0, 50);
}

/* ---- its place among the refusals ---- */

/* Every fault that 3 names goes before 13, and 2 before both. */
static void before_it(void) {
    start_with_credit(6);
    wrong_clients(6);
    client("6 and 2 to the 32 hops", C, 64, 4294967302u, RPR_RANGE);
    wrong_transits(6);
    hear("ttl 192", GOOD(192, 13), RPR_RANGE);
    hear("11 bytes", (const uint8_t[]){250, 0xa0, 2, 0, 0x5e, 0, 0, 2, 0, 0, 0}, 11, RPR_BYTES);
    hear("the own ringlet's bit", BYTES(250, 0x20, 2, 0, 0x5e, 0, 0, 2, 0, 0, 0, 13), RPR_BYTES);
    hear("frame type 3", BYTES(250, 0xb0, 2, 0, 0x5e, 0, 0, 2, 0, 0, 0, 13), RPR_BYTES);
    hear("another header kind", BYTES(250, 0xa0, 2, 0, 0x5e, 0, 0, 2, 0x20, 0, 0, 13), RPR_BYTES);
}

/* 13 goes before 4, 5, 6 and 11. That it goes before 7 is seen in the night below. */
static void behind_it(void) {
    start_in(6);
    for (unsigned class = A; class <= C; class++) {
        client("no credit, 5 hops", class, 64, 5, SHORT(1));
        client("no credit, 6 hops", class, 64, 6, RPR_BEYOND_RING);
    }
    tick(1, 1, 1, 0);
    client("A", A, 64, 5, 0);
    client("a full stage, 5 hops", B, 64, 5, RPR_STAGE_FULL);
    client("a full stage, 6 hops", B, 64, 6, RPR_BEYOND_RING);
    transit("primary", A, 64, 5, 0, 0);
    transit("64 in 37, 5 hops", A, 64, 5, 0, RPR_NO_ROOM);
    transit("64 in 37, 6 hops", A, 64, 6, 0, RPR_BEYOND_RING);
    transit("secondary", B, 64, 5, 0, 0);
    transit("secondary", C, 64, 5, 1, 0);
    transit("64 in 2, 5 hops", C, 64, 5, 1, RPR_NO_ROOM);
    transit("64 in 2, 6 hops", C, 64, 6, 1, RPR_BEYOND_RING);
    hear("the own address, 5 hops", OWN(251, 13), RPR_OWN_ADDRESS);
    hear("the own address, 6 hops", OWN(250, 13), RPR_BEYOND_RING);
    hear("the own address, 6 hops, FULL_RATE", OWN(250, RPR_FULL_RATE), RPR_BEYOND_RING);
}

/* ---- a station that is lent ---- */

static void lend_in(uint32_t stations) { lend_with(WORD(stations), stations); }

/* A station that holds 5 hops is none of a ring of 5 or 2, and no call takes it for one. In a ring of 63 it is at home. */
static void holds_five(const char *what) {
    struct rpr_reading before = show();
    lend_in(5);
    all_refuse(what, RPR_SETTING);
    client("1 is before 13", A, 20, 5, RPR_SETTING);
    hear("1 is before 13", GOOD(216, 13), RPR_SETTING);
    lend_in(2);
    all_refuse(what, RPR_SETTING);
    lend_in(63);
    struct rpr_reading after = show();
    expect(what, (uint64_t)memcmp(&before, &after, sizeof before), 0);
}

static void lent(void) {
    static const uint32_t none[] = {0, 1, 64, UINT32_MAX};
    start_in(6);
    for (size_t i = 0; i < sizeof none / sizeof none[0]; i++) {
        lend_in(none[i]);
        all_refuse("a ring that is none", RPR_SETTING);
    }
    lend_in(2);
    expect("two stations", show().own_rate, 3333);
    start_with_credit(6);
    client("the stage", C, 64, 5, MARKED);
    holds_five("the stage");
    start_in(6);
    transit("primary", A, 64, 5, 0, 0);
    holds_five("primary");
    start_in(6);
    transit("secondary", B, 64, 1, 0, 0);
    transit("secondary", B, 64, 5, 0, 0);
    holds_five("secondary, the second frame");
    start_in(6);
    hear("received", GOOD(251, 13), 0);
    holds_five("received");
}

/* ---- the night of document 02 ---- */

/* A client's 39 bytes for the fifth station, and 30 that pass through to it. */
static void sends_beyond(void) {
    client("39 are not too many", C, 39, 5, MARKED);
    selects("39", RPR_FROM_STAGE, C, 5, 1, 39);
    transit("30 pass", C, 30, 5, 1, 0);
    selects("30", RPR_FROM_SECONDARY, C, 5, 1, 30);
}

/* A ring of six. Congestion stands so many hops away, 1 to 4, and 13 x 3 bytes may go beyond it. Then a faulty card tells of
 * congestion forty hops away, which no ring of six has: its frames are turned down, not a byte of the station changes, and
 * frames count as congested by what was known before. */
static void night(unsigned away) {
    start_with_credit(6);
    hear("1 to 4 hops away", GOOD(256 - away, 13), 0);
    age();
    for (int i = 0; i < 100; i++) {
        hear("forty hops away", FAULTY(216, 200), RPR_BEYOND_RING);
        hear("forty hops away, FULL_RATE", FAULTY(216, RPR_FULL_RATE), RPR_BEYOND_RING);
        age();
    }
    expect("congested", show().downstream_congested, 1);
    expect("1 to 4 hops away", show().received_ttl, 256 - away);
    expect("13 x 3", show().allowed_rate_congested, 39);
    tells("what the good card said", GOOD(255 - away, 13));
    client("40 are too many", C, 40, away + 1, RPR_FAIR_RATE);
    client("40, and beyond the ring: 13 is before 7", C, 40, 6, RPR_BEYOND_RING);
    sends_beyond();
    rates("both count as congested", show().counted, (struct rpr_rates){39, 30, 39, 30});
    client("16 more are too many", C, 16, away + 1, RPR_FAIR_RATE);
    client("16 that go no further than it are not", C, 16, away, MARKED);
}

/* The same in a ring of 63, which has forty hops: there the frame is heard. Document 01 heard it in the ring of six too, and since
 * no frame there has more than forty hops to go, for a day none counted as congested and none was turned down. */
static void as_it_was(void) {
    start_with_credit(63);
    hear("two hops away", GOOD(254, 13), 0);
    age();
    hear("forty hops away", FAULTY(216, 13), 0);
    tells("what the faulty card said", FAULTY(215, 13));
    sends_beyond();
    client("as many as there is credit for", C, 64, 5, MARKED);
    selects("64", RPR_FROM_STAGE, C, 5, 1, 64);
    rates("none counts as congested", show().counted, (struct rpr_rates){103, 30, 0, 0});
}

/* ---- telling at the last hop ---- */

/* What was received with the most hops is told no further: FULL_RATE, with the own address and ttl 255. */
static void last_hop(uint32_t stations) {
    start_in(stations);
    hear("from the last hop", GOOD(257 - stations, 13), 0);
    tells("no further", OWN(255, RPR_FULL_RATE));
    if (stations == 2) return;
    hear("from the last hop but one", GOOD(258 - stations, 13), 0);
    tells("passed on, ttl less 1", GOOD(257 - stations, 13));
}

int main(void) {
    static const uint32_t rings[] = {2, 3, 6, 62, 63};
    for (size_t i = 0; i < sizeof rings / sizeof rings[0]; i++) {
        most_hops(rings[i]);
        most_heard(rings[i]);
        last_hop(rings[i]);
    }
    control_frames();
    before_it();
    behind_it();
    lent();
    for (unsigned away = 1; away <= 4; away++) night(away);
    as_it_was();
    return told("hops: the library answers as documents 01 and 02 say");
}
