/* Calls what a station has for fairness, as a host would, and says what differs from documents 01 and 02. */
#include "smoke_station.h"

/* A station that has sent two eligible frames, 60 and 64 bytes. */
static void busy(void) {
    start(&plain);
    adds_124();
    rates("counted", show().counted, (struct rpr_rates){124, 0, 0, 0});
}

/* A frame from 02005e000002, two hops downstream: 256 - 254. */
static void downstream(void) {
    hear("13, two hops away", BYTES(254, 0xa0, 2, 0, 0x5e, 0, 0, 2, 0, 0, 0, 13), 0);
    age();
    struct rpr_reading r = show();
    rates("aged: floor(124 x 3 / 4)", r.counted, (struct rpr_rates){93, 0, 0, 0});
    rates("smoothed: floor(124 / 16)", r.smoothed, (struct rpr_rates){7, 0, 0, 0});
    expect("localFairRate", r.local_fair_rate, 10000);
    expect("allowedRate", r.allowed_rate, 10000);
    expect("allowedRateCongested: 13 x 3", r.allowed_rate_congested, 39);
    expect("own rate: floor(10,000 / 3)", r.own_rate, 3333);
    expect("locally congested", r.locally_congested, 0);
    expect("downstream congested", r.downstream_congested, 1);
    expect("received ttl", r.received_ttl, 254);
    expect("received address", (uint64_t)r.received_address_high << 32 | r.received_address_low, 0x02005e000002);
    expect("received rate", r.received_rate, 13);
    tells("passed on, ttl less 1", BYTES(253, 0xa0, 2, 0, 0x5e, 0, 0, 2, 0, 0, 0, 13));
}

/* Goes on from downstream: what goes beyond the congested station is held to 39 bytes. */
static void beyond(void) {
    tick(0, 0, 1, 0);
    tick(0, 0, 1, 0); /* C 218, D 232 */
    client("40 are too many", C, 40, 3, RPR_FAIR_RATE);
    client("39 are not", C, 39, 3, MARKED);
    selects("39", RPR_FROM_STAGE, C, 3, 1, 39);
    client("16 more are", C, 16, 3, RPR_FAIR_RATE);
    client("16 that stay before it", C, 16, 2, MARKED);
    selects("16", RPR_FROM_STAGE, C, 2, 1, 16);
    rates("added, and beyond", show().counted, (struct rpr_rates){148, 0, 39, 0});
    transit("forwarded beyond", C, 30, 3, 1, 0);
    transit("forwarded before it", B, 31, 2, 1, 0);
    selects("as D permits", RPR_FROM_SECONDARY, C, 3, 1, 30); /* D 177 */
    selects("as D permits", RPR_FROM_SECONDARY, B, 2, 1, 31); /* D 147 */
    rates("forwarded, and beyond", show().counted, (struct rpr_rates){148, 61, 39, 30});
}

/* Goes on from beyond, with a stored number of 124 for lpAddRate, 0 for the others. Over 16, rounded down,
 * each is the rate shown. */
static void smoothed(void) {
    age();
    rates("124 - 7 + 148, 61, 39, 30", show().smoothed, (struct rpr_rates){16, 3, 2, 1});
    rates("aged", show().counted, (struct rpr_rates){111, 45, 29, 22});
    age();
    rates("265 - 16 + 111, 61 - 3 + 45, 39 - 2 + 29, 30 - 1 + 22", show().smoothed, (struct rpr_rates){22, 6, 4, 3});
}

/* Goes on from busy. lpAddRate is stored as 124, which shows 7, then as 124 - 7 + 93 = 210, which shows 13. */
static void local(void) {
    transit("B", B, 64, 5, 0, 0);
    transit("C", C, 34, 5, 1, 0);
    age();
    expect("98 bytes are not over 98", show().locally_congested, 0);
    transit("B", B, 16, 5, 0, 0);
    age();
    struct rpr_reading r = show();
    expect("114 bytes are", r.locally_congested, 1);
    expect("localFairRate: lpAddRate", r.local_fair_rate, 13);
    expect("allowedRate", r.allowed_rate, 13);
    expect("own rate: floor(13 / 3)", r.own_rate, 4);
    rates("aged: floor(93 x 3 / 4)", r.counted, (struct rpr_rates){69, 0, 0, 0});
    tells("own rate", BYTES(255, 0xa0, 2, 0, 0x5e, 0, 0, 1, 0, 0, 0, 4));
    hear("as much as the own rate", BYTES(254, 0xa0, 2, 0, 0x5e, 0, 0, 2, 0, 0, 0, 4), 0);
    tells("both: the own rate", BYTES(255, 0xa0, 2, 0, 0x5e, 0, 0, 1, 0, 0, 0, 4));
    hear("less than the own rate", BYTES(195, 0xa0, 2, 0, 0x5e, 0, 0, 2, 0, 0, 0, 1), 0);
    tells("both: the received rate", BYTES(194, 0xa0, 2, 0, 0x5e, 0, 0, 2, 0, 0, 0, 1));
    hear("62 hops, in a ring of 63", BYTES(194, 0xa0, 2, 0, 0x5e, 0, 0, 2, 0, 0, 0, 1), 0);
    tells("no further", BYTES(255, 0xa0, 2, 0, 0x5e, 0, 0, 1, 0, 0, 255, 255));
}

/* Goes on from local. Other bits of a frame are not looked at; allowed rates rise by a part in 64 of what lacks. */
static void cleared(void) {
    age();
    expect("lpAddRate: 210 - 13 + 69 = 266", show().smoothed.add_rate, 16);
    expect("allowedRateCongested: 1 x 3", show().allowed_rate_congested, 3);
    hear("FULL_RATE", BYTES(200, 0xef, 2, 0, 0x5e, 0, 0, 2, 0x1f, 0xff, 255, 255), 0);
    struct rpr_reading r = show();
    expect("downstream congested", r.downstream_congested, 0);
    expect("received ttl", r.received_ttl, 255);
    expect("received address", r.received_address_high | r.received_address_low, 0);
    expect("received rate", r.received_rate, 0);
    age();
    expect("3 + floor(9,997 / 64)", show().allowed_rate_congested, 159);
}

/* An interval in which so many bytes are added, in frames of at most 64, with credit for each. The lpAddRate shown. */
static uint32_t interval(uint32_t bytes) {
    while (bytes > 0) {
        uint32_t size = bytes < 64 ? bytes : 64;
        tick(0, 0, 1, 0);
        tick(0, 0, 1, 0);
        client("a steady source", C, size, 20, MARKED);
        selects("a steady source", RPR_FROM_STAGE, C, 20, 1, size);
        bytes -= size;
    }
    age();
    return show().smoothed.add_rate;
}

/* A steady rate that is less than 2^6 away from the rate shown: this moves towards it and not past it, comes to it within
 * 6 x 64 intervals, and stays. */
static void arrives(uint32_t rate) {
    uint32_t last = show().smoothed.add_rate;
    for (int i = 0; i < 6 * 64; i++) {
        uint32_t now = interval(rate);
        expect("towards the rate", last < rate ? now >= last && now <= rate : now <= last && now >= rate, 1);
        last = now;
    }
    for (int i = 0; i < 64; i++) expect("it stays", interval(rate), rate);
}

/* The operators' case, with document 02's P7. With ageCoef 1 a counter is 0 after each interval: what is added is the
 * rate. Over 64, rounded down, the stored number is the rate shown. Towards 100 it rises by 1 each time from 6,336, which
 * shows 99, to 6,400; towards 40 it falls by 1 each time from 2,687, which shows 41, to 2,623. */
static void steady(void) {
    struct rpr_settings s = plain;
    s.age_coef = 1;
    s.lp_coef = 64;
    start(&s);
    expect("37 frames of 64 bytes: 2,368", interval(2368), 37);
    expect("2,368 - 37 + 100 = 2,431", interval(100), 37);
    expect("2,431 - 37 + 100 = 2,494", interval(100), 38);
    arrives(100);
    expect("6,400 - 100 + 99 = 6,399", interval(99), 99);
    arrives(40);
    expect("2,623 - 40 + 41 = 2,624", interval(41), 41);
    arrives(0);
}

static void wrong_frames(void) {
    static const uint8_t good[] = {254, 0xa0, 2, 0, 0x5e, 0, 0, 2, 0, 0, 0, 13, 0};
    start(&plain);
    hear("no bytes", good, 0, RPR_BYTES);
    hear("11 bytes", good, 11, RPR_BYTES);
    hear("13 bytes", good, 13, RPR_BYTES);
    hear("the own ringlet's bit", BYTES(254, 0x20, 2, 0, 0x5e, 0, 0, 2, 0, 0, 0, 13), RPR_BYTES);
    hear("frame type 3", BYTES(254, 0xb0, 2, 0, 0x5e, 0, 0, 2, 0, 0, 0, 13), RPR_BYTES);
    hear("frame type 0", BYTES(254, 0x80, 2, 0, 0x5e, 0, 0, 2, 0, 0, 0, 13), RPR_BYTES);
    hear("another header kind", BYTES(254, 0xa0, 2, 0, 0x5e, 0, 0, 2, 0x20, 0, 0, 13), RPR_BYTES);
    hear("ttl 192 is 3, before 11", BYTES(192, 0xa0, 2, 0, 0x5e, 0, 0, 1, 0, 0, 0, 13), RPR_RANGE);
    hear("the own address", BYTES(194, 0xa0, 2, 0, 0x5e, 0, 0, 1, 0, 0, 0, 13), RPR_OWN_ADDRESS);
    hear("the own address, FULL_RATE", BYTES(255, 0xa0, 2, 0, 0x5e, 0, 0, 1, 0, 0, 255, 255), RPR_OWN_ADDRESS);
    expect("not congested", show().downstream_congested, 0);
    lend_filled(STATION, 0, RPR_STATION_LENGTH);
    hear("zeros have ringlet 0: 2, before 1", BYTES(0, 0x20, 2, 0, 0x5e, 0, 0, 1, 0, 0, 0, 13), RPR_BYTES);
}

/* What one station tells another one reads: the same settings, another address. */
static void neighbours(void) {
    struct rpr_settings other = plain;
    start(&plain);
    tells("not congested", BYTES(255, 0xa0, 2, 0, 0x5e, 0, 0, 1, 0, 0, 255, 255));
    other.own_address_low++;
    start(&other);
    hear("the neighbour's", BYTES(255, 0xa0, 2, 0, 0x5e, 0, 0, 1, 0, 0, 255, 255), 0);
    other.own_ringlet = 1;
    start(&other);
    tells("on ringlet 1", BYTES(255, 0x20, 2, 0, 0x5e, 0, 0, 2, 0, 0, 255, 255));
    hear("on ringlet 1", BYTES(255, 0x20, 2, 0, 0x5e, 0, 0, 1, 0, 0, 255, 254), 0);
    expect("congested", show().downstream_congested, 1);
}

int main(void) {
    busy();
    downstream();
    beyond();
    smoothed();
    busy();
    local();
    cleared();
    steady();
    wrong_frames();
    neighbours();
    return told("fairness: the library answers as documents 01 and 02 say");
}
