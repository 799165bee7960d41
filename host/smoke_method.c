/* Ages stations under the conservative method, as a host would, and says what differs from documents 01 and 02. */
#include "smoke_station.h"

/* Where numbers of the fairness state stand (docs/LAYOUT.md). `since`, the intervals since the last change, is not shown. */
enum { FAIR = 1578, LOCAL_FAIR_RATE = FAIR + 48, ALLOWED_RATE = FAIR + 52, LOCALLY = FAIR + 64, SINCE = FAIR + 68 };

enum { UNRESERVED = 10000, RAMP_UP = 64, RAMP_DN = 16 };

static uint32_t since(void) {
    uint32_t number;
    memcpy(&number, slices[STATION].memory + GUARD + SINCE, sizeof number);
    return number;
}

/* Two frames of 60 bytes are over the threshold of 98, and leave space for an mtu. */
static struct rpr_settings under(uint32_t method, uint32_t round_trip) {
    struct rpr_settings s = plain;
    s.method = method;
    s.round_trip = round_trip;
    s.ramp_dn = RAMP_DN;
    s.secondary_queue = 1000;
    return s;
}

static void over_threshold(void) {
    transit("over", B, 60, 5, 0, 0);
    transit("over", B, 60, 5, 0, 0);
}

static void below_threshold(void) {
    selects("below", RPR_FROM_SECONDARY, B, 5, 0, 60);
    selects("below", RPR_FROM_SECONDARY, B, 5, 0, 60);
}

/* A station that has added 124 bytes: its next interval shows an lpAddRate of floor(124 / 16) = 7, where 0 was shown. */
static void start_busy(uint32_t method, uint32_t round_trip) {
    struct rpr_settings s = under(method, round_trip);
    start(&s);
    adds_124();
}

/* ---- the rows ---- */

/* Locally congested or not, localFairRate, and the intervals since the last change. */
struct local {
    uint32_t locally, rate, since;
};

/* Round trip 3, unreservedRate 10,000, rampUp 64, rampDn 16. */
static const struct {
    const char *what;
    int over;
    struct local lent, left;
} rows[] = {
    {"enters at lpAddRate", 1, {0, 10000, 0}, {1, 7, 0}},
    {"enters without waiting; that is a change", 1, {0, 10000, 1}, {1, 7, 0}},
    {"not congested, nothing changes", 0, {0, 10000, 0}, {0, 10000, 0}},
    {"not congested, and time stands", 0, {0, 10000, 2}, {0, 10000, 2}},
    {"not congested, another rate", 0, {0, 5000, 1}, {0, 5000, 1}},
    {"leaves at a distance of 63", 0, {1, 9937, 0}, {0, 10000, 0}},
    {"leaves at 63, time or not", 0, {1, 9937, 2}, {0, 10000, 0}},
    {"leaves at a distance of 0", 0, {1, 10000, 1}, {0, 10000, 0}},
    {"does not at 64, and waits", 0, {1, 9936, 0}, {1, 9936, 1}},
    {"does not at 64, and waits", 0, {1, 9936, 1}, {1, 9936, 2}},
    {"rises by floor(64 / 64)", 0, {1, 9936, 2}, {1, 9937, 0}},
    {"rises by floor(127 / 64)", 0, {1, 9873, 2}, {1, 9874, 0}},
    {"rises by floor(10,000 / 64)", 0, {1, 0, 2}, {1, 156, 0}},
    {"stays while over, at a distance of 0", 1, {1, 10000, 0}, {1, 10000, 1}},
    {"stays while over, at a distance of 63", 1, {1, 9937, 1}, {1, 9937, 2}},
    {"falls by floor(10,000 / 16)", 1, {1, 10000, 2}, {1, 9375, 0}},
    {"falls by floor(9,937 / 16)", 1, {1, 9937, 2}, {1, 9316, 0}},
    {"falls by floor(31 / 16)", 1, {1, 31, 2}, {1, 30, 0}},
    {"falls by floor(16 / 16)", 1, {1, 16, 2}, {1, 15, 0}},
    {"a step of 0 is a change", 1, {1, 15, 2}, {1, 15, 0}},
    {"a step of 0 is a change", 1, {1, 0, 2}, {1, 0, 0}},
    {"waits for the time", 1, {1, 8000, 0}, {1, 8000, 1}},
    {"waits for the time", 1, {1, 8000, 1}, {1, 8000, 2}},
};

/* allowedRate and what is told go by the flag that is left, not by the queue: localFairRate, or ramped from 3,600;
 * floor(localFairRate / 3), or FULL_RATE. All else is smoothed and aged as under the other method. */
static void each_row(void) {
    for (size_t i = 0; i < sizeof rows / sizeof rows[0]; i++) {
        const char *what = rows[i].what;
        const struct local *lent = &rows[i].lent, *left = &rows[i].left;
        start_busy(RPR_CONSERVATIVE, 3);
        if (rows[i].over) over_threshold();
        lend_with(LOCALLY, lent->locally);
        lend_with(LOCAL_FAIR_RATE, lent->rate);
        lend_with(SINCE, lent->since);
        lend_with(ALLOWED_RATE, 3600);
        age();
        struct rpr_reading r = show();
        expect(what, r.locally_congested, left->locally);
        expect(what, r.local_fair_rate, left->rate);
        expect(what, since(), left->since);
        expect(what, r.allowed_rate, left->locally ? left->rate : 3700); /* 3,600 + floor(6,400 / 64) */
        expect(what, r.own_rate, left->rate / 3);
        rates(what, r.smoothed, (struct rpr_rates){7, 0, 0, 0});
        rates(what, r.counted, (struct rpr_rates){93, 0, 0, 0});
        expect(what, r.allowed_rate_congested, UNRESERVED);
        uint32_t told = left->locally ? left->rate / 3 : RPR_FULL_RATE;
        tells(what, BYTES(255, 0xa0, 2, 0, 0x5e, 0, 0, 1, 0, 0, (uint8_t)(told >> 8), (uint8_t)told));
    }
}

/* ---- by calls alone ---- */

/* So many intervals, each of which leaves the station congested, and this rate. */
static void ages(const char *what, int intervals, uint32_t rate) {
    for (int i = 0; i < intervals; i++) {
        age();
        struct rpr_reading r = show();
        expect(what, r.locally_congested, RPR_YES);
        expect(what, r.local_fair_rate, rate);
        expect(what, r.allowed_rate, rate);
    }
}

/* Enters at 7, and comes no lower. A step of 0 begins another round trip, so the rate first rises in the third interval after
 * one, though the queue is empty. Till it leaves, the station is congested. */
static void to_and_fro(void) {
    start_busy(RPR_CONSERVATIVE, 3);
    over_threshold();
    ages("entered", 1, 7);
    ages("two that wait, and a step of 0", 3, 7);
    tick(0, 0, 1, 0);
    tick(0, 0, 1, 0); /* D 232 */
    below_threshold();
    ages("waits", 2, 7);
    ages("7 + floor(9,993 / 64)", 1, 163);
    tells("still congested: floor(163 / 3)", BYTES(255, 0xa0, 2, 0, 0x5e, 0, 0, 1, 0, 0, 0, 54));
    over_threshold();
    ages("over again, and no change before its time", 2, 163);
    ages("163 - floor(163 / 16)", 1, 153);
}

/* A step at each interval, at each third or at each thousandth, whether down or up. */
static void round_trips(void) {
    static const uint32_t down[] = {8000, 7500, 7032, 6593, 6181}, up[] = {6400, 6456, 6511, 6565, 6618};
    static const uint32_t trips[] = {1, 3, 1000};
    for (size_t i = 0; i < sizeof trips / sizeof trips[0]; i++)
        for (int over = 0; over < 2; over++) {
            const uint32_t *steps = over ? down : up;
            start_busy(RPR_CONSERVATIVE, trips[i]);
            if (over) over_threshold();
            lend_with(LOCALLY, RPR_YES);
            lend_with(LOCAL_FAIR_RATE, steps[0]);
            for (int step = 0; step < 4; step++) {
                ages("no step yet", (int)trips[i] - 1, steps[step]);
                ages("a step", 1, steps[step + 1]);
            }
        }
}

/* Four frames of 64 bytes, so that the interval shows an lpAddRate of 256 / 16. A tick adds unreservedRate, a small one, to C. */
static void enter_with(uint32_t method, uint32_t unreserved) {
    struct rpr_settings s = under(method, 3);
    s.age_coef = s.ticks_per_interval = 1;
    s.unreserved_rate = unreserved;
    start(&s);
    for (int i = 0; i < 20; i++) tick(0, 0, 1, 0); /* C 330, D 340 */
    for (int i = 0; i < 4; i++) {
        client("64", C, 64, 20, MARKED);
        selects("64", RPR_FROM_STAGE, C, 20, 1, 64);
    }
    over_threshold();
    age();
    expect("lpAddRate", show().smoothed.add_rate, 16);
    expect("entered", show().locally_congested, RPR_YES);
}

/* Entry is cut to unreservedRate. Under the aggressive method it is not, and a station above it is none of the conservative. */
static void cut(void) {
    static const uint32_t unreserved[] = {10, 15, 16, 17};
    for (size_t i = 0; i < sizeof unreserved / sizeof unreserved[0]; i++) {
        uint32_t least = unreserved[i] < 16 ? unreserved[i] : 16;
        enter_with(RPR_CONSERVATIVE, unreserved[i]);
        expect("cut to unreservedRate", show().local_fair_rate, least);
        expect("allowedRate", show().allowed_rate, least);
        enter_with(RPR_AGGRESSIVE, unreserved[i]);
        expect("not cut", show().local_fair_rate, 16);
        expect("allowedRate", show().allowed_rate, least);
        lend_with(WORD(method), RPR_CONSERVATIVE);
        if (unreserved[i] < 16) all_refuse("16 under the conservative method", RPR_SETTING);
        else expect("as high as unreservedRate", show().local_fair_rate, 16);
    }
}

/* The aggressive method neither reads nor changes the intervals since the last change, and looks at no rate of before. */
static void aggressive(void) {
    for (uint32_t lent_since = 0; lent_since < 3; lent_since++)
        for (uint32_t over = 0; over < 2; over++)
            for (uint32_t locally = 0; locally < 2; locally++) {
                start_busy(RPR_AGGRESSIVE, 3);
                if (over) over_threshold();
                lend_with(SINCE, lent_since);
                lend_with(LOCALLY, locally);
                lend_with(LOCAL_FAIR_RATE, 8000);
                age();
                expect("document 01's test", show().locally_congested, over);
                expect("lpAddRate or unreservedRate", show().local_fair_rate, over ? 7 : UNRESERVED);
                expect("time stands", since(), lent_since);
            }
}

/* ---- ranges ---- */

/* Words 31 to 33 of the settings. A host that leaves all three 0 is told so by 1. */
static void settings_words(void) {
    static const struct word_case cases[] = {
        {31, 0, 0}, {31, 1, 0}, {31, 2, 1}, {31, 256, 1}, {31, UINT32_MAX, 1}, {32, 0, 1}, {32, 1, 0}, {32, 1000, 0},
        {32, 1001, 1}, {32, 65536 + 3, 1}, {33, 0, 1}, {33, 8, 1}, {33, 15, 1}, {33, 16, 0}, {33, 17, 1}, {33, 32, 0}, {33, 48, 1}, {33, 64, 0},
        {33, 128, 0}, {33, 256, 0}, {33, 512, 0}, {33, 1024, 1}, {33, 65536 + 16, 1}};
    for (uint32_t method = RPR_AGGRESSIVE; method <= RPR_CONSERVATIVE; method++) {
        struct rpr_settings s = under(method, 3);
        for (size_t i = 0; i < sizeof cases / sizeof cases[0]; i++) start_but(&s, &cases[i]);
        s.method = s.round_trip = s.ramp_dn = 0;
        lend(SETTINGS, &s, sizeof s);
        answered("left 0", rpr_start(LENT(SETTINGS), LENT(STATION)), STATION, RPR_SETTING);
    }
}

/* A lent station with this number at a place: every call refuses it, or it is taken. */
static void lent_with(const char *what, size_t place, uint32_t number, int in_range) {
    lend_with(place, number);
    if (!in_range) all_refuse(what, RPR_SETTING);
    else expect(what, show().smoothed.add_rate, 7);
}

static void lent(void) {
    for (uint32_t method = RPR_AGGRESSIVE; method <= RPR_CONSERVATIVE; method++) {
        start_busy(method, 3);
        age();
        lent_with("since 3, of 3", SINCE, 3, 0);
        lent_with("since 65,538", SINCE, 65538, 0);
        lent_with("since 2", SINCE, 2, 1);
        lent_with("since 2, of 2", WORD(round_trip), 2, 0);
        lent_with("a round trip of 0", WORD(round_trip), 0, 0);
        lent_with("a round trip of 1,001", WORD(round_trip), 1001, 0);
        lent_with("a round trip of 1,000", WORD(round_trip), 1000, 1);
        lent_with("rampDn 20", WORD(ramp_dn), 20, 0);
        lent_with("rampDn 512", WORD(ramp_dn), 512, 1);
        lent_with("localFairRate 10,000", LOCAL_FAIR_RATE, 10000, 1);
        lent_with("localFairRate 10,001", LOCAL_FAIR_RATE, 10001, method == RPR_AGGRESSIVE);
        lent_with("localFairRate 2,147,483,647", LOCAL_FAIR_RATE, 2147483647, method == RPR_AGGRESSIVE);
        lent_with("localFairRate 2,147,483,648", LOCAL_FAIR_RATE, 2147483648, 0);
        lent_with("localFairRate 0", LOCAL_FAIR_RATE, 0, 1);
        lent_with("method 2", WORD(method), 2, 0);
    }
}

/* ---- "too jumpy": the same traffic under both methods ---- */

/* A burst and a pause last BURST intervals each; the first burst comes after a pause. */
enum { INTERVALS = 200, BURST = 4, TRIP = 5 };

/* What an interval left. */
struct moment {
    int over;
    uint32_t locally, local, add_rate;
};

/* A client offers as much as it may: once it is refused with 6 it waits for the next tick; how far short is not looked at here. */
static void offers(void) {
    for (int i = 0; i < 3; i++) {
        uint64_t answer = rpr_offer_client(LENT(STATION), C, 64, 20);
        int is_short = rpr_refusal_of(answer) == RPR_NO_PERMIT;
        answered("a client's", answer, STATION, is_short ? answer : MARKED);
        if (is_short) return;
        selects("a client's", RPR_FROM_STAGE, C, 20, 1, 64);
    }
}

/* The queue passes its threshold to and fro. */
static void bursts(uint32_t method, struct moment *moments) {
    struct rpr_settings s = under(method, TRIP);
    s.c = s.d = (struct rpr_shaper){200, 2000, 250};
    s.d.amount = 400;
    start(&s);
    for (int i = 0; i < INTERVALS; i++) {
        int over = i / BURST % 2;
        if (over && i % BURST == 0) over_threshold();
        for (int t = 0; t < 10; t++) {
            tick(0, 0, 1, 0);
            offers();
        }
        if (!over && i % BURST == 0 && i > 0) below_threshold();
        age();
        struct rpr_reading r = show();
        expect("over the threshold", r.secondary.bytes > s.low_threshold, (uint64_t)over);
        moments[i] = (struct moment){over, r.locally_congested, r.local_fair_rate, r.smoothed.add_rate};
    }
}

/* How often the rate changed, from one interval to the next, by more than the largest step: the rampDn-th part of unreservedRate. */
static unsigned jumps(const struct moment *m) {
    unsigned jumped = 0;
    for (int i = 1; i < INTERVALS; i++) {
        uint32_t was = m[i - 1].local, now = m[i].local;
        jumped += (now > was ? now - was : was - now) > UNRESERVED / RAMP_DN;
    }
    return jumped;
}

/* The aggressive station's rate is lpAddRate or unreservedRate, and jumps whenever the queue passes the threshold. */
static void goes_at_once(const struct moment *m) {
    for (int i = 0; i < INTERVALS; i++) {
        expect("lpAddRate or unreservedRate", m[i].local, m[i].over ? m[i].add_rate : UNRESERVED);
        expect("congested while over", m[i].locally, (uint64_t)m[i].over);
    }
    expect("it jumps each time", jumps(m), INTERVALS / BURST - 1);
}

/* The conservative station enters with the first burst, and does not leave. Each round trip after that, and then alone, it goes
 * by its rampDn-th part down, or by the rampUp-th part of the distance up, as the queue is. */
static void goes_in_steps(const struct moment *m) {
    for (int i = 0; i < INTERVALS; i++) {
        uint32_t want = UNRESERVED;
        if (i == BURST) want = m[i].add_rate;
        if (i > BURST) want = m[i - 1].local;
        if (i > BURST && (i - BURST) % TRIP == 0) want = m[i].over ? want - want / RAMP_DN : want + (UNRESERVED - want) / RAMP_UP;
        expect("a step each round trip", m[i].local, want);
        expect("congested from the first burst on", m[i].locally, i >= BURST);
    }
    expect("it jumps on entering alone", jumps(m), 1);
}

int main(void) {
    static struct moment moments[INTERVALS];
    each_row();
    to_and_fro();
    round_trips();
    cut();
    aggressive();
    settings_words();
    lent();
    bursts(RPR_AGGRESSIVE, moments);
    goes_at_once(moments);
    bursts(RPR_CONSERVATIVE, moments);
    goes_in_steps(moments);
    return told("methods: the library answers as documents 01 and 02 say");
}
