/* Starts a station and calls what brings frames in and out, as a host would; says what differs from documents 01 and 02. */
#include "smoke_station.h"

static void credits(const char *what, uint32_t m, uint32_t a, uint32_t b, uint32_t c, uint32_t d) {
    struct rpr_reading r = show();
    expect(what, r.credit_m, m);
    expect(what, r.credit_a, a);
    expect(what, r.credit_b, b);
    expect(what, r.credit_c, c);
    expect(what, r.credit_d, d);
}

/* ---- start and show ---- */

/* Credits start at loLimit, rates at unreservedRate, counters at 0, the own rate at floor(10,000 / 3), ttl at 255. */
static void fresh(void) {
    struct rpr_reading want = {.credit_m = 100, .credit_a = 110, .credit_b = 120, .credit_c = 130, .credit_d = 140};
    want.local_fair_rate = want.allowed_rate = want.allowed_rate_congested = 10000;
    want.own_rate = 3333;
    want.received_ttl = 255;
    expect("the version", rpr_version(), 256 * 4 + 1);
    expect("the station's length", rpr_station_length(), RPR_STATION_LENGTH);
    start(&plain);
    struct rpr_reading got = show();
    expect("a fresh reading", (uint64_t)memcmp(&got, &want, sizeof want), 0);
    uint8_t once[RPR_STATION_LENGTH];
    memcpy(once, slices[STATION].memory + GUARD, sizeof once);
    lend_filled(STATION, 0x11, RPR_STATION_LENGTH);
    answered("start over other bytes", rpr_start(LENT(SETTINGS), LENT(STATION)), STATION, 0);
    expect("fresh, whatever was there", (uint64_t)memcmp(once, slices[STATION].memory + GUARD, sizeof once), 0);
    struct rpr_settings fast = plain;
    fast.unreserved_rate = 2147483647;
    start(&fast);
    expect("the own rate is at most 65,534", show().own_rate, 65534);
}

/* One word of the settings at a time, outside its range or at its end. Those of the methods are in smoke_method.c. */
static void settings_words(void) {
    static const struct word_case cases[] = {
        {0, 65535, 0}, {0, 65536, 1}, {1, UINT32_MAX, 0}, {2, 1, 0}, {2, 2, 1}, {3, 63, 1}, {3, 65, 0}, {3, 66, 1},
        {4, 63, 1}, {4, 64, 0}, {4, 299, 0}, {4, 300, 1}, {5, 1048576, 0}, {5, 1048577, 1}, {6, 65535, 0},
        {6, 65536, 1}, {7, 63, 1}, {8, 110, 1}, {9, 65536, 1}, {10, 63, 1}, {11, 120, 1}, {12, 65536, 1},
        {13, 63, 1}, {14, 130, 1}, {15, 65536, 1}, {16, 63, 1}, {17, 140, 1}, {18, 65536, 1}, {19, 63, 1},
        {19, 64, 0}, {19, 1048577, 1}, {20, 63, 1}, {20, 1048576, 0}, {20, 1048577, 1}, {21, 127, 1}, {21, 128, 0},
        {21, 1048577, 1}, {22, 0, 0}, {22, 130, 0}, {22, 131, 1}, {23, 0, 1}, {23, 255, 0}, {23, 256, 1},
        {24, 0, 1}, {24, 1024, 0}, {24, 1025, 1}, {25, 0, 1}, {25, 10000, 0}, {25, 10001, 1}, {26, 0, 1},
        {26, 2147483647, 0}, {26, 2147483648, 1}, {27, 0, 1}, {27, 1, 0}, {27, 3, 1}, {27, 16, 0}, {27, 32, 1},
        {28, 0, 1}, {28, 8, 1}, {28, 512, 0}, {28, 1024, 1}, {29, 16, 0}, {29, 24, 1}, {29, 1024, 1},
        {30, 0, 1}, {30, 1, 1}, {30, 2, 0}, {30, 63, 0}, {30, 64, 1}, {30, 256 + 6, 1}};
    for (size_t i = 0; i < sizeof cases / sizeof cases[0]; i++) start_but(&plain, &cases[i]);
}

/* ---- every call refuses 2, then 1 ---- */

/* Of version 1 a station has 1,770 bytes, of version 2 it has 1,786, and settings 30 words; of version 3, 1,790 and 31. */
static void lengths(void) {
    static const size_t others[] = {0, 1, 1770, 1786, 1790, RPR_STATION_LENGTH - 1, RPR_STATION_LENGTH + 1};
    for (size_t i = 0; i < sizeof others / sizeof others[0]; i++) {
        lend(SETTINGS, &plain, sizeof plain);
        lend_filled(STATION, 0, others[i]);
        all_refuse("a station of another length", RPR_BYTES);
        answered("start", rpr_start(LENT(SETTINGS), LENT(STATION)), STATION, RPR_BYTES);
    }
    start(&plain);
    lend(SETTINGS, &plain, 4 * 30);
    answered("30 words", rpr_start(LENT(SETTINGS), LENT(STATION)), STATION, RPR_BYTES);
    lend(SETTINGS, &plain, 4 * 31);
    answered("31 words", rpr_start(LENT(SETTINGS), LENT(STATION)), STATION, RPR_BYTES);
    lend_filled(SETTINGS, 0, RPR_SETTINGS_LENGTH - 1);
    answered("short settings", rpr_start(LENT(SETTINGS), LENT(STATION)), STATION, RPR_BYTES);
    lend_filled(SETTINGS, 0, RPR_SETTINGS_LENGTH + 1);
    answered("long settings", rpr_start(LENT(SETTINGS), LENT(STATION)), STATION, RPR_BYTES);
    for (size_t length = 0; length < 2 * RPR_READING_LENGTH; length++) {
        if (length == RPR_READING_LENGTH || length == RPR_FRAME_LENGTH) continue;
        lend_filled(ROOM, 0xaa, length);
        answered("another room", rpr_show(LENT(STATION), LENT(ROOM)), ROOM, RPR_BYTES);
        answered("another room", rpr_write_frame(LENT(STATION), LENT(ROOM)), ROOM, RPR_BYTES);
    }
}

/* Bytes that are no station: zeros have an mtu of 0, ones a ringlet that is neither. */
static void no_stations(void) {
    lend_filled(STATION, 0, RPR_STATION_LENGTH);
    all_refuse("zeros", RPR_SETTING);
    lend_filled(STATION, 0xff, RPR_STATION_LENGTH);
    all_refuse("ones", RPR_SETTING);
}

/* ---- shapers ---- */

/* While traffic waits the sum is cut to hiLimit, otherwise to loLimit. */
static void ticks(void) {
    start(&plain);
    tick(0, 0, 0, 0);
    credits("nothing waits", 100, 110, 120, 130, 140);
    tick(1, 0, 0, 0);
    credits("A waits", 100, 161, 120, 130, 140);
    tick(0, 1, 0, 0);
    credits("B waits, for C and D too", 100, 110, 172, 183, 194);
    tick(0, 0, 1, 0);
    credits("C waits, for D too", 100, 110, 120, 236, 248);
    for (int i = 0; i < 5; i++) tick(1, 1, 1, 0);
    credits("hiLimit", 100, 310, 320, 330, 340);
    tick(2, 0, 0, RPR_RANGE);
    tick(0, UINT64_MAX, 0, RPR_RANGE);
    tick(0, 0, (uint64_t)1 << 32, RPR_RANGE);
    control("a frame for M", 16, 0);
    tick(1, 1, 1, 0);
    credits("M waits while a control frame is held", 150, 310, 320, 330, 340);
    struct rpr_settings slow = plain;
    slow.unreserved_rate = 1999;
    start(&slow);
    tick(0, 0, 1, 0);
    credits("C's amount is floor(1,999 / 40)", 100, 110, 120, 179, 194);
}

/* ---- client frames ---- */

static void clients(void) {
    start(&plain);
    wrong_clients(9);
    client("A at loLimit", A, 64, 9, SHORT(1));
    client("B at loLimit", B, 64, 9, SHORT(1));
    client("C at loLimit", C, 64, 9, SHORT(1));
    tick(1, 1, 1, 0); /* 161, 172, 183, 194 */
    client("A", A, 64, 9, 0);
    client("a full stage", B, 64, 9, RPR_STAGE_FULL);
    wrong_clients(9);
    expect("the stage", show().stage.frames, 1);
    expect("the stage", show().stage.bytes, 64);
    selects("A", RPR_FROM_STAGE, A, 9, 0, 64);
    client("B within its share", B, 60, 3, 0);
    selects("B within its share", RPR_FROM_STAGE, B, 3, 0, 60);
    credits("A and B have paid", 100, 97, 112, 183, 134);
    client("B, D lacks: 141 - 134", B, 60, 3, SHORT(7));
    tick(0, 0, 1, 0); /* A 110, B 120, C 236, D 188 */
    client("B beyond its share", B, 60, 3, MARKED);
    selects("B beyond its share", RPR_FROM_STAGE, B, 3, 1, 60);
    credits("C and D have paid", 100, 110, 120, 176, 128);
    client("C, D lacks: 141 - 128", C, 64, 20, SHORT(13));
    tick(0, 0, 1, 0); /* C 229, D 182 */
    client("C", C, 64, 20, MARKED);
    selects("C", RPR_FROM_STAGE, C, 20, 1, 64);
    selects_nothing("an empty station");
    credits("after C", 100, 110, 120, 165, 118);
    rates("eligible frames are counted", show().counted, (struct rpr_rates){124, 0, 0, 0});
}

/* A station whose ticks add so much to A, B, C and D. */
static void start_adding(uint32_t a, uint32_t b, uint32_t c, uint32_t d) {
    struct rpr_settings s = plain;
    s.a.amount = a;
    s.b.amount = b;
    s.c.amount = c;
    s.d.amount = d;
    start(&s);
}

/* How far short: the least amount whose addition would make each credit exceed loLimit, the larger of two, and for B
 * that of the excess attempt. */
static void shortfalls(void) {
    start_adding(1, 10, 30, 20);
    tick(1, 1, 1, 0); /* A 111, B 130, C 160, D 160 */
    client("A at loLimit + 1", A, 64, 9, 0);
    selects("A", RPR_FROM_STAGE, A, 9, 0, 64);
    client("A at 47: 111 - 47", A, 64, 9, SHORT(64));
    client("B within its share", B, 64, 9, 0); /* B 66, D 96 */
    client("a full stage says no more", B, 64, 9, RPR_STAGE_FULL);
    client("nor does a wrong frame", B, 65, 9, RPR_RANGE);
    selects("B", RPR_FROM_STAGE, B, 9, 0, 64);
    client("B lacks 55, D 45, C nothing: D's", B, 64, 9, SHORT(45));
    client("C the same", C, 64, 9, SHORT(45));
    tick(1, 1, 1, 0);
    tick(1, 1, 1, 0); /* A 49, B 86, C 220, D 136 */
    client("5 are missing", C, 64, 9, SHORT(5));
    tick(0, 0, 1, 0); /* A 50, B 96, C 250, D 156 */
    client("not any more", C, 64, 9, MARKED); /* C 186, D 92 */
    selects("C", RPR_FROM_STAGE, C, 9, 1, 64);
    for (int i = 0; i < 3; i++) tick(0, 0, 1, 0); /* B 120, C 276, D 152 */
    client("B beyond its share", B, 64, 9, MARKED);
    selects("B", RPR_FROM_STAGE, B, 9, 1, 64);
    start_adding(1, 10, 20, 10);
    tick(0, 0, 1, 0); /* C 150, D 150 */
    client("C", C, 64, 9, MARKED);
    selects("C", RPR_FROM_STAGE, C, 9, 1, 64);
    client("C lacks 131 - 86, D 141 - 86: D's", C, 64, 9, SHORT(55));
    start_adding(1, 10, 10, 54);
    tick(0, 0, 1, 0); /* B 120, C 140, D 194 */
    client("C", C, 64, 9, MARKED);
    selects("C", RPR_FROM_STAGE, C, 9, 1, 64);
    client("C lacks 131 - 76, D 141 - 130: C's", C, 64, 9, SHORT(55));
    client("B lacks 1 of its own, which is not told", B, 64, 9, SHORT(55));
}

/* The largest loLimit and frames: a shortfall of more than a byte. */
static void shortfall_of_largest(void) {
    static const struct rpr_shaper most = {65536, 1048576, 1};
    struct rpr_settings s = plain;
    s.mtu = s.control_queue = s.primary_queue = 9216;
    s.secondary_queue = 2 * 9216;
    s.m = s.a = s.b = s.c = s.d = most;
    start(&s);
    tick(1, 1, 1, 0);
    client("A at 65,537", A, 9216, 9, 0);
    selects("A", RPR_FROM_STAGE, A, 9, 0, 9216);
    client("A at 56,321", A, 16, 9, SHORT(9216));
}

/* The answers of calls, taken apart: what a refusal says is not taken for what was carried out, nor the other way. */
static void taken_apart(void) {
    expect("a shortfall", rpr_shortfall_of(SHORT(65537)), 65537);
    expect("of a mark there is none", rpr_shortfall_of(MARKED), 0);
    expect("nor of another refusal", rpr_shortfall_of(RPR_STAGE_FULL), 0);
    expect("a mark", rpr_mark_of(MARKED), RPR_YES);
    expect("a shortfall is no mark", rpr_mark_of(SHORT(1)), 0);
    expect("nor a frame", rpr_selected_eligible(SHORT(1)) | rpr_selected_size(SHORT(65536)), 0);
    expect("nor a wrap mark", rpr_choice_wrap_mark(SHORT(1)), 0);
    expect("nor a credit", rpr_settled_end_credit(SHORT(1)), 0);
}

/* ---- queues and selection ---- */

/* Primary 101, control 100, secondary 130 bytes. */
static void queues(void) {
    start(&plain);
    wrong_transits(1);
    transit("primary", A, 50, 3, 0, 0);
    transit("52 in 51", A, 52, 4, 0, RPR_NO_ROOM);
    transit("51 in 51", A, 51, 4, 0, 0);
    transit("secondary", B, 50, 5, 0, 0);
    transit("secondary", C, 50, 6, 1, 0);
    transit("31 in 30", B, 31, 7, 0, RPR_NO_ROOM);
    transit("30 in 30", C, 30, 7, 1, 0);
    control("size 15", 15, RPR_RANGE);
    control("size 65", 65, RPR_RANGE);
    control("control", 50, 0);
    control("51 in 50", 51, RPR_NO_ROOM);
    struct rpr_reading r = show();
    expect("control", (uint64_t)r.control.frames << 32 | r.control.bytes, (uint64_t)1 << 32 | 50);
    expect("primary", (uint64_t)r.primary.frames << 32 | r.primary.bytes, (uint64_t)2 << 32 | 101);
    expect("secondary", (uint64_t)r.secondary.frames << 32 | r.secondary.bytes, (uint64_t)3 << 32 | 130);
}

/* Goes on from queues: the rows of table 6.4. M and D wait, since their queues hold frames. */
static void selection(void) {
    tick(0, 0, 0, 0);
    credits("M and D wait", 150, 110, 120, 130, 194);
    selects("no space for control: primary", RPR_FROM_PRIMARY, A, 3, 0, 50);
    selects("none in secondary either", RPR_FROM_PRIMARY, A, 4, 0, 51);
    selects("secondary without space", RPR_FROM_SECONDARY, B, 5, 0, 50);
    credits("nothing charged", 150, 110, 120, 130, 194);
    selects("control fits", RPR_FROM_CONTROL, A, 1, 0, 50);
    credits("M charged", 100, 110, 120, 130, 194);
    selects("mtu 64 is over a space of 50", RPR_FROM_SECONDARY, C, 6, 1, 50);
    tick(1, 0, 0, 0); /* A 161, D 248 */
    client("A", A, 16, 8, 0);
    selects("stage before secondary with space", RPR_FROM_STAGE, A, 8, 0, 16);
    selects("secondary, as D permits", RPR_FROM_SECONDARY, C, 7, 1, 30);
    credits("D charged", 100, 145, 120, 130, 218);
    selects_nothing("nothing is held");
    rates("only marked ones", show().counted, (struct rpr_rates){0, 80, 0, 0});
}

/* The conditions of single rows: 66 bytes in the secondary queue leave a space of 64, which is not below the mtu. */
static void rows(void) {
    start(&plain);
    transit("B", B, 50, 5, 0, 0);
    transit("B", B, 16, 6, 0, 0);
    selects_nothing("space for the mtu, and D at loLimit");
    control("control", 40, 0);
    selects_nothing("M at loLimit");
    tick(0, 0, 0, 0);
    transit("A", A, 64, 7, 0, 0);
    selects("37 in primary are too few for control", RPR_FROM_PRIMARY, A, 7, 0, 64);
    selects("control, as M permits", RPR_FROM_CONTROL, A, 1, 0, 40);
    selects("secondary, as D permits", RPR_FROM_SECONDARY, B, 5, 0, 50);
    start(&plain);
    tick(1, 0, 0, 0);
    client("A", A, 16, 9, 0);
    tick(0, 0, 0, 0);
    credits("any frame in the stage makes D wait", 100, 110, 120, 130, 194);
}

/* 128 frames fill a queue, whatever its bytes; first in, first out, and freed room is used again. */
static void slots(void) {
    struct rpr_settings wide = plain;
    wide.secondary_queue = 1048576;
    start(&wide);
    for (unsigned i = 0; i < 128; i++) transit("a slot", C, 16 + i % 40, 1 + i % 62, 1, 0);
    transit("128 frames are held", B, 16, 1, 0, RPR_NO_ROOM);
    for (unsigned i = 0; i < 128; i++) {
        selects("no space: secondary first", RPR_FROM_SECONDARY, C, 1 + i % 62, 1, 16 + i % 40);
        transit("freed room", C, 16 + i % 40, 1 + i % 62, 1, 0);
    }
    expect("128 frames", show().secondary.frames, 128);
    transit("the other queue has room", A, 16, 1, 0, 0);
}

int main(void) {
    fresh();
    settings_words();
    lengths();
    no_stations();
    ticks();
    clients();
    shortfalls();
    shortfall_of_largest();
    taken_apart();
    queues();
    selection();
    rows();
    slots();
    return told("stations: the library answers as documents 01 and 02 say");
}
