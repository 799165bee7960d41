/* What the smoke tests of a station share: settings, and each call with the slice that it may write. */
#ifndef SMOKE_STATION_H
#define SMOKE_STATION_H

#include "smoke.h"

enum { STATION, SETTINGS, FRAME, ROOM };

enum { A = RPR_CLASS_A, B = RPR_CLASS_B, C = RPR_CLASS_C };

/* The answer of a client offer whose frame is marked fairness eligible: byte 4 is 1. */
#define MARKED ((uint64_t)1 << 32)

/* The answer of a client offer that shapers turn down: byte 0 is 6, bytes 4 to 7 the bytes missing. */
#define SHORT(missing) (RPR_NO_PERMIT | (uint64_t)(missing) << 32)

/* Every word differs from its neighbours, so that none is taken for another. Weight x unit is 3; C's amount, 53, is
 * below 10,000 / (4 x 10). A ring of 63 has room for all hops but 63. */
static const struct rpr_settings plain = {
    .own_address_high = 0x0200, .own_address_low = 0x5e000001, .own_ringlet = 0, .mtu = 64,
    .m = {100, 300, 50}, .a = {110, 310, 51}, .b = {120, 320, 52}, .c = {130, 330, 53}, .d = {140, 340, 54},
    .control_queue = 100, .primary_queue = 101, .secondary_queue = 130, .low_threshold = 98,
    .weight = 1, .rate_unit = 3, .ticks_per_interval = 10, .unreserved_rate = 10000,
    .age_coef = 4, .lp_coef = 16, .ramp_up = 64, .stations = 63,
    .method = RPR_AGGRESSIVE, .round_trip = 3, .ramp_dn = 32};

static inline void start(const struct rpr_settings *settings) {
    lend(SETTINGS, settings, sizeof *settings);
    lend_filled(STATION, 0xee, RPR_STATION_LENGTH);
    answered("start", rpr_start(LENT(SETTINGS), LENT(STATION)), STATION, 0);
}

/* A word of the settings, its number, and what a start answers. */
struct word_case {
    unsigned word;
    uint32_t value;
    uint64_t want;
};

/* A start with these settings but for one word. */
static inline void start_but(const struct rpr_settings *settings, const struct word_case *one) {
    uint32_t words[RPR_SETTINGS_LENGTH / 4];
    char what[40];
    memcpy(words, settings, sizeof words);
    words[one->word] = one->value;
    lend(SETTINGS, words, sizeof words);
    snprintf(what, sizeof what, "word %u is %u", one->word, one->value);
    answered(what, rpr_start(LENT(SETTINGS), LENT(STATION)), STATION, one->want);
}

/* Lends the station with another number of 4 bytes at a place of docs/LAYOUT.md, or in a word of its settings. */
#define WORD(setting) (RPR_STATION_LENGTH - RPR_SETTINGS_LENGTH + offsetof(struct rpr_settings, setting))
static inline void lend_with(size_t place, uint32_t number) {
    memcpy(slices[STATION].memory + GUARD + place, &number, sizeof number);
    memcpy(slices[STATION].before, slices[STATION].memory, WHOLE);
}

static inline void tick(uint64_t a_waits, uint64_t b_waits, uint64_t c_waits, uint64_t want) {
    answered("tick", rpr_tick(LENT(STATION), a_waits, b_waits, c_waits), STATION, want);
}

static inline void client(const char *what, uint64_t class, uint64_t size, uint64_t hops, uint64_t want) {
    answered(what, rpr_offer_client(LENT(STATION), class, size, hops), STATION, want);
}

static inline void transit(const char *what, uint64_t class, uint64_t size, uint64_t hops, uint64_t mark,
                           uint64_t want) {
    answered(what, rpr_offer_transit(LENT(STATION), class, size, hops, mark), STATION, want);
}

/* Client and passing frames outside their range: 3, whatever the hops of those in which only something else is wrong. */
static inline void wrong_clients(uint64_t hops) {
    client("class 3", 3, 64, hops, RPR_RANGE);
    client("size 15", A, 15, hops, RPR_RANGE);
    client("size 65", A, 65, hops, RPR_RANGE);
    client("size 65,600", A, 65600, hops, RPR_RANGE);
    client("0 hops", A, 64, 0, RPR_RANGE);
    client("64 hops", A, 64, 64, RPR_RANGE);
}

static inline void wrong_transits(uint64_t hops) {
    transit("class 3", 3, 64, hops, 0, RPR_RANGE);
    transit("size 15", B, 15, hops, 0, RPR_RANGE);
    transit("size 65", B, 65, hops, 0, RPR_RANGE);
    transit("0 hops", B, 64, 0, 0, RPR_RANGE);
    transit("64 hops", B, 64, 64, 0, RPR_RANGE);
    transit("A marked", A, 64, hops, 1, RPR_RANGE);
    transit("mark 2", B, 64, hops, 2, RPR_RANGE);
}

static inline void control(const char *what, uint64_t size, uint64_t want) {
    answered(what, rpr_offer_control(LENT(STATION), size), STATION, want);
}

/* Selects, and expects this frame. */
static inline void selects(const char *what, unsigned origin, unsigned class, unsigned hops, unsigned mark,
                           unsigned size) {
    uint64_t answer = rpr_select(LENT(STATION));
    answered(what, rpr_refusal_of(answer), STATION, 0);
    expect(what, rpr_selected_origin(answer), origin);
    expect(what, rpr_selected_class(answer), class);
    expect(what, rpr_selected_hops(answer), hops);
    expect(what, rpr_selected_eligible(answer), mark);
    expect(what, rpr_selected_size(answer), size);
    expect(what, answer >> 40 & 0xff, 0);
}

/* Selects, and expects nothing: the station stays as it was. */
static inline void selects_nothing(const char *what) { answered(what, rpr_select(LENT(STATION)), NONE, 0); }

/* A fresh station adds two eligible frames, 60 and 64 bytes. C has 236 - 124 left, D 248 - 124. */
static inline void adds_124(void) {
    tick(0, 0, 1, 0);
    tick(0, 0, 1, 0);
    client("60", C, 60, 20, MARKED);
    selects("60", RPR_FROM_STAGE, C, 20, 1, 60);
    client("64", C, 64, 20, MARKED);
    selects("64", RPR_FROM_STAGE, C, 20, 1, 64);
}

static inline void age(void) { answered("age", rpr_age(LENT(STATION)), STATION, 0); }

static inline void hear(const char *what, const uint8_t *frame, size_t length, uint64_t want) {
    lend(FRAME, frame, length);
    answered(what, rpr_read_frame(LENT(STATION), LENT(FRAME)), STATION, want);
}

/* Tells, and expects this frame. */
static inline void tells(const char *what, const uint8_t *frame, size_t length) {
    lend_filled(ROOM, 0xaa, length);
    answered(what, rpr_write_frame(LENT(STATION), LENT(ROOM)), ROOM, 0);
    expect(what, (uint64_t)memcmp(slices[ROOM].memory + GUARD, frame, length), 0);
}

static inline struct rpr_reading show(void) {
    struct rpr_reading reading;
    lend_filled(ROOM, 0xaa, sizeof reading);
    answered("show", rpr_show(LENT(STATION), LENT(ROOM)), ROOM, 0);
    memcpy(&reading, slices[ROOM].memory + GUARD, sizeof reading);
    return reading;
}

/* All calls that take a started station, with arguments that are wrong too: 2 and 1 come before 3, 13 and 11. */
static inline void all_refuse(const char *what, uint64_t want) {
    static const uint8_t frame[] = {0, 0xa0, 2, 0, 0x5e, 0, 0, 1, 0, 0, 0, 5};
    answered(what, rpr_tick(LENT(STATION), 2, 2, 2), STATION, want);
    answered(what, rpr_offer_client(LENT(STATION), 3, 0, 0), STATION, want);
    answered(what, rpr_offer_transit(LENT(STATION), 3, 0, 0, 2), STATION, want);
    answered(what, rpr_offer_control(LENT(STATION), 0), STATION, want);
    answered(what, rpr_select(LENT(STATION)), STATION, want);
    answered(what, rpr_age(LENT(STATION)), STATION, want);
    hear(what, frame, sizeof frame, want);
    lend_filled(ROOM, 0xaa, RPR_FRAME_LENGTH);
    answered(what, rpr_write_frame(LENT(STATION), LENT(ROOM)), ROOM, want);
    lend_filled(ROOM, 0xaa, RPR_READING_LENGTH);
    answered(what, rpr_show(LENT(STATION), LENT(ROOM)), ROOM, want);
}

static inline void rates(const char *what, struct rpr_rates got, struct rpr_rates want) {
    expect(what, got.add_rate, want.add_rate);
    expect(what, got.fw_rate, want.fw_rate);
    expect(what, got.add_rate_congested, want.add_rate_congested);
    expect(what, got.fw_rate_congested, want.fw_rate_congested);
}

#endif
