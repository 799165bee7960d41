/*
 * ns per call of the station's calls. A call that takes or adds a frame leaves another station than it found, so each is made
 * once on each of 16 stations with the same bytes, and these are copied anew before the next round, while no clock runs.
 */
#include "bench.h"

#include <stdio.h>
#include <string.h>

enum { STATIONS = 16, REPEATS = 300, N = RPR_STATION_LENGTH };

static uint8_t stations[STATIONS][N], theirs[STATIONS][N];
static uint8_t room[RPR_READING_LENGTH], their_room[RPR_READING_LENGTH], settings[RPR_SETTINGS_LENGTH];

/* The stations that are measured, of either method: fresh with credit; with one frame in each transit queue; and with 120
 * frames in each and congestion downstream. */
enum state { EMPTY, FEW, FULL, STATES };

static const char *const states[STATES] = {"empty station", "2 frames held", "240 frames held"};
static uint8_t images[RPR_CONSERVATIVE + 1][STATES][N];

static const uint8_t heard[RPR_FRAME_LENGTH] = {250, 0xa0, 2, 0, 0, 0, 0, 9, 0, 0, 3, 232};

typedef uint64_t batch(const struct calls *);

/* One call on each station; s is the station. The answers are added up. */
#define BATCH(name, call)                                        \
    static uint64_t name(const struct calls *side) {             \
        uint64_t all = 0;                                        \
        for (unsigned i = 0; i < STATIONS; i++) {                \
            uint8_t *s = stations[i];                            \
            all += (call);                                       \
        }                                                        \
        return all;                                              \
    }

BATCH(start, side->start(settings, RPR_SETTINGS_LENGTH, s, N))
BATCH(tick, side->tick(s, N, 1, 1, 1))
BATCH(client_a, side->offer_client(s, N, RPR_CLASS_A, 1000, 3))
BATCH(client_b, side->offer_client(s, N, RPR_CLASS_B, 1000, 3))
BATCH(client_c, side->offer_client(s, N, RPR_CLASS_C, 1000, 30))
BATCH(transit_a, side->offer_transit(s, N, RPR_CLASS_A, 1000, 3, 0))
BATCH(transit_c, side->offer_transit(s, N, RPR_CLASS_C, 1000, 3, 1))
BATCH(control, side->offer_control(s, N, 100))
BATCH(choice, side->select(s, N))
BATCH(age, side->age(s, N))
BATCH(read_frame, side->read_frame(s, N, heard, RPR_FRAME_LENGTH))
BATCH(write_frame, side->write_frame(s, N, room, RPR_FRAME_LENGTH))
BATCH(show, side->show(s, N, room, RPR_READING_LENGTH))

static const struct {
    const char *name;
    batch *run;
    enum rpr_method method;
} measured[] = {
    {"rpr_start", start, RPR_AGGRESSIVE},
    {"rpr_tick", tick, RPR_AGGRESSIVE},
    {"rpr_offer_client, class A", client_a, RPR_AGGRESSIVE},
    {"rpr_offer_client, class B", client_b, RPR_AGGRESSIVE},
    {"rpr_offer_client, class C", client_c, RPR_AGGRESSIVE},
    {"rpr_offer_transit, class A", transit_a, RPR_AGGRESSIVE},
    {"rpr_offer_transit, class C", transit_c, RPR_AGGRESSIVE},
    {"rpr_offer_control", control, RPR_AGGRESSIVE},
    {"rpr_select", choice, RPR_AGGRESSIVE},
    {"rpr_age", age, RPR_AGGRESSIVE},
    {"rpr_age, conservative", age, RPR_CONSERVATIVE},
    {"rpr_read_frame", read_frame, RPR_AGGRESSIVE},
    {"rpr_write_frame", write_frame, RPR_AGGRESSIVE},
    {"rpr_show", show, RPR_AGGRESSIVE},
};

static void restore(const uint8_t *image) {
    for (unsigned i = 0; i < STATIONS; i++) memcpy(stations[i], image, N);
}

/* A call on one of these stations. */
struct batch_on {
    batch *run;
    const uint8_t *image;
};

/* A side carries the call out, and answers and leaves what plain C does. */
static void compare(const struct calls *side, const struct batch_on *on, const char *name) {
    restore(on->image);
    uint64_t answer = on->run(&plain);
    memcpy(theirs, stations, sizeof stations);
    memcpy(their_room, room, sizeof room);
    restore(on->image);
    if (on->run(side) != answer || memcmp(stations, theirs, sizeof stations) != 0 || memcmp(room, their_room, sizeof room) != 0) {
        printf("%s: ", name);
        give_up("the sides differ");
    }
    if ((answer & 0xff) != 0) { /* 16 times a refusal's number is less than 256 */
        printf("%s: ", name);
        give_up("a call is refused");
    }
}

/* Some batches are timed one by one, the copying between them is not. */
static double run_batches(const struct calls *side, const void *of, uint64_t *answers) {
    const struct batch_on *on = of;
    double ns = 0;
    *answers = 0;
    for (int i = 0; i < REPEATS; i++) {
        restore(on->image);
        double from = now();
        *answers += on->run(side);
        ns += now() - from;
    }
    return ns;
}

/* Adds 40,000 bytes, by which an interval shows an lpAddRate of 40,000 / lpCoef. */
static uint64_t add(uint8_t *station) {
    uint64_t refused = 0;
    for (int i = 0; i < 40; i++) {
        refused |= rpr_refusal_of(rpr_offer_client(station, N, RPR_CLASS_C, 1000, 30));
        refused |= rpr_refusal_of(rpr_select(station, N));
    }
    return refused;
}

/* With a round trip of one interval, and an interval behind it in which it entered at an lpAddRate above rampDn, the conservative
 * station with 240 frames steps down at the next. The settings that were set up last are those of rpr_start. */
static void set_up(enum rpr_method method, uint8_t (*image)[N]) {
    static const struct rpr_shaper shaper = {.lo_limit = 2000, .hi_limit = 1000000, .amount = 5000};
    struct rpr_settings s = {.own_address_high = 0x0200, .own_address_low = 0x5e000001, .own_ringlet = 0, .mtu = 1500,
                             .m = shaper, .a = shaper, .b = shaper, .c = shaper, .d = shaper,
                             .control_queue = 1000000, .primary_queue = 1000000, .secondary_queue = 1000000, .low_threshold = 50000,
                             .weight = 2, .rate_unit = 4, .ticks_per_interval = 10, .unreserved_rate = 2000000000,
                             .age_coef = RPR_DEFAULT_AGE_COEF, .lp_coef = RPR_DEFAULT_LP_COEF, .ramp_up = RPR_DEFAULT_RAMP_UP, .stations = 63,
                             .method = method, .round_trip = 1, .ramp_dn = 64};
    uint8_t *empty = image[EMPTY], *few = image[FEW], *full = image[FULL];
    uint64_t refused = 0;
    memcpy(settings, &s, sizeof s);
    refused |= rpr_start(settings, sizeof settings, empty, N);
    for (int i = 0; i < 10; i++) refused |= rpr_tick(empty, N, 1, 1, 1);
    memcpy(few, empty, N);
    refused |= rpr_offer_transit(few, N, RPR_CLASS_A, 1000, 3, 0);
    refused |= rpr_offer_transit(few, N, RPR_CLASS_C, 1000, 3, 1);
    memcpy(full, empty, N);
    if (method == RPR_CONSERVATIVE) refused |= add(full);
    for (unsigned i = 0; i < 120; i++) {
        refused |= rpr_offer_transit(full, N, RPR_CLASS_A, 16 + 37 * i % 1400, 1 + i % 62, 0);
        refused |= rpr_offer_transit(full, N, RPR_CLASS_B + i % 2, 16 + 41 * i % 1400, 1 + i % 62, 1);
    }
    refused |= rpr_read_frame(full, N, heard, sizeof heard);
    if (method == RPR_CONSERVATIVE) refused |= rpr_age(full, N);
    if (refused != 0 || rpr_station_length() != N) give_up("the stations to measure are refused");
}

void bench_station(void) {
    set_up(RPR_CONSERVATIVE, images[RPR_CONSERVATIVE]);
    set_up(RPR_AGGRESSIVE, images[RPR_AGGRESSIVE]);
    for (size_t k = 0; k < STATES; k++) {
        bench_heading("the station's calls, ns per call", states[k]);
        for (size_t i = 0; i < sizeof measured / sizeof measured[0]; i++) {
            const struct batch_on on = {measured[i].run, images[measured[i].method][k]};
            compare(&library, &on, measured[i].name);
            compare(&same, &on, measured[i].name);
            bench_row(&(struct row){measured[i].name, states[k], measured[i].run == start ? BOUND_START : BOUND_STATION, REPEATS * STATIONS, 1, run_batches, &on, NULL});
        }
    }
}
