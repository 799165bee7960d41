/*
 * Both methods over the same congested minute: two stations, alike but for the setting `method`, for tools/picture.
 *
 * Three stations upstream copy in bursts, each in its own rhythm, and the station's client copies all the time. Both
 * stations are offered the same frames at the same ticks, and the link takes frames from both at the same moments.
 * Nobody upstream heeds what a station tells, so that nothing differs but the method. The first line printed has the
 * settings that the lines go by; then comes a line for each interval. Every answer is looked at; anything unexpected
 * ends the program with status 1.
 */
#include <stdio.h>
#include <stdlib.h>

#include "rpr.h"

enum {
    INTERVALS = 600,
    TICKS_PER_INTERVAL = 10, /* of 10 ms each */
    SENDS_PER_TICK = 4,      /* what the link carries */
    MTU = 1500,              /* and the size of every frame, as in bulk copies */
    HOPS = 5,                /* of every frame */
    METHODS = RPR_CONSERVATIVE + 1
};

/* In a tick the link carries 6,000 bytes. Half of that is not reserved: a rate of 3,000 x 10 ticks x ageCoef 4. Of this
 * the client may add two thirds. The low threshold is an eighth of the queue. */
static const struct rpr_settings alike = {
    .own_address_high = 0x0200, .own_address_low = 0x5e000001, .own_ringlet = 0, .mtu = MTU,
    .m = {MTU, 6000, 100}, .a = {MTU, 6000, 30}, .b = {MTU, 6000, 200},
    .c = {MTU, 12000, 2000}, .d = {MTU, 12000, 3000},
    .control_queue = 6000, .primary_queue = 16000, .secondary_queue = 128000, .low_threshold = 16000,
    .weight = 1, .rate_unit = 4, .ticks_per_interval = TICKS_PER_INTERVAL, .unreserved_rate = 120000,
    .age_coef = RPR_DEFAULT_AGE_COEF, .lp_coef = RPR_DEFAULT_LP_COEF, .ramp_up = RPR_DEFAULT_RAMP_UP,
    .stations = 16, .round_trip = 5, .ramp_dn = 64};

/* The bulk copies upstream, in ticks: from when until when they last, and how often a burst begins, and its length.
 * In a burst a frame comes every second tick, a quarter of what is not reserved. */
static const struct copy {
    unsigned from, until, every, burst;
} copies[] = {{500, 4500, 130, 80}, {700, 4700, 190, 110}, {900, 4900, 290, 170}};

/* The answer of a call that must be carried out. */
static uint64_t carried_out(const char *call, uint64_t answer) {
    if (rpr_refusal_of(answer) == RPR_CARRIED_OUT) return answer;
    fprintf(stderr, "%s: refused %u, %s\n", call, rpr_refusal_of(answer), rpr_refusal_text(answer));
    exit(1);
}

static void start(uint8_t *station, uint32_t method) {
    struct rpr_settings settings = alike;
    settings.method = method;
    carried_out("start", rpr_start(&settings, sizeof settings, station, RPR_STATION_LENGTH));
}

/* How many frames come from upstream in a tick. */
static unsigned frames_at(unsigned tick) {
    unsigned frames = 0;
    for (size_t i = 0; i < sizeof copies / sizeof copies[0]; i++) {
        unsigned within = tick % copies[i].every;
        if (tick >= copies[i].from && tick < copies[i].until && within < copies[i].burst && within % 2 == 0) frames++;
    }
    return frames;
}

/* A tick: what comes from upstream is taken in, and before each send the client offers a frame. Refusal 6 means: not
 * now, the shapers do not permit. */
static void run_tick(uint8_t *station, unsigned from_upstream) {
    carried_out("tick", rpr_tick(station, RPR_STATION_LENGTH, RPR_NO, RPR_NO, RPR_YES));
    for (unsigned i = 0; i < from_upstream; i++)
        carried_out("offer_transit",
                    rpr_offer_transit(station, RPR_STATION_LENGTH, RPR_CLASS_C, MTU, HOPS, RPR_YES));
    for (unsigned i = 0; i < SENDS_PER_TICK; i++) {
        uint64_t answer = rpr_offer_client(station, RPR_STATION_LENGTH, RPR_CLASS_C, MTU, HOPS);
        if (rpr_refusal_of(answer) != RPR_NO_PERMIT) carried_out("offer_client", answer);
        carried_out("select", rpr_select(station, RPR_STATION_LENGTH));
    }
}

/* The aging interval, and what the station shows after it. */
static void age(uint8_t *station) {
    struct rpr_reading r;
    carried_out("age", rpr_age(station, RPR_STATION_LENGTH));
    carried_out("show", rpr_show(station, RPR_STATION_LENGTH, &r, sizeof r));
    printf("  %13u  %11u  %9u  %9u", r.local_fair_rate, r.allowed_rate, r.locally_congested, r.secondary.bytes);
}

static void print_heading(void) {
    printf("unreservedRate %u, low threshold %u, ageCoef %u, round trip %u\n", alike.unreserved_rate,
           alike.low_threshold, alike.age_coef, alike.round_trip);
    printf("interval");
    for (unsigned method = 0; method < METHODS; method++) printf("  localFairRate  allowedRate  congested  secondary");
    putchar('\n');
}

int main(void) {
    static uint8_t stations[METHODS][RPR_STATION_LENGTH];
    for (unsigned method = 0; method < METHODS; method++) start(stations[method], method);
    print_heading();
    for (unsigned interval = 0; interval < INTERVALS; interval++) {
        printf("%8u", interval + 1);
        for (unsigned method = 0; method < METHODS; method++) {
            for (unsigned i = 0; i < TICKS_PER_INTERVAL; i++)
                run_tick(stations[method], frames_at(interval * TICKS_PER_INTERVAL + i));
            age(stations[method]);
        }
        putchar('\n');
    }
    return fflush(stdout) == 0 ? 0 : 1;
}
