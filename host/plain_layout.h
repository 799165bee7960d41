/* The bytes of a station, for plain C and what edges and the fuzz target change of them: where things stand, and how numbers are read and written. */
#ifndef PLAIN_LAYOUT_H
#define PLAIN_LAYOUT_H

#include <stdint.h>
#include <string.h>

/* Where things stand in the 1,806 bytes of a station. */
enum { CREDITS = 0, CONTROL = 20, PRIMARY = 538, SECONDARY = 1056, STAGE = 1574, FAIR = 1578, SETTINGS = 1670, STATION_LENGTH = 1806 };

/* A queue: 128 slots of 4 bytes, the bytes held, the first slot's number and the number of frames. */
enum { SLOTS = 128, HELD = 512, HEAD = 516, COUNT = 517 };

enum { FRAME_LENGTH = 12, READING_LENGTH = 124, SETTINGS_LENGTH = 136 };

/* The shapers, in the order of their credits and settings. */
enum { M, A, B, C, D, SHAPERS };

/* The words of the fairness state. The counters of the four rates come first, and then their stored numbers, two words each. */
enum {
    ADD_RATE, FW_RATE, ADD_RATE_CONGESTED, FW_RATE_CONGESTED, RATES, STORED = RATES, LOCAL_FAIR_RATE = STORED + 2 * RATES, ALLOWED_RATE,
    ALLOWED_RATE_CONGESTED, OWN_RATE, LOCALLY, SINCE, DOWNSTREAM, RECEIVED_TTL, RECEIVED_HIGH, RECEIVED_LOW, RECEIVED_RATE, FAIR_WORDS
};

/* The words of the settings. */
enum {
    OWN_HIGH, OWN_LOW, RINGLET, MTU, LO_LIMIT, HI_LIMIT, AMOUNT, CONTROL_BYTES = LO_LIMIT + 3 * SHAPERS, PRIMARY_BYTES,
    SECONDARY_BYTES, LOW_THRESHOLD, WEIGHT, RATE_UNIT, TICKS, UNRESERVED, AGE_COEF, LP_COEF, RAMP_UP, STATIONS, METHOD,
    ROUND_TRIP, RAMP_DN
};

enum { MOST_RATE = 2147483647, FULL_RATE = 65535, LEAST_TTL = 193, MOST_TTL = 255, LEAST_STATIONS = 2, MOST_STATIONS = 63 };

enum { AGGRESSIVE, CONSERVATIVE, MOST_ROUND_TRIP = 1000 };

/* ---- numbers in bytes ---- */

static inline uint32_t get(const uint8_t *p) {
    uint32_t v;
    memcpy(&v, p, sizeof v);
    return v;
}

static inline void put(uint8_t *p, uint32_t v) { memcpy(p, &v, sizeof v); }

static inline uint32_t word(const uint8_t *words, unsigned at) { return get(words + 4 * at); }
static inline uint32_t setting(const uint8_t *station, unsigned at) { return word(station + SETTINGS, at); }
static inline uint32_t fair(const uint8_t *station, unsigned at) { return word(station + FAIR, at); }
static inline void set_fair(uint8_t *station, unsigned at, uint64_t v) { put(station + FAIR + 4 * at, (uint32_t)v); }

/* x over a coefficient, rounded down. Every coefficient in range is a power of two. */
static inline uint64_t part(uint64_t x, uint32_t coef) { return x >> __builtin_ctz(coef); }

/* The stored number of a rate. Over lpCoef, rounded down, it is the smoothed rate that is shown. */
static inline unsigned stored_at(unsigned rate) { return FAIR + 4 * STORED + 8 * rate; }
static inline uint64_t stored(const uint8_t *station, unsigned rate) {
    uint64_t v;
    memcpy(&v, station + stored_at(rate), sizeof v);
    return v;
}

static inline void set_stored(uint8_t *station, unsigned rate, uint64_t v) { memcpy(station + stored_at(rate), &v, sizeof v); }
static inline uint64_t shown(const uint8_t *station, unsigned rate) { return part(stored(station, rate), setting(station, LP_COEF)); }

static inline uint64_t least(uint64_t a, uint64_t b) { return a < b ? a : b; }

/* A frame's word: size in bits 0 to 13, hops 14 to 19, class 20 and 21, the mark 22. */
static inline uint32_t size_of(uint32_t frame) { return frame & 0x3fff; }
static inline uint32_t hops_of(uint32_t frame) { return frame >> 14 & 0x3f; }
static inline uint32_t class_of(uint32_t frame) { return frame >> 20 & 3; }
static inline uint32_t mark_of(uint32_t frame) { return frame >> 22; }

/* The ttl of a fairness frame that comes from the last hop of the ring, stations - 1: the least that a station takes. */
static inline uint32_t last_ttl(const uint8_t *station) { return 256 - (setting(station, STATIONS) - 1); }

/* ---- plain_range.c ---- */

/* The 136 bytes of settings are in range. */
int plain_settings_ok(const uint8_t *settings);

/* The settings, credits, queues, stage and fairness state of a station are in range. */
int plain_station_ok(const uint8_t *station);

#endif
