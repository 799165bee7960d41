/*
 * The control software of a ring station (IEEE 802.17), as a C host sees it.
 *
 * host/example.c is the page to start from. Documents 01 and 02 say what each call does, this header how it is called.
 *
 * Numbers.   A number parameter is a uint64_t, so that no value is cut on its way in: 65,600 is not taken for 64.
 * Slices.    A slice is a pointer and then a length in bytes, at any alignment. A pointer is never null, even where
 *            the length is 0. A slice lent for writing (not const) overlaps no other slice of the call.
 * Answers.   Every call but rpr_version and rpr_station_length answers one uint64_t, read as eight bytes, byte 0 the
 *            lowest. Byte 0 is 0 where the call was carried out, else the number of a refusal, and then every lent byte
 *            is as it was and every other byte 0, but that a 6 says how far short: compare byte 0 with a number, not
 *            the whole answer. rpr_answer.h has the refusals, and the functions that take an answer apart.
 * Memory.    The library keeps, allocates and prints nothing. A station is RPR_STATION_LENGTH bytes of the host's. It
 *            holds no address: between calls it may be copied, moved and stored. Its layout is the library's own.
 * Threads.   There is no global state: calls may run at the same time, as long as no byte that one of them may write
 *            is lent to another. So: one call at a time on a station.
 * Machines.  The words of settings, readings and summaries are little-endian. On a little-endian machine the structs
 *            below are those bytes; on a big-endian one put and get each word byte by byte instead.
 *
 * Beyond lending such slices of real memory, a caller has no condition to meet: whatever else is wrong is refused.
 */
#ifndef RPR_H
#define RPR_H

#include <stddef.h>
#include <stdint.h>

#include "rpr_answer.h"

#ifdef __cplusplus
extern "C" {
#define RPR_HOLDS(condition) static_assert(condition, #condition)
#else
#define RPR_HOLDS(condition) _Static_assert(condition, #condition)
#endif

/* RPR_ANSWERS marks a call whose answer must be looked at; RPR_LENT one that also takes no null pointer. */
#if defined(__GNUC__)
#define RPR_ANSWERS __attribute__((warn_unused_result))
#define RPR_LENT __attribute__((warn_unused_result, nonnull))
#else
#define RPR_ANSWERS
#define RPR_LENT
#endif

/* ---- version ---- */

/* The version of this interface. The first number grows where a host has to change what it calls or lends: from 2.0 on
 * a station is longer, from 3.0 on settings name the number of stations, which no frame's hops may reach, from 4.0 on
 * the method. What a host of an earlier version lends is refused with 2, and nothing is touched: compile it anew with
 * `stations`, `round_trip`, `ramp_dn` (0 is refused with 1) and `method` (0 is as before); start its stations anew.
 * From 4.1 on records may have runs; a host that lends none goes on as it is. */
#define RPR_VERSION "4.1"

/* The version of the library that is linked: 256 times the first number and the second. Nothing is refused. */
RPR_ANSWERS uint64_t rpr_version(void);

/* ---- codes ---- */

/* The class of a frame. */
enum rpr_class {
    RPR_CLASS_A = 0, /* reserved; never fairness eligible */
    RPR_CLASS_B = 1, /* reserved up to its share, fairness eligible beyond it */
    RPR_CLASS_C = 2  /* what is left over: a client's is fairness eligible, a passing one where it is marked */
};

/* Yes or no: whether traffic waits, a frame is fairness eligible, a send was permitted and the like. */
enum rpr_yes_or_no { RPR_NO = 0, RPR_YES = 1 };

/* A side of the ring. Right goes to the next higher number. */
enum rpr_side {
    RPR_SIDE_UNSPECIFIED = 0, /* as the default */
    RPR_LEFT = 1,
    RPR_RIGHT = 2,
    RPR_SIDE_DEFAULT = 3 /* the shorter side, of protected frames the shorter that reaches; on a tie right from the
                            lower index and left from the higher */
};

/* Whether a frame may take the other side where links are down. */
enum rpr_protection {
    RPR_PROTECTION_UNSPECIFIED = 0, /* as protected */
    RPR_PROTECTED = 1,              /* it takes a side that reaches, or is refused */
    RPR_UNPROTECTED = 2             /* it takes its side regardless */
};

/* How a ring passes a break. */
enum rpr_ring {
    RPR_STEERING = 0, /* the sender chooses a side that reaches: ttl is the distance */
    RPR_WRAPPING = 1  /* frames turn to the opposite ringlet: ttl is 63 */
};

/* How a station finds localFairRate: at once, the only method up to version 3, or in steps (rpr_age). */
enum rpr_method { RPR_AGGRESSIVE = 0, RPR_CONSERVATIVE = 1 };

/* Where a selected frame came from. */
enum rpr_origin {
    RPR_FROM_NOTHING = 0, /* nothing is to be sent now */
    RPR_FROM_CONTROL = 1,
    RPR_FROM_PRIMARY = 2,
    RPR_FROM_SECONDARY = 3,
    RPR_FROM_STAGE = 4
};

/* ---- lengths in bytes ---- */

RPR_HOLDS(sizeof(size_t) == sizeof(uint64_t)); /* the library is for 64-bit machines */

enum {
    RPR_STATION_LENGTH = 1806,     /* a station; rpr_station_length() answers the same of the library that is linked */
    RPR_SETTINGS_LENGTH = 136,     /* struct rpr_settings */
    RPR_READING_LENGTH = 124,      /* struct rpr_reading */
    RPR_FRAME_LENGTH = 12,         /* a fairness frame */
    RPR_SUMMARY_LENGTH = 48,       /* struct rpr_summary */
    RPR_RECORD_HEADER_LENGTH = 14, /* the header of a shaper record */
    RPR_RECORD_EVENT_LENGTH = 6,   /* each of its events */
    RPR_RECORD_RUN_LENGTH = 10     /* each of its runs, whatever their counts */
};

/* ---- settings ---- */

/* The coefficients that document 01 names as default. A word of 0 does not stand for them: it is outside its range. */
enum { RPR_DEFAULT_AGE_COEF = 4, RPR_DEFAULT_LP_COEF = 64, RPR_DEFAULT_RAMP_UP = 64 };

/* The settings of one shaper. Its credit starts at lo_limit; a send is permitted while the credit is above lo_limit. */
struct rpr_shaper {
    uint32_t lo_limit; /* mtu to 65,536; the most credit that a tick leaves while no traffic waits */
    uint32_t hi_limit; /* lo_limit + 1 to 1,048,576; the most that it leaves while traffic waits */
    uint32_t amount;   /* 0 to 65,535 bytes that each tick adds */
};

/* The settings of a station: 34 words. Rates are in bytes per age_coef intervals, sizes and queues in bytes. */
struct rpr_settings {
    uint32_t own_address_high;   /* the first two bytes of the own address: 0 to 65,535 */
    uint32_t own_address_low;    /* the last four */
    uint32_t own_ringlet;        /* 0 or 1; fairness frames, heard or written, bear the other one's bit */
    uint32_t mtu;                /* 64 to 9,216: the largest frame */
    struct rpr_shaper m;         /* control frames */
    struct rpr_shaper a;         /* client frames of class A */
    struct rpr_shaper b;         /* client frames of class B, within their share */
    struct rpr_shaper c;         /* client frames of class C, and of B beyond the share; a tick adds the smaller of its
                                    amount and allowedRate / (age_coef * ticks_per_interval) */
    struct rpr_shaper d;         /* downstream: client B and C, and the secondary queue while it has space for an mtu */
    uint32_t control_queue;      /* mtu to 1,048,576 bytes */
    uint32_t primary_queue;      /* mtu to 1,048,576 bytes */
    uint32_t secondary_queue;    /* 2 mtu to 1,048,576 bytes */
    uint32_t low_threshold;      /* 0 to secondary_queue: holding more, the station is locally congested */
    uint32_t weight;             /* 1 to 255: this station's part of a fair rate */
    uint32_t rate_unit;          /* 1 to 1,024: a rate of 1 in a fairness frame stands for weight * rate_unit */
    uint32_t ticks_per_interval; /* 1 to 10,000: the ticks that the host lets pass from one rpr_age to the next */
    uint32_t unreserved_rate;    /* 1 to 2,147,483,647: the most that the station is ever allowed */
    uint32_t age_coef;           /* 1, 2, 4, 8 or 16: how slowly counters fade */
    uint32_t lp_coef;            /* 16, 32, 64, 128, 256 or 512: how slowly smoothed rates follow them */
    uint32_t ramp_up;            /* 16, 32, 64, 128, 256 or 512: how slowly allowed and local fair rates rise again */
    uint32_t stations;           /* 2 to 63: how many stations the ring has; no frame has so many hops to go, or more */
    uint32_t method;             /* enum rpr_method; the next two are for RPR_CONSERVATIVE, their ranges for both */
    uint32_t round_trip;         /* 1 to 1,000 intervals that a step of localFairRate waits after the last change */
    uint32_t ramp_dn;            /* 16, 32, 64, 128, 256 or 512: how slowly localFairRate falls */
};

RPR_HOLDS(sizeof(struct rpr_settings) == RPR_SETTINGS_LENGTH);
RPR_HOLDS(offsetof(struct rpr_settings, control_queue) == 4 * 19 && offsetof(struct rpr_settings, ramp_dn) == 4 * 33);

/* ---- a station: start, ticks, frames in, frames out ---- */

/* Each call on a started station refuses 2 where it is not rpr_station_length() bytes, then 1 where what it holds is
 * outside its range. A station that rpr_start made and only these calls changed is always in range. */

/* The number of bytes that a station takes. Nothing is refused. */
RPR_ANSWERS uint64_t rpr_station_length(void);

/* Makes a fresh station with these settings, whatever its bytes were. Refuses 2 (settings or station of another
 * length), 1 (a setting outside its range). */
RPR_LENT uint64_t rpr_start(const void *settings, size_t settings_length, void *station, size_t station_length);

/* One tick of the host's clock: adds to each shaper's credit, and cuts the sum to hi_limit where its traffic waits,
 * else to lo_limit. RPR_YES or RPR_NO says whether client traffic of class A, B, C waits. Refuses 2, 1, 3 (neither). */
RPR_LENT uint64_t rpr_tick(void *station, size_t station_length, uint64_t a_waits, uint64_t b_waits, uint64_t c_waits);

/* Offers a client frame: class (enum rpr_class), size (16 to mtu) and hops to its destination (1 to 63, below the
 * number of stations: the distance that rpr_choose answers, not the ttl). Its shapers are charged and it goes to the
 * stage. Answers the mark that it got, fairness eligible or not: rpr_mark_of. Refuses 2, 1, 3 (class, size, or hops not
 * 1 to 63), 13, 5, 6 (rpr_shortfall_of), 7. (The parameter is class_ because class is a word of C++.) */
RPR_LENT uint64_t rpr_offer_client(void *station, size_t station_length, uint64_t class_, uint64_t size, uint64_t hops);

/* Takes in a frame that passes through: class, size and the hops that it has to go, in the same ranges, and the mark
 * that it bears, RPR_YES for fairness eligible, which only B and C may be. A goes to the primary queue, B and C to the
 * secondary. Refuses 2, 1, 3 (class, size, hops or mark), 13, 4. */
RPR_LENT uint64_t rpr_offer_transit(void *station, size_t station_length, uint64_t class_, uint64_t size, uint64_t hops,
                                    uint64_t eligible);

/* Puts a control frame into the control queue: class A, 1 hop, which any ring has. Refuses 2, 1, 3 (size), 4. */
RPR_LENT uint64_t rpr_offer_control(void *station, size_t station_length, uint64_t size);

/* Takes out the frame to be sent next, and charges and counts it; where nothing is to be sent now the answer is 0 and
 * the station as it was. Answers origin, class, hops, mark and size: rpr_selected_origin and so on. Refuses 2, 1. */
RPR_LENT uint64_t rpr_select(void *station, size_t station_length);

/* ---- a station: fairness ---- */

enum { RPR_FULL_RATE = 65535 }; /* the rate in a fairness frame that says: not congested */

/* The aging interval: smooths the rates, looks whether the station is locally congested, sets the allowed rates and the
 * own rate. To be called every ticks_per_interval ticks. Refuses 2, 1. RPR_CONSERVATIVE: with the secondary queue over
 * low_threshold the station enters congestion, localFairRate at lpAddRate, at most unreserved_rate, and lowers it every
 * round_trip intervals by its ramp_dn-th part; with the queue not over, it raises it as often by the ramp_up-th part of
 * its distance to unreserved_rate, and leaves congestion, at unreserved_rate, as soon as that is below ramp_up. */
RPR_LENT uint64_t rpr_age(void *station, size_t station_length);

/* Hears a fairness frame of RPR_FRAME_LENGTH bytes: RPR_FULL_RATE clears downstream congestion, another rate sets it.
 * Refuses 2 (another length, frame type, header kind, or the own ringlet's bit), 1, 3 (ttl not 193 to 255), 13 (its
 * hops, 256 - ttl, reach the number of stations, whatever its rate), 11. */
RPR_LENT uint64_t rpr_read_frame(void *station, size_t station_length, const void *frame, size_t frame_length);

/* Writes the fairness frame that the station advertises now, and changes nothing in the station: its own rate, or the
 * received one with ttl less 1, or RPR_FULL_RATE, which also takes the place of a rate received from stations - 1 hops
 * away. Refuses 2 (a room that is not RPR_FRAME_LENGTH bytes too), 1. */
RPR_LENT uint64_t rpr_write_frame(const void *station, size_t station_length, void *room, size_t room_length);

/* ---- a station: reading it ---- */

/* What a queue, or the stage, holds. */
struct rpr_held {
    uint32_t frames; /* at most 128; in the stage 0 or 1 */
    uint32_t bytes;  /* the sum of their sizes */
};

/* Bytes of fairness eligible frames. */
struct rpr_rates {
    uint32_t add_rate, fw_rate;                     /* added from the stage, forwarded from the secondary queue */
    uint32_t add_rate_congested, fw_rate_congested; /* the same of frames that went beyond the congested station */
};

/* A reading of a station: 31 words. */
struct rpr_reading {
    uint32_t credit_m, credit_a, credit_b, credit_c, credit_d; /* the shapers' credits: 0 to hi_limit */
    struct rpr_held control, primary, secondary, stage;
    struct rpr_rates counted;        /* addRate .. fwRateCongested: counted as sent, faded at each interval */
    struct rpr_rates smoothed;       /* lpAddRate .. lpFwRateCongested, the rates shown: they reach a steady counter */
    uint32_t local_fair_rate;        /* by the method if locally congested, else unreserved_rate */
    uint32_t allowed_rate;           /* what the station may add */
    uint32_t allowed_rate_congested; /* what it may add beyond the congested station */
    uint32_t own_rate;               /* local_fair_rate as a fairness frame bears it: 0 to 65,534 */
    uint32_t locally_congested;      /* RPR_YES or RPR_NO, as of the last interval; RPR_CONSERVATIVE: till it leaves */
    uint32_t downstream_congested;   /* RPR_YES or RPR_NO, as of the last frame heard */
    uint32_t received_ttl;           /* 257 - stations to 255: while congested, the station is 256 less this away */
    uint32_t received_address_high;  /* the first two bytes of that station's address */
    uint32_t received_address_low;   /* the last four */
    uint32_t received_rate;          /* 0 to 65,534 */
};

RPR_HOLDS(sizeof(struct rpr_reading) == RPR_READING_LENGTH);
RPR_HOLDS(offsetof(struct rpr_reading, counted) == 4 * 13 && offsetof(struct rpr_reading, received_rate) == 4 * 30);

/* Leaves a reading of the station in the room. Refuses 2 (a room that is not RPR_READING_LENGTH bytes too), 1. */
RPR_LENT uint64_t rpr_show(const void *station, size_t station_length, void *room, size_t room_length);

/* ---- ringlet choice ---- */

/* Which side a frame takes from station `own` to station `target` of a ring of 2 to 63, numbered from 0. `links` has a
 * bit for each link, set if usable: link k joins k and k + 1, the last joins 0. Codes: enum rpr_side, rpr_protection,
 * rpr_ring. Answers side, distance, ttl and wrap mark: rpr_choice_side and so on. Refuses 1 (not 2 to 63 stations),
 * 3 (an index, equal indexes, a bit beyond the links, a code), 8. By default both ends of a pair, given the same
 * `links` and `protection`, cross the same links, so that a cut breaks both ways between them or none. Up to version
 * 1.1 a tie went right from either end: who relied on it must name RPR_RIGHT where twice the distance is `stations`. */
RPR_ANSWERS uint64_t rpr_choose(uint64_t stations, uint64_t own, uint64_t target, uint64_t links, uint64_t side,
                                uint64_t protection, uint64_t ring);

/* What becomes of a wrap-marked frame whose home side is RPR_LEFT or RPR_RIGHT. Answers whether it is delivered and the
 * hops that it moves: rpr_path_delivered, rpr_path_hops. Refuses 1, 3, as rpr_choose. */
RPR_ANSWERS uint64_t rpr_path(uint64_t stations, uint64_t own, uint64_t target, uint64_t links, uint64_t home);

/* ---- shaper records ---- */

/* A record is a header and then items, little-endian. Header: length 14, kind 16, mtu (2 bytes each), lo_limit and
 * hi_limit (4 bytes each). An item is an event: length 6, kind, and the amount or size (2 bytes each); or, from 4.1 on,
 * a run, which stands for so many equal ticks: length 10, kind 4, the ticks' kind, 1 or 2, their amount, and their
 * count, 2 to 65,535 (2 bytes each). The old form has no runs. Wherever a record is read it may be of either form, and
 * its events are counted unrolled. A piece of a cut record is its header and then the piece's items; a cut within a run
 * leaves a shorter run, or a single tick, on each side. */
enum rpr_kind {
    RPR_WAITING_TICK = 1, /* a tick while traffic waits, and its amount */
    RPR_IDLE_TICK = 2,    /* a tick while none waits, and its amount */
    RPR_SEND = 3,         /* a send, and its size: 16 to mtu */
    RPR_RUN = 4,          /* a run: the kind of its ticks, their amount, their count */
    RPR_HEADER = 16
};

enum {
    RPR_MOST_EVENTS = 1000000, /* the most events of a record, and of a summary */
    RPR_MOST_COUNT = 65535,    /* the most ticks of a run */
    RPR_RECORD_MOST = RPR_RECORD_HEADER_LENGTH + RPR_RECORD_EVENT_LENGTH * RPR_MOST_EVENTS /* bytes: 6,000,014 */
};

/* A summary of a shaper record: what its events do to any starting credit. */
struct rpr_summary {
    uint32_t mtu, lo_limit, hi_limit, events;
    uint64_t accrued; /* bytes that ticks brought */
    uint64_t sent;    /* bytes that were sent */
    int64_t ceiling;  /* the most credit that can be left; it may be negative */
    uint64_t need;    /* the least starting credit that permits every send; hi_limit + 1 is "never" */
};

RPR_HOLDS(sizeof(struct rpr_summary) == RPR_SUMMARY_LENGTH);
RPR_HOLDS(offsetof(struct rpr_summary, accrued) == 16 && offsetof(struct rpr_summary, need) == 40);

/* Leaves in the room the summary of a record's bytes, of either form: a record and its rolled or unrolled form have the
 * same summary. Refuses 2 (a room that is not RPR_SUMMARY_LENGTH bytes), then the record's earliest fault, header first
 * and then item by item: 2, 1, 3 or 9. At an item: 9 (any byte behind 1,000,000 events), 2 (cut short, another length
 * than its kind's, no known kind), 3 (a send's size), 2 (the ticks' kind or the count of a run), 9 (a run that passes
 * 1,000,000 events). */
RPR_LENT uint64_t rpr_summarize(const void *record, size_t record_length, void *room, size_t room_length);

/* Leaves in the room the summary of the first's events and then the second's: of the whole record, where they are
 * summaries of its pieces in order. Refuses 2 (a slice that is not RPR_SUMMARY_LENGTH bytes), 3, 10, 9. */
RPR_LENT uint64_t rpr_join(const void *first, size_t first_length, const void *second, size_t second_length, void *room,
                           size_t room_length);

/* From a starting credit of 0 to hi_limit: whether every send was permitted, and the credit at the end. Answers
 * rpr_settled_permitted, rpr_settled_end_credit. Refuses 2, 3 (the summary or the credit outside its range). */
RPR_LENT uint64_t rpr_settle(const void *summary, size_t summary_length, uint64_t start);

/* ---- shorter records, and the way back ---- */

/* Leaves in the room a record of the old form with its equal ticks in runs: from the front, always the longest run that
 * can be, up to RPR_MOST_COUNT; a tick left alone stays a tick, and so does every send. Answers the bytes written,
 * rpr_written_of; bytes of the room behind them stay. They are never more than the record's own: as long a room is
 * enough. Refuses the record's earliest fault: 2 (a run too, whatever it holds), 1, 3 or 9; then 12, and then nothing
 * is written. */
RPR_LENT uint64_t rpr_roll(const void *record, size_t record_length, void *room, size_t room_length);

/* Leaves in the room a record, of either form, in the old form: each run as its ticks, one by one, all else as it is.
 * What rpr_roll left comes back byte for byte. Answers the bytes written, rpr_written_of; bytes of the room behind them
 * stay. They are 14 and 6 for each event that rpr_summarize counts: RPR_RECORD_MOST are enough for any record. Refuses
 * the record's earliest fault, as rpr_summarize: 2, 1, 3 or 9; then 12, and then nothing is written. */
RPR_LENT uint64_t rpr_unroll(const void *record, size_t record_length, void *room, size_t room_length);

#undef RPR_HOLDS
#undef RPR_ANSWERS
#undef RPR_LENT

#ifdef __cplusplus
}
#endif

#endif
