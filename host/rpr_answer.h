/*
 * What the calls of rpr.h answer: the refusals by number, and functions that take an answer apart. rpr.h includes it.
 *
 * An answer is one uint64_t, read as eight bytes, byte 0 the lowest. Byte 0 is 0 where the call was carried out, else
 * the number of a refusal. The answers of rpr_version and rpr_station_length are plain numbers, and none of this.
 */
#ifndef RPR_ANSWER_H
#define RPR_ANSWER_H

#include <stdint.h>

#ifdef __cplusplus
extern "C" {
#endif

/* Why a call was refused. Where several apply the order is 2, 1, 3, 13, 11, 10, 9, 4, 5, 6, 7, 8, 12, and the first is
 * given; within a record the earliest fault counts instead, header first. */
enum rpr_refusal {
    RPR_CARRIED_OUT = 0, /* no refusal */

    /* What was lent or said makes no sense: the host has a fault, or passes on somebody else's. */
    RPR_SETTING = 1,      /* a setting, or a lent station's state, is outside its range */
    RPR_BYTES = 2,        /* bytes are not a whole record, frame or station: another length, or another form */
    RPR_RANGE = 3,        /* a frame, station index, summary (its settings too), starting credit or coded choice is
                             outside its range */
    RPR_BEYOND_RING = 13, /* a frame's hops reach the number of stations or more */

    /* Not now: the same call may be carried out after a tick, a selection, an aging interval or a fairness frame. */
    RPR_NO_ROOM = 4,    /* a frame's size exceeds the queue's space */
    RPR_STAGE_FULL = 5, /* the stage already holds a frame */
    RPR_NO_PERMIT = 6,  /* a needed shaper doesn't permit; rpr_shortfall_of says how far short */
    RPR_FAIR_RATE = 7,  /* the congested fair rate would be passed */

    /* About the ring, records and frames as they are. */
    RPR_NO_WAY = 8,           /* no usable way */
    RPR_MANY_EVENTS = 9,      /* over 1,000,000 events */
    RPR_SETTINGS_DIFFER = 10, /* joined summaries have different settings */
    RPR_OWN_ADDRESS = 11,     /* a fairness frame bears this station's own address */

    /* All else is well: the same call is carried out with more room. */
    RPR_SHORT_ROOM = 12 /* the room is too short for the bytes to be written */
};

/* Of any call's answer: the number of the refusal, or RPR_CARRIED_OUT. The functions below look at it first. */
static inline unsigned rpr_refusal_of(uint64_t answer) { return (unsigned)(answer & 0xff); }
#define RPR_IF(number) (rpr_refusal_of(answer) == (number) ? answer : 0) /* the answer that has this number */

/* rpr_offer_client refused with 6: the bytes missing, 1 to 65,537; 0 of any other answer, and up to version 1.2. It is
 * the least amount whose addition would make the credit of each needed shaper exceed its lo_limit: A for class A, C and
 * D for class C, and for class B too, which was tried as excess; its own share, B and D, may permit it sooner. */
static inline uint32_t rpr_shortfall_of(uint64_t answer) { return (uint32_t)(RPR_IF(RPR_NO_PERMIT) >> 32); }

/* The others read the answer of the call that they are named for; of a refusal they give 0.
 * rpr_offer_client: RPR_YES where the frame is marked fairness eligible. */
static inline unsigned rpr_mark_of(uint64_t answer) { return (unsigned)(RPR_IF(0) >> 32 & 0xff); }

/* rpr_select: the frame's origin (enum rpr_origin), class (enum rpr_class), hops, fairness eligible mark and size. */
static inline unsigned rpr_selected_origin(uint64_t answer) { return (unsigned)(RPR_IF(0) >> 8 & 0xff); }
static inline unsigned rpr_selected_class(uint64_t answer) { return (unsigned)(RPR_IF(0) >> 16 & 0xff); }
static inline unsigned rpr_selected_hops(uint64_t answer) { return (unsigned)(RPR_IF(0) >> 24 & 0xff); }
static inline unsigned rpr_selected_eligible(uint64_t answer) { return (unsigned)(RPR_IF(0) >> 32 & 0xff); }
static inline unsigned rpr_selected_size(uint64_t answer) { return (unsigned)(RPR_IF(0) >> 48); }

/* rpr_choose: RPR_LEFT or RPR_RIGHT, the hops to the target on that side, the ttl, and RPR_YES for the wrap mark. */
static inline unsigned rpr_choice_side(uint64_t answer) { return (unsigned)(RPR_IF(0) >> 8 & 0xff); }
static inline unsigned rpr_choice_distance(uint64_t answer) { return (unsigned)(RPR_IF(0) >> 16 & 0xff); }
static inline unsigned rpr_choice_ttl(uint64_t answer) { return (unsigned)(RPR_IF(0) >> 24 & 0xff); }
static inline unsigned rpr_choice_wrap_mark(uint64_t answer) { return (unsigned)(RPR_IF(0) >> 32 & 0xff); }

/* rpr_path: RPR_YES where delivered, and the hops moved. */
static inline unsigned rpr_path_delivered(uint64_t answer) { return (unsigned)(RPR_IF(0) >> 8 & 0xff); }
static inline unsigned rpr_path_hops(uint64_t answer) { return (unsigned)(RPR_IF(0) >> 16 & 0xff); }

/* rpr_settle: RPR_YES where every send was permitted, and the credit at the end, 0 where not permitted. */
static inline unsigned rpr_settled_permitted(uint64_t answer) { return (unsigned)(RPR_IF(0) >> 8 & 0xff); }
static inline uint32_t rpr_settled_end_credit(uint64_t answer) { return (uint32_t)(RPR_IF(0) >> 32); }

/* rpr_roll, rpr_unroll: the bytes written, from the front of the room on: a record has 14 or more. */
static inline uint32_t rpr_written_of(uint64_t answer) { return (uint32_t)(RPR_IF(0) >> 32); }

/* What a refusal says, in short: of an answer, or of a refusal's number. */
static inline const char *rpr_refusal_text(uint64_t answer) {
    switch (rpr_refusal_of(answer)) {
        case RPR_CARRIED_OUT: return "carried out";
        case RPR_SETTING: return "a setting, or a lent station's state, is outside its range";
        case RPR_BYTES: return "bytes are not a whole record, frame or station";
        case RPR_RANGE: return "a frame, station index, summary, starting credit or coded choice is outside its range";
        case RPR_BEYOND_RING: return "a frame's hops reach the number of stations or more";
        case RPR_NO_ROOM: return "a frame's size exceeds the queue's space";
        case RPR_STAGE_FULL: return "the stage already holds a frame";
        case RPR_NO_PERMIT: return "a needed shaper doesn't permit";
        case RPR_FAIR_RATE: return "the congested fair rate would be passed";
        case RPR_NO_WAY: return "no usable way";
        case RPR_MANY_EVENTS: return "over 1,000,000 events";
        case RPR_SETTINGS_DIFFER: return "joined summaries have different settings";
        case RPR_OWN_ADDRESS: return "a fairness frame bears this station's own address";
        case RPR_SHORT_ROOM: return "the room is too short for the bytes to be written";
        default: return "no number of this library";
    }
}

#undef RPR_IF

#ifdef __cplusplus
}
#endif

#endif
