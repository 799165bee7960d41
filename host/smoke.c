/* Calls each function about records of the old form and about rings as a host would, and says what differs from documents 01 and 02. */
#include <stdlib.h>

#include "smoke_record.h"

/* ---- records ---- */

/* P1 to P5, and the record that the summary program prints. */
static void good_records(void) {
    summarize("P1", BYTES(HEADER), 0);
    holds("P1", 0, 0, 0, 300, 0);
    summarize("P2", BYTES(HEADER, WAITING(150), SEND(60)), 0);
    holds("P2", 2, 150, 60, 240, 0);
    summarize("P3", BYTES(HEADER, WAITING(150), SEND(60), SEND(64)), 0);
    holds("P3", 3, 150, 124, 176, 11);
    summarize("P4", BYTES(HEADER, SEND(60), SEND(60)), 0);
    holds("P4", 2, 0, 120, 180, 161);
    summarize("P5", BYTES(HEADER, SEND(64), SEND(64), SEND(64), SEND(64), SEND(64)), 0);
    holds("P5", 5, 0, 320, -20, 301);
    summarize("the program's record", BYTES(HEADER, WAITING(150), SEND(60), SEND(64), IDLE(50)), 0);
    holds("the program's record", 4, 200, 124, 100, 11);
}

/* The earliest fault counts, header first. */
static void bad_records(void) {
    static const uint8_t good[] = {HEADER, WAITING(150), SEND(60), SEND(64), IDLE(50)};
    summarize("no bytes", good, 0, RPR_BYTES);
    summarize("a cut header", good, 13, RPR_BYTES);
    summarize("a cut event", good, sizeof good - 1, RPR_BYTES);
    summarize("a header of another length", BYTES(15, 0, 16, 0, 64, 0, 100, 0, 0, 0, 44, 1, 0, 0), RPR_BYTES);
    summarize("a header of another kind", BYTES(14, 0, 17, 0, 64, 0, 100, 0, 0, 0, 44, 1, 0, 0), RPR_BYTES);
    summarize("mtu 63", BYTES(14, 0, 16, 0, 63, 0, 100, 0, 0, 0, 44, 1, 0, 0), RPR_SETTING);
    summarize("loLimit below the mtu", BYTES(14, 0, 16, 0, 64, 0, 63, 0, 0, 0, 44, 1, 0, 0), RPR_SETTING);
    summarize("hiLimit equal to loLimit", BYTES(14, 0, 16, 0, 64, 0, 100, 0, 0, 0, 100, 0, 0, 0), RPR_SETTING);
    summarize("an event of another length", BYTES(HEADER, 7, 0, 1, 0, 150, 0, 0), RPR_BYTES);
    summarize("an unknown kind", BYTES(HEADER, 6, 0, 5, 0, 150, 0), RPR_BYTES);
    summarize("a second header", BYTES(HEADER, HEADER), RPR_BYTES);
    summarize("a send of 15", BYTES(HEADER, SEND(15)), RPR_RANGE);
    summarize("a send over the mtu", BYTES(HEADER, SEND(65)), RPR_RANGE);
    summarize("3, then 2", BYTES(HEADER, SEND(65), 6, 0, 5, 0, 0, 0), RPR_RANGE);
    summarize("2, then 3", BYTES(HEADER, 6, 0, 5, 0, 0, 0, SEND(65)), RPR_BYTES);
    lend(RECORD, good, sizeof good);
    for (size_t length = 0; length < 2 * RPR_SUMMARY_LENGTH; length++) {
        if (length == RPR_SUMMARY_LENGTH) continue;
        lend_filled(ROOM, 0xaa, length);
        answered("another room", rpr_summarize(LENT(RECORD), LENT(ROOM)), ROOM, RPR_BYTES);
    }
}

/* ---- summaries ---- */

static void lend_made_up(int slice, struct rpr_summary summary) { lend(slice, &summary, sizeof summary); }

static void joins(void) {
    lend_summary(FIRST, BYTES(HEADER, WAITING(150), SEND(60)));
    lend_summary(SECOND, BYTES(HEADER, SEND(64)));
    join("P2 and a send", 0);
    holds("P2 and a send", 3, 150, 124, 176, 11);
    lend_summary(SECOND, BYTES(HEADER));
    join("P2 and nothing", 0);
    holds("P2 and nothing", 2, 150, 60, 240, 0);
    lend_summary(SECOND, BYTES(14, 0, 16, 0, 64, 0, 100, 0, 0, 0, 45, 1, 0, 0));
    join("another hiLimit", RPR_SETTINGS_DIFFER);
    lend_made_up(SECOND, (struct rpr_summary){64, 100, 300, 1, 65536, 0, 300, 0});
    join("accrued over 65,535 for each event", RPR_RANGE);
    lend_made_up(SECOND, (struct rpr_summary){63, 100, 301, 0, 0, 0, 301, 0});
    join("a summary's settings are 3, before 10", RPR_RANGE);
    lend_filled(SECOND, 0, RPR_SUMMARY_LENGTH - 1);
    join("a short summary is 2, before 3", RPR_BYTES);
}

static void settle(const char *what, uint64_t start, uint64_t want) {
    answered(what, rpr_settle(LENT(FIRST), start), NONE, want);
}

/* P3: accrued 150, sent 124, ceiling 176, need 11. */
static void settlements(void) {
    lend_summary(FIRST, BYTES(HEADER, WAITING(150), SEND(60), SEND(64)));
    uint64_t settled = rpr_settle(LENT(FIRST), 11);
    expect("from 11: number", rpr_refusal_of(settled), 0);
    expect("from 11: permitted", rpr_settled_permitted(settled), RPR_YES);
    expect("from 11: end", rpr_settled_end_credit(settled), 37); /* 11 + 150 - 124 */
    settle("from 10", 10, 0);
    settle("from 300", 300, (uint64_t)1 << 8 | (uint64_t)176 << 32); /* 326, cut to the ceiling */
    settle("from 301", 301, RPR_RANGE);
    settle("from 2 to the 32", (uint64_t)1 << 32, RPR_RANGE);
    lend_made_up(FIRST, (struct rpr_summary){64, 100, 300, 0, 0, 0, 300, 302});
    settle("need over hiLimit + 1", 100, RPR_RANGE);
    lend_filled(FIRST, 0, RPR_SUMMARY_LENGTH + 1);
    settle("a long summary is 2, before 3", 100, RPR_BYTES);
}

/* A million events are fine; any byte more, or one event more, is 9. */
static void a_million(void) {
    static const uint8_t header[] = {HEADER}, event[] = {WAITING(150)};
    size_t length = sizeof header + (size_t)RPR_MOST_EVENTS * sizeof event;
    uint8_t *record = malloc(length + 1);
    if (record == NULL) exit(2);
    memcpy(record, header, sizeof header);
    for (size_t at = sizeof header; at < length; at += sizeof event) memcpy(record + at, event, sizeof event);
    record[length] = 0;
    lend_filled(ROOM, 0xaa, RPR_SUMMARY_LENGTH);
    answered("a byte more", rpr_summarize(record, length + 1, LENT(ROOM)), ROOM, RPR_MANY_EVENTS);
    answered("a million events", rpr_summarize(record, length, LENT(ROOM)), ROOM, 0);
    holds("a million events", 1000000, 150000000, 0, 300, 0);
    free(record);
    lend(FIRST, LENT(ROOM));
    lend_summary(SECOND, BYTES(HEADER, IDLE(50)));
    join("a million and one", RPR_MANY_EVENTS);
    lend_summary(SECOND, BYTES(HEADER));
    join("a million and none", 0);
}

/* ---- ways ---- */

static void chosen(const char *what, uint64_t answer, unsigned side, unsigned distance, unsigned ttl, unsigned mark) {
    expect(what, rpr_refusal_of(answer), 0);
    expect(what, rpr_choice_side(answer), side);
    expect(what, rpr_choice_distance(answer), distance);
    expect(what, rpr_choice_ttl(answer), ttl);
    expect(what, rpr_choice_wrap_mark(answer), mark);
    expect(what, answer >> 40, 0);
}

/* Five stations, 0 to 2: links 0 and 1 are on the right side, links 2, 3 and 4 on the left. */
static void choices(void) {
    enum { SAFE = RPR_PROTECTED, BOLD = RPR_UNPROTECTED, STEER = RPR_STEERING, WRAP = RPR_WRAPPING };
    chosen("P10", rpr_choose(5, 0, 2, 0x1f, RPR_SIDE_DEFAULT, SAFE, STEER), RPR_RIGHT, 2, 2, 0);
    chosen("P10, link 1 down", rpr_choose(5, 0, 2, 0x1d, RPR_SIDE_DEFAULT, SAFE, STEER), RPR_LEFT, 3, 3, 0);
    chosen("unspecified", rpr_choose(5, 0, 2, 0x1d, 0, 0, WRAP), RPR_LEFT, 3, 63, 1);
    chosen("right, where it reaches", rpr_choose(5, 0, 2, 0x1d, RPR_RIGHT, SAFE, WRAP), RPR_LEFT, 3, 63, 1);
    chosen("right, regardless", rpr_choose(5, 0, 2, 0x1d, RPR_RIGHT, BOLD, WRAP), RPR_RIGHT, 2, 63, 0);
    chosen("the shorter, regardless", rpr_choose(5, 0, 2, 0, RPR_SIDE_DEFAULT, BOLD, STEER), RPR_RIGHT, 2, 2, 0);
    chosen("the last link", rpr_choose(63, 62, 0, (uint64_t)1 << 62, RPR_LEFT, SAFE, STEER), RPR_RIGHT, 1, 1, 0);
    expect("P11", rpr_choose(5, 0, 2, 0x15, RPR_RIGHT, SAFE, STEER), RPR_NO_WAY);
    expect("P11, default", rpr_choose(5, 0, 2, 0x15, RPR_SIDE_DEFAULT, SAFE, WRAP), RPR_NO_WAY);
}

/* Four stations, 1 and 3: links 1 and 2 lie right of 1 and left of 3, links 3 and 0 on the other side. */
static void ties(void) {
    enum { SAFE = RPR_PROTECTED, BOLD = RPR_UNPROTECTED, STEER = RPR_STEERING, WRAP = RPR_WRAPPING };
    chosen("a tie, from the lower", rpr_choose(4, 1, 3, 0xf, RPR_SIDE_DEFAULT, SAFE, STEER), RPR_RIGHT, 2, 2, 0);
    chosen("a tie, from the higher", rpr_choose(4, 3, 1, 0xf, RPR_SIDE_DEFAULT, SAFE, STEER), RPR_LEFT, 2, 2, 0);
    chosen("a tie, nothing specified", rpr_choose(4, 3, 1, 0xf, 0, 0, WRAP), RPR_LEFT, 2, 63, 1);
    chosen("a tie, regardless", rpr_choose(4, 3, 1, 0x9, RPR_SIDE_DEFAULT, BOLD, STEER), RPR_LEFT, 2, 2, 0);
    chosen("a tie, link 1 down, there", rpr_choose(4, 1, 3, 0xd, RPR_SIDE_DEFAULT, SAFE, STEER), RPR_LEFT, 2, 2, 0);
    chosen("a tie, link 1 down, back", rpr_choose(4, 3, 1, 0xd, RPR_SIDE_DEFAULT, SAFE, STEER), RPR_RIGHT, 2, 2, 0);
    chosen("a tie, right named", rpr_choose(4, 3, 1, 0xf, RPR_RIGHT, SAFE, STEER), RPR_RIGHT, 2, 2, 0);
    chosen("two stations, there", rpr_choose(2, 0, 1, 0x3, RPR_SIDE_DEFAULT, SAFE, STEER), RPR_RIGHT, 1, 1, 0);
    chosen("two stations, back", rpr_choose(2, 1, 0, 0x3, RPR_SIDE_DEFAULT, SAFE, STEER), RPR_LEFT, 1, 1, 0);
    expect("a tie, links 1 and 3 down", rpr_choose(4, 3, 1, 0x5, RPR_SIDE_DEFAULT, SAFE, STEER), RPR_NO_WAY);
}

/* The two ends answer the same but for the side, which is the other. */
static void together(uint64_t stations, uint64_t a, uint64_t b, uint64_t links, uint64_t protection) {
    uint64_t there = rpr_choose(stations, a, b, links, RPR_SIDE_DEFAULT, protection, RPR_STEERING);
    uint64_t back = rpr_choose(stations, b, a, links, RPR_SIDE_DEFAULT, protection, RPR_STEERING);
    expect("a pair", rpr_refusal_of(there), 0);
    expect("a pair", there ^ back, (RPR_LEFT ^ RPR_RIGHT) << 8);
}

/* Each two stations of a ring of 62, with each link cut in turn and at last with none: with one cut some side reaches. */
static void pairs(void) {
    enum { STATIONS = 62 };
    uint64_t all = (UINT64_C(1) << STATIONS) - 1;
    for (uint64_t a = 0; a < STATIONS; a++)
        for (uint64_t b = 0; b < a; b++)
            for (uint64_t cut = 0; cut <= STATIONS; cut++) {
                uint64_t links = all & ~(UINT64_C(1) << cut);
                together(STATIONS, a, b, links, RPR_PROTECTED);
                together(STATIONS, a, b, links, RPR_UNPROTECTED);
            }
}

static void refused_choices(void) {
    expect("1 station", rpr_choose(1, 0, 0, 1, 9, 9, 9), RPR_SETTING);
    expect("64 stations", rpr_choose(64, 0, 2, 0x1f, 0, 0, 0), RPR_SETTING);
    expect("5 and 2 to the 32", rpr_choose(4294967301u, 0, 2, 0x1f, 0, 0, 0), RPR_SETTING);
    expect("own index 5", rpr_choose(5, 5, 2, 0x1f, 0, 0, 0), RPR_RANGE);
    expect("target index 5", rpr_choose(5, 0, 5, 0x1f, 0, 0, 0), RPR_RANGE);
    expect("the same index", rpr_choose(5, 2, 2, 0x1f, 0, 0, 0), RPR_RANGE);
    expect("a sixth link", rpr_choose(5, 0, 2, 0x3f, 0, 0, 0), RPR_RANGE);
    expect("side 4", rpr_choose(5, 0, 2, 0x1f, 4, 0, 0), RPR_RANGE);
    expect("protection 3", rpr_choose(5, 0, 2, 0x1f, 0, 3, 0), RPR_RANGE);
    expect("ring 2 is 3, before 8", rpr_choose(5, 0, 2, 0x15, 0, 0, 2), RPR_RANGE);
}

static void moved(const char *what, uint64_t answer, unsigned delivered, unsigned hops) {
    expect(what, rpr_refusal_of(answer), 0);
    expect(what, rpr_path_delivered(answer), delivered);
    expect(what, rpr_path_hops(answer), hops);
    expect(what, answer >> 24, 0);
}

static void paths(void) {
    moved("no break", rpr_path(5, 0, 2, 0x1f, RPR_RIGHT), RPR_YES, 2);
    moved("no break, left", rpr_path(5, 0, 2, 0x1f, RPR_LEFT), RPR_YES, 3);
    moved("P12", rpr_path(5, 0, 2, 0x1d, RPR_RIGHT), RPR_YES, 5);                /* 1, 0, 4, 3, 2; there it turns */
    moved("links 1 and 3 down", rpr_path(5, 0, 2, 0x15, RPR_RIGHT), RPR_NO, 10); /* to and fro, twice 5 hops */
    moved("both own links down", rpr_path(5, 0, 2, 0x0e, RPR_RIGHT), RPR_NO, 0);
    expect("1 station", rpr_path(1, 0, 0, 0, 9), RPR_SETTING);
    expect("target index 5", rpr_path(5, 0, 5, 0x1f, RPR_RIGHT), RPR_RANGE);
    expect("the same index", rpr_path(5, 2, 2, 0x1f, RPR_RIGHT), RPR_RANGE);
    expect("a sixth link", rpr_path(5, 0, 2, 0x3f, RPR_RIGHT), RPR_RANGE);
    expect("home side unspecified", rpr_path(5, 0, 2, 0x1f, RPR_SIDE_UNSPECIFIED), RPR_RANGE);
    expect("home side default", rpr_path(5, 0, 2, 0x1f, RPR_SIDE_DEFAULT), RPR_RANGE);
}

int main(void) {
    good_records();
    bad_records();
    joins();
    settlements();
    a_million();
    choices();
    ties();
    pairs();
    refused_choices();
    paths();
    return told("records and rings: the library answers as documents 01 and 02 say");
}
