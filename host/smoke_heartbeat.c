/* Asks of patterns whether they fit, repeated, as a host would, and says what differs from document 02. */
#include "rpr_heartbeat.h"
#include "smoke_record.h"

#define PERMITTED(credit) (UINT64_C(1) << 8 | (uint64_t)(credit) << 32)

enum { NOT_PERMITTED = 0, MOST = RPR_MOST_EVENTS };

/* The pattern that was lent last, so many times. No byte changes. */
static void again(const char *what, uint64_t repeats, uint64_t want) { answered(what, rpr_heartbeat(LENT(RECORD), repeats), NONE, want); }

static void beats(const char *what, const uint8_t *bytes, size_t length, uint64_t repeats, uint64_t want) {
    lend(RECORD, bytes, length);
    again(what, repeats, want);
}

/* ---- answers, from a credit of 100, which is loLimit; hiLimit is 300 ---- */

static void no_repeats(void) {
    beats("a tick, not once", BYTES(HEADER, WAITING(20)), 0, PERMITTED(100));
    beats("a send, not once", BYTES(HEADER, SEND(16)), 0, PERMITTED(100));
    beats("what is never permitted, not once", BYTES(HEADER, IDLE(20), SEND(16)), 0, PERMITTED(100));
    again("what is never permitted, once", 1, NOT_PERMITTED);
    again("what is never permitted, the most times", MOST / 2, NOT_PERMITTED);
    beats("nothing, not once", BYTES(HEADER), 0, PERMITTED(100));
    again("nothing, once", 1, PERMITTED(100));
    again("nothing, over a million times", MOST + 1, PERMITTED(100));
    again("nothing, the largest number of times", UINT64_MAX, PERMITTED(100));
}

static void one_event(void) {
    beats("a waiting tick", BYTES(HEADER, WAITING(20)), 1, PERMITTED(120));
    again("5 waiting ticks", 5, PERMITTED(200));
    again("9 waiting ticks", 9, PERMITTED(280));
    again("10 waiting ticks reach hiLimit", 10, PERMITTED(300));
    again("11 waiting ticks are cut", 11, PERMITTED(300));
    again("a million waiting ticks", MOST, PERMITTED(300));
    beats("an idle tick is cut to loLimit", BYTES(HEADER, IDLE(20)), 1, PERMITTED(100));
    again("a million idle ticks", MOST, PERMITTED(100));
    beats("a tick of nothing", BYTES(HEADER, WAITING(0)), MOST, PERMITTED(100));
    beats("a send at loLimit", BYTES(HEADER, SEND(16)), 1, NOT_PERMITTED);
    again("a million sends", MOST, NOT_PERMITTED);
}

/* Each run of a pattern ends where it began, above, or below. */
static void gains(void) {
    beats("60 in, 60 out", BYTES(HEADER, WAITING(60), SEND(60)), 1, PERMITTED(100));
    again("60 in, 60 out, 3 times", 3, PERMITTED(100));
    again("60 in, 60 out, the most times", MOST / 2, PERMITTED(100));
    beats("60 in, 50 out", BYTES(HEADER, WAITING(60), SEND(50)), 1, PERMITTED(110));
    again("60 in, 50 out, 14 times", 14, PERMITTED(240));
    again("60 in, 50 out, 15 times", 15, PERMITTED(250));
    again("60 in, 50 out, 16 times: 250 + 60 is cut to 300", 16, PERMITTED(250));
    again("60 in, 50 out, the most times", MOST / 2, PERMITTED(250));
    beats("50 in, 60 out", BYTES(HEADER, WAITING(50), SEND(60)), 1, PERMITTED(90));
    again("50 in, 60 out, 4 times", 4, PERMITTED(60));
    again("50 in, 60 out, 5 times", 5, PERMITTED(50));
    again("50 in, 60 out, 6 times: the last send comes at 100", 6, NOT_PERMITTED);
    again("50 in, 60 out, the most times", MOST / 2, NOT_PERMITTED);
    beats("1 in, 64 out", BYTES(HEADER, WAITING(1), SEND(64)), 1, PERMITTED(37));
    again("1 in, 64 out, twice", 2, NOT_PERMITTED);
    /* 100 + 70 - 64 = 106; the idle tick cuts that to 100, and then 5 come. So it goes on from 105 to 105. */
    beats("a cut within", BYTES(HEADER, WAITING(70), SEND(64), IDLE(9), WAITING(5)), 1, PERMITTED(105));
    again("a cut within, twice", 2, PERMITTED(105));
    again("a cut within, the most times", MOST / 4, PERMITTED(105));
}

/* The largest limits: mtu 9,216, loLimit 65,536, hiLimit 1,048,576. Each run gains 65,535 - 9,216 = 56,319, up to 1,048,576 - 9,216. */
static void largest(void) {
    static const uint8_t pattern[] = {14, 0, 16, 0, 0, 36, 0, 0, 1, 0, 0, 0, 16, 0, 6, 0, 1, 0, 255, 255, 6, 0, 3, 0, 0, 36};
    beats("the largest limits, not once", pattern, sizeof pattern, 0, PERMITTED(65536));
    again("the largest limits", 1, PERMITTED(121855));
    again("the largest limits, 17 times", 17, PERMITTED(1022959));
    again("the largest limits, 18 times", 18, PERMITTED(1039360));
    again("the largest limits, the most times", MOST / 2, PERMITTED(1039360));
}

/* Under the same limits every repeat counts: a tick of 1, up to hiLimit; and 9,215 in, 9,216 out, where the send of the 9,216th run would come at loLimit. */
static void counts(void) {
    static const uint8_t up[] = {14, 0, 16, 0, 0, 36, 0, 0, 1, 0, 0, 0, 16, 0, WAITING(1)};
    static const uint8_t down[] = {14, 0, 16, 0, 0, 36, 0, 0, 1, 0, 0, 0, 16, 0, 6, 0, 1, 0, 255, 35, 6, 0, 3, 0, 0, 36};
    lend(RECORD, up, sizeof up);
    for (uint64_t repeats = 0; repeats <= 983040; repeats += 1 + repeats / 16) again("a tick of 1", repeats, PERMITTED(65536 + repeats));
    again("a tick of 1, up to hiLimit", 983040, PERMITTED(1048576));
    again("a tick of 1, a million times", MOST, PERMITTED(1048576));
    lend(RECORD, down, sizeof down);
    for (uint64_t repeats = 0; repeats <= 9215; repeats += 1 + repeats / 16) again("one less", repeats, PERMITTED(65536 - repeats));
    again("one less, 9,215 times", 9215, PERMITTED(56321));
    again("one less, 9,216 times", 9216, NOT_PERMITTED);
}

static void answers(void) {
    lend(RECORD, BYTES(HEADER, WAITING(60), SEND(50)));
    uint64_t fits = rpr_heartbeat(LENT(RECORD), 15), refused = rpr_heartbeat(LENT(RECORD), RPR_MOST_EVENTS);
    lend(RECORD, BYTES(HEADER, SEND(50)));
    uint64_t fits_not = rpr_heartbeat(LENT(RECORD), 1);
    expect("permitted, as a host reads it", rpr_settled_permitted(fits), RPR_YES);
    expect("its end", rpr_settled_end_credit(fits), 250);
    expect("not permitted is no refusal", rpr_refusal_of(fits_not) | rpr_settled_permitted(fits_not) | rpr_settled_end_credit(fits_not), 0);
    expect("permitted is no refusal", rpr_refusal_of(fits), 0);
    expect("of a refusal nothing is read", rpr_settled_permitted(refused) | rpr_settled_end_credit(refused), 0);
    expect("the most events of a pattern", RPR_HEARTBEAT_EVENTS, 256);
    expect("its bytes", RPR_HEARTBEAT_MOST, 1550);
}

/* ---- 256 events ---- */

static uint8_t pattern[MOST_LENT];

/* So many waiting ticks of 0, one by one, and then these items. How many bytes that is. */
static size_t behind(size_t events, const uint8_t *items, size_t length) {
    static const uint8_t header[] = {HEADER}, tick[] = {WAITING(0)};
    memcpy(pattern, header, sizeof header);
    for (size_t i = 0; i < events; i++) memcpy(pattern + HEADER_LENGTH + sizeof tick * i, tick, sizeof tick);
    memcpy(pattern + HEADER_LENGTH + sizeof tick * events, items, length);
    return HEADER_LENGTH + sizeof tick * events + length;
}

/* The items behind so many events, and behind a run of as many, come to this once, not at all to loLimit, and the largest number of times to 9. A refusal is the same each
 * time. */
static void at(const char *what, size_t events, const uint8_t *items, size_t length, uint64_t want) {
    const uint8_t run[] = {HEADER, RUN(WAITS, 0, events)};
    for (int rolled = 0; rolled < 2; rolled++) {
        size_t bytes = behind(rolled ? 0 : events, items, length);
        if (rolled) {
            memcpy(pattern, run, sizeof run);
            memcpy(pattern + sizeof run, items, length);
            bytes = sizeof run + length;
        }
        beats(what, pattern, bytes, 1, want);
        again(what, 0, rpr_refusal_of(want) == 0 ? PERMITTED(100) : want);
        again(what, UINT64_MAX, rpr_refusal_of(want) == 0 ? RPR_MANY_EVENTS : want);
    }
}

static void the_256th(void) {
    at("the 256th is a tick", 255, BYTES(WAITING(7)), PERMITTED(107));
    at("the 256th is a send", 255, BYTES(SEND(16)), NOT_PERMITTED);
    at("the last two are a run", 254, BYTES(RUN(WAITS, 3, 2)), PERMITTED(106));
    at("the last 56 are a run", 200, BYTES(RUN(WAITS, 3, 56)), PERMITTED(268));
    at("256 as two runs", 128, BYTES(RUN(IDLES, 3, 128)), PERMITTED(100));
    at("the 256th is a send of 65", 255, BYTES(SEND(65)), RPR_RANGE);
    at("the 256th is a send of 15", 255, BYTES(SEND(15)), RPR_RANGE);
    at("the 256th is of no kind", 255, BYTES(6, 0, 5, 0, 7, 0), RPR_BYTES);
    at("the 256th is of another length", 255, BYTES(7, 0, 1, 0, 7, 0, 0), RPR_BYTES);
    at("the 256th is cut short", 255, BYTES(6, 0, 1, 0, 7), RPR_BYTES);
    at("256 ticks", 256, (const uint8_t *)"", 0, PERMITTED(100));
    beats("256 in one run", BYTES(HEADER, RUN(WAITS, 7, 256)), 1, PERMITTED(300));
}

static void past_the_256th(void) {
    at("a byte", 256, BYTES(6), RPR_RANGE);
    at("a byte of no item", 256, BYTES(255), RPR_RANGE);
    at("a 257th event", 256, BYTES(WAITING(7)), RPR_RANGE);
    at("a 257th event, cut short", 256, BYTES(6, 0, 1, 0, 7), RPR_RANGE);
    at("a 257th event of no kind", 256, BYTES(6, 0, 5, 0, 7, 0), RPR_RANGE);
    at("a run behind", 256, BYTES(RUN(WAITS, 7, 2)), RPR_RANGE);
    at("a run behind, with a wrong count", 256, BYTES(RUN(WAITS, 7, 0)), RPR_RANGE);
    at("a run behind, of another length", 256, BYTES(11, 0, 4, 0, 1, 0, 7, 0, 2, 0, 0), RPR_RANGE);
    at("two events too many", 255, BYTES(WAITING(7), WAITING(7), 9), RPR_RANGE);
    at("a run that passes by one", 255, BYTES(RUN(WAITS, 7, 2)), RPR_RANGE);
    at("a run that passes by 65,534", 255, BYTES(RUN(WAITS, 7, 65535)), RPR_RANGE);
    at("a run that passes, and a wrong event", 254, BYTES(RUN(WAITS, 7, 3), 6, 0, 5, 0, 7, 0), RPR_RANGE);
    beats("a run of 257", BYTES(HEADER, RUN(WAITS, 7, 257)), 1, RPR_RANGE);
    beats("a run of 512, of which a byte is 0", BYTES(HEADER, RUN(WAITS, 7, 512)), 1, RPR_RANGE);
    /* What is wrong with a run itself comes before that it passes. */
    at("a run that passes, of sends", 255, BYTES(RUN(RPR_SEND, 20, 2)), RPR_BYTES);
    at("a run that passes, of kind 0", 255, BYTES(RUN(0, 7, 65535)), RPR_BYTES);
    at("a run of one", 255, BYTES(RUN(WAITS, 7, 1)), RPR_BYTES);
    at("a run of none", 255, BYTES(RUN(WAITS, 7, 0)), RPR_BYTES);
    at("a run that passes, cut short", 255, BYTES(10, 0, 4, 0, 1, 0, 7, 0, 2), RPR_BYTES);
    at("a run that passes, of another length", 255, BYTES(11, 0, 4, 0, 1, 0, 7, 0, 2, 0, 0), RPR_BYTES);
    at("an event of a run's kind", 255, BYTES(6, 0, 4, 0, 1, 0), RPR_BYTES);
}

/* ---- refusals ---- */

/* The earliest fault counts, header first, however often the pattern is repeated. */
static void refused(const char *what, const uint8_t *bytes, size_t length, uint64_t want) {
    static const uint64_t repeats[] = {0, 1, MOST, MOST + 1, UINT64_MAX};
    lend(RECORD, bytes, length);
    for (size_t i = 0; i < sizeof repeats / sizeof repeats[0]; i++) again(what, repeats[i], want);
}

static void faults(void) {
    static const uint8_t good[] = {HEADER, WAITING(20), RUN(IDLES, 5, 3), SEND(20)};
    for (size_t length = 0; length < sizeof good; length++)
        if (length != 14 && length != 20 && length != 30) refused("cut short", good, length, RPR_BYTES);
    refused("a header of another length", BYTES(15, 0, 16, 0, 64, 0, 100, 0, 0, 0, 44, 1, 0, 0, 0), RPR_BYTES);
    refused("a header of another kind", BYTES(14, 0, 17, 0, 64, 0, 100, 0, 0, 0, 44, 1, 0, 0), RPR_BYTES);
    refused("mtu 63, and no kind", BYTES(14, 0, 16, 0, 63, 0, 100, 0, 0, 0, 44, 1, 0, 0, 6, 0, 5, 0, 7, 0), RPR_SETTING);
    refused("loLimit below the mtu", BYTES(14, 0, 16, 0, 64, 0, 63, 0, 0, 0, 44, 1, 0, 0), RPR_SETTING);
    refused("hiLimit as loLimit", BYTES(14, 0, 16, 0, 64, 0, 100, 0, 0, 0, 100, 0, 0, 0), RPR_SETTING);
    refused("mtu 63, and 257 ticks", BYTES(14, 0, 16, 0, 63, 0, 100, 0, 0, 0, 44, 1, 0, 0, RUN(WAITS, 7, 257)), RPR_SETTING);
    refused("a send of 15", BYTES(HEADER, SEND(15)), RPR_RANGE);
    refused("a send of 65", BYTES(HEADER, WAITING(20), SEND(65)), RPR_RANGE);
    refused("a second header", BYTES(HEADER, HEADER), RPR_BYTES);
    refused("a count of 1", BYTES(HEADER, RUN(WAITS, 7, 1)), RPR_BYTES);
    refused("ticks of kind 3", BYTES(HEADER, RUN(RPR_SEND, 20, 2)), RPR_BYTES);
    refused("3, then 2", BYTES(HEADER, SEND(65), RUN(WAITS, 7, 1)), RPR_RANGE);
    refused("2, then 3", BYTES(HEADER, RUN(WAITS, 7, 1), SEND(65)), RPR_BYTES);
    refused("2, then 257 ticks", BYTES(HEADER, 6, 0, 5, 0, 7, 0, RUN(WAITS, 7, 257)), RPR_BYTES);
    refused("257 ticks, then 2", BYTES(HEADER, RUN(WAITS, 7, 257), 6, 0, 5, 0, 7, 0), RPR_RANGE);
}

/* So many events fit in a million this often, and not once more; nor so often that the product, or the number itself, seems small where it is cut to 64 or 32 bits. */
static void most(const char *what, uint64_t events, uint64_t repeats, uint64_t want) {
    const uint64_t wraps[] = {UINT64_MAX / events + 1, UINT64_MAX / events + 2, UINT64_C(1) << 32, (UINT64_C(1) << 32) + 1, UINT64_C(1) << 63, UINT64_MAX - 1, UINT64_MAX};
    again(what, repeats, want);
    again(what, repeats + 1, RPR_MANY_EVENTS);
    for (size_t i = events == 1 ? 2 : 0; i < sizeof wraps / sizeof wraps[0]; i++) again(what, wraps[i], RPR_MANY_EVENTS);
}

static void a_million(void) {
    lend(RECORD, BYTES(HEADER, WAITING(20)));
    most("1 event", 1, 1000000, PERMITTED(300));
    lend(RECORD, BYTES(HEADER, IDLE(20), SEND(16)));
    most("2 events that are never permitted", 2, 500000, NOT_PERMITTED);
    lend(RECORD, BYTES(HEADER, WAITING(20), RUN(WAITS, 1, 2)));
    most("3 events", 3, 333333, PERMITTED(300));
    lend(RECORD, BYTES(HEADER, RUN(IDLES, 1, 255)));
    most("255 events", 255, 3921, PERMITTED(100));
    lend(RECORD, pattern, behind(255, BYTES(WAITING(7))));
    again("256 events, twice", 2, PERMITTED(114));
    most("256 events", 256, 3906, PERMITTED(300));
}

/* ---- the same by other ways ---- */

/* Patterns that gain, lose, stand still, are cut within, or are never permitted; each second one is the one before it, its equal ticks in a run. */
static const struct {
    size_t length;
    uint8_t items[64];
} patterns[] = {
    {24, {WAITING(20), WAITING(20), WAITING(20), SEND(50)}},
    {16, {RUN(WAITS, 20, 3), SEND(50)}},
    {30, {WAITING(25), WAITING(25), SEND(60), IDLE(4), IDLE(4)}},
    {26, {RUN(WAITS, 25, 2), SEND(60), RUN(IDLES, 4, 2)}},
    {24, {WAITING(30), WAITING(30), SEND(40), SEND(20)}},
    {22, {RUN(WAITS, 30, 2), SEND(40), SEND(20)}},
    {36, {IDLE(9), IDLE(9), IDLE(9), WAITING(70), SEND(64), IDLE(9)}},
    {28, {RUN(IDLES, 9, 3), WAITING(70), SEND(64), IDLE(9)}},
    {18, {IDLE(9), IDLE(9), SEND(16)}},
    {16, {RUN(IDLES, 9, 2), SEND(16)}},
    {24, {WAITING(250), SEND(64), SEND(64), SEND(64)}},
};

enum { PATTERNS = sizeof patterns / sizeof patterns[0], TIMES = 40 };

/* The record in which a pattern is written out so many times: its bytes. */
static size_t write_out(size_t i, size_t times) {
    size_t bytes = behind(0, patterns[i].items, 0);
    for (size_t k = 0; k < times; k++, bytes += patterns[i].length) memcpy(pattern + bytes, patterns[i].items, patterns[i].length);
    return bytes;
}

static uint64_t asked(size_t i, uint64_t repeats) {
    size_t bytes = write_out(i, 1);
    return rpr_heartbeat(pattern, bytes, repeats);
}

/* rpr_settle, from loLimit, of the summary of the record that is written out. */
static void written_out(void) {
    for (size_t i = 0; i < PATTERNS; i++)
        for (size_t times = 0; times <= TIMES; times++) {
            size_t bytes = write_out(i, times);
            struct rpr_summary sum;
            expect("a record that is written out", rpr_summarize(pattern, bytes, &sum, sizeof sum), 0);
            expect("as it is written out", asked(i, times), rpr_settle(&sum, sizeof sum, sum.lo_limit));
        }
}

static void either_form(void) {
    for (size_t i = 0; i + 1 < PATTERNS; i += 2)
        for (uint64_t repeats = 0; repeats <= MOST; repeats = 3 * repeats + 1) expect("either form", asked(i, repeats), asked(i + 1, repeats));
}

/* Where one run is permitted and ends at loLimit or above, every number of repeats within the limit is. Some are steady and some are not. */
static void steady(void) {
    unsigned kinds[2] = {0, 0};
    for (size_t i = 0; i < PATTERNS; i++) {
        uint64_t once = asked(i, 1);
        int is_steady = rpr_settled_permitted(once) && rpr_settled_end_credit(once) >= 100;
        kinds[is_steady]++;
        for (uint64_t repeats = 1; is_steady && rpr_refusal_of(asked(i, repeats)) == 0; repeats += 1 + repeats / 50)
            expect("steady", rpr_settled_permitted(asked(i, repeats)) && rpr_settled_end_credit(asked(i, repeats)) >= 100, 1);
    }
    expect("patterns that are steady", kinds[1], 7);
    expect("patterns that are not", kinds[0], 4);
}

int main(void) {
    no_repeats();
    one_event();
    gains();
    largest();
    counts();
    answers();
    the_256th();
    past_the_256th();
    faults();
    a_million();
    written_out();
    either_form();
    steady();
    return told("heartbeats: the library answers as document 02 says");
}
