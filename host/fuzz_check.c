/*
 * One call, and what must hold of it. Each slice lies alone between two pages that may not be touched, flush with one of
 * them, so that a read or write outside it ends the program; on the other side are guard bytes.
 */
#define _DEFAULT_SOURCE
#include "fuzz.h"

#include "plain_layout.h"

#include <stdio.h>
#include <stdlib.h>
#include <string.h>
#include <sys/mman.h>
#include <unistd.h>

#define REFUSES(a, b, c, d) (1u << (a) | 1u << (b) | 1u << (c) | 1u << (d))
#define BYTE(at, most) ((uint64_t)(most) << 8 * (at))

/* Of each call: the refusals it can give, and the bits its answer may have where it is carried out. Refused with 6 it says how
 * far short: 1 to 65,537. */
static const struct {
    unsigned refusals;
    uint64_t bits;
} promised[CALLS] = {
    [call_start] = {REFUSES(2, 1, 2, 1), 0},
    [call_tick] = {REFUSES(2, 1, 3, 3), 0},
    [call_offer_client] = {REFUSES(2, 1, 3, 13) | REFUSES(5, 6, 7, 7), BYTE(4, 1)},
    [call_offer_transit] = {REFUSES(2, 1, 3, 13) | REFUSES(4, 4, 4, 4), 0},
    [call_offer_control] = {REFUSES(2, 1, 3, 4), 0},
    [call_select] = {REFUSES(2, 1, 2, 1), BYTE(1, 7) | BYTE(2, 3) | BYTE(3, 63) | BYTE(4, 1) | BYTE(6, 0x3fff)},
    [call_age] = {REFUSES(2, 1, 2, 1), 0},
    [call_read_frame] = {REFUSES(2, 1, 3, 13) | REFUSES(11, 11, 11, 11), 0},
    [call_write_frame] = {REFUSES(2, 1, 2, 1), 0},
    [call_show] = {REFUSES(2, 1, 2, 1), 0},
    [call_choose] = {REFUSES(1, 3, 8, 8), BYTE(1, 3) | BYTE(2, 63) | BYTE(3, 63) | BYTE(4, 1)},
    [call_path] = {REFUSES(1, 3, 1, 3), BYTE(1, 1) | BYTE(2, 127)},
    [call_summarize] = {REFUSES(2, 1, 3, 9), 0},
    [call_join] = {REFUSES(2, 3, 10, 9), 0},
    [call_settle] = {REFUSES(2, 3, 2, 3), BYTE(1, 1) | BYTE(4, 0x1fffff)},
    [call_station_length] = {0, UINT64_MAX},
    [call_version] = {0, UINT64_MAX},
    [call_roll] = {REFUSES(2, 1, 3, 9) | REFUSES(12, 12, 12, 12), BYTE(4, 0x7fffff)},
    [call_unroll] = {REFUSES(2, 1, 3, 9) | REFUSES(12, 12, 12, 12), BYTE(4, 0x7fffff)},
    [call_heartbeat] = {REFUSES(2, 1, 3, 9), BYTE(1, 1) | BYTE(4, 0x1fffff)},
};

/* ---- what the list says ---- */

const struct signature signatures[CALLS] = {
#define CALL(name, ...) {#name, {__VA_ARGS__}},
#define READS(x) {LENT_TO_READ, HOLDS_##x}
#define WRITES(x) {LENT_TO_WRITE, HOLDS_##x}
#define NUMBER(x) {GIVEN_NUMBER, NO_SLICE}
#define NOTHING {NONE, NO_SLICE}
#include "calls.def"
};

static int lent(const struct request *r, int at) { return signatures[r->call].parameters[at].kind >= LENT_TO_READ; }
static int written(const struct request *r, int at) { return signatures[r->call].parameters[at].kind == LENT_TO_WRITE; }

/* What a call is given: by the places of its parameters, and by their names. */
struct argument {
    uint8_t *bytes;
    size_t length;
    uint64_t number;
};
union arguments {
    struct argument at[PARAMETERS];
#define CALL(name, ...) struct name##_arguments { struct argument __VA_ARGS__; } name;
#define READS(x) x
#define WRITES(x) x
#define NUMBER(x) x
#define NOTHING none
#include "calls.def"
};

/* The call by one side, with slices that lie at these places. */
static uint64_t ask(const struct calls *side, const struct request *r, uint8_t *const places[PARAMETERS]) {
    union arguments all;
    for (int i = 0; i < PARAMETERS; i++) all.at[i] = (struct argument){places[i], r->slices[i].length, r->numbers[i]};
    switch (r->call) {
#define CALL(name, ...)                               \
    case call_##name: {                               \
        const struct name##_arguments *a = &all.name; \
        (void)a;                                      \
        return side->name(__VA_ARGS__);               \
    }
#define READS(x) a->x.bytes, a->x.length
#define WRITES(x) a->x.bytes, a->x.length
#define NUMBER(x) a->x.number
#define NOTHING
#include "calls.def"
        case CALLS: break;
    }
    abort();
}

void fail(const struct request *r, uint64_t answer, const char *what) {
    fprintf(stderr, "rpr_%s: %s; answer %#llx", signatures[r->call].name, what, (unsigned long long)answer);
    for (int i = 0; i < PARAMETERS && signatures[r->call].parameters[i].kind != NONE; i++) {
        if (lent(r, i)) fprintf(stderr, " [%zu bytes]", r->slices[i].length);
        else fprintf(stderr, " %llu", (unsigned long long)r->numbers[i]);
    }
    fputc('\n', stderr);
    abort();
}

/* How often each call was carried out, or refused with each number. */
enum { REFUSALS = RPR_BEYOND_RING + 1 };
static unsigned long long tally[CALLS][REFUSALS];

static void print_tally(void) {
    for (int c = 0; c < CALLS; c++) {
        fprintf(stderr, "rpr_%-14s carried out %llu", signatures[c].name, tally[c][0]);
        for (unsigned n = 1; n < REFUSALS; n++)
            if (promised[c].refusals >> n & 1) fprintf(stderr, ", refused %u: %llu", n, tally[c][n]);
        fputc('\n', stderr);
    }
}

/* ---- memory to lend ---- */

enum { GUARD = 64, GUARD_BYTE = 0xa5 };

static uint8_t *pages[PARAMETERS];
static size_t page;

/* A page for each slice, between two that may not be touched. */
static void open_pages(void) {
    atexit(print_tally);
    page = (size_t)sysconf(_SC_PAGESIZE);
    for (int i = 0; i < PARAMETERS; i++) {
        uint8_t *three = mmap(NULL, 3 * page, PROT_NONE, MAP_PRIVATE | MAP_ANONYMOUS, -1, 0);
        if (three == MAP_FAILED || mprotect(three + page, page, PROT_READ | PROT_WRITE) != 0) abort();
        pages[i] = three + page;
    }
}

/* Where a slice lies, and the guard bytes beside it. */
static uint8_t *place(int i, const struct slice *s) { return s->at_start ? pages[i] : pages[i] + page - s->length; }
static uint8_t *guard(int i, const struct slice *s) { return s->at_start ? pages[i] + s->length : pages[i] + page - s->length - GUARD; }

static void lend(int i, const struct slice *s) {
    memcpy(place(i, s), s->bytes, s->length);
    memset(guard(i, s), GUARD_BYTE, GUARD);
}

static int guarded(int i, const struct slice *s) {
    const uint8_t *g = guard(i, s);
    for (int k = 0; k < GUARD; k++)
        if (g[k] != GUARD_BYTE) return 0;
    return 1;
}

/* ---- what must hold ---- */

int in_range(const uint8_t *station) {
    uint8_t copy[RPR_STATION_LENGTH], ours[RPR_READING_LENGTH], theirs[RPR_READING_LENGTH];
    memcpy(copy, station, sizeof copy);
    uint64_t answer = rpr_show(copy, sizeof copy, ours, sizeof ours), other = plain_show(station, sizeof copy, theirs, sizeof theirs);
    if (answer == other && answer <= 1 && memcmp(copy, station, sizeof copy) == 0) return answer == 0;
    fprintf(stderr, "rpr_show: answer %#llx of a station of which plain C answers %#llx, or it changed\n", (unsigned long long)answer,
            (unsigned long long)other);
    abort();
}

/* The number of the refusal. The answer's form: a refusal that the call can give and nothing else but how far short, or only
 * bits that its answer has. A call that takes nothing refuses nothing. */
static unsigned check_answer(const struct request *r, uint64_t answer) {
    unsigned number = signatures[r->call].parameters[0].kind == NONE ? 0 : rpr_refusal_of(answer);
    if (number == 0) {
        if ((answer & ~promised[r->call].bits) != 0) fail(r, answer, "a stray bit in the answer");
    } else if ((answer ^ number) != (uint64_t)rpr_shortfall_of(answer) << 32) {
        fail(r, answer, "a refusal with other bytes");
    } else if (number >= REFUSALS || (promised[r->call].refusals >> number & 1) == 0) {
        fail(r, answer, "a refusal that the call can't give");
    } else if (number == RPR_NO_PERMIT && (rpr_shortfall_of(answer) < 1 || rpr_shortfall_of(answer) > 65537)) {
        fail(r, answer, "a shortfall that no shaper has");
    }
    return number;
}

/* Lent bytes: what is only read, or lent to a refused call, is as it was; nothing beside a slice has changed. */
static void check_slices(const struct request *r, uint64_t answer, unsigned number) {
    for (int i = 0; i < PARAMETERS; i++) {
        const struct slice *s = &r->slices[i];
        if (!lent(r, i)) continue;
        if (!guarded(i, s)) fail(r, answer, "bytes beside a slice changed");
        if (written(r, i) && number == 0) continue;
        if (memcmp(place(i, s), s->bytes, s->length) == 0) continue;
        fail(r, answer, written(r, i) ? "a refusal wrote" : "a slice that is only read changed");
    }
}

/* A station out of range is refused 1, if not 2; one in range is not, and stays so. Where it is made anew only what is left counts. */
static void check_station(const struct request *r, uint64_t answer, int at) {
    const struct slice *s = &r->slices[at];
    if (r->call == call_start) {
        if (answer == 0 && !in_range(place(at, s))) fail(r, answer, "a fresh station out of range");
    } else if (s->length != RPR_STATION_LENGTH) {
        return;
    } else if (!in_range(s->bytes)) {
        if (answer != RPR_SETTING && answer != RPR_BYTES) fail(r, answer, "a station out of range was not refused");
    } else if (answer == RPR_SETTING) {
        fail(r, answer, "a station in range was refused");
    } else if (!in_range(place(at, s))) {
        fail(r, answer, "a station left its range");
    }
}

/* By default both ends of a pair use the same links: the other end is refused alike, or answered the same but for the side. */
static void check_pair(const struct request *r, uint64_t answer, unsigned number) {
    const uint64_t *n = r->numbers;
    if (r->call != call_choose || (n[4] != RPR_SIDE_UNSPECIFIED && n[4] != RPR_SIDE_DEFAULT)) return;
    uint64_t back = rpr_choose(n[0], n[2], n[1], n[3], n[4], n[5], n[6]);
    if ((answer ^ back) != (number == 0 ? (RPR_LEFT ^ RPR_RIGHT) << 8 : 0)) fail(r, answer, "the two ends of a pair part");
}

/* An interval moves the rates shown towards their counters and not past them. A stored number stands exactly where the two are the same. */
static void check_smoothed(const struct request *r, uint64_t answer) {
    if (r->call != call_age || answer != 0) return;
    const uint8_t *before = r->slices[0].bytes, *after = place(0, &r->slices[0]);
    for (unsigned rate = 0; rate < RATES; rate++) {
        uint64_t from = shown(before, rate), to = fair(before, rate), now = shown(after, rate);
        if ((stored(before, rate) == stored(after, rate)) != (from == to)) fail(r, answer, "a stored number stands or moves where it must not");
        if (now < least(from, to) || (now > from && now > to)) fail(r, answer, "a smoothed rate moves past its counter");
    }
}

/* What an interval makes of local congestion, its rate and the time since a change. Aggressive: lpAddRate or unreservedRate, by the queue, and the
 * time stands. Conservative: it enters at lpAddRate, at most unreservedRate; leaves, once the queue is not over, from nearer to that than rampUp; and
 * between goes down or up by a part each round trip, and then alone. */
static int interval_ok(const uint8_t *before, const uint8_t *after) {
    uint64_t was = fair(before, LOCAL_FAIR_RATE), now = fair(after, LOCAL_FAIR_RATE), most = setting(after, UNRESERVED);
    uint64_t add_rate = shown(after, ADD_RATE), up = setting(after, RAMP_UP);
    uint32_t lent = fair(before, SINCE), since = fair(after, SINCE);
    int over = get(before + SECONDARY + HELD) > setting(before, LOW_THRESHOLD), congested = fair(after, LOCALLY) == 1;
    if (congested && fair(after, ALLOWED_RATE) != least(now, most)) return 0;
    if (setting(after, METHOD) == AGGRESSIVE) return congested == over && now == (over ? add_rate : most) && since == lent;
    if (!fair(before, LOCALLY)) return congested == over && now == (over ? least(add_rate, most) : was) && since == (over ? 0 : lent);
    if (!over && most - was < up) return !congested && now == most && since == 0;
    int due = lent + 1 >= setting(after, ROUND_TRIP);
    uint64_t step = over ? was - was / setting(after, RAMP_DN) : was + (most - was) / up;
    return congested && now == (due ? step : was) && since == (due ? 0 : lent + 1);
}

/* Local congestion, its rates and the time since a change hold till the next interval. Of a conservative station no reading shows a
 * local fair rate above unreservedRate. */
static void check_method(const struct request *r, uint64_t answer, unsigned number) {
    if (number != 0 || signatures[r->call].parameters[0].holds != HOLDS_station) return;
    const uint8_t *before = r->slices[0].bytes, *after = place(0, &r->slices[0]);
    unsigned from = FAIR + 4 * LOCAL_FAIR_RATE, to = FAIR + 4 * DOWNSTREAM;
    if (r->call == call_age) {
        if (!interval_ok(before, after)) fail(r, answer, "the local fair rate goes otherwise than by the method");
    } else if (memcmp(before + from, after + from, to - from) != 0) {
        fail(r, answer, "what an interval decides changes between intervals");
    }
    if (r->call == call_show && setting(after, METHOD) == CONSERVATIVE && get(place(1, &r->slices[1]) + 84) > setting(after, UNRESERVED))
        fail(r, answer, "a local fair rate above unreservedRate");
}

/* The hops of the frame that a call is given: a client's, a passing one's, or 256 less the ttl of a fairness frame. Others are given none. */
static uint64_t given_hops(const struct request *r) {
    if (r->call == call_offer_client || r->call == call_offer_transit) return r->numbers[3];
    return r->call == call_read_frame ? UINT64_C(256) - r->slices[1].bytes[0] : 0;
}

/* The hops that a station holds and has received are below the number of stations; an empty slot has none. */
static int within_ring(const uint8_t *station) {
    uint32_t stations = setting(station, STATIONS);
    int ok = hops_of(get(station + STAGE)) < stations && 256 - fair(station, RECEIVED_TTL) < stations;
    for (unsigned slot = 0; slot < SLOTS; slot++)
        ok = ok && hops_of(word(station + CONTROL, slot)) < stations && hops_of(word(station + PRIMARY, slot)) < stations &&
             hops_of(word(station + SECONDARY, slot)) < stations;
    return ok;
}

/* After 2, 1 and 3, and before all else, a frame is refused with 13 exactly where its hops reach the number of stations. So none goes so far
 * that the station holds afterwards, or selects, or tells. */
static void check_ring(const struct request *r, uint64_t answer, unsigned number) {
    int at = r->call == call_start ? 1 : 0;
    if (signatures[r->call].parameters[at].holds != HOLDS_station || (number >= RPR_SETTING && number <= RPR_RANGE)) return;
    const uint8_t *station = place(at, &r->slices[at]);
    uint32_t stations = setting(station, STATIONS);
    if ((given_hops(r) >= stations) != (number == RPR_BEYOND_RING)) fail(r, answer, "13 for hops within the ring, or not for others");
    if (!within_ring(station)) fail(r, answer, "hops beyond the ring are held");
    if (r->call == call_select && rpr_selected_hops(answer) >= stations) fail(r, answer, "a frame that goes beyond the ring is selected");
    if (r->call == call_write_frame && 256u - *place(1, &r->slices[1]) >= stations) fail(r, answer, "hops beyond the ring are told");
}

/* A frame that shapers turned down: with the bytes missing added to the credits it is not, and with one less it still is. B's own
 * share, of which the answer does not speak, is taken away. */
static void check_short(const struct request *r, uint64_t answer) {
    uint32_t missing = rpr_shortfall_of(answer);
    if (missing == 0) return;
    for (uint32_t less = 0; less < 2; less++) {
        uint8_t raised[RPR_STATION_LENGTH];
        memcpy(raised, r->slices[0].bytes, sizeof raised);
        for (unsigned shaper = A; shaper <= D; shaper++) {
            uint64_t credit = shaper == B ? 0 : (uint64_t)word(raised + CREDITS, shaper) + missing - less;
            put(raised + CREDITS + 4 * shaper, (uint32_t)least(credit, setting(raised, HI_LIMIT + 3 * shaper)));
        }
        uint64_t again = rpr_offer_client(raised, sizeof raised, r->numbers[1], r->numbers[2], r->numbers[3]);
        if ((rpr_refusal_of(again) == RPR_NO_PERMIT) != (less == 1)) fail(r, answer, "not the least amount");
    }
}

/* Plain C answers the same and leaves the same bytes. */
static void check_plain(const struct request *r, uint64_t answer) {
    static uint8_t theirs[PARAMETERS][MOST_LENGTH];
    uint8_t *places[PARAMETERS];
    for (int i = 0; i < PARAMETERS; i++) places[i] = memcpy(theirs[i], r->slices[i].bytes, r->slices[i].length);
    uint64_t other = ask(&plain, r, places);
    if (other != answer) {
        fprintf(stderr, "plain C answers %#llx\n", (unsigned long long)other);
        fail(r, answer, "plain C answers otherwise");
    }
    for (int i = 0; i < PARAMETERS; i++)
        if (lent(r, i) && memcmp(theirs[i], place(i, &r->slices[i]), r->slices[i].length) != 0) fail(r, answer, "plain C leaves other bytes");
}

unsigned make(struct request *r) {
    if (page == 0) open_pages();
    uint8_t *places[PARAMETERS];
    for (int i = 0; i < PARAMETERS; i++) {
        places[i] = place(i, &r->slices[i]);
        lend(i, &r->slices[i]);
    }
    uint64_t answer = r->answer = ask(&library, r, places);
    unsigned number = check_answer(r, answer);
    check_slices(r, answer, number);
    for (int i = 0; i < PARAMETERS; i++)
        if (signatures[r->call].parameters[i].holds == HOLDS_station) check_station(r, answer, i);
    check_pair(r, answer, number);
    check_ring(r, answer, number);
    check_smoothed(r, answer);
    check_method(r, answer, number);
    check_short(r, answer);
    if (signatures[r->call].parameters[0].holds == HOLDS_record) check_runs(r, answer, places[1]);
    if (r->call == call_heartbeat) check_heartbeat(r, answer);
    check_plain(r, answer);
    tally[r->call][number]++;
    for (int i = 0; i < PARAMETERS; i++)
        if (lent(r, i)) memcpy(r->slices[i].bytes, places[i], r->slices[i].length);
    return number;
}
