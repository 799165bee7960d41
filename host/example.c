/*
 * A host program: one station of a ring, through a minute of traffic.
 *
 * The host owns the clock, the link and the memory. It ticks, offers frames as they come, sends what is selected, calls
 * the aging interval, hears fairness frames and tells its own. Beside this it keeps the record of one shaper, C, in two
 * pieces, and in the end joins the pieces' summaries: from the credit at the start they give the credit that the
 * station shows. Then the clients rest, and the record of that is kept in runs. Every answer is looked at; anything
 * unexpected ends the program with status 1.
 *
 *     cc -std=c11 example.c $(pkg-config --cflags --libs rpr) -o example
 */
#include <stdio.h>
#include <stdlib.h>
#include <string.h>

#include "rpr.h"

enum {
    SECONDS = 60,
    TICKS_PER_SECOND = 100,
    SENDS_PER_TICK = 4, /* what the link carries */
    MTU = 1500,
    STATIONS = 16, /* of the ring */
    CLASSES = RPR_CLASS_C + 1,
    ORIGINS = RPR_FROM_STAGE + 1,
    REFUSALS = RPR_BEYOND_RING + 1,
    MOST_EVENTS = 10000 /* of a piece of the record, in this program */
};

/* A piece of a record: the header and then events. */
struct piece {
    size_t length;
    uint8_t bytes[RPR_RECORD_HEADER_LENGTH + MOST_EVENTS * RPR_RECORD_EVENT_LENGTH];
};

struct host {
    struct rpr_settings settings;
    uint8_t station[RPR_STATION_LENGTH]; /* the library's, lent for each call */
    unsigned waiting[CLASSES];           /* client frames that wait to be offered */
    unsigned not_before[CLASSES];        /* the tick before which no credit can permit the next one */
    uint32_t most_short;                 /* the most bytes of credit that an offer lacked, since it was last logged */
    unsigned passed;                     /* transit frames taken in so far */
    unsigned put_off[REFUSALS];          /* offers that were refused for now, by number */
    unsigned dropped;                    /* fairness frames that told of hops beyond the ring */
    unsigned long taken[ORIGINS];        /* bytes that the station took in, by where it keeps them */
    unsigned long sent[ORIGINS];         /* bytes that it sent, by where they came from */
    struct piece pieces[2];              /* the record of shaper C, a piece for each half of the minute */
    struct piece *record;                /* the piece being written */
};

/* Client frames: heartbeats, a service with a share of its own, and a bulk copy to the far side of the ring. */
static const struct client {
    unsigned size, hops;
} clients[CLASSES] = {{100, 4}, {500, 2}, {MTU, 5}};

static void fail(const char *what, uint64_t answer) {
    fprintf(stderr, "%s: refused %u, %s\n", what, rpr_refusal_of(answer), rpr_refusal_text(answer));
    exit(1);
}

/* The answer of a call that must be carried out. */
static uint64_t carried_out(const char *call, uint64_t answer) {
    if (rpr_refusal_of(answer) != RPR_CARRIED_OUT) fail(call, answer);
    return answer;
}

static void must(int holds, const char *what) {
    if (holds) return;
    fprintf(stderr, "this must hold: %s\n", what);
    exit(1);
}

static struct rpr_reading show(const struct host *host) {
    struct rpr_reading reading;
    carried_out("show", rpr_show(host->station, sizeof host->station, &reading, sizeof reading));
    return reading;
}

/* ---- the record of shaper C ---- */

/* Appends a number's low bytes, the lowest first. */
static void put(struct piece *piece, unsigned bytes, uint32_t number) {
    must(piece->length + bytes <= sizeof piece->bytes, "the record has room");
    for (unsigned i = 0; i < bytes; i++) piece->bytes[piece->length++] = (uint8_t)(number >> 8 * i);
}

/* A piece begins with the header, wherever the record is cut. */
static void begin_piece(struct host *host, struct piece *piece) {
    put(piece, 2, RPR_RECORD_HEADER_LENGTH);
    put(piece, 2, RPR_HEADER);
    put(piece, 2, host->settings.mtu);
    put(piece, 4, host->settings.c.lo_limit);
    put(piece, 4, host->settings.c.hi_limit);
    host->record = piece;
}

static void record(struct host *host, enum rpr_kind kind, uint32_t amount_or_size) {
    put(host->record, 2, RPR_RECORD_EVENT_LENGTH);
    put(host->record, 2, kind);
    put(host->record, 2, amount_or_size);
}

/* What a tick adds to C: its amount, but no more than the allowed rate comes to in a tick. */
static uint32_t amount_of_c(const struct host *host) {
    uint32_t share = show(host).allowed_rate / (host->settings.age_coef * host->settings.ticks_per_interval);
    return share < host->settings.c.amount ? share : host->settings.c.amount;
}

/* ---- the station's calls ---- */

/* In a tick the link carries 6,000 bytes. Half of that is not reserved: a rate of 3,000 x 10 ticks x ageCoef 4. The
 * method follows congestion at once. Where that is too jumpy RPR_CONSERVATIVE goes in steps, a round_trip apart, the
 * intervals that the ring takes to hear of a rate and follow it: down by the ramp_dn-th part, up by the ramp_up-th part
 * of what is missing. */
static void start(struct host *host) {
    host->settings = (struct rpr_settings){
        .own_address_high = 0x0200, .own_address_low = 0x5e000001, .own_ringlet = 0, .mtu = MTU,
        .m = {.lo_limit = MTU, .hi_limit = 6000, .amount = 100},
        .a = {.lo_limit = MTU, .hi_limit = 6000, .amount = 30},
        .b = {.lo_limit = MTU, .hi_limit = 6000, .amount = 200},
        .c = {.lo_limit = MTU, .hi_limit = 12000, .amount = 1300},
        .d = {.lo_limit = MTU, .hi_limit = 12000, .amount = 3000},
        .control_queue = 6000, .primary_queue = 16000, .secondary_queue = 64000, .low_threshold = 16000,
        .weight = 1, .rate_unit = 4, .ticks_per_interval = 10, .unreserved_rate = 120000,
        .age_coef = RPR_DEFAULT_AGE_COEF, .lp_coef = RPR_DEFAULT_LP_COEF, .ramp_up = RPR_DEFAULT_RAMP_UP,
        .stations = STATIONS,
        .method = RPR_AGGRESSIVE, .round_trip = 10, .ramp_dn = 64};
    must(rpr_station_length() == sizeof host->station, "header and library belong together");
    carried_out("start", rpr_start(&host->settings, sizeof host->settings, host->station, sizeof host->station));
    begin_piece(host, &host->pieces[0]);
    printf("A station of %zu bytes, started.\n", sizeof host->station);
}

/* A refusal has a number, and nothing that was lent has changed. */
static void meet_a_refusal(struct host *host) {
    uint8_t before[RPR_STATION_LENGTH];
    memcpy(before, host->station, sizeof before);
    uint64_t answer = rpr_offer_client(host->station, sizeof host->station, RPR_CLASS_C, MTU + 1, 5);
    must(rpr_refusal_of(answer) == RPR_RANGE, "a frame over the mtu is refused");
    must(memcmp(before, host->station, sizeof before) == 0, "a refusal leaves every byte");
    printf("A frame of %d bytes: refused %u, %s.\n", MTU + 1, rpr_refusal_of(answer), rpr_refusal_text(answer));
}

/* The bulk copy goes from station 0 to station 5 of 16; all links are usable. */
static void choose_way(void) {
    uint64_t way = rpr_choose(STATIONS, 0, 5, 0xffff, RPR_SIDE_DEFAULT, RPR_PROTECTED, RPR_STEERING);
    carried_out("choose", way);
    must(rpr_choice_side(way) == RPR_RIGHT && rpr_choice_distance(way) == clients[RPR_CLASS_C].hops, "5 hops right");
    printf("The bulk copy goes right, %u hops.\n", rpr_choice_distance(way));
}

/* The two halls' cluster masters lie opposite each other, as far either way. By default both use the same links, so one
 * cut cannot leave them half a connection. */
static void choose_pair(void) {
    uint64_t there = rpr_choose(STATIONS, 2, 10, 0xffff, RPR_SIDE_DEFAULT, RPR_PROTECTED, RPR_STEERING);
    uint64_t back = rpr_choose(STATIONS, 10, 2, 0xffff, RPR_SIDE_DEFAULT, RPR_PROTECTED, RPR_STEERING);
    carried_out("choose", there);
    carried_out("choose", back);
    must(rpr_choice_side(there) == RPR_RIGHT && rpr_choice_side(back) == RPR_LEFT, "the lower index goes right");
    must(rpr_choice_distance(there) == 8 && rpr_choice_distance(back) == 8, "8 hops either way");
    printf("The masters, stations 2 and 10 of %d, talk over the same %u links.\n\n", STATIONS,
           rpr_choice_distance(there));
}

/* C waits when B or C waits. */
static void tick(struct host *host) {
    unsigned a = host->waiting[RPR_CLASS_A] > 0, b = host->waiting[RPR_CLASS_B] > 0;
    unsigned c = host->waiting[RPR_CLASS_C] > 0;
    record(host, b || c ? RPR_WAITING_TICK : RPR_IDLE_TICK, amount_of_c(host));
    carried_out("tick", rpr_tick(host->station, sizeof host->station, a, b, c));
}

/* Turned down by a shaper: the answer says how many bytes are missing. A tick adds at most the amount to a shaper that
 * the frame needs, so before missing / amount ticks, rounded up, it cannot be permitted, and is not offered. Class B
 * may be, by its own share: the bytes are missing for its attempt as excess. So it is offered each time. */
static void wait_for_credit(struct host *host, unsigned class, unsigned now, uint32_t missing) {
    const struct rpr_settings *s = &host->settings;
    uint32_t amount = class == RPR_CLASS_A ? s->a.amount : s->c.amount > s->d.amount ? s->c.amount : s->d.amount;
    must(missing > 0 && amount > 0, "a shaper that turns a frame down lacks something, and ticks bring it");
    if (class != RPR_CLASS_B) host->not_before[class] = now + (missing + amount - 1) / amount;
    if (host->most_short < missing) host->most_short = missing;
}

/* Offers the next client frame of a class. Refusals 5, 6 and 7 mean: later. An eligible frame is charged to C. */
static void offer_client(struct host *host, unsigned class, unsigned now) {
    const struct client *frame = &clients[class];
    uint64_t answer = rpr_offer_client(host->station, sizeof host->station, class, frame->size, frame->hops);
    unsigned number = rpr_refusal_of(answer);
    if (number == RPR_STAGE_FULL || number == RPR_NO_PERMIT || number == RPR_FAIR_RATE) {
        host->put_off[number]++;
        if (number == RPR_NO_PERMIT) wait_for_credit(host, class, now, rpr_shortfall_of(answer));
        return;
    }
    carried_out("offer_client", answer);
    if (rpr_mark_of(answer) == RPR_YES) record(host, RPR_SEND, frame->size);
    host->waiting[class]--;
    host->taken[RPR_FROM_STAGE] += frame->size;
}

/* Takes in the next frame that comes round the ring. Refusal 4 means: later, the receiver keeps it. */
static void take_transit(struct host *host) {
    unsigned i = host->passed, class = i % 5 == 0 ? RPR_CLASS_A : i % 2 == 0 ? RPR_CLASS_B : RPR_CLASS_C;
    unsigned size = 200 + i * 37 % (MTU - 199), hops = 1 + i % 7, eligible = class == RPR_CLASS_C;
    uint64_t answer = rpr_offer_transit(host->station, sizeof host->station, class, size, hops, eligible);
    if (rpr_refusal_of(answer) == RPR_NO_ROOM) {
        host->put_off[RPR_NO_ROOM]++;
        return;
    }
    carried_out("offer_transit", answer);
    host->passed++;
    host->taken[class == RPR_CLASS_A ? RPR_FROM_PRIMARY : RPR_FROM_SECONDARY] += size;
}

/* Sends what is selected. Nothing has origin and size 0. */
static void send_next(struct host *host) {
    uint64_t answer = carried_out("select", rpr_select(host->station, sizeof host->station));
    host->sent[rpr_selected_origin(answer)] += rpr_selected_size(answer);
}

/* Hears a fairness frame of the station with address 02005e000009, so many hops downstream. No station is as many hops
 * away as the ring has stations: what tells of so many comes from a faulty card. It is refused with 13, nothing has
 * changed, and the host drops it. */
static void hear(struct host *host, unsigned hops, unsigned rate) {
    const uint8_t frame[RPR_FRAME_LENGTH] = {
        (uint8_t)(256 - hops), 0xa0, 2, 0, 0x5e, 0, 0, 9, 0, 0, (uint8_t)(rate >> 8), (uint8_t)rate};
    uint64_t answer = rpr_read_frame(host->station, sizeof host->station, frame, sizeof frame);
    if (rpr_refusal_of(answer) == RPR_BEYOND_RING) {
        host->dropped++;
        return;
    }
    carried_out("read_frame", answer);
}

/* Tells upstream; here, by printing the frame. */
static void tell(const struct host *host) {
    uint8_t frame[RPR_FRAME_LENGTH];
    carried_out("write_frame", rpr_write_frame(host->station, sizeof host->station, frame, sizeof frame));
    for (size_t i = 0; i < sizeof frame; i++) printf("%02x", frame[i]);
    putchar('\n');
}

/* ---- a minute of traffic ---- */

/* Client and control frames that come in a tick; heartbeats in pairs, so that the second has to wait for credit. The
 * bulk copy rests in each fourth second. */
static void arrive(struct host *host, unsigned second, unsigned now) {
    if (now % 10 == 0) host->waiting[RPR_CLASS_A] += 2;
    if (now % 2 == 0) host->waiting[RPR_CLASS_B]++;
    if (second % 4 != 2 && host->waiting[RPR_CLASS_C] < 4) host->waiting[RPR_CLASS_C]++;
    if (now % 50 != 0) return;
    carried_out("offer_control", rpr_offer_control(host->station, sizeof host->station, 60));
    host->taken[RPR_FROM_CONTROL] += 60;
}

/* From second 15 to 35 the ring is busy; from 25 to 45 a station two hops downstream is congested, and says so each
 * second. In second 40 its card tells of forty hops. */
static void run_second(struct host *host, unsigned second) {
    unsigned load = second >= 15 && second < 35 ? 9 : 3; /* transit frames in 10 sends */
    if (second >= 25 && second < 45) hear(host, second == 40 ? 40 : 2, 5000);
    if (second == 45) hear(host, 2, RPR_FULL_RATE);
    for (unsigned now = second * TICKS_PER_SECOND; now < (second + 1) * TICKS_PER_SECOND; now++) {
        arrive(host, second, now);
        tick(host);
        for (unsigned slot = now * SENDS_PER_TICK; slot < (now + 1) * SENDS_PER_TICK; slot++) {
            if (slot % 10 < load) take_transit(host);
            for (unsigned class = RPR_CLASS_A; class < CLASSES; class++)
                if (host->waiting[class] > 0 && now >= host->not_before[class]) offer_client(host, class, now);
            send_next(host);
        }
        if ((now + 1) % host->settings.ticks_per_interval == 0)
            carried_out("age", rpr_age(host->station, sizeof host->station));
    }
}

/* No byte is lost or made up: what was taken in was sent or is still held. */
static void check_bytes(const struct host *host) {
    struct rpr_reading r = show(host);
    const uint32_t held[ORIGINS] = {0, r.control.bytes, r.primary.bytes, r.secondary.bytes, r.stage.bytes};
    for (unsigned i = 0; i < ORIGINS; i++) must(host->taken[i] == host->sent[i] + held[i], "taken in = sent + held");
}

/* The reading, and the most bytes that an offer was short since the last one. */
static void print_reading(struct host *host, unsigned second) {
    static const char *const congestion[2][2] = {{"no", "downstream"}, {"here", "both"}};
    struct rpr_reading r = show(host);
    printf("%6u  %8u  %5u  %9u  %9u  %7u  %6u  %-10s  ", second, r.credit_c, host->most_short, r.secondary.bytes,
           r.smoothed.add_rate, r.allowed_rate, r.allowed_rate_congested,
           congestion[r.locally_congested][r.downstream_congested]);
    tell(host);
    host->most_short = 0;
}

static void run_minute(struct host *host) {
    puts("second  credit C  short  secondary  lpAddRate  allowed  beyond  congested   fairness frame told");
    for (unsigned second = 0; second < SECONDS; second++) {
        if (second == SECONDS / 2) begin_piece(host, &host->pieces[1]);
        run_second(host, second);
        check_bytes(host);
        if ((second + 1) % 5 == 0) print_reading(host, second + 1);
    }
    puts("\nOffers put off:");
    for (unsigned number = RPR_NO_ROOM; number <= RPR_FAIR_RATE; number++)
        printf("%6u with %u, %s\n", host->put_off[number], number, rpr_refusal_text(number));
    must(host->dropped == 1, "the one frame of the faulty card is refused");
    puts("Fairness frames dropped:");
    printf("%6u with %u, %s\n", host->dropped, RPR_BEYOND_RING, rpr_refusal_text(RPR_BEYOND_RING));
}

/* ---- what C's record comes to ---- */

static struct rpr_summary summarize(const struct piece *piece) {
    struct rpr_summary s;
    carried_out("summarize", rpr_summarize(piece->bytes, piece->length, &s, sizeof s));
    printf("%6u events, accrued %llu, sent %llu, ceiling %lld, need %llu\n", s.events, (unsigned long long)s.accrued,
           (unsigned long long)s.sent, (long long)s.ceiling, (unsigned long long)s.need);
    return s;
}

/* Joins the summaries of the two pieces, and settles from the credit at the start. */
static void account_for_c(const struct host *host) {
    puts("\nThe record of shaper C, in two pieces:");
    struct rpr_summary first = summarize(&host->pieces[0]), second = summarize(&host->pieces[1]), whole;
    carried_out("join", rpr_join(&first, sizeof first, &second, sizeof second, &whole, sizeof whole));
    uint64_t settled = carried_out("settle", rpr_settle(&whole, sizeof whole, whole.lo_limit));
    uint32_t end = rpr_settled_end_credit(settled), shown = show(host).credit_c;
    must(rpr_settled_permitted(settled) == RPR_YES, "every send was permitted");
    must(whole.sent < whole.accrued + whole.hi_limit, "fewer bytes were sent than accrued, and hiLimit");
    must(end == shown, "the record's credit is the station's");
    printf("Joined: %u events, from credit %u to %u. The station shows %u: accounted for.\n", whole.events,
           whole.lo_limit, end, shown);
}

/* ---- at rest ---- */

/* No client frame waits, and what was taken in is sent: C's record has the same tick again and again. */
static void rest(struct host *host, struct piece *piece) {
    memset(host->waiting, 0, sizeof host->waiting);
    begin_piece(host, piece);
    for (unsigned now = 1; now <= MOST_EVENTS; now++) {
        tick(host);
        send_next(host);
        if (now % host->settings.ticks_per_interval == 0)
            carried_out("age", rpr_age(host->station, sizeof host->station));
    }
}

/* Keeps the record in runs, for which a room as long as itself is enough. It comes back byte for byte, and comes to the
 * same in either form. */
static void keep_in_runs(struct host *host) {
    static struct piece piece, kept, back;
    uint32_t before = show(host).credit_c;
    rest(host, &piece);
    kept.length = rpr_written_of(
        carried_out("roll", rpr_roll(piece.bytes, piece.length, kept.bytes, sizeof kept.bytes)));
    back.length = rpr_written_of(
        carried_out("unroll", rpr_unroll(kept.bytes, kept.length, back.bytes, sizeof back.bytes)));
    must(back.length == piece.length && memcmp(back.bytes, piece.bytes, back.length) == 0, "the record comes back");
    puts("\nAt rest, C's record one by one and in runs:");
    struct rpr_summary whole = summarize(&piece), in_runs = summarize(&kept);
    must(memcmp(&whole, &in_runs, sizeof whole) == 0, "both forms come to the same");
    uint64_t settled = carried_out("settle", rpr_settle(&in_runs, sizeof in_runs, before));
    must(rpr_settled_end_credit(settled) == show(host).credit_c, "the record's credit is the station's");
    printf("Kept: %zu bytes in place of %zu. From credit %u to %u: accounted for.\n", kept.length, piece.length, before,
           rpr_settled_end_credit(settled));
}

int main(void) {
    static struct host host;
    start(&host);
    meet_a_refusal(&host);
    choose_way();
    choose_pair();
    run_minute(&host);
    account_for_c(&host);
    keep_in_runs(&host);
    return fflush(stdout) == 0 ? 0 : 1;
}
