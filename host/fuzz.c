/*
 * Bytes as a sequence of calls on one station, some summaries, records and a ring: the entry of libFuzzer.
 *
 * A step is a byte for the call, a byte that says how, and what the call is given. A number is one byte below 192, or two or
 * eight bytes behind a greater one. Where the input ends, zeros follow.
 */
#include "fuzz.h"

#include <string.h>

int LLVMFuzzerTestOneInput(const uint8_t *data, size_t size);

enum { STEPS = 400, SUMMARIES = 4 };

/* Bits of the byte that says how. */
enum { AT_START = 7, OTHER_LENGTH = 8, DAMAGED = 16, RAW = 32, SECOND = 64 };

struct input {
    const uint8_t *at;
    size_t left;
};

/* What calls have left: a station in range, a frame that was written, summaries, and a record that was rolled or unrolled. */
static uint8_t station[RPR_STATION_LENGTH], frame[RPR_FRAME_LENGTH], summaries[SUMMARIES][RPR_SUMMARY_LENGTH];
static struct slice moved;

static uint8_t byte(struct input *in) {
    if (in->left == 0) return 0;
    in->left--;
    return *in->at++;
}

static uint64_t word(struct input *in, int bytes) {
    uint64_t v = 0;
    for (int i = 0; i < bytes; i++) v |= (uint64_t)byte(in) << 8 * i;
    return v;
}

/* Any number; small ones are near. */
static uint64_t number(struct input *in) {
    unsigned tag = byte(in);
    if (tag < 192) return tag;
    if (tag < 240) return word(in, 2);
    if (tag < 248) return word(in, 2) | UINT64_C(1) << (8 * (tag - 240) + 7);
    return word(in, 8);
}

/* ---- slices ---- */

static void set(struct slice *s, const uint8_t *bytes, size_t length) {
    memcpy(s->bytes, bytes, length);
    s->length = length;
}

static void set_room(struct slice *s, size_t length, uint8_t fill) {
    memset(s->bytes, fill, length);
    s->length = length;
}

/* Some bytes of a slice changed. */
static void damage(struct input *in, struct slice *s) {
    for (int times = byte(in) % 4; times >= 0; times--) {
        size_t at = (size_t)word(in, 2);
        if (s->length > 0) s->bytes[at % s->length] ^= byte(in);
    }
}

/* Sample settings, some words of them replaced. */
static void settings(struct input *in, struct slice *s) {
    unsigned which = byte(in), changes = which / SAMPLES % 4;
    memcpy(s->bytes, sample_settings[which % SAMPLES], RPR_SETTINGS_LENGTH);
    s->length = RPR_SETTINGS_LENGTH;
    while (changes-- > 0) {
        unsigned at = byte(in) % SETTINGS_WORDS;
        uint32_t v = (uint32_t)number(in);
        memcpy(s->bytes + 4 * at, &v, sizeof v);
    }
}

/* A fairness frame: any bytes, or the one written last as a neighbour sends it on, or one with ttl, rate and ringlet given. */
static void fairness(struct input *in, struct slice *s, unsigned how) {
    set(s, frame, sizeof frame);
    if (how & RAW) {
        for (size_t i = 0; i < sizeof frame; i++) s->bytes[i] = byte(in);
    } else if (how & SECOND) {
        uint8_t choice = byte(in);
        memset(s->bytes, 0, sizeof frame);
        s->bytes[0] = (uint8_t)(193 + choice % 63);
        s->bytes[1] = (uint8_t)(frame[1] | (choice & 0x40));
        s->bytes[7] = byte(in);
        s->bytes[10] = byte(in);
        s->bytes[11] = byte(in);
    }
}

/* Two bytes at the end of a slice. */
static void put16(struct slice *s, uint64_t v) {
    s->bytes[s->length++] = (uint8_t)v;
    s->bytes[s->length++] = (uint8_t)(v >> 8);
}

/* A record of a header and some items: kinds 1 to 3 and any number, or a run of ticks of kind 1 or 2, any amount and any count; or the record that was moved last. */
static void record(struct input *in, struct slice *s, unsigned how) {
    static const uint8_t header[14] = {14, 0, 16, 0, 64, 0, 100, 0, 0, 0, 44, 1, 0, 0};
    set(s, header, sizeof header);
    if (how & SECOND && moved.length > 0) {
        set(s, moved.bytes, moved.length);
        return;
    }
    unsigned items = byte(in) % 200;
    for (unsigned i = 0; i < items && in->left > 0; i++) {
        unsigned kind = byte(in);
        uint64_t n = kind < 128 ? byte(in) : word(in, 2);
        int run = kind >= 192;
        put16(s, run ? 10 : 6), put16(s, run ? RPR_RUN : 1 + kind % 3);
        if (run) put16(s, 1 + kind % 2);
        put16(s, n);
        if (run) put16(s, number(in));
    }
}

/* ---- calls ---- */

/* The rooms' lengths. A record is moved into a room of any length; where the input names none, into the longest. */
static const size_t rooms[CALLS] = {
    [call_write_frame] = RPR_FRAME_LENGTH,
    [call_show] = RPR_READING_LENGTH,
    [call_summarize] = RPR_SUMMARY_LENGTH,
    [call_join] = RPR_SUMMARY_LENGTH,
    [call_roll] = MOST_LENGTH - 1,
    [call_unroll] = MOST_LENGTH - 1,
};

static int moves(enum call call) { return call == call_roll || call == call_unroll; }

static size_t room_length(struct input *in, enum call call, unsigned how) {
    return moves(call) && how & RAW ? (size_t)number(in) % MOST_LENGTH : rooms[call];
}

/* A slice of a call as a host lends it. */
static void lay_out(struct input *in, struct request *r, int at, unsigned how) {
    struct slice *s = &r->slices[at];
    switch (signatures[r->call].parameters[at].holds) {
        case HOLDS_settings: settings(in, s); break;
        case HOLDS_station: set(s, station, sizeof station); break;
        case HOLDS_frame: fairness(in, s, how); break;
        case HOLDS_record:
        case HOLDS_pattern: record(in, s, how); break;
        case HOLDS_room: set_room(s, room_length(in, r->call, how), (uint8_t)how); break;
        case HOLDS_summary: set(s, summaries[byte(in) % SUMMARIES], RPR_SUMMARY_LENGTH); break;
        case NO_SLICE: break;
    }
}

/* The numbers of a call, and then its slices. Of a ring's links the input may say those that are down. A pattern is repeated any number of times where the input
 * says so, else few times: plain C goes through each of them. */
static void give(struct input *in, struct request *r, unsigned how) {
    for (int i = 0; i < PARAMETERS; i++)
        if (signatures[r->call].parameters[i].kind == GIVEN_NUMBER) r->numbers[i] = number(in);
    if ((r->call == call_choose || r->call == call_path) && how & SECOND)
        r->numbers[3] = ~r->numbers[3] & ((UINT64_C(1) << r->numbers[0] % 64) - 1);
    if (r->call == call_heartbeat && !(how & RAW)) r->numbers[1] %= 64;
    for (int i = 0; i < PARAMETERS; i++) lay_out(in, r, i, how);
}

/* A station of any bytes, one slice damaged, or one of another length. */
static void spoil(struct input *in, struct request *r, unsigned how) {
    const struct parameter *parameters = signatures[r->call].parameters;
    unsigned count = 0;
    while (count < PARAMETERS && parameters[count].kind != NONE) count++;
    if (count == 0) return;
    if (how & RAW && parameters[0].holds == HOLDS_station && byte(in) == 255) {
        for (size_t i = 0; i < RPR_STATION_LENGTH; i++) r->slices[0].bytes[i] = in->left > 0 ? byte(in) : (uint8_t)(i * how);
    }
    if (how & DAMAGED) damage(in, &r->slices[byte(in) % count]);
    if (how & OTHER_LENGTH) {
        unsigned which = byte(in);
        size_t length = (size_t)word(in, 2) % MOST_LENGTH;
        r->slices[which % count].length = which < 128 ? length : r->slices[which % count].length + (which & 1);
    }
    for (int i = 0; i < PARAMETERS; i++) r->slices[i].at_start = (int)(how & AT_START) >> i % 3 & 1;
}

/* What a call that was carried out left in its room. */
static void keep_room(const struct request *r, const struct slice *room, unsigned how) {
    if (r->call == call_write_frame) {
        memcpy(frame, room->bytes, sizeof frame);
        frame[7] ^= 1;
    }
    if (r->call == call_summarize || r->call == call_join) memcpy(summaries[how % SUMMARIES], room->bytes, RPR_SUMMARY_LENGTH);
    if (moves(r->call)) set(&moved, room->bytes, rpr_written_of(r->answer));
}

/* What a call that was carried out left is what later calls are given. */
static void keep(const struct request *r, unsigned how) {
    for (int i = 0; i < PARAMETERS; i++) {
        const struct slice *s = &r->slices[i];
        enum holds holds = signatures[r->call].parameters[i].holds;
        if (holds == HOLDS_station && in_range(s->bytes)) memcpy(station, s->bytes, sizeof station);
        if (holds == HOLDS_room) keep_room(r, s, how);
    }
}

/* One call. The refusal's number. */
static unsigned step(struct input *in, enum call call, unsigned how) {
    static struct request r;
    memset(&r, 0, sizeof r);
    r.call = call;
    give(in, &r, how);
    spoil(in, &r, how);
    unsigned number = make(&r);
    if (number == 0) keep(&r, how);
    return number;
}

/* A station of small settings, empty summaries, and no record. */
static void begin(void) {
    static const uint8_t nothing[1];
    struct input none = {nothing, 0};
    memset(station, 0, sizeof station);
    memset(frame, 0, sizeof frame);
    moved.length = 0;
    if (step(&none, call_start, 0) != 0) __builtin_trap();
    for (unsigned i = 0; i < SUMMARIES; i++)
        if (step(&none, call_summarize, i) != 0) __builtin_trap();
}

int LLVMFuzzerTestOneInput(const uint8_t *data, size_t size) {
    struct input in = {data, size};
    begin();
    for (int i = 0; i < STEPS && in.left > 0; i++) {
        enum call call = (enum call)(byte(&in) % CALLS);
        step(&in, call, byte(&in));
    }
    return 0;
}
