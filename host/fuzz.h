/* The fuzz target: bytes become calls (fuzz.c), and each call is held to what every call promises (fuzz_check.c, for records with runs fuzz_runs.c, for patterns fuzz_heartbeat.c). */
#ifndef FUZZ_H
#define FUZZ_H

#include "calls.h"

/* The calls by number, in the order of the list. */
enum call {
#define CALL(name, ...) call_##name,
#include "calls.def"
    CALLS
};

enum { MOST_LENGTH = 2048, PARAMETERS = 7 };

/* What a parameter is, and of a slice what it holds, by its name in the list. */
enum kind { NONE, GIVEN_NUMBER, LENT_TO_READ, LENT_TO_WRITE };
enum holds {
    NO_SLICE,
    HOLDS_settings,
    HOLDS_station,
    HOLDS_frame,
    HOLDS_record,
    HOLDS_pattern,
    HOLDS_room,
    HOLDS_summary,
    HOLDS_first = HOLDS_summary,
    HOLDS_second = HOLDS_summary
};

/* A call as the list describes it. Behind its last parameter all are NONE and NO_SLICE. */
struct signature {
    const char *name;
    struct parameter {
        enum kind kind;
        enum holds holds;
    } parameters[PARAMETERS];
};
extern const struct signature signatures[CALLS];

/* A slice to be lent: its bytes before the call, and after it what the call left. */
struct slice {
    uint8_t bytes[MOST_LENGTH];
    size_t length;
    int at_start; /* it lies at the start of its page, else at the end */
};

/* A call with all that it is given, a number or a slice at the place of each parameter; and what the library answered. */
struct request {
    enum call call;
    struct slice slices[PARAMETERS];
    uint64_t numbers[PARAMETERS];
    uint64_t answer;
};

/* Makes the call with the library and with plain C. Ends the program where a promise is broken. The refusal's number, 0 where
 * it was carried out; what the lent slices hold afterwards stands in the request. */
unsigned make(struct request *r);

/* rpr_show takes these bytes for a station in range. */
int in_range(const uint8_t *station);

/* Two bytes as a number. */
static inline uint32_t get16(const uint8_t *p) { return p[0] | (uint32_t)p[1] << 8; }

/* Of a call on a record, which left this in its room: it is moved there and back, and each form comes to the same. */
void check_runs(const struct request *r, uint64_t answer, const uint8_t *room);

/* Of a pattern that is repeated: it is refused as a record is, or answered as the record is in which it is written out; and where one run of it ends at loLimit or above,
 * it fits. */
void check_heartbeat(const struct request *r, uint64_t answer);

/* A promise is broken: says of what call and how, and ends the program. */
_Noreturn void fail(const struct request *r, uint64_t answer, const char *what);

#endif
