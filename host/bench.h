/* What the benchmarks share: a clock, numbers at random, the three sides that are timed, and rows with the bounds that they are held to. */
#ifndef BENCH_H
#define BENCH_H

#include "calls.h"

/* C with the library's own algorithm: the text of plain C, compiled once more with SAME_ALGORITHM and under names of its own. */
extern const struct calls same;

/*
 * The bounds: how much a row may take of the library, in times plain C. Where no other is named it is BOUND. MARGIN is for the measuring, so that a row which stands at
 * its bound is not above it in one run and below it in the next. Mixed records have another bound on Arm, where the branches that plain C mispredicts cost less.
 * BOUND_FLAGS is for regular and for short records beside plain C whose loop lies where two flags put it, BOUND_PLACED beside plain C at its best place (tools/bench).
 * BOUND_RUNS is for rolling and unrolling, and for a record in runs. FASTER is another bound: so many times faster, at least, a million ticks are summed in runs than one
 * by one, and a million repeats are answered than plain C goes through them. BOUND_DOUBLED is for repeats beside C that joins a summary with itself as the library does. The
 * bounds of the commands are in tools/bench-commands.
 */
#define BOUND 1.25
#define BOUND_FLAGS 1.0
#define BOUND_PLACED 1.1
#if defined(__aarch64__)
#define BOUND_MIXED 0.6
#else
#define BOUND_MIXED 0.3
#endif
#define BOUND_RUNS 1.5
#define BOUND_DOUBLED 1.5
#define FASTER 1000
#define BOUND_STATION 1.05
#define BOUND_START 1.2
#define MARGIN 0.05

/* One round of a row on one side: its ns, and all its answers in one number. */
typedef double timed_round(const struct calls *side, const void *of, uint64_t *answers);

/* A row: what is measured, in which state if there are several, by what a round's ns are divided, and to how many places they are printed; and who stands in for
 * plain C, if anyone does. */
struct row {
    const char *what, *state;
    double bound, parts;
    int places;
    timed_round *round;
    const void *of;
    const struct calls *peer;
};

/* The file to which a line goes for each row that is above its bound. */
void open_above(const char *name);
void close_above(void);

/* The heading of a table. The state is NULL where there is one alone. */
void bench_heading(const char *what, const char *state);

/* The ns of a row, by parts: the library's, and plain C's or who stands in for it. */
struct times {
    double library, plain;
};

/* Measures and prints a row. One that is above its bound is measured once more before that is told. */
struct times bench_row(const struct row *row);

/* Prints how many times faster the library is at one thing than at another, or than plain C, and tells where that is not FASTER at least. */
void bench_faster(const char *what, double times);

/* The tables of the station's calls. */
void bench_station(void);

/* The tables of records in runs. */
void bench_runs(void);

/* The tables of patterns that are repeated. */
void bench_heartbeat(void);

/* Before a time is taken: the three sides answer and leave the same on records, patterns and stations of all kinds, good, faulty and damaged. The room has space for a record of
 * a million events and one event more. */
void compare_sides(uint8_t *room);

/* A record's header and events; and an item that begins with this byte, an event or of several equal ones a run. The byte behind it. */
void put_header(uint8_t *record, uint32_t mtu, uint32_t lo, uint32_t hi);
void put_event(uint8_t *record, size_t place, unsigned kind, unsigned number);
size_t put_item(uint8_t *record, size_t at, unsigned kind, unsigned number, unsigned count);

/* Nanoseconds of a clock that only goes forward. */
double now(void);

/* 31 bits at random, the same in every run; and a number below this one. */
unsigned next_random(void);
unsigned below(unsigned end);

/* Says what is wrong and ends the program. */
_Noreturn void give_up(const char *what);

#endif
