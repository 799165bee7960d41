/* Stations with something changed, the library beside plain C: what edges.c and edges_methods.c share; and records and patterns, by edges_items.h. */
#ifndef EDGES_H
#define EDGES_H

#include "calls.h"
#include "plain_layout.h"

enum { N = RPR_STATION_LENGTH, CALLS = 12, AGES = 8 };

/* The stations tried so far, and those in range. */
extern unsigned long tried, good;

/* Both sides on the same bytes, by the number of a call. The answer. Where they differ it says which place was changed, and ends. */
uint64_t compare(const uint8_t *station, int call, size_t place);

/* A station of which it is known whether it is in range. Every call, and the one for the range says so. */
void try_known(const uint8_t *station, size_t place, int in_range);

/* The same where a setting decides, and these settings at a start. */
void try_setting(const uint8_t *station, unsigned at, int in_range);

/* A station of a ring of so many, in range or not, with all credit, whose queues and stage are full of frames with so many hops. */
void fill_up(uint8_t *station, uint32_t stations, uint32_t hops);

static inline void change(uint8_t *station, unsigned at, uint32_t v) { put(station + SETTINGS + 4 * at, v); }

/* What methods go by: their settings, the intervals since a change and the local fair rate at the ends of their ranges; and intervals at
 * and around each edge of their steps. */
void each_method(uint8_t *station);

/* Records with one number of an item changed, with long runs, and around the millionth event; as patterns too. */
void each_item(void);

/* Patterns around the 256th event, repeats around the limit and the ends of numbers, and credits around loLimit and hiLimit. */
void each_pattern(void);

#endif
