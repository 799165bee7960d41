/* Records at the edges of an item: what edges_runs.c, where it stands, and edges_heartbeat.c share. */
#ifndef EDGES_ITEMS_H
#define EDGES_ITEMS_H

#include "edges.h"

enum { HEADER = RPR_RECORD_HEADER_LENGTH, EVENT = RPR_RECORD_EVENT_LENGTH, RUN = RPR_RECORD_RUN_LENGTH };

/* The settings of every record: mtu, loLimit and hiLimit. */
enum { LARGEST = 64, LOW = 100, HIGH = 300 };

/* The record that is tried, with room for a million events and a run, and its header put. */
extern uint8_t record[RPR_RECORD_MOST + RPR_RECORD_RUN_LENGTH];
void begin_record(void);

/* Puts an item behind so many bytes of the record: how many there are then. */
size_t add_event(size_t at, uint32_t kind, uint32_t number);
size_t add_run(size_t at, uint32_t kind, uint32_t amount, uint32_t count);

/* An item of so many bytes, behind these of the record, where so many events may still come: it has this fault, which is another to rpr_roll. */
typedef void try_item(size_t front, size_t length, uint32_t left, uint64_t fault, uint64_t of_roll);

/* Each kind of event, and sends of a wrong size; and runs of each kind of tick, with counts around what is left. One that passes is refused with the number `late`. */
void each_last(size_t front, uint32_t left, uint64_t late, try_item *try);

/* Says what is wrong with the answer to so many bytes of the record, and ends. */
_Noreturn void end_with(size_t length, uint64_t answer, const char *what);

/* The record as a pattern, not once, once, some times, and the largest number of times: it has this fault, or none and so many events. */
void try_pattern(size_t length, uint64_t fault, uint32_t events);

#endif
