/*
 * The calls of rpr.h and rpr_heartbeat.h in plain C: what the library is compared with in `make bench`. The same bytes, the same checks in the
 * same order, the same answers. A call looks at the lent bytes where they lie, and then changes the few fields it is about.
 *
 * The station is in plain.c and plain_range.c, ringlet choice and path in plain_ring.c, records and summaries in plain_record.c, which reads items by plain_record.h,
 * and so does plain_heartbeat.c, which is apart from all others, as its library is.
 *
 * Compiled with SAME_ALGORITHM it is C with the library's own algorithm, for a second comparison: records are summed by same_record.h, the queues of a station are
 * tested by same_range.h, repeats are doubled by same_heartbeat.h, and plain_compare.c sums equal windows once.
 */
#ifndef PLAIN_H
#define PLAIN_H

#include <stddef.h>
#include <stdint.h>

#define CALL(name, ...) uint64_t plain_##name(__VA_ARGS__);
#include "calls.def"

#endif
