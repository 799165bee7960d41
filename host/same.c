/* C with the library's own algorithm, as a side to time. tools/bench compiles plain C a second time for it: with SAME_ALGORITHM, and same_ in place of plain_. */
#include "bench.h"

#define CALL(name, ...) uint64_t same_##name(__VA_ARGS__);
#include "calls.def"

const struct calls same = {
#define CALL(name, ...) .name = same_##name,
#include "calls.def"
};
