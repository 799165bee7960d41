/* The calls of both libraries, and plain C's, under the same names, and settings to try both with. */
#ifndef CALLS_H
#define CALLS_H

#include "plain.h"
#include "rpr_heartbeat.h"

/* Both sides are called through pointers, so that neither is drawn into a loop that is timed. */
struct calls {
#define CALL(name, ...) uint64_t (*name)(__VA_ARGS__);
#include "calls.def"
};

extern const struct calls library, plain;

/* Settings in range: small ones, the largest, and such that frames come and go and congestion is near. */
enum { SAMPLES = 3, SETTINGS_WORDS = RPR_SETTINGS_LENGTH / 4 };
extern const uint32_t sample_settings[SAMPLES][SETTINGS_WORDS];

#endif
