#include "calls.h"

/* A call that its header declares otherwise than the list does not compile here. */
const struct calls library = {
#define CALL(name, ...) .name = rpr_##name,
#include "calls.def"
};

const struct calls plain = {
#define CALL(name, ...) .name = plain_##name,
#include "calls.def"
};

const uint32_t sample_settings[SAMPLES][SETTINGS_WORDS] = {
    {0x0200, 0x5e000001, 0, 64, 100, 300, 50, 100, 300, 50, 100, 300, 50, 100, 300, 50, 100, 300, 50, 256, 256, 256, 128, 2, 4, 10, 10000, 4, 64, 64, 6,
     0, 10, 64},
    {0xffff, 0xffffffff, 1, 9216, 65536, 1048576, 65535, 65536, 1048576, 65535, 65536, 1048576, 65535, 65536, 1048576, 65535, 65536, 1048576,
     65535, 1048576, 1048576, 1048576, 0, 255, 1024, 1, 2147483647, 16, 512, 16, 63, 1, 1000, 512},
    {0, 7, 0, 300, 300, 2000, 400, 300, 2000, 400, 300, 2000, 400, 300, 2000, 400, 300, 2000, 400, 40000, 40000, 40000, 40, 1, 1, 1, 200, 8, 16, 512, 16,
     0, 2, 16},
};
