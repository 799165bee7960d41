/* Ringlet choice, and the path of a wrap-marked frame, in plain C. */
#include "plain.h"

enum { UNSPECIFIED, LEFT, RIGHT, DEFAULT };
enum { PROTECTED = 1, UNPROTECTED = 2 };

/* 1 for a ring that is none, 3 for stations that are none or the same, or links beyond the last. */
static uint64_t refused(uint64_t stations, uint64_t own, uint64_t target, uint64_t links) {
    if (stations < 2 || stations > 63) return 1;
    if (own >= stations || target >= stations || own == target || links >> stations != 0) return 3;
    return 0;
}

/* The station after one on a side, and whether the link to it is usable. */
static uint64_t next(uint64_t stations, uint64_t at, uint64_t side) {
    if (side == RIGHT) return at + 1 == stations ? 0 : at + 1;
    return at == 0 ? stations - 1 : at - 1;
}

static int usable(uint64_t stations, uint64_t at, uint64_t links, uint64_t side) {
    return (int)(links >> (side == RIGHT ? at : next(stations, at, LEFT)) & 1);
}

/* Every link of the way is usable: those from one number up to the other, or the rest of the ring. */
static int reaches(uint64_t stations, uint64_t own, uint64_t target, uint64_t links, uint64_t side) {
    uint64_t low = own < target ? own : target, high = own < target ? target : own;
    uint64_t way = (UINT64_C(1) << high) - (UINT64_C(1) << low);
    if ((own < target) != (side == RIGHT)) way ^= (UINT64_C(1) << stations) - 1;
    return (links & way) == way;
}

uint64_t plain_choose(uint64_t stations, uint64_t own, uint64_t target, uint64_t links, uint64_t side, uint64_t protection, uint64_t ring) {
    uint64_t number = refused(stations, own, target, links);
    if (number != 0) return number;
    if (side > DEFAULT || protection > UNPROTECTED || ring > 1) return 3;
    uint64_t right = target > own ? target - own : target + stations - own, left = stations - right;
    if (side == UNSPECIFIED || side == DEFAULT) side = right < left || (right == left && own < target) ? RIGHT : LEFT;
    if (protection != UNPROTECTED && !reaches(stations, own, target, links, side)) {
        side = side == RIGHT ? LEFT : RIGHT;
        if (!reaches(stations, own, target, links, side)) return 8;
    }
    uint64_t distance = side == RIGHT ? right : left;
    uint64_t ttl = ring == 1 ? 63 : distance, mark = ring == 1 && protection != UNPROTECTED;
    return side << 8 | distance << 16 | ttl << 24 | mark << 32;
}

uint64_t plain_path(uint64_t stations, uint64_t own, uint64_t target, uint64_t links, uint64_t home) {
    uint64_t number = refused(stations, own, target, links);
    if (number != 0) return number;
    if (home != LEFT && home != RIGHT) return 3;
    if (!usable(stations, own, links, LEFT) && !usable(stations, own, links, RIGHT)) return 0;
    uint64_t at = own, side = home, hops = 0;
    for (;;) {
        if (side == home && at == target) return 1 << 8 | hops << 16;
        if (hops == 2 * stations) return hops << 16;
        if (usable(stations, at, links, side)) {
            at = next(stations, at, side);
            hops++;
        } else {
            side = side == RIGHT ? LEFT : RIGHT;
        }
    }
}
