/*
 * The range test of a queue in C with the library's own algorithm; part of plain_range.c where it is compiled with SAME_ALGORITHM. A queue without frames is looked at
 * for words that are not 0. In another these are counted over all slots, in one loop of fixed length, and frames are tested where they are held. No frame is 0: where
 * as many words are not 0 as frames are held, every other slot is empty. What C does here that the library's text does not: it joins words before it compares them with 0,
 * as the compiler does of itself for the library, and looks at one run of slots where the frames do not go round the ring.
 */
#ifndef SAME_RANGE_H
#define SAME_RANGE_H

/* Class and mark are tested as one number: 0, 1 or 2 without the mark, 5 or 6 with it; hops with the size below them, so that no shift is needed. Vectors of x86-64 compare
 * signed numbers alone. */
static int word_ok(uint32_t w, struct bounds bounds) {
    int32_t size = (int32_t)size_of(w), low = (int32_t)(w % (1 << 20)), kind = (int32_t)(w >> 20);
    return (size >= 16) & (size <= (int32_t)bounds.mtu) & (low >= 1 << 14) & (low < (int32_t)(bounds.stations << 14)) &
           ((kind <= 2) | ((kind >= 5) & (kind <= 6)));
}

static uint32_t words_used(const uint8_t *queue) {
    uint32_t used = 0;
    for (uint32_t i = 0; i < SLOTS; i++) used += word(queue, i) != 0;
    return used;
}

static int queue_ok(const uint8_t *queue, struct bounds bounds, uint32_t capacity) {
    uint32_t head = queue[HEAD], count = queue[COUNT], end = head + count, held = get(queue + HELD), sum = 0;
    int ok;
    if (count == 0) return head < SLOTS && held == 0 && free_ok(queue, 0, SLOTS);
    if (head >= SLOTS || held > capacity || words_used(queue) != count) return 0;
    if (end <= SLOTS)
        ok = used_ok(queue, head, end, bounds, &sum);
    else
        ok = used_ok(queue, head, SLOTS, bounds, &sum) && used_ok(queue, 0, end - SLOTS, bounds, &sum);
    return ok && held == sum;
}

#endif
