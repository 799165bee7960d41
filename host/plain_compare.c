/*
 * compare FIRST SECOND in plain C: what `rpr compare` is timed beside. The same sums, the same text, the same statuses. Both files are read twice, in windows: first they
 * are tested and summed, then they are compared and summed again, so that a file that changed in between is noticed. Equal runs are passed in one step.
 */
#define _POSIX_C_SOURCE 200809L
#include "plain_program.h"

#include <fcntl.h>

/* How it ends where both could be compared. */
enum { SAME = 0, DIFFERENT = 1 };

/* One of the two files: its window, or why its reading ended; what the first reading came to; and in the second reading the item at hand, and how many events of it
 * were compared. */
struct side {
    const char *word, *name;
    int file, lost; /* lost is why it could not be read on, or 0 */
    uint64_t refusal;
    struct sum tested;
    struct window w;
    size_t at;
    uint32_t gone;
};

static struct side first = {.word = "first"}, second = {.word = "second"};
static int found = SAME;

static _Noreturn void end_changed(const struct side *s) { end_with(s->name, "changed while it was read"); }

static void put_event(const struct item *item) {
    static const char *const kinds[] = {"waiting ", "idle ", "send "};
    put_text(kinds[item->kind - 1]);
    put_number(item->number);
}

/* ---- reading ---- */

static void open_side(struct side *s) {
    s->file = open(s->name, O_RDONLY);
    if (s->file < 0) end_with(s->name, strerror(errno));
    if (lseek(s->file, 0, SEEK_SET) < 0) end_with(s->name, "cannot be read twice, as a pipe's bytes are gone once read");
}

/* The next window, or as much of it as there is left to read. */
static void read_window(struct side *s) {
    if (s->w.begun) move_on(&s->w);
    s->at = HEADER;
    while (s->w.length < WINDOW) {
        ssize_t got = read(s->file, s->w.bytes + s->w.length, WINDOW - s->w.length);
        if (got < 0) s->lost = errno;
        if (got <= 0) return;
        s->w.length += (size_t)got;
    }
}

/* Whether the windows at hand have the same bytes, behind the same. Plain C does not ask. */
static int alike(void) {
#ifdef SAME_ALGORITHM
    return first.w.length == second.w.length && memcmp(first.w.bytes, second.w.bytes, first.w.length) == 0;
#else
    return 0;
#endif
}

static int same_sum(const struct sum *a, const struct sum *b) { return memcmp(a, b, sizeof *a) == 0; }

static int is_fine(const struct side *s) { return s->lost == 0 && s->refusal == 0; }

static int goes_on(const struct side *s) { return is_fine(s) && s->w.length == WINDOW; }

static void sum_side(struct side *s) {
    if (is_fine(s)) s->refusal = sum_window(&s->w);
}

/* The next window of both: it is shorter than it could be where the file ends. Equal windows behind equal sums are summed once. */
static void read_both(void) {
    int equal = same_sum(&first.w.sum, &second.w.sum);
    if (is_fine(&first)) read_window(&first);
    if (is_fine(&second)) read_window(&second);
    int once = equal && is_fine(&first) && is_fine(&second) && alike();
    sum_side(&first);
    if (once) {
        second.w.sum = first.w.sum;
        second.w.begun = first.w.begun;
        second.w.end = first.w.end;
        second.refusal = first.refusal;
    } else {
        sum_side(&second);
    }
}

/* ---- the first reading ---- */

static void hold_good(const struct side *s) {
    if (is_fine(s)) return;
    if (s->lost != 0) end_with(s->name, strerror(s->lost));
    put_line("refused ", (int64_t)s->refusal);
    flush();
    end_refused(s->name, s->refusal, record_words(s->refusal), TROUBLE);
}

/* Both files, tested and summed. What is wrong with the first is said before what is wrong with the second. */
static void test_both(void) {
    read_both();
    while (goes_on(&first) || (is_fine(&first) && goes_on(&second))) read_both();
    hold_good(&first);
    hold_good(&second);
}

/* ---- the second reading ---- */

/* A window was read again: the settings have to be those of before, and no events may have come; with the last window, all has to come to what it came to. */
static void hold_window(const struct side *s) {
    const struct sum *now = &s->w.sum, *then = &s->tested;
    if (s->lost != 0) end_with(s->name, strerror(s->lost));
    if (s->refusal != 0 || now->mtu != then->mtu || now->lo != then->lo || now->hi != then->hi || now->events > then->events) end_changed(s);
    if (s->w.length < WINDOW && !same_sum(now, then)) end_changed(s);
}

static void begin_again(struct side *s) {
    s->tested = s->w.sum;
    s->w.sum = (struct sum){0};
    s->w.begun = 0;
    s->w.length = 0;
    if (lseek(s->file, 0, SEEK_SET) < 0) end_with(s->name, strerror(errno));
}

/* Whether the window is passed, and another follows. */
static int is_spent(const struct side *s) { return s->at == s->w.end && s->w.length == WINDOW; }

static void read_on(struct side *s) {
    read_window(s);
    sum_side(s);
    hold_window(s);
}

static void read_both_on(void) {
    read_both();
    hold_window(&first);
    hold_window(&second);
}

static void end_difference(void) {
    found = DIFFERENT;
    end_line();
}

static void list_setting(const char *name, int64_t a, int64_t b) {
    if (a == b) return;
    put_text(name);
    put_number(a);
    put_text(", ");
    put_number(b);
    end_difference();
}

/* ---- events ---- */

/* The item at hand, which was tested. */
static struct item item_of(const struct side *s) {
    const uint8_t *bytes = s->w.bytes + s->at;
    return get16(bytes) == RUN ? run_of(bytes) : event_of(bytes);
}

/* So many more events of the item at hand are compared. */
static void pass(struct side *s, const struct item *item, uint32_t count) {
    s->gone += count;
    if (s->gone < item->count) return;
    s->gone = 0;
    s->at += item->length;
}

/* The items at hand, as far as both go: each place is listed where kind or number differs. How many places. */
static size_t list_items(size_t place) {
    struct item a = item_of(&first), b = item_of(&second);
    uint32_t more = a.count - first.gone, other = b.count - second.gone, count = more < other ? more : other;
    int differ = a.kind != b.kind || a.number != b.number;
    for (uint32_t i = 0; differ && i < count; i++) {
        put_text("event ");
        put_number((int64_t)(place + i));
        put_text(": ");
        put_event(&a);
        put_text(", ");
        put_event(&b);
        end_difference();
    }
    pass(&first, &a, count);
    pass(&second, &b, count);
    return count;
}

/* From the items at hand on, the events that have the same bytes. How many. */
static size_t pass_same(void) {
    const uint8_t *a = first.w.bytes + first.at, *b = second.w.bytes + second.at;
    size_t of_a = first.w.end - first.at, of_b = second.w.end - second.at, most = (of_a < of_b ? of_a : of_b) / EVENT, i = 0;
    if (first.gone != 0 || second.gone != 0) return 0;
    while (i < most && get16(a + EVENT * i) == EVENT && memcmp(a + EVENT * i, b + EVENT * i, EVENT) == 0) i++;
    first.at += EVENT * i;
    second.at += EVENT * i;
    return i;
}

/* The windows at hand, of which the first events not compared stand at this place, as far as both go. The next place. */
static size_t list_windows(size_t place) {
    if (first.at == HEADER && second.at == HEADER && same_sum(&first.w.sum, &second.w.sum) && alike()) {
        first.at = second.at = first.w.end;
        return (size_t)first.w.sum.events;
    }
    while (first.at < first.w.end && second.at < second.w.end) {
        place += pass_same();
        if (first.at < first.w.end && second.at < second.w.end) place += list_items(place);
    }
    return place;
}

/* The events that only this side has, from this place on. */
static void list_surplus(struct side *s, size_t place) {
    for (;;) {
        while (s->at < s->w.end) {
            struct item item = item_of(s);
            put_text(s->word);
            put_text(" only, event ");
            put_number((int64_t)place++);
            put_text(": ");
            put_event(&item);
            end_difference();
            pass(s, &item, 1);
        }
        if (!is_spent(s)) return;
        read_on(s);
    }
}

static void list_events(void) {
    size_t place = list_windows(0);
    while (is_spent(&first) || is_spent(&second)) {
        if (is_spent(&first) && is_spent(&second)) read_both_on();
        else read_on(is_spent(&first) ? &first : &second);
        place = list_windows(place);
    }
    list_surplus(&first, place);
    list_surplus(&second, place);
}

static void print_summary(const struct side *s) {
    put_text(s->word);
    end_line();
    put_summary(&s->w.sum);
}

int main(int count, char **words) {
    if (count != 3) {
        fputs("usage: rpr compare FIRST SECOND\n", stderr);
        return TROUBLE;
    }
    first.name = words[1];
    second.name = words[2];
    open_side(&first);
    open_side(&second);
    test_both();
    begin_again(&first);
    begin_again(&second);
    read_both_on();
    list_setting("mtu ", first.w.sum.mtu, second.w.sum.mtu);
    list_setting("loLimit ", first.w.sum.lo, second.w.sum.lo);
    list_setting("hiLimit ", first.w.sum.hi, second.w.sum.hi);
    list_events();
    print_summary(&first);
    print_summary(&second);
    flush();
    return found;
}
