/*
 * What the programs in plain C share, plain_compare.c and plain_summarize.c: the windows in which a record is read, text for standard output, and how a program
 * ends. The functions stand here, and not in a file of their own, so that the compiler can draw them into the loops that are timed.
 */
#ifndef PLAIN_PROGRAM_H
#define PLAIN_PROGRAM_H

#include <errno.h>
#include <stdio.h>
#include <stdlib.h>
#include <string.h>
#include <unistd.h>

#include "plain.h"
#include "plain_record.h"

/* A window is the record's header and as many bytes of its items as 5,000 events take. A page of text is written once there is no room for another line. */
enum { EVENTS = 5000, WINDOW = HEADER + EVENT * EVENTS, PAGE = 65536, LONGEST_LINE = 128 };

/* How a program ends: 0 and 1 are the command's own. */
enum { TROUBLE = 2 };

/* ---- what goes wrong: one line on standard error, and the end ---- */

static _Noreturn void end_with(const char *what, const char *words) {
    fprintf(stderr, "rpr: %s: %s\n", what, words);
    exit(TROUBLE);
}

static _Noreturn void end_refused(const char *name, uint64_t refusal, const char *words, int status) {
    fprintf(stderr, "rpr: %s: refused %u: %s\n", name, (unsigned)refusal, words);
    exit(status);
}

/* What is said of a record's refusal. */
static const char *record_words(uint64_t refusal) {
    switch (refusal) {
        case RPR_SETTING: return "a setting is outside its range";
        case RPR_RANGE: return "the size of a send is outside its range";
        case RPR_MANY_EVENTS: return "over 1,000,000 events";
        default: return "the bytes are not a whole record";
    }
}

/* ---- standard output: lines into a page ---- */

static char page[PAGE];
static size_t used;

static void flush(void) {
    for (size_t done = 0; done < used;) {
        ssize_t put = write(STDOUT_FILENO, page + done, used - done);
        if (put <= 0) end_with("standard output", strerror(errno));
        done += (size_t)put;
    }
    used = 0;
}

static void put_text(const char *text) {
    size_t length = strlen(text);
    memcpy(page + used, text, length);
    used += length;
}

static void put_number(int64_t number) {
    char digits[20];
    size_t count = 0;
    uint64_t rest = number < 0 ? -(uint64_t)number : (uint64_t)number;
    do digits[count++] = (char)('0' + rest % 10);
    while ((rest /= 10) > 0);
    if (number < 0) page[used++] = '-';
    while (count > 0) page[used++] = digits[--count];
}

static void end_line(void) {
    page[used++] = '\n';
    if (used > PAGE - LONGEST_LINE) flush();
}

static void put_line(const char *word, int64_t number) {
    put_text(word);
    put_number(number);
    end_line();
}

static void put_summary(const struct sum *of) {
    struct rpr_summary sum = summary_of(of);
    uint64_t settled = plain_settle(&sum, sizeof sum, sum.lo_limit);
    put_line("events ", sum.events);
    put_line("accrued ", (int64_t)sum.accrued);
    put_line("sent ", (int64_t)sum.sent);
    put_line("ceiling ", sum.ceiling);
    put_line("need ", (int64_t)sum.need);
    put_text("start ");
    put_number(sum.lo_limit);
    if (rpr_settled_permitted(settled)) {
        put_line(" permitted end ", rpr_settled_end_credit(settled));
    } else {
        put_text(" not permitted");
        end_line();
    }
}

/* ---- a record, window by window ---- */

/* The window at hand with its length in bytes, where its last whole item ends, and what the record so far comes to. It is the first where none was summed. */
struct window {
    struct sum sum;
    int begun;
    size_t length, end;
    uint8_t bytes[WINDOW];
};

/* The window, tested and summed behind those before: 0, or its refusal. One that is full may end within an item, of which the rest is still to come. */
static uint64_t sum_window(struct window *w) {
    uint64_t refusal = w->begun ? 0 : sum_header(w->bytes, w->length, &w->sum);
    if (refusal != 0) return refusal;
    w->begun = 1;
    refusal = sum_items(w->bytes + HEADER, w->length - HEADER, &w->sum, &w->end);
    w->end += HEADER;
    return refusal == RPR_BYTES && w->length == WINDOW && w->length - w->end < RUN ? 0 : refusal;
}

/* The window is to be filled anew, behind the item that it ends within. */
static void move_on(struct window *w) {
    memmove(w->bytes + HEADER, w->bytes + w->end, w->length - w->end);
    w->length -= w->end - HEADER;
}

#endif
