/*
 * summarize [--bytes] [FILE] in plain C: what `rpr summarize` is timed beside. Hex text, or with --bytes the bytes themselves, from a file or from standard input,
 * are read in blocks and summed in windows.
 */
#define _POSIX_C_SOURCE 200809L
#include "plain_program.h"

#include <fcntl.h>

enum { DONE = 0, REFUSED = 1, AT_ONCE = 65536 };

/* What a character of hex text is: the value of a digit, or one of these. */
enum { BLANK = 16, OTHER = 17 };

static const char *name = "standard input";
static int file = STDIN_FILENO;
static struct window record;
static uint64_t refusal; /* of the windows so far */

static _Noreturn void refuse(uint64_t number, const char *words) {
    put_line("refused ", (int64_t)number);
    flush();
    end_refused(name, number, words, REFUSED);
}

/* The window at hand is full, or the record's last. Behind a refusal none is summed. */
static void sum_more(void) {
    if (refusal == 0) refusal = sum_window(&record);
    if (refusal == 0) move_on(&record);
    else record.length = HEADER;
}

static size_t read_some(uint8_t *room, size_t length) {
    ssize_t got = read(file, room, length);
    if (got < 0) end_with(name, strerror(errno));
    return (size_t)got;
}

static void read_bytes(void) {
    for (size_t got; refusal == 0 && (got = read_some(record.bytes + record.length, WINDOW - record.length)) > 0;) {
        record.length += got;
        if (record.length == WINDOW) sum_more();
    }
}

static _Noreturn void refuse_text(void) { refuse(RPR_BYTES, "hex is expected, and this is other text; --bytes reads bytes"); }

/* Other text is refused before all that the record may be refused for, so the whole of it is looked at. */
static void read_text(const uint8_t meaning[256]) {
    static uint8_t block[AT_ONCE];
    unsigned high = BLANK;
    for (size_t got; (got = read_some(block, AT_ONCE)) > 0;) {
        for (size_t i = 0; i < got; i++) {
            unsigned digit = meaning[block[i]];
            if (digit == BLANK) continue;
            if (digit == OTHER) refuse_text();
            if (high == BLANK) {
                high = digit;
                continue;
            }
            record.bytes[record.length++] = (uint8_t)(high << 4 | digit);
            high = BLANK;
            if (record.length == WINDOW) sum_more();
        }
    }
    if (high != BLANK) refuse_text();
}

int main(int count, char **words) {
    static uint8_t meaning[256];
    memset(meaning, OTHER, sizeof meaning);
    for (const char *blank = " \t\r\n"; *blank != 0; blank++) meaning[(uint8_t)*blank] = BLANK;
    for (uint8_t value = 0; value < 16; value++) meaning[(uint8_t) "0123456789abcdef"[value]] = meaning[(uint8_t) "0123456789ABCDEF"[value]] = value;
    int bytes = count > 1 && strcmp(words[1], "--bytes") == 0;
    if (count > 1 + bytes) {
        name = words[1 + bytes];
        file = open(name, O_RDONLY);
        if (file < 0) end_with(name, strerror(errno));
    }
    if (bytes) read_bytes();
    else read_text(meaning);
    sum_more();
    if (refusal != 0) refuse(refusal, record_words(refusal));
    put_summary(&record.sum);
    flush();
    return DONE;
}
