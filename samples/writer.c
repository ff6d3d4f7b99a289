/* writer: writes a night of five feeds as an EBML document on standard output, every size filled in, or says why it does
 * not.
 *
 * It shows ebml_write as a pump uses it: the list is filled item by item, each value's bytes beside it; then one call.
 * What it writes is samples/night-written.ebml, byte for byte. Exit status: 0 written, 1 not.
 *
 *     cc -std=c99 -Iinclude samples/writer.c target/staticlib/libebml.a -o writer
 */
#include "ebml.h"
#include <stdio.h>

enum id {
    SESSION = 0x4E01, FEED = 0xA1, AMOUNT = 0xA2, UNIT = 0xA3, BLOB = 0xA4, SHIFT = 0xA5, RATE = 0xA6, VOID = 0xEC
};

/* The pump's elements: ID, type, first part of the path, number of its parts; and the paths' parts. */
static const uint64_t entries[] = {
    SESSION, EBML_MASTER, 0, 0,   FEED, EBML_MASTER, 0, 1,    AMOUNT, EBML_UNSIGNED, 0, 2, UNIT, EBML_UTF8, 0, 2,
    BLOB, EBML_BINARY, 0, 2,      SHIFT, EBML_INTEGER, 0, 2,  RATE, EBML_FLOAT, 0, 2,      VOID, EBML_BINARY, 2, 1,
};
static const uint64_t parts[] = {0, SESSION, 0,   0, FEED, 0,   1, 0, 0};
#define WORDS(list) list, sizeof list / sizeof list[0]

/* A night that is too long for these is not written: the next item or byte has no place, and `full` says so. */
#define MOST_BYTES 4096
static uint64_t items[EBML_ITEM_WORDS * EBML_MOST_ITEMS];
static size_t item_count;
static uint8_t values[MOST_BYTES];
static size_t value_bytes;
static uint8_t document[MOST_BYTES];
static int full;

static uint64_t *next_item(void)
{
    if (item_count == EBML_MOST_ITEMS) {
        full = 1;
        item_count--;
    }
    return items + EBML_ITEM_WORDS * item_count++;
}

/* Room for the n bytes of the next value, n at most EBML_VALUE or a text's length. */
static uint8_t *next_value(size_t n)
{
    if (sizeof values - value_bytes < n) {
        full = 1;
        value_bytes = 0;
    }
    value_bytes += n;
    return values + value_bytes - n;
}

static void unsigned_value(enum id id, uint64_t n)
{
    ebml_put_u64(next_value(EBML_VALUE), n);
    ebml_value(next_item(), EBML_UNSIGNED, id, value_bytes - EBML_VALUE, EBML_VALUE);
}

static void signed_value(enum id id, int64_t n)
{
    ebml_put_i64(next_value(EBML_VALUE), n);
    ebml_value(next_item(), EBML_INTEGER, id, value_bytes - EBML_VALUE, EBML_VALUE);
}

static void float_value(enum id id, double d)
{
    ebml_put_f64(next_value(EBML_VALUE), d);
    ebml_value(next_item(), EBML_FLOAT, id, value_bytes - EBML_VALUE, EBML_VALUE);
}

/* A text or bytes, as they are. */
static void bytes_value(enum ebml_type type, enum id id, const char *bytes, size_t n)
{
    uint8_t *to = next_value(n);
    for (size_t i = 0; i < n; i++)
        to[i] = (uint8_t)bytes[i];
    ebml_value(next_item(), type, id, value_bytes - n, n);
}

/* A feed: ml, minutes off the plan, ml a minute, and what the alarm log has of it. */
static void feed(uint64_t amount, int64_t shift, double rate, const char *log, size_t log_bytes)
{
    ebml_start(next_item(), FEED);
    unsigned_value(AMOUNT, amount);
    bytes_value(EBML_UTF8, UNIT, "ml", 2);
    signed_value(SHIFT, shift);
    float_value(RATE, rate);
    if (log_bytes > 0)
        bytes_value(EBML_BINARY, BLOB, log, log_bytes);
    ebml_end(next_item(), FEED);
}

int main(void)
{
    uint8_t written[EBML_VALUE];
    ebml_start(next_item(), SESSION);
    feed(120, 0, 2.5, "", 0);
    feed(115, -3, 2.5, "", 0);
    feed(120, 5, 3.0, "", 0);
    feed(90, -132, 1.5, "\001\007", 2);
    bytes_value(EBML_BINARY, VOID, "\000\000", 2);
    feed(300, 0, 3.0, "", 0);
    ebml_end(next_item(), SESSION);
    if (full) {
        fprintf(stderr, "writer: the night is too long\n");
        return 1;
    }
    const uint64_t result = ebml_write(WORDS(entries), WORDS(parts), items, EBML_ITEM_WORDS * item_count, values,
                                       value_bytes, document, sizeof document, written, sizeof written);
    if (EBML_IS_REFUSAL(result)) {
        fprintf(stderr, "writer: refusal %d: %s\n", EBML_REFUSAL(result), ebml_refusal_text(EBML_REFUSAL(result)));
        return 1;
    }
    const size_t length = (size_t)ebml_u64(written);
    return fwrite(document, 1, length, stdout) != length || fflush(stdout) != 0;
}
