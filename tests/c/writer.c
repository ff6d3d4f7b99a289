/* ebml_write and the functions that fill its items, as a C program uses them. Prints a line for each check that fails,
 * then the count; exit status 1 if one failed. */
#include "ebml.h"

int printf(const char *format, ...);
int memcmp(const void *a, const void *b, size_t n);
void *memset(void *a, int c, size_t n);

static int checks, failures;

static void expect(const char *what, int ok)
{
    checks++;
    if (!ok) {
        failures++;
        printf("FAILED: %s\n", what);
    }
}

#define WORDS(a) (a), sizeof(a) / sizeof(a)[0]

/* Session, Feed in it, a value of each type in Feed, and Void anywhere. */
static const uint64_t entries[] = {
    0x4E01, EBML_MASTER, 0, 0, 0xA1, EBML_MASTER, 0, 1,  0xA2, EBML_UNSIGNED, 0, 2, 0xA3, EBML_UTF8, 0, 2,
    0xA4, EBML_BINARY, 0, 2,   0xA5, EBML_INTEGER, 0, 2, 0xA6, EBML_FLOAT, 0, 2,    0xEC, EBML_BINARY, 2, 1,
};
static const uint64_t parts[] = {0, 0x4E01, 0, 0, 0xA1, 0, 1, 0, 0};

static uint64_t items[EBML_ITEM_WORDS * (EBML_MOST_ITEMS + 1)];
static size_t count;
static uint8_t values[32], out[2048], written[EBML_VALUE];

static uint64_t *next(void)
{
    return items + EBML_ITEM_WORDS * count++;
}

/* A Feed in a Session, as far as its children. */
static void begin(void)
{
    count = 0;
    ebml_start(next(), 0x4E01);
    ebml_start(next(), 0xA1);
}

static void end(void)
{
    ebml_end(next(), 0xA1);
    ebml_end(next(), 0x4E01);
}

/* Writes the items into so many bytes of `out`, which hold AA before, as the bytes of `written` do. */
static uint64_t write_into(size_t n)
{
    memset(out, 0xAA, sizeof out);
    memset(written, 0xAA, sizeof written);
    return ebml_write(WORDS(entries), WORDS(parts), items, EBML_ITEM_WORDS * count, values, sizeof values, out, n,
                      written, sizeof written);
}

static int is_kept(const uint8_t *bytes, size_t n)
{
    for (size_t i = 0; i < n; i++)
        if (bytes[i] != 0xAA) return 0;
    return 1;
}

static void writes(const char *what, size_t room, const uint8_t *document, size_t n)
{
    const uint64_t result = write_into(room);
    expect(what, result == EBML_VALUE && ebml_u64(written) == n && memcmp(out, document, n) == 0
                     && is_kept(out + n, sizeof out - n));
}

static void refuses(const char *what, size_t room, int number)
{
    const uint64_t result = write_into(room);
    expect(what, EBML_IS_REFUSAL(result) && EBML_REFUSAL(result) == number && is_kept(out, sizeof out)
                     && is_kept(written, sizeof written));
}

#define N(...) (const uint8_t[]){__VA_ARGS__}, sizeof((const uint8_t[]){__VA_ARGS__})

static void documents(void)
{
    ebml_put_u64(values, 120);
    values[8] = 'm';
    values[9] = 'l';
    begin();
    ebml_value(next(), EBML_UNSIGNED, 0xA2, 0, 8);
    ebml_value(next(), EBML_UTF8, 0xA3, 8, 2);
    end();
    writes("D1", 14, N(0x4E, 0x01, 0x89, 0xA1, 0x87, 0xA2, 0x81, 0x78, 0xA3, 0x82, 'm', 'l'));
    writes("D1 into its length", 12, N(0x4E, 0x01, 0x89, 0xA1, 0x87, 0xA2, 0x81, 0x78, 0xA3, 0x82, 'm', 'l'));
    refuses("D1 into a byte less", 11, EBML_WRITE_OUTPUT_TOO_SHORT);

    ebml_put_i64(values, -200);
    ebml_put_f64(values + 8, 1.0);
    ebml_put_u64(values + 16, 0);
    begin();
    ebml_value(next(), EBML_INTEGER, 0xA5, 0, 8);
    ebml_value(next(), EBML_FLOAT, 0xA6, 8, 8);
    ebml_value(next(), EBML_INTEGER, 0xA5, 16, 8);
    ebml_value(next(), EBML_BINARY, 0xA4, 6, 2);
    end();
    writes("numbers", sizeof out, N(0x4E, 0x01, 0x96, 0xA1, 0x94, 0xA5, 0x82, 0xFF, 0x38, 0xA6, 0x88, 0x3F, 0xF0, 0, 0,
                                    0, 0, 0, 0, 0xA5, 0x80, 0xA4, 0x82, 0xFF, 0x38));

    count = 0;
    expect("no item", write_into(sizeof out) == EBML_VALUE && ebml_u64(written) == 0 && is_kept(out, sizeof out));
    while (count < EBML_MOST_ITEMS)
        ebml_value(next(), EBML_BINARY, 0xEC, 0, 0);
    expect("512 items", write_into(sizeof out) == EBML_VALUE && ebml_u64(written) == 1024 && out[1023] == 0x80
                            && is_kept(out + 1024, sizeof out - 1024));
}

static void refusals(void)
{
    uint8_t short_written[EBML_VALUE - 1] = {0xAA, 0xAA, 0xAA, 0xAA, 0xAA, 0xAA, 0xAA};
    const uint64_t bad[] = {1, EBML_MASTER, 0, 0};
    uint64_t result;

    refuses("44, 512 items into no byte", 0, EBML_WRITE_OUTPUT_TOO_SHORT);
    ebml_end(next(), 0xA1);
    refuses("41", 0, EBML_WRITE_TOO_MANY_ITEMS);
    result = ebml_write(WORDS(bad), WORDS(parts), items, EBML_ITEM_WORDS * count, values, sizeof values, out,
                        sizeof out, written, sizeof written);
    expect("40 comes before 41", EBML_IS_REFUSAL(result) && EBML_REFUSAL(result) == EBML_WRITE_TABLE_FAILS);
    result = ebml_write(WORDS(bad), WORDS(parts), items, EBML_ITEM_WORDS * count, values, sizeof values, out,
                        sizeof out, short_written, sizeof short_written);
    expect("5 comes first", EBML_IS_REFUSAL(result) && EBML_REFUSAL(result) == EBML_OUTPUT_TOO_SHORT
                                && is_kept(short_written, sizeof short_written) && is_kept(out, sizeof out));

    begin();
    refuses("42, no End", 0, EBML_WRITE_UNMATCHED);
    end();
    ebml_start(next(), 0xA1);
    refuses("42 comes before 43", 0, EBML_WRITE_UNMATCHED);
    ebml_end(next(), 0xA1);
    refuses("43 comes before 44: a Feed as a root", 0, EBML_WRITE_WRONG_ITEM);
    begin();
    ebml_value(next(), EBML_BINARY, 0xA4, sizeof values, 1);
    end();
    refuses("43, a range outside the values", sizeof out, EBML_WRITE_WRONG_ITEM);
    begin();
    end();
    result = ebml_write(WORDS(entries), WORDS(parts), items, EBML_ITEM_WORDS * count - 1, values, sizeof values, out,
                        sizeof out, written, sizeof written);
    expect("42, the last item is not whole", EBML_IS_REFUSAL(result) && EBML_REFUSAL(result) == EBML_WRITE_UNMATCHED);
    result = ebml_write(WORDS(entries), WORDS(parts), items, EBML_ITEM_WORDS * count + 1, values, sizeof values, out,
                        sizeof out, written, sizeof written);
    expect("43, words left over", EBML_IS_REFUSAL(result) && EBML_REFUSAL(result) == EBML_WRITE_WRONG_ITEM);
}

int main(void)
{
    documents();
    refusals();
    printf("c: %d checks of the writer, %d failed\n", checks, failures);
    return failures != 0;
}
