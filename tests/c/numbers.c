/* Every call of ebml.h as a C program makes it: results, refusals in their order, and the lent bytes past the answer.
 * Prints a line for each check that fails, then the count; exit status 1 if one failed. */
#include "ebml.h"

int printf(const char *format, ...);

static int checks, failures;

/* The lent output before each call: no byte of an answer below is 0xE5 where it would hide a missing write. */
#define HELD 0xE5
static uint8_t out[12];

static void lend(void)
{
    for (size_t i = 0; i < sizeof out; i++)
        out[i] = HELD;
}

static void expect(const char *what, int ok)
{
    checks++;
    if (!ok) {
        failures++;
        printf("FAILED: %s\n", what);
    }
}

/* The result, the bytes at the front, and that every byte after them is as it was lent. */
static void gives(const char *what, uint64_t got, uint64_t want, const uint8_t *bytes, size_t n)
{
    int ok = got == want;
    for (size_t i = 0; i < sizeof out; i++)
        ok = ok && out[i] == (i < n ? bytes[i] : HELD);
    expect(what, ok);
}

static void refuses(const char *what, uint64_t got, int number)
{
    gives(what, got, EBML_REFUSED + (uint64_t)number, out, 0);
}

#define N(...) (const uint8_t[]){__VA_ARGS__}, sizeof((const uint8_t[]){__VA_ARGS__})
static const uint8_t none[1];

static void reads(void)
{
    lend(); gives("read 81", ebml_read_vint(N(0x81), out, 12), 1, N(0, 0, 0, 0, 0, 0, 0, 1));
    lend(); gives("read 40 01, a longer form", ebml_read_vint(N(0x40, 0x01), out, 12), 2, N(0, 0, 0, 0, 0, 0, 0, 1));
    lend(); gives("read 8 bytes, then a stray one", ebml_read_vint(N(1, 0xFF, 0xFF, 0xFF, 0xFF, 0xFF, 0xFF, 0xFE, 9), out, 8), 8,
                  N(0, 0xFF, 0xFF, 0xFF, 0xFF, 0xFF, 0xFF, 0xFE));
    lend(); gives("read nothing: need more", ebml_read_vint(none, 0, out, 12), 513, none, 0);
    lend(); gives("read 40: need more", ebml_read_vint(N(0x40), out, 12), 513, none, 0);
    lend(); gives("need more comes before a short output", ebml_read_vint(N(0x40), out, 0), 513, none, 0);
    lend(); refuses("read 00", ebml_read_vint(N(0, 1), out, 12), EBML_READ_VINT_OVERFLOW);
    lend(); refuses("1 comes before 5", ebml_read_vint(N(0, 1), out, 7), EBML_READ_VINT_OVERFLOW);
    lend(); refuses("read into 7 bytes", ebml_read_vint(N(0x81), out, 7), EBML_OUTPUT_TOO_SHORT);

    lend(); gives("signed DF is -33", ebml_read_signed_vint(N(0xDF), out, 12), 1, N(0xFF, 0xFF, 0xFF, 0xFF, 0xFF, 0xFF, 0xFF, 0xDF));
    lend(); gives("signed 40 C8 is 200", ebml_read_signed_vint(N(0x40, 0xC8), out, 12), 2, N(0, 0, 0, 0, 0, 0, 0, 200));
    lend(); gives("signed 8 bytes, not negative", ebml_read_signed_vint(N(1, 0, 0, 0, 0, 0, 0, 5), out, 12), 8, N(0, 0, 0, 0, 0, 0, 0, 5));
    lend(); gives("signed need more", ebml_read_signed_vint(N(0x20, 1), out, 12), 513, none, 0);
    lend(); refuses("signed 00", ebml_read_signed_vint(N(0), out, 12), EBML_READ_VINT_OVERFLOW);
    lend(); refuses("signed into 7 bytes", ebml_read_signed_vint(N(0xDF), out, 7), EBML_OUTPUT_TOO_SHORT);
}

/* A vint of 8 bytes, its first 0 to 7 lent: 1 byte is missing where there is none, else 8 less those. */
static void missing(void)
{
    static const uint8_t eight[8] = {1, 2, 3, 4, 5, 6, 7, 8};
    for (size_t n = 0; n < 8; n++) {
        const size_t want = n == 0 ? 1 : 8 - n;
        lend();
        const uint64_t plain = ebml_read_vint(eight, n, out, 12);
        gives("a part of 8 bytes", plain, 512 + want, none, 0);
        expect("the missing bytes", EBML_NEEDS_MORE(plain) && !EBML_IS_REFUSAL(plain) && EBML_MISSING(plain) == want);
        lend();
        const uint64_t sign = ebml_read_signed_vint(eight, n, out, 12);
        gives("a part of 8 bytes, signed", sign, 512 + want, none, 0);
        expect("the missing bytes, signed", EBML_NEEDS_MORE(sign) && !EBML_IS_REFUSAL(sign) && EBML_MISSING(sign) == want);
    }
    lend(); gives("all 8 bytes", ebml_read_vint(eight, 8, out, 12), 8, N(0, 2, 3, 4, 5, 6, 7, 8));
    expect("a vint of 8 bytes does not need more", !EBML_NEEDS_MORE((uint64_t)8));
    expect("a refusal does not need more", !EBML_NEEDS_MORE((uint64_t)(EBML_REFUSED + EBML_READ_VINT_OVERFLOW)));
}

static void writes(void)
{
    lend(); gives("126 is FE", ebml_as_vint(126, out, 1), 1, N(0xFE));
    lend(); gives("127 is 40 7F", ebml_as_vint(127, out, 12), 2, N(0x40, 0x7F));
    lend(); gives("16383 is 20 3F FF", ebml_as_vint(16383, out, 12), 3, N(0x20, 0x3F, 0xFF));
    lend(); gives("2^56 - 1", ebml_as_vint(((uint64_t)1 << 56) - 1, out, 12), 8, N(1, 0xFF, 0xFF, 0xFF, 0xFF, 0xFF, 0xFF, 0xFF));
    lend(); refuses("2^56", ebml_as_vint((uint64_t)1 << 56, out, 12), EBML_WRITE_VINT_OVERFLOW);
    lend(); refuses("2 comes before 5", ebml_as_vint((uint64_t)1 << 56, out, 0), EBML_WRITE_VINT_OVERFLOW);
    lend(); refuses("127 into 1 byte", ebml_as_vint(127, out, 1), EBML_OUTPUT_TOO_SHORT);

    lend(); gives("127 in one byte", ebml_as_vint_with_length(127, 1, out, 12), 1, N(0xFF));
    lend(); gives("1 in four bytes", ebml_as_vint_with_length(1, 4, out, 4), 4, N(0x10, 0, 0, 1));
    lend(); refuses("width 0", ebml_as_vint_with_length(1, 0, out, 12), EBML_WIDTH_MISMATCH);
    lend(); refuses("4 comes before 2 and 5", ebml_as_vint_with_length(~(uint64_t)0, 9, out, 0), EBML_WIDTH_MISMATCH);
    lend(); refuses("a width of 2^32 and more", ebml_as_vint_with_length(1, ((size_t)1 << 32) + 1, out, 12), EBML_WIDTH_MISMATCH);
    lend(); refuses("128 in one byte", ebml_as_vint_with_length(128, 1, out, 0), EBML_WRITE_VINT_OVERFLOW);
    lend(); refuses("1 in four bytes of three", ebml_as_vint_with_length(1, 4, out, 3), EBML_OUTPUT_TOO_SHORT);

    lend(); gives("-33 is DF", ebml_as_signed_vint(-33, out, 1), 1, N(0xDF));
    lend(); gives("-64 is C0", ebml_as_signed_vint(-64, out, 12), 1, N(0xC0));
    lend(); gives("-200 is 7F 38", ebml_as_signed_vint(-200, out, 12), 2, N(0x7F, 0x38));
    lend(); refuses("-2^55", ebml_as_signed_vint(-((int64_t)1 << 55), out, 12), EBML_WRITE_SIGNED_VINT_OVERFLOW);
    lend(); refuses("2^55", ebml_as_signed_vint((int64_t)1 << 55, out, 0), EBML_WRITE_SIGNED_VINT_OVERFLOW);
    lend(); refuses("the least of all", ebml_as_signed_vint(-((int64_t)1 << 62) * 2, out, 12), EBML_WRITE_SIGNED_VINT_OVERFLOW);
    lend(); refuses("-200 into 1 byte", ebml_as_signed_vint(-200, out, 1), EBML_OUTPUT_TOO_SHORT);

    lend(); gives("-63 in one byte", ebml_as_signed_vint_with_length(-63, 1, out, 12), 1, N(0xC1));
    lend(); gives("-1 in three bytes", ebml_as_signed_vint_with_length(-1, 3, out, 12), 3, N(0x3F, 0xFF, 0xFF));
    lend(); refuses("-64 in one byte", ebml_as_signed_vint_with_length(-64, 1, out, 12), EBML_WRITE_SIGNED_VINT_OVERFLOW);
    lend(); refuses("signed width 9", ebml_as_signed_vint_with_length(-64, 9, out, 0), EBML_WIDTH_MISMATCH);
    lend(); refuses("signed width 0", ebml_as_signed_vint_with_length(0, 0, out, 12), EBML_WIDTH_MISMATCH);
    lend(); refuses("-1 in three bytes of two", ebml_as_signed_vint_with_length(-1, 3, out, 2), EBML_OUTPUT_TOO_SHORT);
}

/* Of each length L the IDs lie between two limits. */
static void element_ids(void)
{
    for (int L = 1; L <= 8; L++) {
        uint64_t marker = (uint64_t)1 << (7 * L);
        uint64_t least = marker + (L == 1 ? 1 : (marker >> 7) - 1);
        expect("an ID's data bits all 0", ebml_is_element_id(marker) == 0);
        expect("not the shortest form", ebml_is_element_id(least - 1) == 0);
        expect("the first ID of a length", ebml_is_element_id(least) == 1);
        expect("the last ID of a length", ebml_is_element_id(2 * marker - 2) == 1);
        expect("an ID's data bits all 1", ebml_is_element_id(2 * marker - 1) == 0);
    }
    expect("ID 0", ebml_is_element_id(0) == 0);
    expect("ID 1", ebml_is_element_id(1) == 0);
    expect("ID 7F", ebml_is_element_id(0x7F) == 0);
    expect("ID 2^57", ebml_is_element_id((uint64_t)1 << 57) == 0);
    expect("the greatest number", ebml_is_element_id(UINT64_MAX) == 0);
    expect("ID 4E01", ebml_is_element_id(0x4E01) == 1);
}

static void conversions(void)
{
    expect("is_vint 1", ebml_is_vint(1) == 1);
    expect("is_vint 2^63", ebml_is_vint((uint64_t)1 << 63) == 1);
    expect("is_vint 4E01", ebml_is_vint(0x4E01) == 1);
    expect("is_vint 0", ebml_is_vint(0) == 0);
    expect("is_vint 2", ebml_is_vint(2) == 0);
    element_ids();

    lend(); gives("04 00 is 1024", ebml_arr_to_u64(N(4, 0), out, 12), 8, N(0, 0, 0, 0, 0, 0, 4, 0));
    lend(); gives("no byte is 0", ebml_arr_to_u64(none, 0, out, 8), 8, N(0, 0, 0, 0, 0, 0, 0, 0));
    lend(); refuses("9 bytes", ebml_arr_to_u64(N(0, 0, 0, 0, 0, 0, 0, 0, 1), out, 0), EBML_NUMBER_TOO_LONG);
    lend(); refuses("u64 into 7 bytes", ebml_arr_to_u64(N(4, 0), out, 7), EBML_OUTPUT_TOO_SHORT);

    lend(); gives("FE is -2", ebml_arr_to_i64(N(0xFE), out, 12), 8, N(0xFF, 0xFF, 0xFF, 0xFF, 0xFF, 0xFF, 0xFF, 0xFE));
    lend(); gives("80 and seven 00", ebml_arr_to_i64(N(0x80, 0, 0, 0, 0, 0, 0, 0), out, 12), 8, N(0x80, 0, 0, 0, 0, 0, 0, 0));
    lend(); gives("no byte is 0, signed", ebml_arr_to_i64(none, 0, out, 12), 8, N(0, 0, 0, 0, 0, 0, 0, 0));
    lend(); refuses("9 bytes, signed", ebml_arr_to_i64(N(0, 0, 0, 0, 0, 0, 0, 0, 1), out, 12), EBML_NUMBER_TOO_LONG);
    lend(); refuses("i64 into no byte", ebml_arr_to_i64(N(0xFE), out, 0), EBML_OUTPUT_TOO_SHORT);

    lend(); gives("1.0 in 4 bytes", ebml_arr_to_f64(N(0x3F, 0x80, 0, 0), out, 12), 8, N(0x3F, 0xF0, 0, 0, 0, 0, 0, 0));
    lend(); gives("the least subnormal", ebml_arr_to_f64(N(0, 0, 0, 1), out, 12), 8, N(0x36, 0xA0, 0, 0, 0, 0, 0, 0));
    lend(); gives("a signalling NaN", ebml_arr_to_f64(N(0xFF, 0x80, 0, 1), out, 12), 8, N(0xFF, 0xF8, 0, 0, 0x20, 0, 0, 0));
    lend(); gives("8 bytes as they are", ebml_arr_to_f64(N(0x7F, 0xF0, 0, 0, 0, 0, 0, 1), out, 8), 8, N(0x7F, 0xF0, 0, 0, 0, 0, 0, 1));
    lend(); refuses("a float of no byte", ebml_arr_to_f64(none, 0, out, 12), EBML_FLOAT_MISMATCH);
    lend(); refuses("7 comes before 5", ebml_arr_to_f64(N(1, 2, 3), out, 0), EBML_FLOAT_MISMATCH);
    lend(); refuses("f64 into 7 bytes", ebml_arr_to_f64(N(0x3F, 0x80, 0, 0), out, 7), EBML_OUTPUT_TOO_SHORT);
}

int main(void)
{
    reads();
    missing();
    writes();
    conversions();
    printf("c: %d checks, %d failed\n", checks, failures);
    return failures != 0;
}
