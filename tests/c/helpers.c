/* The macros and the inline functions of ebml.h, and ebml_is_utf8, as a C program uses them. Prints a line for each
 * check that fails, then the count; exit status 1 if one failed. */
#include "ebml.h"

int printf(const char *format, ...);
int strcmp(const char *a, const char *b);

static int checks, failures;

static void expect(const char *what, int ok)
{
    checks++;
    if (!ok) {
        failures++;
        printf("FAILED: %s\n", what);
    }
}

#define N(...) (const uint8_t[]){__VA_ARGS__}, sizeof((const uint8_t[]){__VA_ARGS__})
#define VALUE(...) (const uint8_t[EBML_VALUE]){__VA_ARGS__}

static void results(void)
{
    uint8_t out[EBML_VALUE];
    uint64_t n = ebml_read_vint(N(0x40, 0x7F), out, sizeof out);
    expect("a vint is neither refused nor needs more", !EBML_IS_REFUSAL(n) && !EBML_NEEDS_MORE(n) && n == 2);
    expect("its value", ebml_u64(out) == 127);
    n = ebml_read_vint(N(0x40), out, sizeof out);
    expect("a part of a vint needs more", EBML_NEEDS_MORE(n) && !EBML_IS_REFUSAL(n) && EBML_MISSING(n) == 1);
    n = ebml_read_vint(N(0, 1), out, sizeof out);
    expect("00 is refused by 1", EBML_IS_REFUSAL(n) && !EBML_NEEDS_MORE(n) && EBML_REFUSAL(n) == EBML_READ_VINT_OVERFLOW);
    n = ebml_as_vint((uint64_t)1 << 56, out, sizeof out);
    expect("2^56 is refused by 2", EBML_IS_REFUSAL(n) && EBML_REFUSAL(n) == EBML_WRITE_VINT_OVERFLOW);
    n = ebml_check_table((const uint64_t[]){0xA1, EBML_MASTER, 0, 0, 2, EBML_MASTER, 0, 0}, 8, (const uint64_t[]){0}, 0);
    expect("a table's fault is a refusal too", EBML_IS_REFUSAL(n) && EBML_REFUSAL(n) == 31 && EBML_CHECK_ENTRY(n) == 1);
    n = ebml_check_table((const uint64_t[]){0xA1, EBML_MASTER, 0, 0}, 4, (const uint64_t[]){0}, 0);
    expect("a passed table is none", !EBML_IS_REFUSAL(n) && n == 0);
}

static void values(void)
{
    expect("u64", ebml_u64(VALUE(1, 2, 3, 4, 5, 6, 7, 8)) == 0x0102030405060708u);
    expect("the greatest u64", ebml_u64(VALUE(255, 255, 255, 255, 255, 255, 255, 255)) == UINT64_MAX);
    expect("i64 5", ebml_i64(VALUE(0, 0, 0, 0, 0, 0, 0, 5)) == 5);
    expect("i64 -1", ebml_i64(VALUE(255, 255, 255, 255, 255, 255, 255, 255)) == -1);
    expect("the least i64", ebml_i64(VALUE(128, 0, 0, 0, 0, 0, 0, 0)) == -INT64_MAX - 1);
    expect("the greatest i64", ebml_i64(VALUE(127, 255, 255, 255, 255, 255, 255, 255)) == INT64_MAX);
    expect("f64 1.0", ebml_f64(VALUE(0x3F, 0xF0, 0, 0, 0, 0, 0, 0)) == 1.0);
    expect("f64 -2.5", ebml_f64(VALUE(0xC0, 0x04, 0, 0, 0, 0, 0, 0)) == -2.5);
}

static void texts(void)
{
    expect("no byte is a text", ebml_is_utf8(N(0)) == 1 && ebml_is_utf8((const uint8_t[]){0}, 0) == 1);
    expect("ml", ebml_is_utf8(N('m', 'l')) == 1);
    expect("RFC 3629's first example", ebml_is_utf8(N(0x41, 0xE2, 0x89, 0xA2, 0xCE, 0x91, 0x2E)) == 1);
    expect("a longer form", ebml_is_utf8(N(0xC0, 0x80)) == 0);
    expect("a surrogate", ebml_is_utf8(N(0xED, 0xA0, 0x80)) == 0);
    expect("cut inside a letter", ebml_is_utf8(N(0x41, 0xE2, 0x89)) == 0);
}

static void refusal_texts(void)
{
    const char *none = ebml_refusal_text(0);
    int told = 0;
    for (int n = -1; n < 300; n++) {
        const char *text = ebml_refusal_text(n);
        expect("a text is there", text != 0 && text[0] != 0);
        told += strcmp(text, none) != 0;
    }
    expect("36 refusals have a text", told == 36);
    expect("23", strcmp(ebml_refusal_text(23), "the input ended inside an element") == 0);
}

int main(void)
{
    results();
    values();
    texts();
    refusal_texts();
    printf("c: %d checks of the macros and helpers, %d failed\n", checks, failures);
    return failures != 0;
}
