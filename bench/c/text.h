/* text.h: the words of a script's line, as bench/README.md, "What is a call", says. */
#ifndef TEXT_H
#define TEXT_H

#include <stddef.h>
#include <stdint.h>
#include <string.h>

struct text {
    const char *at;
    size_t length;
};

/* Whether the text is this word. */
static inline int is(struct text t, const char *word)
{
    return t.length == strlen(word) && memcmp(t.at, word, t.length) == 0;
}

/* What stands before the first mark, and in `rest` what stands behind it. 0 where there is no mark: `first` is all. */
static inline int cut(struct text *rest, char mark, struct text *first)
{
    const char *found = rest->length == 0 ? NULL : memchr(rest->at, mark, rest->length);
    *first = *rest;
    if (found == NULL) {
        rest->at += rest->length;
        rest->length = 0;
        return 0;
    }
    first->length = (size_t)(found - rest->at);
    rest->at = found + 1;
    rest->length -= first->length + 1;
    return 1;
}

/* A hex digit's value; 16 for any other byte. */
static inline unsigned digit_of(char c)
{
    if (c >= '0' && c <= '9')
        return (unsigned)(c - '0');
    if (c >= 'A' && c <= 'F')
        return (unsigned)(c - 'A') + 10;
    return 16;
}

/* The number below 2^64 that digits of a base say. */
static inline int digits(struct text t, unsigned base, uint64_t *n)
{
    *n = 0;
    for (size_t i = 0; i < t.length; i++) {
        const unsigned digit = digit_of(t.at[i]);
        if (digit >= base || (UINT64_MAX - digit) / base < *n)
            return 0;
        *n = *n * base + digit;
    }
    return t.length > 0;
}

/* A number: 1 to 20 decimal digits. */
static inline int decimal(struct text t, uint64_t *n)
{
    return t.length <= 20 && digits(t, 10, n);
}

/* A word: hex digits, a leading zero only in `0` itself. */
static inline int word(struct text t, uint64_t *n)
{
    return (t.length < 2 || t.at[0] != '0') && digits(t, 16, n);
}

/* `1` or `0`. */
static inline int flag(struct text t, uint64_t *n)
{
    *n = is(t, "1");
    return is(t, "1") || is(t, "0");
}

/* HEX: its bytes, `-` for none. */
static inline int hex(struct text t, uint8_t *into, size_t room, size_t *count)
{
    *count = 0;
    if (is(t, "-"))
        return 1;
    if (t.length == 0 || t.length % 2 != 0 || t.length / 2 > room)
        return 0;
    for (size_t i = 0; i < t.length; i += 2) {
        const unsigned high = digit_of(t.at[i]), low = digit_of(t.at[i + 1]);
        if (high > 15 || low > 15)
            return 0;
        into[(*count)++] = (uint8_t)(16 * high + low);
    }
    return 1;
}

/* A list of words, `-` for none; those that find no room are left out. */
static inline int words(struct text t, uint64_t *into, size_t room, size_t *count)
{
    struct text item;
    int more;
    uint64_t n;
    *count = 0;
    if (is(t, "-"))
        return 1;
    do {
        more = cut(&t, ',', &item);
        if (!word(item, &n))
            return 0;
        if (*count < room)
            into[(*count)++] = n;
    } while (more);
    return 1;
}

#endif
