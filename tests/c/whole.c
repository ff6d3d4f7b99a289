/* ebml_is_whole as a C program uses it. Prints a line for each check that fails, then the count; exit status 1 if one
 * failed. The records and their verdicts are of tests/checks/records and tests/checks/strict. */
#include "ebml.h"

int printf(const char *format, ...);
int memcmp(const void *a, const void *b, size_t n);

static int checks, failures;

#define WORDS(a) (a), sizeof(a) / sizeof(a)[0]

/* Session, Feed in it, a value of each type in Feed, and Void anywhere. */
static const uint64_t entries[] = {
    0x4E01, EBML_MASTER, 0, 0, 0xA1, EBML_MASTER, 0, 1,  0xA2, EBML_UNSIGNED, 0, 2, 0xA3, EBML_UTF8, 0, 2,
    0xA4, EBML_BINARY, 0, 2,   0xA5, EBML_INTEGER, 0, 2, 0xA6, EBML_FLOAT, 0, 2,    0xEC, EBML_BINARY, 2, 1,
};
static const uint64_t parts[] = {0, 0x4E01, 0, 0, 0xA1, 0, 1, 0, 0};

/* A record and the verdict on it, whose fields stand in the struct's order: verdict, feeds, records, bytes, number,
 * place, and of the master that is named: whether there is one, its ID, its start, whether it has a size, the size. */
static const struct { const char *record; size_t length; uint64_t strict; ebml_verdict verdict; } cases[] = {
    {"", 0, 0, {EBML_EMPTY, 0, 0, 0, 0, 0, 0, 0, 0, 0, 0}},
    {"\x4E\x01\x80", 3, 0, {EBML_WHOLE, 0, 1, 3, 0, 0, 0, 0, 0, 0, 0}},
    {"\x4E\x01\x89\xA1\x87\xA2\x81\x78\xA3\x82\x6D\x6C", 12, 0, {EBML_WHOLE, 1, 1, 12, 0, 0, 0, 0, 0, 0, 0}},
    {"\x4E\x01\x89\xA1\x87\xA2\x81\x78\xA3\x82\x6D\x6C", 12, 1, {EBML_WHOLE, 1, 1, 12, 0, 0, 0, 0, 0, 0, 0}},
    {"\x4E\x01\x84\xEC\x80\xA1\x80", 7, 0, {EBML_WHOLE, 1, 1, 7, 0, 0, 0, 0, 0, 0, 0}},
    {"\x4E\x01", 2, 0, {EBML_CUT, 0, 0, 2, 0, 0, 0, 0, 0, 0, 0}},
    {"\x4E\x01\x89", 3, 0, {EBML_CUT, 0, 0, 3, 0, 3, 1, 0x4E01, 0, 1, 9}},
    {"\x4E\x01\x89\xA1\x87\xA2\x81\x78\xA3\x82\x6D", 11, 0, {EBML_CUT, 0, 0, 11, 0, 8, 1, 0x4E01, 0, 1, 9}},
    {"\x4E\x01\xFF\xA1\x85\xA2", 6, 0, {EBML_CUT, 0, 0, 6, 0, 5, 1, 0x4E01, 0, 0, 0}},
    {"\x4E\x01\x80\x4E\x01\x85\xA1", 7, 0, {EBML_CUT, 0, 0, 7, 0, 6, 1, 0x4E01, 3, 1, 5}},
    {"\x4E\x01\xFF\xA1\xFF\xA2\x81\x78", 8, 0, {EBML_CANNOT_TELL, 0, 0, 0, 0, 0, 1, 0x4E01, 0, 0, 0}},
    {"\x4E\x01\x85\xA1\xFF\xA2\x81\x78", 8, 0, {EBML_CANNOT_TELL, 0, 0, 0, 0, 0, 1, 0xA1, 3, 0, 0}},
    {"\x4E\x01\x80\x4E\x01\x82\xA1\x80", 8, 0, {EBML_MORE, 1, 2, 8, 0, 0, 0, 0, 0, 0, 0}},
    {"\xA1\x80", 2, 0, {EBML_FRONT_MISSING, 0, 0, 0, 0, 0, 0, 0, 0, 0, 0}},
    {"\x4E\x01\x83\xA2\x81\x78", 6, 0, {EBML_DAMAGED, 0, 0, 0, 16, 3, 0, 0, 0, 0, 0}},
    {"\x4E\x01\x88\xA1\x87\xA2\x81\x78\xA3\x82\x6D\x6C", 12, 0, {EBML_DAMAGED, 0, 0, 0, 18, 3, 0, 0, 0, 0, 0}},
};

static void expect(size_t i, const ebml_verdict *want, const ebml_verdict *got)
{
    checks++;
    if (memcmp(want, got, sizeof *want) == 0) return;
    failures++;
    printf("FAILED: record %lu: verdict %lu, feeds %lu, records %lu, bytes %lu, number %lu, place %lu, root %lu %lX "
           "%lu %lu %lu\n",
           (unsigned long)i, (unsigned long)got->verdict, (unsigned long)got->feeds, (unsigned long)got->records,
           (unsigned long)got->bytes, (unsigned long)got->number, (unsigned long)got->place,
           (unsigned long)got->root_named, (unsigned long)got->root_id, (unsigned long)got->root_start,
           (unsigned long)got->root_size_named, (unsigned long)got->root_size);
}

int main(void)
{
    for (size_t i = 0; i < sizeof cases / sizeof cases[0]; i++) {
        const ebml_verdict got = ebml_is_whole(WORDS(entries), WORDS(parts), cases[i].strict,
                                               (const uint8_t *)cases[i].record, cases[i].length);
        expect(i, &cases[i].verdict, &got);
    }
    /* D1 cut at each of its bytes is never whole */
    for (size_t n = 0; n < cases[2].length; n++) {
        const ebml_verdict got = ebml_is_whole(WORDS(entries), WORDS(parts), 0, (const uint8_t *)cases[2].record, n);
        checks++;
        if (got.verdict == EBML_WHOLE || got.bytes != n) {
            failures++;
            printf("FAILED: D1 cut at %lu\n", (unsigned long)n);
        }
    }
    /* a table of bad shape is refused: 10 */
    const ebml_verdict refused = ebml_is_whole(entries, 3, WORDS(parts), 0, (const uint8_t *)cases[2].record, 12);
    const ebml_verdict shape = {EBML_DAMAGED, 0, 0, 0, 10, 0, 0, 0, 0, 0, 0};
    expect(sizeof cases / sizeof cases[0], &shape, &refused);
    printf("c: %d checks of the verdict, %d failed\n", checks, failures);
    return failures != 0;
}
