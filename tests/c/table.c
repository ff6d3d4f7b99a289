/* ebml_check_table as a C program calls it: a table that passes, each rule, the shape, and how a result is taken apart.
 * Prints a line for each check that fails, then the count; exit status 1 if one failed. */
#include "ebml.h"

int printf(const char *format, ...);

static int checks, failures;

static void expect(const char *what, int ok)
{
    checks++;
    if (!ok) {
        failures++;
        printf("FAILED: %s\n", what);
    }
}

static void faults(const char *what, uint64_t result, int number, size_t entry)
{
    expect(what, result >= EBML_REFUSED && EBML_CHECK_NUMBER(result) == number && EBML_CHECK_ENTRY(result) == entry);
}

#define WORDS(a) (a), sizeof(a) / sizeof(a)[0]

/* Session, Feed in it, Amount in Feed, and Void anywhere. */
static const uint64_t entries[] = {
    0x4E01, EBML_MASTER, 0, 0,
    0xA1, EBML_MASTER, 0, 1,
    0xA2, EBML_UNSIGNED, 0, 2,
    0xEC, EBML_BINARY, 2, 1,
};
static const uint64_t parts[] = {0, 0x4E01, 0, 0, 0xA1, 0, 1, 0, 0};

/* The entries with one word changed. */
static uint64_t changed(size_t at, uint64_t word)
{
    uint64_t copy[sizeof entries / sizeof entries[0]];
    for (size_t i = 0; i < sizeof entries / sizeof entries[0]; i++)
        copy[i] = i == at ? word : entries[i];
    return ebml_check_table(WORDS(copy), WORDS(parts));
}

int main(void)
{
    static const uint64_t none[1];
    static const uint64_t two_globals[] = {0, 0x4E01, 0, 0, 0xA1, 0, 1, 0, 65537};

    expect("the table passes", ebml_check_table(WORDS(entries), WORDS(parts)) == 0);
    expect("no entry at all passes", ebml_check_table(none, 0, none, 0) == 0);
    faults("31 at the first entry", changed(0, 2), EBML_RULE_NO_ELEMENT_ID, 0);
    faults("32 at the third", changed(8, 0xA1), EBML_RULE_REPEATED, 2);
    faults("33 at the last", changed(13, EBML_MASTER), EBML_RULE_GLOBAL_IN_MASTER, 3);
    faults("34: Session no master, seen at Feed", changed(1, EBML_BINARY), EBML_RULE_NO_MASTER, 1);
    faults("35: Feed at the root, seen at Amount", changed(7, 0), EBML_RULE_OTHER_PATH, 2);
    faults("a type of 6", changed(1, 6), EBML_TABLE_SHAPE, 0);
    faults("a first part that wraps", changed(2, ~(uint64_t)0), EBML_TABLE_SHAPE, 0);
    faults("a word left over", ebml_check_table(entries, 15, WORDS(parts)), EBML_TABLE_SHAPE, 0);
    faults("a bound of 65,537", ebml_check_table(WORDS(entries), WORDS(two_globals)), EBML_TABLE_SHAPE, 0);

    printf("c: %d checks of the table check, %d failed\n", checks, failures);
    return failures != 0;
}
