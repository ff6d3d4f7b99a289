/* record.c: a decoder's words shown by `st`, and written by `set`. */
#include "session.h"
#include <inttypes.h>

/* The two lists in the words, and where an item has its count. */
struct list {
    size_t count, first, words, children;
};

static const struct list open_list = {OPEN_COUNT, OPEN, OPEN_WORDS, 5};
static const struct list waiting_list = {WAITING_COUNT, WAITING, WAITING_WORDS, 2};

/* ---- st */

static void show_item(struct session *s, const struct list *list, const uint64_t *item)
{
    if (list == &waiting_list) {
        say(s, "%" PRIX64 ":%" PRIu64, item[0], item[1]);
        return;
    }
    say(s, "%" PRIX64, item[0]);
    if (item[1] != 0)
        say(s, ":%" PRIu64, item[2]);
    else
        say(s, ":u");
    say(s, ":%" PRIu64 ":%" PRIu64, item[3], item[4]);
}

static void show_list(struct session *s, const ebml_decoder *d, const char *name, const struct list *list, int children)
{
    const uint64_t count = d->words[list->count];
    say(s, " %s=", name);
    if (count == 0)
        say(s, "-");
    for (size_t i = 0; i < count && i < MOST_OPEN; i++) {
        const uint64_t *item = d->words + list->first + i * list->words;
        if (i > 0)
            say(s, ",");
        if (children)
            say(s, "%" PRIu64, item[list->children]);
        else
            show_item(s, list, item);
    }
}

void record_show(struct session *s, const ebml_decoder *d)
{
    const uint64_t *w = d->words;
    say(s, " a=%" PRIu64, w[ALLOW] + 2 * w[ALLOW + 1] + 4 * w[ALLOW + 2]);
    if (w[MAX_GIVEN] != 0)
        say(s, " m=%" PRIu64, w[MAX]);
    else
        say(s, " m=-");
    say(s, " p=%" PRIu64 " s=%" PRIu64 " f=%" PRIu64, w[POSITION], w[SETTLED], w[FINISHED]);
    show_list(s, d, "O", &open_list, 0);
    show_list(s, d, "W", &waiting_list, 0);
    show_list(s, d, "C", &open_list, 1);
    show_list(s, d, "V", &waiting_list, 1);
    say(s, " x=%" PRIu64, w[STRICT]);
}

/* ---- set */

int record_allow(ebml_decoder *d, struct text value)
{
    uint64_t sum;
    if (!decimal(value, &sum) || sum > 7)
        return 0;
    for (size_t k = 0; k < 3; k++)
        d->words[ALLOW + k] = sum >> k & 1;
    return 1;
}

int record_max(ebml_decoder *d, struct text value)
{
    d->words[MAX_GIVEN] = !is(value, "-");
    d->words[MAX] = 0;
    return is(value, "-") || decimal(value, &d->words[MAX]);
}

/* ID:OFFSET of an End, ID:SIZE:START:DATA of a master, into the words of one place. */
static int read_item(const struct list *list, struct text text, uint64_t *item)
{
    struct text id, size, start;
    if (!cut(&text, ':', &id) || !word(id, &item[0]))
        return 0;
    if (list == &waiting_list)
        return decimal(text, &item[1]);
    if (!cut(&text, ':', &size) || !cut(&text, ':', &start))
        return 0;
    item[1] = !is(size, "u");
    item[2] = 0;
    return (is(size, "u") || decimal(size, &item[2])) && decimal(start, &item[3]) && decimal(text, &item[4]);
}

/* A list in place of the one that is held. One item more than there are places only says so. */
static int set_list(ebml_decoder *d, const struct list *list, struct text value)
{
    uint64_t *count = &d->words[list->count];
    struct text text;
    int more;
    *count = 0;
    memset(d->words + list->first, 0, MOST_OPEN * list->words * sizeof d->words[0]);
    if (is(value, "-"))
        return 1;
    do {
        uint64_t item[OPEN_WORDS] = {0};
        more = cut(&value, ',', &text);
        if (!read_item(list, text, item) || *count > MOST_OPEN)
            return 0;
        if (*count < MOST_OPEN)
            memcpy(d->words + list->first + *count * list->words, item, list->words * sizeof item[0]);
        *count += 1;
    } while (more);
    return 1;
}

/* The counts of what the list holds, exactly as many. */
static int set_counts(ebml_decoder *d, const struct list *list, struct text value)
{
    const uint64_t count = d->words[list->count];
    struct text item;
    int more;
    uint64_t i = 0, n;
    if (count == 0)
        return is(value, "-");
    do {
        more = cut(&value, ',', &item);
        if (i >= count || !decimal(item, &n))
            return 0;
        if (i < MOST_OPEN)
            d->words[list->first + i * list->words + list->children] = n;
        i++;
    } while (more);
    return i == count;
}

static int set_field(ebml_decoder *d, char key, struct text value)
{
    switch (key) {
    case 'a': return record_allow(d, value);
    case 'm': return record_max(d, value);
    case 'p': return decimal(value, &d->words[POSITION]);
    case 's': return flag(value, &d->words[SETTLED]);
    case 'f': return flag(value, &d->words[FINISHED]);
    case 'x': return flag(value, &d->words[STRICT]);
    case 'O': return set_list(d, &open_list, value);
    case 'W': return set_list(d, &waiting_list, value);
    case 'C': return set_counts(d, &open_list, value);
    case 'V': return set_counts(d, &waiting_list, value);
    default: return 0;
    }
}

int record_set(ebml_decoder *d, struct text fields)
{
    ebml_decoder next = *d;
    struct text field;
    unsigned char seen[256] = {0};
    int more;
    do {
        more = cut(&fields, ' ', &field);
        if (field.length < 2 || field.at[1] != '=' || seen[(unsigned char)field.at[0]]++)
            return 0;
        const struct text value = {field.at + 2, field.length - 2};
        if (!set_field(&next, field.at[0], value))
            return 0;
    } while (more);
    *d = next;
    return 1;
}
