/* cuts.c: decode calls of a script in a row, asked once more with their bytes in one piece, and with the same bytes cut
 * at other places, as the script has it strict or not and the other way; by ebml_decode, or by ebml_decode_many with
 * lists of 64 or 3 events. The events, the last reply, the bytes taken and the decoder's words must be the same. */
#include "pieces.h"
#include <inttypes.h>

/* The bytes of a line's call; the farthest position. */
#define MOST_LENT (MOST_BYTES - 4)
#define FARTHEST (UINT64_C(1) << 62)

/* Rows of so many bytes are cut at every place; longer ones than the second are seldom lent byte by byte. */
#define SHORT 16
#define MOST_SINGLE 32

/* Pieces of a row, where each byte comes alone and some without a byte between. */
#define MOST_PIECES (2 * MOST_BYTES)

enum way { ONE_CUT, SOME_CUTS, SMALL_PIECES, WAYS };

static struct outcome whole, cut_up;
static size_t ends[MOST_PIECES];

/* A number below `bound`, by the seed. */
static uint64_t draw(struct cuts *c, uint64_t bound)
{
    uint64_t n = c->seed += UINT64_C(0x9E3779B97F4A7C15);
    n = (n ^ n >> 30) * UINT64_C(0xBF58476D1CE4E5B9);
    n = (n ^ n >> 27) * UINT64_C(0x94D049BB133111EB);
    return (n ^ n >> 31) % bound;
}

/* No list, or one of 64 events or 3. */
static size_t some_room(struct cuts *c)
{
    static const size_t rooms[] = {0, 64, 3};
    return rooms[draw(c, sizeof rooms / sizeof rooms[0])];
}

/* ---- where a row is cut */

/* So many places at random, in order; two of them at one place have a piece without a byte between. */
static size_t cut_at_random(struct cuts *c, size_t cuts)
{
    for (size_t k = 0; k < cuts; k++) {
        size_t at = (size_t)draw(c, c->length + 1), j = k;
        for (; j > 0 && ends[j - 1] > at; j--)
            ends[j] = ends[j - 1];
        ends[j] = at;
    }
    ends[cuts] = c->length;
    return cuts + 1;
}

/* Pieces of one byte, in most long rows of a few, and now and then one of none. */
static size_t cut_small(struct cuts *c)
{
    const uint64_t most = c->length <= MOST_SINGLE || draw(c, 16) == 0 ? 1 : 1 + c->length / 8;
    size_t pieces = 0;
    if (c->length == 0)
        ends[pieces++] = 0;
    for (size_t at = 0; at < c->length; ends[pieces++] = at) {
        if (draw(c, 4) == 0)
            ends[pieces++] = at;
        at += (size_t)(1 + draw(c, most));
        if (at > c->length)
            at = c->length;
    }
    ends[pieces++] = c->length;
    return pieces;
}

static size_t cut_in(struct cuts *c, enum way way)
{
    switch (way) {
    case ONE_CUT: return cut_at_random(c, 1);
    case SOME_CUTS: return cut_at_random(c, (size_t)(2 + draw(c, 8)));
    default: return cut_small(c);
    }
}

/* ---- a row as a script: its decoder set, the calls, its decoder shown */

static void write_list(FILE *script, const uint64_t *words, size_t count)
{
    if (count == 0)
        putc('-', script);
    for (size_t k = 0; k < count; k++)
        fprintf(script, "%s%" PRIX64, k == 0 ? "" : ",", words[k]);
}

static void write_table(struct session *s)
{
    FILE *script = s->cuts.script;
    if (s->cuts.is_table_written)
        return;
    fputs("table ", script);
    write_list(script, s->entries, s->entries_len);
    putc(' ', script);
    write_list(script, s->parts, s->parts_len);
    putc('\n', script);
    s->cuts.is_table_written = 1;
}

static void write_record(struct session *s, FILE *to, const char *name)
{
    s->filled = 0;
    record_show(s, &s->cuts.before);
    fprintf(to, "# %s\nset%.*s\n", name, (int)s->filled, s->answer);
    s->filled = 0;
}

/* ---- one row */

/* What is not the same in two outcomes; null where all is. */
static const char *difference(const struct outcome *a, const struct outcome *b)
{
    if (a->count != b->count || memcmp(a->events, b->events, a->count * sizeof a->events[0]) != 0)
        return "events";
    if (memcmp(&a->last, &b->last, sizeof a->last) != 0)
        return "last reply";
    if (a->taken != b->taken)
        return "unread rest";
    return memcmp(&a->d, &b->d, sizeof a->d) != 0 ? "words" : NULL;
}

/* Says the first few. */
static void differ(struct session *s, const char *what, size_t pieces, size_t room)
{
    struct cuts *c = &s->cuts;
    if (c->differences++ >= 5)
        return;
    fprintf(stderr, "cuts.c: other %s in %zu pieces, lists of %zu, cut at", what, pieces, room);
    for (size_t k = 0; k + 1 < pieces; k++)
        fprintf(stderr, " %zu", ends[k]);
    fputs("; the bytes ", stderr);
    for (size_t k = 0; k < c->length; k++)
        fprintf(stderr, "%02X", c->bytes[k]);
    fputs(" on\n", stderr);
    write_record(s, stderr, "the record");
}

/* Lends the row in these pieces; 0 where it cannot be. */
static int lend(struct session *s, size_t pieces, size_t room, FILE *script, struct outcome *outcome)
{
    const struct lending l = {&s->cuts.before, s->cuts.bytes, ends, pieces, room, script};
    if (script != NULL)
        write_record(s, script, outcome == &whole ? "one piece" : "in pieces");
    const int is_lent = pieces_lend(s, &l, outcome);
    if (script != NULL)
        fputs("st\n", script);
    if (!is_lent)
        s->fault = "a row of calls has no end";
    return is_lent;
}

/* The row in the pieces that end at `ends`, by some kind of call; a script has a line for an event, so one that is
 * written by ebml_decode. */
static void try_pieces(struct session *s, size_t pieces, int is_written)
{
    const size_t room = is_written ? 0 : some_room(&s->cuts);
    s->cuts.asked++;
    s->cuts.listed += room > 0;
    s->cuts.pieces += pieces;
    s->cuts.written += (unsigned long)is_written;
    if (!lend(s, pieces, room, is_written ? s->cuts.script : NULL, &cut_up))
        return;
    const char *what = difference(&whole, &cut_up);
    if (what != NULL)
        differ(s, what, pieces, room);
}

static void count_row(struct session *s)
{
    struct cuts *c = &s->cuts;
    const uint64_t *w = c->before.words;
    c->rows++;
    c->strict += w[STRICT] != 0;
    c->refused += EBML_IS_REFUSAL(whole.last.code);
    c->waited += w[WAITING_COUNT] != 0;
    c->at_limit += w[POSITION] + c->length == FARTHEST;
    c->unchecked += !s->is_table_passed;
}

/* The row as `before` has it: in one piece, in others, and a short one cut at every place. */
static void try_row(struct session *s)
{
    struct cuts *c = &s->cuts;
    const int is_written = draw(c, c->one_in) == 0;
    const enum way shown = (enum way)draw(c, WAYS);
    if (is_written)
        write_table(s);
    ends[0] = c->length;
    if (!lend(s, 1, 0, is_written ? c->script : NULL, &whole))
        return;
    count_row(s);
    for (enum way way = ONE_CUT; way < WAYS; way++) {
        if (c->is_brief && way != shown)
            continue;
        const size_t pieces = cut_in(c, way);
        try_pieces(s, pieces, is_written && way == shown);
    }
    const int is_every_written = is_written && draw(c, 4) == 0;
    for (size_t at = 0; !c->is_brief && c->length <= SHORT && at <= c->length; at++) {
        ends[0] = at;
        ends[1] = c->length;
        try_pieces(s, 2, is_every_written);
    }
}

/* Whether document 02, CR 6, speaks of the row: not finished, and no more masters or Ends than a decoder has. */
static int is_spoken_of(const struct cuts *c)
{
    const uint64_t *w = c->before.words;
    return w[FINISHED] == 0 && w[OPEN_COUNT] <= MOST_OPEN && w[WAITING_COUNT] <= MOST_OPEN;
}

void cuts_close(struct session *s)
{
    struct cuts *c = &s->cuts;
    const uint64_t position = c->before.words[POSITION];
    if (!c->is_open)
        return;
    c->is_open = 0;
    if (!is_spoken_of(c)) {
        c->left_out++;
        return;
    }
    if (position <= FARTHEST && c->length > FARTHEST - position)
        c->length = (size_t)(FARTHEST - position);
    try_row(s);
    c->before.words[STRICT] ^= 1;
    try_row(s);
}

/* Whether these bytes are the unread rest of the row's, or where more was needed begin with it. */
static int goes_on(const struct cuts *c, const uint8_t *bytes, size_t length)
{
    const size_t rest = c->length - c->taken;
    if (!c->is_open || c->is_over || length < rest || c->taken + length > MOST_LENT)
        return 0;
    return (c->needs_more || length == rest) && memcmp(c->bytes + c->taken, bytes, rest) == 0;
}

void cuts_before(struct session *s, const uint8_t *bytes, size_t length)
{
    struct cuts *c = &s->cuts;
    if (!c->is_on)
        return;
    if (!goes_on(c, bytes, length)) {
        cuts_close(s);
        c->before = s->d;
        c->is_open = length <= MOST_LENT;
        c->taken = 0;
    }
    if (c->is_open)
        memcpy(c->bytes + c->taken, bytes, length);
    c->length = c->taken + length;
}

void cuts_behind(struct session *s, const ebml_reply *r)
{
    struct cuts *c = &s->cuts;
    if (!c->is_open)
        return;
    c->taken += (size_t)r->taken;
    c->needs_more = EBML_NEEDS_MORE(r->code);
    c->is_over = r->events == 0 && !c->needs_more;
}
