/* gateway [--restart] [--recover] [FILE]: takes over the feeds of one night, from a file or from standard input, or
 * says why it does not.
 *
 * It shows the decoder of ebml.h as a gateway uses it. The table is checked once at the start. The input is read in
 * pieces, and what a call leaves of them is lent again with more behind it. Every event goes to `take`, which keeps
 * what it needs, since text stays in the lent bytes. A night is taken over whole or not at all: it is whole where it is
 * one Session from the first byte on, every master has its size, and the decoder answers the finish; a cut night never
 * does. So it takes over what ebml-check calls WHOLE, as far as it has room for its feeds.
 *   --restart   stores the decoder in a block wherever more is needed, forgets it, and goes on with the restored one
 *   --recover   after damage goes on at the next valid header, and lists what is still readable; such a night is not
 *               taken over
 * Exit status: 0 taken over, 1 not, 2 the input cannot be read or the table is wrong.
 *
 *     cc -std=c99 -Iinclude samples/gateway.c target/staticlib/libebml.a -o gateway
 */
#include "ebml.h"
#include <stdio.h>
#include <string.h>

enum id {
    SESSION = 0x4E01, FEED = 0xA1, AMOUNT = 0xA2, UNIT = 0xA3, BLOB = 0xA4, SHIFT = 0xA5, RATE = 0xA6, VOID = 0xEC
};

/* The pump's elements: ID, type, first part of the path, number of its parts; and the paths' parts. */
static const uint64_t entries[] = {
    SESSION, EBML_MASTER, 0, 0,   FEED, EBML_MASTER, 0, 1,    AMOUNT, EBML_UNSIGNED, 0, 2, UNIT, EBML_UTF8, 0, 2,
    BLOB, EBML_BINARY, 0, 2,      SHIFT, EBML_INTEGER, 0, 2,  RATE, EBML_FLOAT, 0, 2,      VOID, EBML_BINARY, 2, 1,
};
static const uint64_t parts[] = {0, SESSION, 0,   0, FEED, 0,   1, 0, 0};
#define WORDS(list) list, sizeof list / sizeof list[0]
#define TABLE WORDS(entries), WORDS(parts)

#define MOST_FEEDS 64
#define MOST_UNIT 15
#define MOST_LENT 1048576 /* no element that is larger is read */
#define PIECE 64          /* bytes of one read: small, so that elements come in pieces */
#define ROOM 16           /* events of one call */

struct feed { uint64_t amount; char unit[MOST_UNIT + 1]; int64_t shift; double rate; };

/* What the gateway keeps of a night beside the decoder. */
static struct feed feeds[MOST_FEEDS];
static size_t feed_count;
static uint64_t depth;    /* how many masters are open */
static uint64_t records;  /* how many elements had none around them */
static const char *fault; /* the first reason not to take it over */
static uint64_t fault_at; /* and its place in the stream */

/* Notes a reason not to take the night over, if it is the first. */
static void not_taken(const char *why, uint64_t at)
{
    if (fault) return;
    fault = why;
    fault_at = at;
}

/* Keeps that a master begins. */
static void take_start(const ebml_event *e)
{
    if (depth == 0) records++;
    if (depth == 0 && records > 1) not_taken("more than one night", e->offset);
    if (depth == 0 && (e->id != SESSION || e->offset != 0)) not_taken("the front is missing: no Session", 0);
    if (!e->size_known) not_taken("a master without a size, so that nobody can tell whether it is whole", e->offset);
    if (e->id == FEED && feed_count == MOST_FEEDS) not_taken("more feeds than a night has", e->offset);
    if (e->id == FEED && feed_count < MOST_FEEDS) {
        const struct feed empty = {0, "", 0, 0};
        feeds[feed_count] = empty;
    }
    depth++;
}

/* Keeps a unit; its bytes stand among the lent ones, at `text`. */
static void take_unit(struct feed *f, const ebml_event *e, const uint8_t *text)
{
    const size_t length = (size_t)(e->end - e->value);
    if (length > MOST_UNIT) {
        not_taken("a unit that is too long", e->offset);
        return;
    }
    for (size_t i = 0; i < length; i++) f->unit[i] = (char)text[i];
    f->unit[length] = 0; /* a second Unit may be shorter than the first */
}

/* Keeps that a master ends. */
static void take_end(const ebml_event *e)
{
    if (depth == 0) not_taken("the front is missing: an End without its Start", e->offset);
    if (depth > 0) depth--;
    if (e->id == FEED && feed_count < MOST_FEEDS) feed_count++;
}

/* Keeps a value; `lent` are the bytes of the call that handed it out, the first of them at `base` in the stream. */
static void take_value(const ebml_event *e, const uint8_t *lent, uint64_t base)
{
    static struct feed beyond; /* of a feed too many */
    struct feed *f = feed_count < MOST_FEEDS ? &feeds[feed_count] : &beyond;
    if (depth == 0) {
        records++;
        not_taken(records == 1 ? "the front is missing: no Session" : "more than one night", e->offset);
    }
    switch (e->id) {
    case AMOUNT: f->amount = e->value; break;
    case UNIT: take_unit(f, e, ebml_event_bytes(e, lent, base)); break;
    case SHIFT: f->shift = ebml_event_i64(e); break;
    case RATE: f->rate = ebml_event_f64(e); break;
    default: break; /* Blob and Void are passed over */
    }
}

/* Keeps what an event says. */
static void take(const ebml_event *e, const uint8_t *lent, uint64_t base)
{
    switch (e->kind) {
    case EBML_START: take_start(e); break;
    case EBML_END: take_end(e); break;
    default: take_value(e, lent, base); break;
    }
}

/* ---- the input, in pieces */

static ebml_decoder decoder;
static uint8_t lent[MOST_LENT];
static size_t unread;    /* how many bytes at the front of `lent` are unread */
static uint64_t base;    /* where the first of them is in the stream */
static int ended;        /* whether the input has ended for good */
static uint64_t skipped; /* how many bytes recoveries passed over */

/* The first n of the unread bytes were taken: the others move to the front. */
static void drop_taken(uint64_t n)
{
    base += n;
    unread -= (size_t)n;
    memmove(lent, lent + n, unread);
}

/* Reads a piece behind the unread bytes; 0 where that is not possible. */
static int read_piece(FILE *from)
{
    const size_t room = sizeof lent - unread;
    if (room == 0) {
        not_taken("an element that is larger than the gateway's buffer", base);
        return 0;
    }
    const size_t got = fread(lent + unread, 1, room < PIECE ? room : PIECE, from);
    if (ferror(from)) {
        fprintf(stderr, "gateway: the input cannot be read\n");
        return 0;
    }
    if (got == 0) ended = 1;
    unread += got;
    return 1;
}

/* As if the gateway had been switched off: of the decoder only its block is left. 0 where it does not come back. */
static int restarted(void)
{
    static uint8_t block[EBML_BLOCK_BYTES];
    if (ebml_store(&decoder, block, sizeof block) != 0) return 0;
    memset(&decoder, 0, sizeof decoder);
    return ebml_restore(&decoder, block, sizeof block) == 0;
}

/* Says what was refused. */
static void say_refusal(const ebml_reply *r)
{
    printf("refusal %d at %lu: %s\n", EBML_REFUSAL(r->code), (unsigned long)r->place,
           ebml_refusal_text(EBML_REFUSAL(r->code)));
    if (r->cut_named & EBML_CUT_ID)
        printf("cut inside %lX, which began at %lu\n", (unsigned long)r->cut_id, (unsigned long)r->cut_start);
}

/* Passes over damage, up to the next valid header; 0 where there is none, or the search would stand still. */
static int recovered(FILE *from)
{
    uint64_t passed = 0;
    for (;;) {
        const ebml_reply r = ebml_try_recover(&decoder, TABLE, lent, unread);
        if (EBML_IS_REFUSAL(r.code)) return 0;
        drop_taken(r.taken);
        passed += r.taken;
        if (r.code == EBML_FOUND || ended || !read_piece(from)) break;
    }
    skipped += passed;
    return passed > 0 && !(ended && unread == 0);
}

/* The calls: events are kept as they come. 0 where the decoder went no further. */
static int decode_all(FILE *from, int restart, int recover)
{
    static ebml_event events[ROOM];
    for (;;) {
        const ebml_reply r = ended ? ebml_decode_many_eof(&decoder, TABLE, lent, unread, EBML_EVENTS(events, ROOM))
                                   : ebml_decode_many(&decoder, TABLE, lent, unread, EBML_EVENTS(events, ROOM));
        for (uint64_t i = 0; i < r.events; i++) take(&events[i], lent, base);
        drop_taken(r.taken);
        if (r.code == EBML_FULL) continue;
        if (r.code == EBML_FINISHED) return 1;
        if (EBML_NEEDS_MORE(r.code)) {
            if (!read_piece(from) || (restart && !restarted())) return 0;
            continue;
        }
        say_refusal(&r);
        const int is_cut = EBML_REFUSAL(r.code) == EBML_UNEXPECTED_EOF;
        not_taken(is_cut ? "cut" : "damaged", r.place);
        if (is_cut || !recover || !recovered(from)) return 0;
    }
}

/* ---- what is said of a night */

static void say_feeds(void)
{
    for (size_t i = 0; i < feed_count; i++)
        printf("feed %lu: %lu %s, %ld minutes off the plan, %.1f a minute\n", (unsigned long)i + 1,
               (unsigned long)feeds[i].amount, feeds[i].unit, (long)feeds[i].shift, feeds[i].rate);
}

/* What was fed in all, where all feeds have one unit and the sum has room. */
static void say_sum(void)
{
    uint64_t sum = 0;
    for (size_t i = 0; i < feed_count; i++) {
        if (strcmp(feeds[i].unit, feeds[0].unit) != 0 || feeds[i].amount > UINT64_MAX - sum) return;
        sum += feeds[i].amount;
    }
    if (feed_count > 0) printf("%lu %s in all, ", (unsigned long)sum, feeds[0].unit);
}

/* Whether it is taken over, or why not; the exit status. */
static int say_verdict(int finished, int recover)
{
    if (finished && records == 0) not_taken("nothing there", 0);
    if (!finished) not_taken("not read to its end", base);
    if (!fault || recover) say_feeds();
    if (skipped > 0) printf("%lu of %lu bytes skipped\n", (unsigned long)skipped, (unsigned long)base);
    if (fault) {
        printf("not taken over: %s (at %lu)\n", fault, (unsigned long)fault_at);
        return 1;
    }
    printf("taken over: %lu feeds, ", (unsigned long)feed_count);
    say_sum();
    printf("%lu bytes\n", (unsigned long)base);
    return 0;
}

/* Whether the table passes its check. */
static int table_passes(void)
{
    const uint64_t checked = ebml_check_table(TABLE);
    if (checked == 0) return 1;
    fprintf(stderr, "gateway: its table has refusal %d at entry %lu: %s\n", EBML_CHECK_NUMBER(checked),
            (unsigned long)EBML_CHECK_ENTRY(checked), ebml_refusal_text(EBML_CHECK_NUMBER(checked)));
    return 0;
}

int main(int argc, char **argv)
{
    int restart = 0, recover = 0, at = 1;
    for (; at < argc && argv[at][0] == '-'; at++) {
        if (strcmp(argv[at], "--restart") == 0) restart = 1;
        else if (strcmp(argv[at], "--recover") == 0) recover = 1;
        else break;
    }
    if (argc - at > 1 || (at < argc && argv[at][0] == '-')) {
        fprintf(stderr, "usage: gateway [--restart] [--recover] [FILE]\n");
        return 2;
    }
    FILE *from = at < argc ? fopen(argv[at], "rb") : stdin;
    if (!from) {
        fprintf(stderr, "gateway: %s cannot be opened\n", argv[at]);
        return 2;
    }
    if (!table_passes()) return 2;
    ebml_decoder_new(&decoder);
    const int finished = decode_all(from, restart, recover);
    if (ferror(from)) return 2;
    fclose(from);
    return say_verdict(finished, recover);
}
