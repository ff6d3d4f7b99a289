/* session.c: the calls of a script, each answered by its C call. */
#include "session.h"
#include <inttypes.h>
#include <stdarg.h>
#include <stdlib.h>

/* A byte more than a block has; what a block, and an event, hold before a call. */
#define MORE_THAN_BLOCK (EBML_BLOCK_BYTES + 1)
#define OLD 0x55

/* One word more than a block has, and the bytes of so many and of a HEX. */
#define MOST_RESTORED (EBML_DECODER_WORDS + 1)

void say(struct session *s, const char *format, ...)
{
    va_list values;
    va_start(values, format);
    const int n = vsnprintf(s->answer + s->filled, MOST_ANSWER - s->filled, format, values);
    va_end(values);
    if (n > 0 && s->filled + (size_t)n < MOST_ANSWER)
        s->filled += (size_t)n;
}

/* ---- answers */

/* Whether C refuses the decoder's words as a whole: `set` makes words that refusal 11 is for. Where it says 33 items,
 * there are no places for them, and C says 92. */
static int are_words_refused(const struct session *s, uint64_t code)
{
    const uint64_t *w = s->d.words;
    const int is_over = w[OPEN_COUNT] > MOST_OPEN || w[WAITING_COUNT] > MOST_OPEN;
    return EBML_IS_REFUSAL(code) && (EBML_REFUSAL(code) == 11 || (EBML_REFUSAL(code) == 92 && is_over));
}

/* The same as the format has it: 10 comes before 11, and the place is the position. */
static void say_bad_state(struct session *s)
{
    say(s, "X %d %" PRIu64, s->is_shape_good ? 11 : 10, s->d.words[POSITION]);
    s->stood_in++;
}

static void say_cut(struct session *s, const ebml_reply *r)
{
    say(s, " start=%" PRIu64, r->cut_start);
    if (r->cut_named & EBML_CUT_ID)
        say(s, " id=%" PRIX64, r->cut_id);
    else
        say(s, " id=-");
    if (r->cut_named & EBML_CUT_SIZE)
        say(s, " size=%" PRIu64, r->cut_size);
    else
        say(s, " size=-");
    if (r->cut_named & EBML_CUT_BYTES)
        say(s, " part=%" PRIu64 "-%" PRIu64, r->cut_begin, r->cut_end);
    else
        say(s, " part=-");
}

static void say_refusal(struct session *s, const ebml_reply *r)
{
    say(s, "X %d %" PRIu64, EBML_REFUSAL(r->code), r->place);
    if (EBML_REFUSAL(r->code) == 23)
        say_cut(s, r);
}

static void say_reached(struct session *s, const ebml_reply *r)
{
    const ebml_number position = ebml_position(&s->d);
    if (position.code != 0)
        s->fault = "ebml_position refuses words that a call has just left";
    say(s, " t=%" PRIu64 " p=%" PRIu64, r->taken, position.value);
}

/* Whether the words of an event that no line shows are as ebml.h says: a Start's size that of the innermost open
 * master, the others 0. */
static int is_event_whole(const struct session *s, const ebml_event *e)
{
    const uint64_t *w = s->d.words;
    if (e->kind == EBML_START) {
        const uint64_t *master = w + OPEN + OPEN_WORDS * ((w[OPEN_COUNT] - 1) % MOST_OPEN);
        return e->value == 0 && e->end == 0 && e->count == 0 && e->id == master[0] && e->size_known == master[1] &&
               e->size == master[2] && e->offset == master[3];
    }
    if (e->size != 0 || e->size_known != 0)
        return 0;
    if (e->kind == EBML_END)
        return e->value == 0 && e->end == 0;
    return e->count == 0 && (e->kind == EBML_UTF8 || e->kind == EBML_BINARY || e->kind == EBML_RAW || e->end == 0);
}

static void say_value(struct session *s, const ebml_event *e)
{
    switch (e->kind) {
    case EBML_UNSIGNED: say(s, " %" PRIu64, e->value); break;
    case EBML_INTEGER: say(s, " %" PRId64, ebml_event_i64(e)); break;
    case EBML_FLOAT:
        if (ebml_event_f64(e) != ebml_event_f64(e))
            say(s, " NaN");
        else
            say(s, " %016" PRIX64, e->value);
        break;
    case EBML_UTF8:
    case EBML_BINARY:
    case EBML_RAW: say(s, " %" PRIu64 " %" PRIu64, e->value, e->end); break;
    default: break;
    }
}

static void say_event(struct session *s, const ebml_reply *r, const ebml_event *e)
{
    static const char letters[] = "SUITBDER";
    if (!is_event_whole(s, e))
        s->fault = "words of an event that no line shows are wrong";
    say(s, "%c %" PRIX64 " %" PRIu64, e->kind < 8 ? letters[e->kind] : '?', e->id, e->offset);
    say_value(s, e);
    say_reached(s, r);
    if (e->kind == EBML_END)
        say(s, " count=%" PRIu64, e->count);
}

/* A letter, and what the call reached. */
static void say_letter(struct session *s, const char *letter, const ebml_reply *r)
{
    say(s, "%s", letter);
    say_reached(s, r);
}

static void say_reply(struct session *s, const ebml_reply *r)
{
    if (are_words_refused(s, r->code)) {
        say_bad_state(s);
    } else if (EBML_IS_REFUSAL(r->code)) {
        say_refusal(s, r);
    } else if (EBML_NEEDS_MORE(r->code)) {
        say_letter(s, "N", r);
        say(s, " need=%" PRIu64, r->missing);
    } else if (r->code == EBML_FINISHED) {
        say_letter(s, "F", r);
    } else if (r->code == EBML_FOUND || r->code == EBML_NOT_FOUND) {
        say_letter(s, r->code == EBML_FOUND ? "Y" : "Q", r);
        say(s, " passed=%" PRIu64, r->taken);
    } else {
        say(s, "code %" PRIu64, r->code);
    }
}

/* ---- calls on bytes */

static void decode(struct session *s, int eof, const uint8_t *bytes, size_t length)
{
    ebml_event e, old;
    memset(&old, OLD, sizeof old);
    e = old;
    run_before(s, eof, bytes, length);
    if (eof)
        cuts_close(s);
    else
        cuts_before(s, bytes, length);
    const ebml_reply r = (eof ? ebml_decode_eof : ebml_decode)(&s->d, s->entries, s->entries_len, s->parts,
                                                              s->parts_len, bytes, length, &e);
    if (r.events == 1 && r.code == EBML_FULL)
        say_event(s, &r, &e);
    else
        say_reply(s, &r);
    if (r.events == 0 && memcmp(&e, &old, sizeof e) != 0)
        s->fault = "an event is written where none is handed out";
    run_behind(s, &r, &e);
    cuts_behind(s, &r);
}

static int on_bytes(struct session *s, struct text name, struct text value)
{
    uint8_t bytes[MOST_BYTES];
    size_t length;
    if (!hex(value, bytes, sizeof bytes, &length))
        return 0;
    if (!is(name, "recover")) {
        decode(s, is(name, "eof"), bytes, length);
        return 1;
    }
    const ebml_reply r =
        ebml_try_recover(&s->d, s->entries, s->entries_len, s->parts, s->parts_len, bytes, length);
    say_reply(s, &r);
    return 1;
}

/* ---- the table */

static int lend(struct session *s, struct text lists)
{
    static uint64_t entries[MOST_WORDS], parts[MOST_WORDS];
    struct text first;
    size_t n, m;
    if (!cut(&lists, ' ', &first) || !words(first, entries, MOST_WORDS, &n) || !words(lists, parts, MOST_WORDS, &m))
        return 0;
    memcpy(s->entries, entries, n * sizeof entries[0]);
    memcpy(s->parts, parts, m * sizeof parts[0]);
    s->entries_len = n;
    s->parts_len = m;
    const uint64_t checked = ebml_check_table(s->entries, n, s->parts, m);
    s->is_shape_good = !EBML_IS_REFUSAL(checked) || EBML_CHECK_NUMBER(checked) != EBML_TABLE_SHAPE;
    s->is_table_passed = !EBML_IS_REFUSAL(checked);
    s->cuts.is_table_written = 0;
    say(s, s->is_shape_good ? "ok" : "X 10");
    return 1;
}

/* ---- settings */

/* A setting by its C call; where C refuses the words, `next` has what the format makes of them. */
static int settle(struct session *s, uint64_t code, const ebml_decoder *next)
{
    if (are_words_refused(s, code)) {
        s->d = *next;
        s->stood_in++;
        code = 0;
    }
    if (code != 0)
        say(s, "code %" PRIu64, code);
    else if (memcmp(&s->d, next, sizeof *next) != 0)
        s->fault = "a setting leaves other words than its own";
    if (code == 0)
        say(s, "ok");
    return 1;
}

static int set(struct session *s, struct text name, struct text value)
{
    ebml_decoder next = s->d;
    uint64_t *w = next.words, strict;
    if (is(name, "set")) {
        if (!record_set(&s->d, value))
            return 0;
        say(s, "ok");
        return 1;
    }
    if (is(name, "allow")) {
        if (!record_allow(&next, value))
            return 0;
        return settle(s, ebml_allow_errors(&s->d, 7 * w[ALLOW], 7 * w[ALLOW + 1], 7 * w[ALLOW + 2]), &next);
    }
    if (is(name, "max")) {
        if (!record_max(&next, value))
            return 0;
        return settle(s, ebml_set_max_allowable_tag_size(&s->d, w[MAX_GIVEN], w[MAX]), &next);
    }
    if (!flag(value, &strict))
        return 0;
    w[STRICT] = strict;
    return settle(s, ebml_set_strict(&s->d, strict), &next);
}

/* ---- over a restart */

static int store(struct session *s, struct text value)
{
    uint8_t block[MORE_THAN_BLOCK], old[MORE_THAN_BLOCK];
    uint64_t n;
    if (!decimal(value, &n))
        return 0;
    memset(old, OLD, sizeof old);
    memcpy(block, old, sizeof old);
    const size_t length = n > EBML_BLOCK_BYTES ? MORE_THAN_BLOCK : (size_t)n;
    const uint64_t code = ebml_store(&s->d, block, length);
    if (code != 0 && memcmp(block, old, sizeof old) != 0)
        s->fault = "a refused block is written";
    if (are_words_refused(s, code)) {
        say(s, "X %d", length == EBML_BLOCK_BYTES ? 11 : 90);
        s->stood_in++;
    } else if (code != 0) {
        say(s, "X %d", EBML_REFUSAL(code));
    } else {
        for (size_t k = 0; k < EBML_DECODER_WORDS; k++)
            say(s, "%s%" PRIX64, k == 0 ? "K " : ",", ebml_u64(block + 8 * k));
    }
    return 1;
}

static int restore(struct session *s, struct text value)
{
    uint64_t held[MOST_RESTORED];
    uint8_t block[8 * MOST_RESTORED + MOST_BYTES];
    struct text list;
    size_t n, tail;
    if (!cut(&value, ' ', &list) || !words(list, held, MOST_RESTORED, &n))
        return 0;
    for (size_t k = 0; k < n; k++)
        ebml_put_u64(block + 8 * k, held[k]);
    if (!hex(value, block + 8 * n, sizeof block - 8 * n, &tail))
        return 0;
    const uint64_t code = ebml_restore(&s->d, block, 8 * n + tail);
    if (code == 0)
        say(s, "ok");
    else
        say(s, "X %d", EBML_REFUSAL(code));
    return 1;
}

/* ---- lines */

static int is_one_of(struct text name, const char *names)
{
    struct text all = {names, strlen(names)}, one;
    int more;
    do {
        more = cut(&all, ' ', &one);
        if (one.length == name.length && memcmp(one.at, name.at, one.length) == 0)
            return 1;
    } while (more);
    return 0;
}

/* A line of one word. */
static int alone(struct session *s, struct text name)
{
    const ebml_number finished = ebml_is_finished(&s->d);
    const uint64_t *w = s->d.words;
    if (is(name, "st")) {
        if (finished.code == 0 && finished.value != (w[FINISHED] != 0 && w[WAITING_COUNT] == 0))
            s->fault = "ebml_is_finished says another thing than the words";
        say(s, "st");
        record_show(s, &s->d);
        return 1;
    }
    if (!is(name, "new"))
        return 0;
    if (ebml_decoder_new(&s->d) != 0)
        s->fault = "ebml_decoder_new refuses";
    say(s, "ok");
    return 1;
}

static int with_words(struct session *s, struct text name, struct text value)
{
    if (is_one_of(name, "decode eof recover"))
        return on_bytes(s, name, value);
    if (is_one_of(name, "set allow max strict"))
        return set(s, name, value);
    if (is(name, "store"))
        return store(s, value);
    if (is(name, "restore"))
        return restore(s, value);
    return is(name, "table") && lend(s, value);
}

/* The calls that are no decoder's. */
static const char others[] = "rv rs wv wvw ws wsw iv au ai af afb g vl idf check ended path sended spath write";

void session_line(struct session *s, const char *line, size_t length)
{
    struct text rest = {line, length}, name;
    s->filled = 0;
    if (length <= MOST_LINE && (length == 0 || line[0] == '#'))
        return;
    const int has_words = cut(&rest, ' ', &name);
    if (!is_one_of(name, "st decode eof")) {
        run_close(s);
        cuts_close(s);
    }
    s->lines++;
    if (length > MOST_LINE) {
        say(s, "BADLINE");
    } else if (is_one_of(name, others)) {
        say(s, "-");
        s->left_out++;
    } else if (!(has_words ? with_words(s, name, rest) : alone(s, name))) {
        say(s, "BADLINE");
    }
}

int session_begin(struct session *s, size_t room)
{
    memset(s, 0, sizeof *s);
    s->is_shape_good = s->is_table_passed = 1;
    s->run.room = room;
    if (ebml_decoder_new(&s->d) != 0)
        s->fault = "ebml_decoder_new refuses";
    if (room == 0)
        return 1;
    s->run.single = calloc(room, sizeof s->run.single[0]);
    s->run.listed = calloc(room, sizeof s->run.listed[0]);
    return s->run.single != NULL && s->run.listed != NULL;
}

void session_cut(struct session *s, uint64_t seed, FILE *script, uint64_t one_in)
{
    s->cuts.is_on = script != NULL;
    s->cuts.seed = seed;
    s->cuts.script = script;
    s->cuts.one_in = one_in;
}

void session_end(struct session *s)
{
    run_close(s);
    cuts_close(s);
    free(s->run.single);
    free(s->run.listed);
}
