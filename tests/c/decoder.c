/* The decoder's calls as a C program makes them: one event a call and many, in pieces of several sizes, over restarts,
 * with every setting, the refusals that a record can have, and on words that are no decoder's. Prints a line for each
 * check that fails, then the count; exit status 1 if one failed. It reads the samples, so it runs in the repository's
 * root. */
#include "ebml.h"
#include <stdio.h>
#include <string.h>

static int checks, failures;

static void expect(const char *what, int ok)
{
    checks++;
    if (!ok) {
        failures++;
        printf("FAILED: %s\n", what);
    }
}

#define N(...) (const uint8_t[]){__VA_ARGS__}, sizeof((const uint8_t[]){__VA_ARGS__})
#define WORDS(a) (a), sizeof(a) / sizeof(a)[0]
#define TABLE WORDS(entries), WORDS(parts)

/* Session, Feed in it, a value of each type in Feed, and Void anywhere. */
static const uint64_t entries[] = {
    0x4E01, EBML_MASTER, 0, 0, 0xA1, EBML_MASTER, 0, 1,  0xA2, EBML_UNSIGNED, 0, 2, 0xA3, EBML_UTF8, 0, 2,
    0xA4, EBML_BINARY, 0, 2,   0xA5, EBML_INTEGER, 0, 2, 0xA6, EBML_FLOAT, 0, 2,    0xEC, EBML_BINARY, 2, 1,
};
static const uint64_t parts[] = {0, 0x4E01, 0, 0, 0xA1, 0, 1, 0, 0};

static const uint8_t d1[] = {0x4E, 0x01, 0x89, 0xA1, 0x87, 0xA2, 0x81, 0x78, 0xA3, 0x82, 'm', 'l'};

/* The events of D1, as document 01 prints them. */
static const ebml_event d1_events[] = {
    {EBML_START, 0x4E01, 0, 0, 0, 0, 9, 1},   {EBML_START, 0xA1, 3, 0, 0, 0, 7, 1},
    {EBML_UNSIGNED, 0xA2, 5, 120, 0, 0, 0, 0}, {EBML_UTF8, 0xA3, 8, 10, 12, 0, 0, 0},
    {EBML_END, 0xA1, 3, 0, 0, 2, 0, 0},       {EBML_END, 0x4E01, 0, 0, 0, 1, 0, 0},
};

/* ---- a record decoded to its last answer */

#define MOST_EVENTS 64
#define MOST_ROOM 16

struct run {
    ebml_event events[MOST_EVENTS];
    size_t count;
    ebml_reply last; /* the first answer that is no event */
};

/* How a record is handed over: bytes that come at a time, room for events (0: one a call), a restart at each call. */
struct way { size_t piece, room; int restart; };

static ebml_decoder d;
static struct run got;

/* A reply that is a code alone: a refusal of words, or in 5 to 9, which no call answers, what is wrong with a call. */
static ebml_reply only_code(uint64_t code)
{
    ebml_reply r = {0, 0, 0, 0, 0, 0, 0, 0, 0, 0, 0};
    r.code = code;
    return r;
}

/* As a restart: of the decoder only its block is left. */
static int comes_back(void)
{
    static uint8_t block[EBML_BLOCK_BYTES];
    const ebml_decoder before = d;
    if (ebml_store(&d, block, sizeof block) != 0) return 0;
    memset(&d, 0xAA, sizeof d);
    return ebml_restore(&d, block, sizeof block) == 0 && memcmp(&d, &before, sizeof d) == 0;
}

/* One call; its events go behind those that are there, and nothing behind them changes. */
static ebml_reply call(int ended, size_t room, const uint8_t *unread, size_t n)
{
    static ebml_event list[MOST_ROOM], kept[MOST_ROOM];
    ebml_reply r;
    memset(list, 0xAA, sizeof list);
    memset(kept, 0xAA, sizeof kept);
    if (room == 0) r = ended ? ebml_decode_eof(&d, TABLE, unread, n, list) : ebml_decode(&d, TABLE, unread, n, list);
    else if (ended) r = ebml_decode_many_eof(&d, TABLE, unread, n, EBML_EVENTS(list, room));
    else r = ebml_decode_many(&d, TABLE, unread, n, EBML_EVENTS(list, room));
    if (r.events > (room == 0 ? 1 : room) || r.taken > n || got.count + r.events > MOST_EVENTS) return only_code(9);
    if (memcmp(list + r.events, kept, (MOST_ROOM - r.events) * sizeof *list) != 0) return only_code(8);
    memcpy(got.events + got.count, list, r.events * sizeof *list);
    got.count += r.events;
    return r;
}

/* Decodes the bytes in this way with the decoder as it stands, which is at the first of them. */
static void decode_on(const uint8_t *bytes, size_t n, struct way way)
{
    const uint64_t base = ebml_position(&d).value;
    size_t at = 0, there = 0;
    int ended = 0;
    for (;;) {
        if (way.restart && !comes_back()) got.last = only_code(7);
        if (way.restart && got.last.code == 7) return;
        got.last = call(ended, way.room, bytes + at, there - at);
        at += got.last.taken;
        if (ebml_position(&d).value != base + at) got.last = only_code(6);
        if (got.last.code == EBML_FULL) continue;
        if (!EBML_NEEDS_MORE(got.last.code)) return;
        if (ended) got.last = only_code(5);
        if (ended) return;
        ended = there == n;
        there = n - there < way.piece ? n : there + way.piece;
    }
}

static void decode_fresh(const uint8_t *bytes, size_t n, struct way way)
{
    memset(&got, 0, sizeof got);
    memset(&d, 0xAA, sizeof d);
    ebml_decoder_new(&d);
    decode_on(bytes, n, way);
}

/* One event a call, all bytes at once. */
static const struct way plain = {1024, 0, 0};

/* Every other way gives the same events and the same last answer, but for the bytes and events told with it. */
static void same_in_every_way(const char *what, const uint8_t *bytes, size_t n)
{
    static const size_t pieces[] = {1, 3, 7, 1024}, rooms[] = {0, 1, 2, 3, 16};
    static struct run first;
    int same = 1;
    decode_fresh(bytes, n, plain);
    first = got;
    for (size_t i = 0; i < 4 * 5 * 2; i++) {
        const struct way way = {pieces[i % 4], rooms[i / 4 % 5], i >= 20};
        decode_fresh(bytes, n, way);
        got.last.taken = first.last.taken;
        got.last.events = first.last.events;
        same = same && memcmp(&got, &first, sizeof got) == 0;
    }
    expect(what, same && (first.last.code == EBML_FINISHED || EBML_IS_REFUSAL(first.last.code)));
    got = first;
}

/* ---- the records */

static void d1_decoded(void)
{
    same_in_every_way("D1 in every way", d1, sizeof d1);
    expect("D1's events", got.count == 6 && memcmp(got.events, d1_events, sizeof d1_events) == 0);
    expect("D1 finishes", got.last.code == EBML_FINISHED && got.last.taken == 0 && got.last.events == 0);
    decode_fresh(d1, sizeof d1, plain);
    expect("its text", memcmp(ebml_event_bytes(&got.events[3], d1 + 8, 8), "ml", 2) == 0);
    expect("finished", ebml_is_finished(&d).value == 1 && ebml_is_finished(&d).code == 0);
    expect("its position", ebml_position(&d).value == sizeof d1 && ebml_position(&d).code == 0);
}

/* Every event of D1 after the other, with what the decoder tells of itself. */
static void d1_step_by_step(void)
{
    static const uint64_t taken[] = {3, 2, 3, 4, 0, 0};
    ebml_event e;
    size_t at = 0;
    ebml_decoder_new(&d);
    for (size_t i = 0; i < 6; i++) {
        const ebml_reply r = i < 4 ? ebml_decode(&d, TABLE, d1 + at, sizeof d1 - at, &e)
                                   : ebml_decode_eof(&d, TABLE, d1 + at, sizeof d1 - at, &e);
        at += r.taken;
        expect("an event", r.code == EBML_FULL && r.events == 1 && r.taken == taken[i] && r.place + r.missing == 0);
        expect("as D1 has it", memcmp(&e, &d1_events[i], sizeof e) == 0);
        expect("position", ebml_position(&d).value == at);
        expect("not finished", ebml_is_finished(&d).value == 0);
    }
    expect("the finish", ebml_decode_eof(&d, TABLE, d1, 0, &e).code == EBML_FINISHED);
    expect("finished", ebml_is_finished(&d).value == 1);
    expect("and again", ebml_decode(&d, TABLE, d1, 0, &e).code == EBML_FINISHED);
    const ebml_reply r = ebml_decode(&d, TABLE, d1, 1, &e);
    expect("13", EBML_REFUSAL(r.code) == EBML_AFTER_FINISH && r.place == sizeof d1 && r.taken == 0);
}

static uint8_t night[256];

static size_t read_sample(const char *path)
{
    FILE *from = fopen(path, "rb");
    const size_t n = from ? fread(night, 1, sizeof night, from) : 0;
    if (from) fclose(from);
    expect(path, n > 0 && n < sizeof night);
    return n;
}

static void nights(void)
{
    size_t n = read_sample("samples/night.ebml");
    uint64_t sum = 0;
    same_in_every_way("night in every way", night, n);
    expect("34 events and the finish", got.count == 34 && got.last.code == EBML_FINISHED);
    for (size_t i = 0; i < got.count; i++)
        if (got.events[i].id == 0xA2) sum += got.events[i].value;
    expect("745 ml", sum == 120 + 115 + 120 + 90 + 300);
    expect("a Shift of -3", got.events[10].kind == EBML_INTEGER && ebml_event_i64(&got.events[10]) == -3);
    expect("a Rate of 2.5", got.events[11].kind == EBML_FLOAT && ebml_event_f64(&got.events[11]) == 2.5);
    expect("the Session's children", got.events[33].kind == EBML_END && got.events[33].count == 6);
    n = read_sample("samples/night-written.ebml");
    same_in_every_way("night-written in every way", night, n);
    expect("34 events too", got.count == 34 && got.last.code == EBML_FINISHED);
    n = read_sample("samples/night-open.ebml");
    same_in_every_way("night-open in every way", night, n);
    expect("its sizes are not known", got.events[0].size_known == 0 && got.events[1].size_known == 0);
    expect("and it finishes all the same", got.count == 20 && got.last.code == EBML_FINISHED);
    n = read_sample("samples/night-cut.ebml");
    same_in_every_way("night-cut in every way", night, n);
    expect("three feeds of it", got.count == 19 && got.events[0].size == 100 && got.events[0].size_known == 1);
    expect("its Session is cut", EBML_REFUSAL(got.last.code) == EBML_UNEXPECTED_EOF && got.last.place == 0
               && got.last.cut_named == EBML_CUT_ID + EBML_CUT_SIZE && got.last.cut_id == 0x4E01
               && got.last.cut_size == 100 && got.last.cut_start == 0);
}

/* The night cut after each of its bytes never finishes, but for none and all of them. */
static void cuts(void)
{
    const size_t n = read_sample("samples/night.ebml");
    int told = 1;
    for (size_t i = 1; i < n; i++) {
        decode_fresh(night, i, plain);
        told = told && EBML_IS_REFUSAL(got.last.code) && EBML_REFUSAL(got.last.code) == EBML_UNEXPECTED_EOF;
    }
    expect("each cut is told", told);
    decode_fresh(night, 0, plain);
    expect("no byte is an end", got.last.code == EBML_FINISHED && got.count == 0);
    decode_fresh(night, 102, plain);
    expect("23 in a value", got.last.place == 97 && got.last.cut_start == 97 && got.last.cut_id == 0xA6
               && got.last.cut_named == EBML_CUT_ID + EBML_CUT_SIZE + EBML_CUT_BYTES && got.last.cut_size == 4
               && got.last.cut_begin == 99 && got.last.cut_end == 102);
    decode_fresh(night, 2, plain);
    expect("23 behind an ID", got.last.place == 0 && got.last.cut_id == 0x4E01 && got.last.cut_size == 0
               && got.last.cut_named == EBML_CUT_ID + EBML_CUT_BYTES && got.last.cut_begin == 0
               && got.last.cut_end == 2);
    decode_fresh(night, 1, plain);
    expect("23 in an ID", got.last.cut_named == EBML_CUT_BYTES && got.last.cut_id == 0 && got.last.cut_end == 1);
}

/* How many bytes are missing: with fewer the answer is need-more again, and nothing changes. */
static void missing(void)
{
    ebml_event e;
    int asked = 1;
    ebml_decoder_new(&d);
    for (size_t there = 0, at = 0; there <= sizeof d1; there++) {
        const ebml_decoder before = d;
        const ebml_reply r = ebml_decode(&d, TABLE, d1 + at, there - at, &e);
        if (r.events == 1) at += r.taken, there--;
        else asked = asked && r.code == EBML_NEED_MORE && r.missing >= 1 && r.taken == 0 && r.place == 0;
        if (r.events == 0 && r.missing > 1 && there < sizeof d1)
            asked = asked && ebml_decode(&d, TABLE, d1 + at, there + 1 - at, &e).code == EBML_NEED_MORE;
        if (r.events == 0) asked = asked && memcmp(&d, &before, sizeof d) == 0;
    }
    expect("need-more before each event", asked);
    ebml_decoder_new(&d);
    expect("none there: 2", ebml_decode(&d, TABLE, d1, 0, &e).missing == 2);
    expect("half an ID: 2", ebml_decode(&d, TABLE, d1, 1, &e).missing == 2);
    expect("an ID: 1", ebml_decode(&d, TABLE, d1, 2, &e).missing == 1);
    ebml_decode(&d, TABLE, d1, 12, &e);
    ebml_decode(&d, TABLE, d1 + 3, 9, &e);
    ebml_decode(&d, TABLE, d1 + 5, 7, &e);
    expect("a text: 2", ebml_decode(&d, TABLE, d1 + 8, 2, &e).missing == 2);
    expect("the rest of it: 1", ebml_decode(&d, TABLE, d1 + 8, 3, &e).missing == 1);
    expect("and then the event", ebml_decode(&d, TABLE, d1 + 8, 4, &e).events == 1 && e.end == 12);
}

/* ---- refusals */

/* A fresh decoder refuses the record by this number at this place, in every way, behind so many events. */
static void refuses(const char *what, int number, uint64_t place, size_t events, const uint8_t *bytes, size_t n)
{
    same_in_every_way(what, bytes, n);
    expect(what, EBML_IS_REFUSAL(got.last.code) && EBML_REFUSAL(got.last.code) == number && got.last.place == place
                     && got.count == events && got.last.cut_named == 0 && got.last.taken == 0);
}

static void refusals(void)
{
    static const uint64_t bad[] = {0xA1, EBML_MASTER, 0};
    uint8_t deep[99];
    ebml_event e;
    ebml_reply r;
    refuses("14", 14, 0, 0, N(0xA2, 0x89));
    refuses("15", 15, 0, 0, N(0, 0x81, 5));
    refuses("16", 16, 3, 1, N(0x4E, 1, 0x83, 0xA2, 0x81, 0x78));
    refuses("17", 17, 0, 0, N(0x4E, 1, 8, 0xEE, 0x6B, 0x28, 1));
    refuses("18", 18, 3, 1, N(0x4E, 1, 0x88, 0xA1, 0x87, 0xA2, 0x81, 0x78, 0xA3, 0x82, 'm', 'l'));
    refuses("20", 20, 5, 2, N(0x4E, 1, 0x85, 0xA1, 0x83, 0xA3, 0x81, 0xFF));
    refuses("21", 21, 5, 2, N(0x4E, 1, 0x86, 0xA1, 0x84, 0xA6, 0x82, 0, 0));

    for (size_t i = 0; i < 33; i++)
        deep[3 * i] = 0x4E, deep[3 * i + 1] = 1, deep[3 * i + 2] = (uint8_t)(0x80 + 96 - 3 * i);
    memset(&got, 0, sizeof got);
    ebml_decoder_new(&d);
    ebml_allow_errors(&d, 0, 1, 0);
    decode_on(deep, sizeof deep, plain);
    expect("19", EBML_REFUSAL(got.last.code) == EBML_TOO_MANY_OPEN && got.last.place == 96 && got.count == 32);

    ebml_decoder_new(&d);
    r = ebml_decode(&d, WORDS(bad), WORDS(parts), d1, sizeof d1, &e);
    expect("10", EBML_REFUSAL(r.code) == EBML_TABLE_SHAPE && r.place == 0 && r.taken == 0 && r.events == 0);
    r = ebml_try_recover(&d, WORDS(bad), WORDS(parts), d1, sizeof d1);
    expect("10 of a recovery", EBML_REFUSAL(r.code) == EBML_TABLE_SHAPE && r.taken == 0);
    d.words[7] = (uint64_t)1 << 62;
    r = ebml_decode(&d, TABLE, d1, 1, &e);
    expect("12", EBML_REFUSAL(r.code) == EBML_TOO_FAR && r.place == (uint64_t)1 << 62);
    d.words[7]++;
    r = ebml_decode(&d, WORDS(bad), WORDS(parts), d1, 1, &e);
    expect("11 before 10", EBML_REFUSAL(r.code) == EBML_BAD_STATE && r.place == 0);
}

/* ---- settings */

/* What a decoder with the settings made since answers to these bytes. */
static int answers(int number, size_t events, const uint8_t *bytes, size_t n)
{
    memset(&got, 0, sizeof got);
    decode_on(bytes, n, plain);
    return got.count == events
           && (number == 0 ? got.last.code == EBML_FINISHED
                           : EBML_IS_REFUSAL(got.last.code) && EBML_REFUSAL(got.last.code) == number);
}

static void allowances(void)
{
    ebml_decoder_new(&d);
    expect("an unknown ID is allowed", ebml_allow_errors(&d, 7, 0, 0) == 0 && answers(0, 1, N(0xA7, 0x81, 5)));
    expect("and comes raw", got.events[0].kind == EBML_RAW && got.events[0].id == 0xA7 && got.events[0].value == 2
                                && got.events[0].end == 3);
    ebml_decoder_new(&d);
    ebml_allow_errors(&d, 1, 0, 0);
    expect("off again", ebml_allow_errors(&d, 0, 1, 1) == 0 && answers(15, 0, N(0xA7, 0x81, 5)));
    ebml_decoder_new(&d);
    expect("any place is allowed", ebml_allow_errors(&d, 0, UINT64_MAX, 0) == 0
                                       && answers(0, 3, N(0x4E, 1, 0x83, 0xA2, 0x81, 0x78)));
    ebml_decoder_new(&d);
    expect("a child past the end is allowed", ebml_allow_errors(&d, 0, 0, 1) == 0
                                                  && answers(0, 6, N(0x4E, 1, 0x88, 0xA1, 0x87, 0xA2, 0x81, 0x78, 0xA3,
                                                                     0x82, 'm', 'l')));
}

static void greatest_sizes(void)
{
    ebml_decoder_new(&d);
    expect("8 bytes at most", ebml_set_max_allowable_tag_size(&d, 1, 8) == 0 && answers(17, 0, d1, sizeof d1));
    expect("9 bytes", ebml_set_max_allowable_tag_size(&d, 1, 9) == 0 && answers(0, 6, d1, sizeof d1));
    ebml_decoder_new(&d);
    expect("none", ebml_set_max_allowable_tag_size(&d, 0, 8) == 0 && d.words[6] == 0 && answers(0, 6, d1, sizeof d1));
    ebml_decoder_new(&d);
    expect("over 4,000,000,000", answers(17, 0, N(0x4E, 1, 8, 0xEE, 0x6B, 0x28, 1)));
    ebml_decoder_new(&d);
    ebml_set_max_allowable_tag_size(&d, 0, 0);
    expect("where none is set", answers(23, 1, N(0x4E, 1, 8, 0xEE, 0x6B, 0x28, 1)));
}

static void strictness(void)
{
    ebml_decoder_new(&d);
    expect("strictly", ebml_set_strict(&d, 2) == 0 && answers(80, 0, N(0, 0x81, 5)));
    expect("as ported", ebml_set_strict(&d, 0) == 0 && answers(15, 0, N(0, 0x81, 5)));
    ebml_decoder_new(&d);
    ebml_set_strict(&d, 1);
    expect("16 of D4", answers(16, 2, N(0x4E, 1, 0xFF, 0xA1, 0x85, 0x4E, 1, 0x80)) && got.last.place == 5);
    ebml_decoder_new(&d);
    ebml_set_strict(&d, 1);
    expect("81 of D9", answers(81, 1, N(0x4E, 1, 0x81, 0xA1, 0xFF)) && got.last.place == 3);
    ebml_decoder_new(&d);
    ebml_set_strict(&d, 1);
    expect("a text's padding", answers(0, 5, N(0x4E, 1, 0x88, 0xA1, 0x86, 0xA3, 0x84, 'm', 'l', 0, 0xFF))
                                   && got.events[2].value == 7 && got.events[2].end == 9);
    ebml_decoder_new(&d);
    expect("is read as ported", answers(20, 2, N(0x4E, 1, 0x88, 0xA1, 0x86, 0xA3, 0x84, 'm', 'l', 0, 0xFF)));
    ebml_decoder_new(&d);
    ebml_set_strict(&d, 1);
    expect("D1 strictly", answers(0, 6, d1, sizeof d1) && memcmp(got.events, d1_events, sizeof d1_events) == 0);
}

/* ---- recovery */

static void recovery(void)
{
    static uint8_t damaged[256];
    const size_t n = read_sample("samples/night.ebml");
    ebml_decoder copy;
    ebml_reply r;
    memcpy(damaged, night, 21);
    memset(damaged + 21, 0, 3);
    memcpy(damaged + 24, night + 21, n - 21);
    decode_fresh(damaged, n + 3, plain);
    expect("damage", EBML_REFUSAL(got.last.code) == 14 && got.last.place == 21 && got.count == 7);
    copy = d;
    r = ebml_try_recover(&copy, TABLE, damaged + 21, 2);
    expect("not found", r.code == EBML_NOT_FOUND && r.taken == 1 && r.events == 0 && r.missing == 0);
    expect("passed over", ebml_position(&copy).value == 22 && copy.words[13] == 100);
    r = ebml_try_recover(&d, TABLE, damaged + 21, n - 18);
    expect("found", r.code == EBML_FOUND && r.taken == 3 && r.place == 0);
    expect("and the size grows", ebml_position(&d).value == 24 && d.words[13] == 103);
    decode_on(damaged + 24, n - 21, plain);
    expect("all of the night", got.count == 34 && got.last.code == EBML_FINISHED);
    expect("its second feed is later", got.events[7].id == 0xA1 && got.events[7].offset == 24);

    memcpy(damaged, night, n);
    damaged[28] = 0xFF;
    decode_fresh(damaged, n, plain);
    expect("a damaged text", EBML_REFUSAL(got.last.code) == EBML_NOT_UTF8 && got.last.place == 26);
    r = ebml_try_recover(&d, TABLE, damaged + 26, n - 26);
    expect("is found again, none passed over", r.code == EBML_FOUND && r.taken == 0);
}

/* ---- words that are no decoder's, and blocks */

/* Every call refuses the words by this number and changes nothing. */
static void refused_words(const char *what, const ebml_decoder *words, int number)
{
    static uint8_t block[EBML_BLOCK_BYTES], kept[EBML_BLOCK_BYTES];
    const uint64_t code = EBML_REFUSED + (uint64_t)number;
    const ebml_reply reply = only_code(code);
    ebml_decoder w = *words;
    ebml_reply r;
    memset(block, 0xAA, sizeof block);
    memset(kept, 0xAA, sizeof kept);
    memset(&got, 0, sizeof got);
    expect(what, ebml_allow_errors(&w, 1, 1, 1) == code && ebml_set_strict(&w, 1) == code
                     && ebml_set_max_allowable_tag_size(&w, 1, 5) == code);
    expect(what, ebml_position(&w).code == code && ebml_position(&w).value == 0 && ebml_is_finished(&w).code == code
                     && ebml_is_finished(&w).value == 0);
    expect(what, ebml_store(&w, block, sizeof block) == code && memcmp(block, kept, sizeof block) == 0);
    r = ebml_try_recover(&w, TABLE, d1, sizeof d1);
    expect(what, memcmp(&r, &reply, sizeof r) == 0);
    d = w;
    for (size_t i = 0; i < 6; i++) {
        r = call((int)i % 2, i / 2, d1, sizeof d1);
        expect(what, memcmp(&r, &reply, sizeof r) == 0);
    }
    expect(what, memcmp(&w, words, sizeof w) == 0 && memcmp(&d, words, sizeof d) == 0);
    expect("made anew", ebml_decoder_new(&w) == 0 && ebml_position(&w).code == 0 && ebml_position(&w).value == 0);
}

static void words(void)
{
    ebml_decoder w;
    memset(&w, 0, sizeof w);
    refused_words("words of 0", &w, 91);
    memset(&w, 0xFF, sizeof w);
    refused_words("words of ones", &w, 91);
    ebml_decoder_new(&w);
    expect("the layout is 2", w.words[0] == 2);
    w.words[0] = 1;
    refused_words("another layout", &w, 91);
    ebml_decoder_new(&w);
    w.words[4] = 2;
    refused_words("a yes-or-no word of 2", &w, 92);
    ebml_decoder_new(&w);
    w.words[319] = 1;
    refused_words("an unused word", &w, 92);
    ebml_decoder_new(&w);
    w.words[10] = 33;
    refused_words("33 masters", &w, 11);
    ebml_decoder_new(&w);
    w.words[7] = UINT64_MAX;
    refused_words("too far", &w, 11);
}

static void blocks(void)
{
    static uint8_t block[EBML_BLOCK_BYTES + 1], kept[EBML_BLOCK_BYTES + 1];
    ebml_decoder w;
    memset(block, 0xAA, sizeof block);
    memset(kept, 0xAA, sizeof kept);
    ebml_decoder_new(&d);
    expect("90, a byte less", ebml_store(&d, block, EBML_BLOCK_BYTES - 1) == EBML_REFUSED + EBML_BLOCK_LENGTH);
    expect("90, a byte more", ebml_store(&d, block, EBML_BLOCK_BYTES + 1) == EBML_REFUSED + EBML_BLOCK_LENGTH);
    expect("nothing written", memcmp(block, kept, sizeof block) == 0);
    expect("stored", ebml_store(&d, block, EBML_BLOCK_BYTES) == 0 && block[EBML_BLOCK_BYTES] == 0xAA);
    expect("big-endian words", ebml_u64(block) == 2 && ebml_u64(block + 8 * 6) == 4000000000u && block[8 * 319] == 0);
    memset(&w, 0xAA, sizeof w);
    expect("restored", ebml_restore(&w, block, EBML_BLOCK_BYTES) == 0 && memcmp(&w, &d, sizeof w) == 0);
    expect("90 to restore", ebml_restore(&w, block, EBML_BLOCK_BYTES - 1) == EBML_REFUSED + EBML_BLOCK_LENGTH
                                && ebml_restore(&w, block, EBML_BLOCK_BYTES + 1) == EBML_REFUSED + EBML_BLOCK_LENGTH);
    block[7] = 3;
    expect("91", ebml_restore(&w, block, EBML_BLOCK_BYTES) == EBML_REFUSED + EBML_UNKNOWN_LAYOUT);
    block[7] = 2;
    block[8 * 320 - 1] = 1;
    expect("92", ebml_restore(&w, block, EBML_BLOCK_BYTES) == EBML_REFUSED + EBML_UNUSED_SET);
    block[8 * 320 - 1] = 0;
    block[8 * 7] = 0xFF;
    expect("11", ebml_restore(&w, block, EBML_BLOCK_BYTES) == EBML_REFUSED + EBML_BAD_STATE);
    expect("the words stay", memcmp(&w, &d, sizeof w) == 0);
}

/* Room for no event, and a list whose last words are too few for one. */
static void rooms(void)
{
    uint64_t list[EBML_EVENT_WORDS + 7];
    ebml_reply r;
    memset(list, 0xAA, sizeof list);
    ebml_decoder_new(&d);
    r = ebml_decode_many(&d, TABLE, d1, sizeof d1, list, 7);
    expect("no room", r.code == EBML_FULL && r.events == 0 && r.taken == 0 && list[0] == 0xAAAAAAAAAAAAAAAAu);
    r = ebml_decode_many(&d, TABLE, d1, sizeof d1, list, 0);
    expect("no word", r.code == EBML_FULL && r.events == 0 && r.taken == 0);
    r = ebml_decode_many(&d, TABLE, d1, sizeof d1, list, sizeof list / sizeof *list);
    expect("room for one", r.code == EBML_FULL && r.events == 1 && r.taken == 3 && list[EBML_EVENT_WORDS - 1] == 1
                               && list[EBML_EVENT_WORDS] == 0xAAAAAAAAAAAAAAAAu);
}

/* The decoder copied in the middle goes on twice alike. */
static void copies(void)
{
    ebml_decoder copy;
    ebml_event e, f;
    ebml_decoder_new(&d);
    ebml_decode(&d, TABLE, d1, sizeof d1, &e);
    copy = d;
    ebml_decode(&d, TABLE, d1 + 3, sizeof d1 - 3, &e);
    ebml_decode(&copy, TABLE, d1 + 3, sizeof d1 - 3, &f);
    expect("a copy goes on alike", memcmp(&d, &copy, sizeof d) == 0 && memcmp(&e, &f, sizeof e) == 0);
}

int main(void)
{
    d1_decoded();
    d1_step_by_step();
    nights();
    cuts();
    missing();
    refusals();
    allowances();
    greatest_sizes();
    strictness();
    recovery();
    words();
    blocks();
    rooms();
    copies();
    printf("c: %d checks of the decoder, %d failed\n", checks, failures);
    return failures != 0;
}
