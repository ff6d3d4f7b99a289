/* session.h: a script of calls answered by the C calls of ebml.h on one decoder. */
#ifndef SESSION_H
#define SESSION_H

#include "ebml.h"
#include "text.h"
#include <stdio.h>

/* A line has at most so many bytes, so a table on it fewer words than these, and a HEX fewer bytes. */
#define MOST_LINE 16384
#define MOST_WORDS 8192
#define MOST_BYTES 8192

/* More than any answer takes. */
#define MOST_ANSWER 20000

/* Calls in a row that lend the unread rest of the same bytes, to be asked once more as one call of many events. */
struct run {
    size_t room; /* how many events a list has; 0: runs are not asked */
    ebml_event *single, *listed;
    int is_open, eof;
    ebml_decoder before;
    uint8_t bytes[MOST_BYTES];
    size_t length, taken, count;
};

/* Decode calls in a row, each of which lends the unread rest of the one before, after need-more with more bytes behind
 * it; to be asked once more in one piece and in others. */
struct cuts {
    int is_on;           /* 0: nothing is cut */
    int is_brief;        /* a row is cut in one way alone, and not at every place */
    uint64_t seed;
    FILE *script;        /* where rows are written as scripts, for other programs */
    uint64_t one_in;     /* of so many rows one is written */
    int is_table_written;
    int is_open, is_over, needs_more;
    ebml_decoder before;
    uint8_t bytes[MOST_BYTES];
    size_t length, taken;
    /* rows that were asked; of these strict ones, refused ones, ones with Ends that waited, ones that end just at 2^62,
     * ones whose table fails its check; rows left out */
    unsigned long rows, strict, refused, waited, at_limit, unchecked, left_out;
    /* ways in which rows were cut; of these by lists, their pieces, those written; those that differ */
    unsigned long asked, listed, pieces, written, differences;
};

struct session {
    ebml_decoder d;
    uint64_t entries[MOST_WORDS], parts[MOST_WORDS];
    size_t entries_len, parts_len;
    int is_shape_good, is_table_passed;
    struct run run;
    struct cuts cuts;
    char answer[MOST_ANSWER];
    size_t filled;           /* bytes of the answer; 0 for a line that has none */
    const char *fault;       /* what a call did that no line of an answer shows; null where there is none */
    unsigned long lines;     /* answered */
    unsigned long stood_in;  /* of these, calls on words that C refuses as a whole, since refusal 11 is for them */
    unsigned long left_out;  /* of these, calls that are no decoder's, answered by `-` */
    unsigned long runs, listed; /* runs that were asked, and the events of them */
};

/* A fresh session. With `room` over 0 each run is asked as one call of so many events; it needs memory, and the result
 * is 0 where there is none. */
int session_begin(struct session *s, size_t room);

/* From now on each row of decode calls is asked once more in one piece and in others, by the seed, and one row of
 * `one_in` is written to the script; nothing is where that is null. */
void session_cut(struct session *s, uint64_t seed, FILE *script, uint64_t one_in);

/* Answers one line, without its line feed. */
void session_line(struct session *s, const char *line, size_t length);

/* Ends a session: asks what is left of a run, and frees its memory. */
void session_end(struct session *s);

/* In run.c: before a line that is no call in a row; before and behind a call in a row. */
void run_close(struct session *s);
void run_before(struct session *s, int eof, const uint8_t *bytes, size_t length);
void run_behind(struct session *s, const ebml_reply *r, const ebml_event *e);

/* In cuts.c: the same of calls in a row that are cut. */
void cuts_close(struct session *s);
void cuts_before(struct session *s, const uint8_t *bytes, size_t length);
void cuts_behind(struct session *s, const ebml_reply *r);

/* In record.c: the fields of `st`, the settings where C refuses the words as a whole, and the fields of `set`; 0 where
 * the text is no call's. */
void record_show(struct session *s, const ebml_decoder *d);
int record_set(ebml_decoder *d, struct text fields);
int record_allow(ebml_decoder *d, struct text value);
int record_max(ebml_decoder *d, struct text value);

/* Puts more of the answer, as printf does. */
void say(struct session *s, const char *format, ...);

/* The places of a decoder's words. */
enum place {
    LAYOUT = 0, ALLOW = 1, STRICT = 4, MAX_GIVEN = 5, MAX = 6, POSITION = 7, SETTLED = 8, FINISHED = 9,
    OPEN_COUNT = 10, OPEN = 11, OPEN_WORDS = 6, WAITING_COUNT = 203, WAITING = 204, WAITING_WORDS = 3
};
#define MOST_OPEN 32

#endif
