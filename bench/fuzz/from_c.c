/* from_c.c: a script of calls answered by the C calls of ebml.h, for the fuzzer, and its rows of decode calls cut. */
#define _POSIX_C_SOURCE 200809L
#include "session.h"
#include <stdio.h>
#include <stdlib.h>

/* Calls in a row are asked once more with lists of so many events. */
#define ROOM 3

/* Of so many rows in one piece and in others one is kept for `replay`. */
#define ONE_IN 2

static struct session session;
static char *rows;
static size_t rows_length;

/* The scripts of rows that the last script left: in one piece, and in others. */
const char *from_c_rows(size_t *length)
{
    *length = rows_length;
    return rows;
}

/* Other scripts are cut at other places. */
static uint64_t seed_of(const char *script, size_t length)
{
    uint64_t seed = length;
    for (size_t i = 0; i < length; i++)
        seed = seed * 31 + (unsigned char)script[i];
    return seed;
}

static void fail(const char *script, size_t length, const char *what)
{
    fprintf(stderr, "DIFFERENCE of the C calls: %s\n%.*s\n", what, (int)length, script);
    abort();
}

/* The answers to a script at the front of `out`, each with its line feed; how many bytes they have. Where a call does
 * what no answer shows, or cutting a row makes a difference, the program ends. */
size_t from_c_script(const char *script, size_t length, char *out, size_t room)
{
    size_t filled = 0;
    free(rows);
    FILE *kept = open_memstream(&rows, &rows_length);
    if (kept == NULL || !session_begin(&session, ROOM))
        fail(script, length, "no memory");
    session_cut(&session, seed_of(script, length), kept, ONE_IN);
    session.cuts.is_brief = 1;
    for (size_t at = 0, end; at < length; at = end + 1) {
        const char *feed = memchr(script + at, '\n', length - at);
        end = feed == NULL ? length : (size_t)(feed - script);
        session_line(&session, script + at, end - at);
        if (session.filled > 0 && session.filled < room - filled) {
            memcpy(out + filled, session.answer, session.filled);
            filled += session.filled;
            out[filled++] = '\n';
        }
    }
    session_end(&session);
    if (fclose(kept) != 0)
        fail(script, length, "no memory");
    if (session.fault != NULL)
        fail(script, length, session.fault);
    if (session.cuts.differences > 0)
        fail(script, length, "cutting matters");
    return filled;
}
