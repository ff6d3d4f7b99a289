/* Usage: replay [--many ROOM | --cut SEED SCRIPT ONE_IN]
 * Reads a script of calls on standard input and answers the decoder's by the C calls of ebml.h, a line for a call, as
 * the program `replay` does; calls that are no decoder's answer `-`. With --many each run of calls that lend the unread
 * rest of the same bytes is asked once more, as calls of ebml_decode_many with a list of ROOM events. With --cut each
 * row of decode calls is asked once more in one piece and in others (cuts.c), and one row of ONE_IN is written to
 * SCRIPT for other programs. Counts go to standard error. The result is 3 where a call does what no answer shows, many
 * events are not those of single calls, or a row in pieces is not as in one; then it says the line, or the row. */
#include "session.h"
#include <stdio.h>
#include <stdlib.h>

static struct session session;

/* All of standard input; null where there is no memory for it. */
static char *read_all(size_t *length)
{
    size_t room = 1 << 20, n;
    char *script = malloc(room);
    *length = 0;
    while (script != NULL && (n = fread(script + *length, 1, room - *length, stdin)) > 0) {
        *length += n;
        if (*length == room) {
            char *more = realloc(script, room *= 2);
            if (more == NULL)
                free(script);
            script = more;
        }
    }
    return script;
}

/* The line where a fault came to light; a run may have begun before it. */
static int failed(unsigned long line)
{
    fflush(stdout);
    fprintf(stderr, "replay.c: line %lu: %s\n", line, session.fault);
    return 3;
}

static int answer_all(const char *script, size_t length)
{
    unsigned long line = 0;
    for (size_t at = 0, end; at < length; at = end + 1) {
        const char *feed = memchr(script + at, '\n', length - at);
        end = feed == NULL ? length : (size_t)(feed - script);
        line++;
        session_line(&session, script + at, end - at);
        if (session.filled > 0) {
            fwrite(session.answer, 1, session.filled, stdout);
            putchar('\n');
        }
        if (session.fault != NULL)
            return failed(line);
    }
    session_end(&session);
    return session.fault == NULL ? 0 : failed(line);
}

/* What is asked besides the script's own calls. */
struct wanted {
    size_t room;
    uint64_t seed, one_in;
    FILE *script;
};

static int read_wanted(int count, char **arguments, struct wanted *w)
{
    if (count == 3 && strcmp(arguments[1], "--many") == 0)
        w->room = strtoul(arguments[2], NULL, 10);
    if (count == 5 && strcmp(arguments[1], "--cut") == 0) {
        w->seed = strtoull(arguments[2], NULL, 10);
        w->one_in = strtoull(arguments[4], NULL, 10);
        w->script = w->one_in == 0 ? NULL : fopen(arguments[3], "w");
    }
    return count == 1 || w->room > 0 || w->script != NULL;
}

static void say_counts(const struct wanted *w)
{
    const struct cuts *c = &session.cuts;
    fprintf(stderr, "replay.c: %lu lines, %lu of them on words that C refuses, %lu left out", session.lines,
            session.stood_in, session.left_out);
    if (w->room > 0)
        fprintf(stderr, "; %lu runs of %lu events", session.runs, session.listed);
    if (w->script != NULL)
        fprintf(stderr,
                "; rows %lu strict %lu refused %lu waited %lu limit %lu unchecked %lu not_spoken_of %lu "
                "cut %lu by_lists %lu pieces %lu written %lu differences %lu",
                c->rows, c->strict, c->refused, c->waited, c->at_limit, c->unchecked, c->left_out, c->asked, c->listed,
                c->pieces, c->written, c->differences);
    fputc('\n', stderr);
}

int main(int count, char **arguments)
{
    struct wanted wanted = {0};
    size_t length = 0;
    if (!read_wanted(count, arguments, &wanted)) {
        fputs("usage: replay [--many ROOM | --cut SEED SCRIPT ONE_IN]\n", stderr);
        return 2;
    }
    char *script = read_all(&length);
    if (script == NULL || !session_begin(&session, wanted.room)) {
        fputs("replay.c: no memory\n", stderr);
        return 2;
    }
    session_cut(&session, wanted.seed, wanted.script, wanted.one_in);
    int result = answer_all(script, length);
    free(script);
    say_counts(&wanted);
    if (result == 0 && session.cuts.differences > 0)
        result = 3;
    if (wanted.script != NULL && fclose(wanted.script) != 0)
        return 2;
    return fflush(stdout) == 0 ? result : 2;
}
