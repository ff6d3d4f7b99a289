/* run.c: calls in a row asked once more, as one call of ebml_decode_many on a copy of the decoder. Its events, its
 * reply and the words behind it must be those of the single calls. */
#include "session.h"

/* What a list holds before a call. */
#define OLD 0x55

static int is_old(const void *bytes, size_t length)
{
    const unsigned char *at = bytes;
    for (size_t i = 0; i < length; i++)
        if (at[i] != OLD)
            return 0;
    return 1;
}

/* Whether the reply of a run is that of its last call, but for the events and bytes before it. */
static int is_reply(const ebml_reply *many, const ebml_reply *last, const struct run *run)
{
    return many->events == run->count && many->taken == run->taken && many->code == last->code &&
           many->place == last->place && many->missing == last->missing && many->cut_named == last->cut_named &&
           many->cut_start == last->cut_start && many->cut_id == last->cut_id && many->cut_size == last->cut_size &&
           many->cut_begin == last->cut_begin && many->cut_end == last->cut_end;
}

/* Asks the run as one call, whose list has room for so many events; `last` is the answer that it must stop with. */
static void ask(struct session *s, size_t room, const ebml_reply *last)
{
    struct run *run = &s->run;
    ebml_decoder copy = run->before;
    const size_t size = sizeof run->single[0];
    memset(run->listed, OLD, size * room);
    const ebml_reply many = (run->eof ? ebml_decode_many_eof : ebml_decode_many)(
        &copy, s->entries, s->entries_len, s->parts, s->parts_len, run->bytes, run->length,
        EBML_EVENTS(run->listed, room));
    if (!is_reply(&many, last, run))
        s->fault = "ebml_decode_many replies otherwise than the single calls";
    else if (memcmp(run->listed, run->single, size * run->count) != 0)
        s->fault = "ebml_decode_many hands out other events than the single calls";
    else if (!is_old(run->listed + run->count, size * (room - run->count)))
        s->fault = "ebml_decode_many writes behind its events";
    else if (memcmp(&copy, &s->d, sizeof copy) != 0)
        s->fault = "ebml_decode_many leaves other words than the single calls";
    s->runs++;
    s->listed += run->count;
    run->is_open = 0;
}

void run_close(struct session *s)
{
    const ebml_reply full = {0};
    if (s->run.is_open && s->run.count > 0)
        ask(s, s->run.count, &full);
    s->run.is_open = 0;
}

/* Whether these bytes are the unread rest of the run's. */
static int goes_on(const struct run *run, int eof, const uint8_t *bytes, size_t length)
{
    return run->is_open && run->eof == eof && run->length - run->taken == length &&
           memcmp(run->bytes + run->taken, bytes, length) == 0;
}

void run_before(struct session *s, int eof, const uint8_t *bytes, size_t length)
{
    struct run *run = &s->run;
    if (run->room == 0 || goes_on(run, eof, bytes, length))
        return;
    run_close(s);
    run->is_open = 1;
    run->eof = eof;
    run->before = s->d;
    memcpy(run->bytes, bytes, length);
    run->length = length;
    run->taken = run->count = 0;
}

void run_behind(struct session *s, const ebml_reply *r, const ebml_event *e)
{
    struct run *run = &s->run;
    if (run->room == 0)
        return;
    if (r->events == 0) {
        ask(s, run->room, r);
        return;
    }
    run->single[run->count++] = *e;
    run->taken += r->taken;
    if (run->count == run->room)
        run_close(s);
}
