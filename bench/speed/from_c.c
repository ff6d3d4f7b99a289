/* from_c.c: a whole stream decoded by a program in C, by ebml_decode or by ebml_decode_many, and the sum over its
 * events as seen.rs makes it. */
#include "ebml.h"

#define MOST_ROOM 64

/* What is counted: events, the sum, the last answer (2: finished, 3: refused), the position. */
struct seen {
    uint64_t events, sum, last, position;
};

static void mix(struct seen *seen, uint64_t x)
{
    seen->sum = (seen->sum << 5 | seen->sum >> 59) ^ x;
}

static void see(struct seen *seen, const ebml_event *e)
{
    static const uint64_t kinds[] = {1, 3, 4, 6, 7, 5, 2, 8};
    seen->events++;
    mix(seen, kinds[e->kind]);
    mix(seen, e->id);
    mix(seen, e->offset);
    if (e->kind == EBML_START || e->kind == EBML_END)
        return;
    mix(seen, e->value);
    if (e->kind == EBML_UTF8 || e->kind == EBML_BINARY || e->kind == EBML_RAW)
        mix(seen, e->end);
}

/* From fresh to the end of input, with `room` events a call; 1 is ebml_decode. In chunks, so many bytes more come at
 * each need-more. */
void from_c_decode(const uint64_t *entries, size_t entries_len, const uint64_t *parts, size_t parts_len,
                   const uint8_t *stream, size_t length, size_t chunk, size_t room, struct seen *seen)
{
    ebml_decoder d;
    ebml_event events[MOST_ROOM];
    ebml_reply r;
    size_t at = 0, fed = chunk == 0 ? length : 0;
    int ended = 0;
    ebml_decoder_new(&d);
    for (;;) {
        if (room == 1)
            r = (ended ? ebml_decode_eof : ebml_decode)(&d, entries, entries_len, parts, parts_len, stream + at,
                                                        fed - at, events);
        else
            r = (ended ? ebml_decode_many_eof : ebml_decode_many)(&d, entries, entries_len, parts, parts_len,
                                                                  stream + at, fed - at, EBML_EVENTS(events, room));
        at += (size_t)r.taken;
        for (size_t i = 0; i < r.events; i++)
            see(seen, &events[i]);
        if (EBML_NEEDS_MORE(r.code) && fed < length)
            fed = length - fed <= chunk ? length : fed + chunk;
        else if (EBML_NEEDS_MORE(r.code))
            ended = 1;
        else if (r.code != EBML_FULL)
            break;
    }
    seen->last = r.code == EBML_FINISHED ? 2 : 3;
    seen->position = ebml_position(&d).value;
}
