/* pieces.c: bytes lent in pieces. */
#include "pieces.h"

/* What stands behind the bytes lent, which no call may read. */
#define BEHIND 16
#define OLD 0x55

static void write_call(FILE *script, const uint8_t *lent, size_t length)
{
    static const char digits[] = "0123456789ABCDEF";
    fputs(length == 0 ? "decode -" : "decode ", script);
    for (size_t i = 0; i < length; i++) {
        putc(digits[lent[i] / 16], script);
        putc(digits[lent[i] % 16], script);
    }
    putc('\n', script);
}

static ebml_reply ask(const struct session *s, size_t room, const uint8_t *lent, size_t length, struct outcome *o)
{
    ebml_event *to = o->events + o->count;
    if (room == 0)
        return ebml_decode(&o->d, s->entries, s->entries_len, s->parts, s->parts_len, lent, length, to);
    return ebml_decode_many(&o->d, s->entries, s->entries_len, s->parts, s->parts_len, lent, length,
                            EBML_EVENTS(to, room));
}

/* Lends what is not taken of the bytes before `end`, again and again, until a reply has no further event. */
static int lend_to(const struct session *s, const struct lending *l, size_t end, struct outcome *o)
{
    static uint8_t lent[MOST_BYTES + BEHIND];
    const size_t room = l->room == 0 ? 1 : l->room;
    do {
        const size_t length = end - o->taken;
        if (MOST_EVENTS - o->count < room)
            return 0;
        memcpy(lent, l->bytes + o->taken, length);
        memset(lent + length, OLD, BEHIND);
        if (l->script != NULL)
            write_call(l->script, lent, length);
        o->last = ask(s, l->room, lent, length, o);
        if (o->last.code == EBML_FULL && o->last.events != room)
            return 0;
        o->count += o->last.events;
        o->taken += o->last.taken;
    } while (o->last.code == EBML_FULL);
    o->last.events = o->last.taken = 0;
    return 1;
}

int pieces_lend(const struct session *s, const struct lending *l, struct outcome *o)
{
    o->d = *l->before;
    o->count = o->taken = 0;
    for (size_t k = 0; k < l->pieces; k++) {
        if (!lend_to(s, l, l->ends[k], o))
            return 0;
        if (!EBML_NEEDS_MORE(o->last.code))
            return 1;
    }
    return 1;
}
