/* replies.c: for a machine that is not x86-64 (bench/native). There the archive's module still hands a reply out as C
 * does on x86-64, through a pointer before the arguments, while C has the pointer in a register of its own. So the
 * archive's calls are renamed, NAME to at_NAME, and these hand their replies out as C expects it. */
#include "ebml.h"

#define TABLE const uint64_t *entries, size_t entries_len, const uint64_t *parts, size_t parts_len
#define BYTES const uint8_t *input, size_t input_len
#define LENT entries, entries_len, parts, parts_len, input, input_len

void at_ebml_decode(ebml_reply *r, ebml_decoder *d, TABLE, BYTES, ebml_event *event);
void at_ebml_decode_eof(ebml_reply *r, ebml_decoder *d, TABLE, BYTES, ebml_event *event);
void at_ebml_decode_many(ebml_reply *r, ebml_decoder *d, TABLE, BYTES, uint64_t *events, size_t events_len);
void at_ebml_decode_many_eof(ebml_reply *r, ebml_decoder *d, TABLE, BYTES, uint64_t *events, size_t events_len);
void at_ebml_try_recover(ebml_reply *r, ebml_decoder *d, TABLE, BYTES);

ebml_reply ebml_decode(ebml_decoder *d, TABLE, BYTES, ebml_event *event)
{
    ebml_reply r;
    at_ebml_decode(&r, d, LENT, event);
    return r;
}

ebml_reply ebml_decode_eof(ebml_decoder *d, TABLE, BYTES, ebml_event *event)
{
    ebml_reply r;
    at_ebml_decode_eof(&r, d, LENT, event);
    return r;
}

ebml_reply ebml_decode_many(ebml_decoder *d, TABLE, BYTES, uint64_t *events, size_t events_len)
{
    ebml_reply r;
    at_ebml_decode_many(&r, d, LENT, events, events_len);
    return r;
}

ebml_reply ebml_decode_many_eof(ebml_decoder *d, TABLE, BYTES, uint64_t *events, size_t events_len)
{
    ebml_reply r;
    at_ebml_decode_many_eof(&r, d, LENT, events, events_len);
    return r;
}

ebml_reply ebml_try_recover(ebml_decoder *d, TABLE, BYTES)
{
    ebml_reply r;
    at_ebml_try_recover(&r, d, LENT);
    return r;
}
