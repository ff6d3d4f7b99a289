/* pieces.h: bytes lent to a decoder in pieces, each next one as the unread rest followed by it, until the decoder
 * refuses or needs more than there is. */
#ifndef PIECES_H
#define PIECES_H

#include "session.h"

/* More than the bytes of a line have, the Ends that waited and those of the masters that were open included. */
#define MOST_EVENTS (2 * MOST_BYTES)

/* How bytes are lent: pieces that end at these places, the last one at the bytes' end, to ebml_decode, or with a room
 * over 0 to ebml_decode_many with lists of so many events. Each call is written to the script, where there is one. */
struct lending {
    const ebml_decoder *before;
    const uint8_t *bytes;
    const size_t *ends;
    size_t pieces, room;
    FILE *script;
};

/* What it comes to: the events, the bytes taken, the reply that has no event, the decoder behind it. */
struct outcome {
    ebml_event events[MOST_EVENTS];
    size_t count, taken;
    ebml_reply last;
    ebml_decoder d;
};

/* Lends the bytes; 0 where there are more events than MOST_EVENTS, or a call answers that the list is full and is not.
 */
int pieces_lend(const struct session *s, const struct lending *lending, struct outcome *outcome);

#endif
