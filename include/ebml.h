/* ebml.h: the calls of libebml.a, a decoder for EBML (RFC 8794) that is proved to meet its definitions.
 *
 * The archive is built by `rt lib` in crates/ebml_c (README.md, "From C") and links into a program for x86-64 Linux.
 * Every call here answers on every input and keeps nothing between calls: no heap, no global state, no lock.
 *
 * WHAT A CALLER OWES
 *  - A lent buffer is a pointer and then its length in elements (bytes, or words of a table). The pointer is not null,
 *    is aligned for its elements and points to that many of them, PTRDIFF_MAX bytes at most, which the call may read
 *    and, if it is not const, write.
 *  - A length of 0 is allowed, and then nothing is read or written through the pointer. It is still not null: lend the
 *    address of any object.
 *  - A decoder and a single event come without a length: their pointers are not null and point to one of them.
 *  - A buffer that a call writes overlaps no other buffer of the same call, and no other thread uses it during the
 *    call.
 *
 * WHAT A CALL GIVES BACK: one result number, or of the decoder a struct whose `code` is one. Ask it by the macros, in
 * this order; the numbers behind them may change.
 *  - EBML_IS_REFUSAL(n): the call refused, and EBML_REFUSAL(n) is the refusal's number, listed below; ebml_refusal_text
 *    says it in words. A refusal writes nothing; where many events are asked for it comes with those before it.
 *  - EBML_NEEDS_MORE(n), of a call that reads a vint: the bytes end inside it, or there are none. EBML_MISSING(n) says
 *    how many more it takes, 1 to 7: with fewer the answer is need-more again, so wait for them and ask once. Nothing
 *    is written: lend the bytes again with more behind them. Of the decoder's calls the number stands beside the code.
 *  - Else the call succeeded; each call says what its result is.
 *  - A value goes big-endian into the first EBML_VALUE bytes of `out`, in two's complement if it is signed. No byte of
 *    `out` past the value, or past the vint that was written, is changed.
 *
 * THREADS: there is no global state, so any threads may call at once, each with buffers and a decoder of its own. A
 * decoder may go from one thread to another between two calls, with the program's own lock.
 */
#ifndef EBML_H
#define EBML_H

#include <stddef.h>
#include <stdint.h>

#ifdef __cplusplus
extern "C" {
#endif

/* The bytes of a value in `out`. */
#define EBML_VALUE 8

/* What is added to a refusal's number in a result. */
#define EBML_REFUSED 256

/* Whether a result is a refusal. */
#define EBML_IS_REFUSAL(n) ((n) % 65536 / EBML_REFUSED == 1)

/* The number of a result that is a refusal. */
#define EBML_REFUSAL(n) ((int)((n) % 65536 - EBML_REFUSED))

/* What is added to the number of missing bytes in a result that asks for more. Until 0.2.0 need-more was the result 0:
 * a caller that compared with 0 asks EBML_NEEDS_MORE instead. No call that reads answers 0 any more. */
#define EBML_NEED_MORE 512

/* Whether the result of a call that reads a vint, or the code of a decoder's reply, asks for more bytes. */
#define EBML_NEEDS_MORE(n) ((n) / 256 == EBML_NEED_MORE / 256)

/* How many bytes are missing, 1 to 7, where a result asks for more; 1 where no byte is there, whatever comes. Of a
 * decoder's reply ask its field `missing` instead. */
#define EBML_MISSING(n) ((size_t)((n) - EBML_NEED_MORE))

enum ebml_refusal {
    EBML_READ_VINT_OVERFLOW = 1,         /* a vint's first byte is 0 */
    EBML_WRITE_VINT_OVERFLOW = 2,        /* the value is too large for a vint, or for one of the width asked */
    EBML_WRITE_SIGNED_VINT_OVERFLOW = 3, /* the same of a signed value, of either sign */
    EBML_WIDTH_MISMATCH = 4,             /* the width is not 1 to 8; this one comes before all others */
    EBML_OUTPUT_TOO_SHORT = 5,           /* `out` is too short; this one comes after need-more and all others */
    EBML_NUMBER_TOO_LONG = 6,            /* an integer of over 8 bytes */
    EBML_FLOAT_MISMATCH = 7              /* a float that is not of 4 or 8 bytes */
};

/* Reads the vint at the front of `buffer`: its value into `out`, its length (1 to 8) as the result.
 * Need more: `buffer` is empty (1 byte is missing, at least), or shorter than the vint that begins there (its length
 * less buffer_len). A longer form than needed is read (40 01 is 1).
 * Refusals: 1, 5 (fewer than 8 bytes of `out`). */
uint64_t ebml_read_vint(const uint8_t *buffer, size_t buffer_len, uint8_t *out, size_t out_len);

/* The same of a signed vint: its 7 bits to a byte are two's complement. */
uint64_t ebml_read_signed_vint(const uint8_t *buffer, size_t buffer_len, uint8_t *out, size_t out_len);

/* Writes `val` as a vint at the front of `out`, as short as it can be without all data bits set (126 is FE, 127 is
 * 40 7F); the result is its length. 2^56 - 1 alone comes out with all data bits set, which reads back as an unknown
 * size.
 * Refusals: 2 (2^56 and above), 5 (`out` is shorter than the vint). */
uint64_t ebml_as_vint(uint64_t val, uint8_t *out, size_t out_len);

/* Writes `val` as a vint of `width` bytes, 1 to 8; the result is `width`. 127 in one byte is FF.
 * Refusals: 4, 2 (2^(7 width) and above), 5. */
uint64_t ebml_as_vint_with_length(uint64_t val, size_t width, uint8_t *out, size_t out_len);

/* Writes `val` as a signed vint, as short as it can be; the result is its length. -64 is C0.
 * Refusals: 3 (-2^55 and below, 2^55 and above), 5. */
uint64_t ebml_as_signed_vint(int64_t val, uint8_t *out, size_t out_len);

/* Writes `val` as a signed vint of `width` bytes; the result is `width`.
 * Refusals: 4, 3 (-2^(7 width - 1) and below, 2^(7 width - 1) and above: -64 in one byte is refused, -63 is C1), 5. */
uint64_t ebml_as_signed_vint_with_length(int64_t val, size_t width, uint8_t *out, size_t out_len);

/* 1 where `val` is not 0 and the number of its highest set bit divides by 7, as that of an ID with its marker does;
 * else 0. */
uint64_t ebml_is_vint(uint64_t val);

/* 1 where `id` is an Element ID as RFC 8794 allows it, else 0: 1 to 8 bytes with the marker at its place, data bits
 * neither all 0 nor all 1, and no shorter form. A1, 407F and 4E01 are; 0, 1, 7F, 80, FF, 4000, 407E and 7FFF are not.
 * No other ID passes the table check (31). */
uint64_t ebml_is_element_id(uint64_t id);

/* The unsigned integer of 0 to 8 big-endian bytes into `out`; the result is 8. No byte at all is 0. Refusals: 6, 5. */
uint64_t ebml_arr_to_u64(const uint8_t *arr, size_t arr_len, uint8_t *out, size_t out_len);

/* The signed integer of 0 to 8 big-endian bytes, two's complement in as many bits as there are; the result is 8.
 * Refusals: 6, 5. */
uint64_t ebml_arr_to_i64(const uint8_t *arr, size_t arr_len, uint8_t *out, size_t out_len);

/* The float of 4 or 8 big-endian bytes, as the 64 bits of a double; the result is 8. Eight bytes come back as they are,
 * those of a NaN too. Four bytes are widened exactly; a NaN among them keeps sign and fraction and becomes quiet.
 * Refusals: 7, 5. */
uint64_t ebml_arr_to_f64(const uint8_t *arr, size_t arr_len, uint8_t *out, size_t out_len);

/* 1 where the bytes are a text in UTF-8 by RFC 3629, else 0. No byte at all is a text. */
uint64_t ebml_is_utf8(const uint8_t *s, size_t s_len);

/* ---- the table of elements
 *
 * A table is two lists of 64-bit words, which the caller lends to each call that needs one.
 *  - Entries, 4 words each, at most 64: the ID with its marker; the type (EBML_MASTER to EBML_FLOAT); the first part of
 *    its path, counted from 0; the number of its path's parts, at most 16.
 *  - Parts, 3 words each: (0, ID, 0), or (1, min, max) for any number of parents in between; in min and max 0 means not
 *    given and n + 1 means n.
 * The first entry with an ID counts. */
enum ebml_type {
    EBML_MASTER = 0,
    EBML_UNSIGNED = 1,
    EBML_INTEGER = 2,
    EBML_UTF8 = 3,
    EBML_BINARY = 4,
    EBML_FLOAT = 5
};

/* The table check's refusals. */
enum ebml_table_fault {
    EBML_TABLE_SHAPE = 10,           /* words left over, too many entries or parts, a path outside the parts, a word
                                      * out of its range */
    EBML_RULE_NO_ELEMENT_ID = 31,    /* the ID is not one that ebml_is_element_id accepts */
    EBML_RULE_NOT_A_VINT = 31,       /* the same under its former name */
    EBML_RULE_REPEATED = 32,         /* an earlier entry has this ID */
    EBML_RULE_GLOBAL_IN_MASTER = 33, /* a master's path holds a part (1, ..) */
    EBML_RULE_NO_MASTER = 34,        /* an ID in the path is no master of the table */
    EBML_RULE_OTHER_PATH = 35        /* an ID in the path, with only IDs before it, has another path of its own than
                                      * those */
};

/* Of a result of ebml_check_table that is not 0: the refusal's number, and the lowest faulty entry, counted from 0
 * (0 for EBML_TABLE_SHAPE). */
#define EBML_CHECK_NUMBER(result) EBML_REFUSAL(result)
#define EBML_CHECK_ENTRY(result) ((size_t)((result) / 65536))

/* Checks a table once, as a gateway does when it starts: 0 if it passed, else EBML_REFUSED + number + 65536 * entry,
 * for the lowest faulty entry and the first rule that it breaks. The lengths count words. Other calls take any table of
 * good shape. */
uint64_t ebml_check_table(const uint64_t *entries, size_t entries_len, const uint64_t *parts, size_t parts_len);

/* ---- the writer
 *
 * A document is handed over as a list of items, EBML_ITEM_WORDS words each, EBML_MOST_ITEMS at most: its kind
 * (EBML_START, EBML_END, or for a value its type, EBML_UNSIGNED to EBML_FLOAT); its ID; of a value where its bytes
 * begin in the buffer of values, and how many there are. ebml_start, ebml_end and ebml_value below fill an item.
 *  - A number or a float has 8 bytes there, big-endian; ebml_put_u64, ebml_put_i64 and ebml_put_f64 below put them.
 *    Text and binary are bytes as they are.
 *  - An element goes only where its path of IDs in the table says; one whose path is the single part (1, 0, 0) goes
 *    anywhere, other paths nowhere. */
enum ebml_item_kind { EBML_START = 0, EBML_END = 6 };

#define EBML_ITEM_WORDS 4
#define EBML_MOST_ITEMS 512

/* The writer's refusals, in their order. */
enum ebml_write_refusal {
    EBML_WRITE_TABLE_FAILS = 40,     /* ebml_check_table does not pass the table */
    EBML_WRITE_TOO_MANY_ITEMS = 41,  /* over EBML_MOST_ITEMS items */
    EBML_WRITE_UNMATCHED = 42,       /* a Start without its End, or an End that is not the last open Start's */
    EBML_WRITE_WRONG_ITEM = 43,      /* words left over, a wrong kind, an ID not in the table, a wrong place, another
                                      * type than the table's, bad text, a number not of 8 bytes, a range outside the
                                      * values, an element of over 4,000,000,000 bytes of data */
    EBML_WRITE_OUTPUT_TOO_SHORT = 44 /* `out` is shorter than the document */
};

/* Writes the document that the items say at the front of `out`, with every size filled in: sizes and numbers as short
 * as they can be (0 takes no byte), floats in 8 bytes. The document's length goes into `written`, as a value does, and
 * the result is 8. What is written decodes from a fresh decoder to the same kinds, IDs and values, and then the finish.
 * The lengths of entries, parts and items count words, the others bytes. No item at all is a document of no byte.
 * Refusals: 5 (fewer than 8 bytes of `written`; here it comes first), 40 to 44 in this order. */
uint64_t ebml_write(const uint64_t *entries, size_t entries_len, const uint64_t *parts, size_t parts_len,
                    const uint64_t *items, size_t items_len, const uint8_t *values, size_t values_len,
                    uint8_t *out, size_t out_len, uint8_t *written, size_t written_len);

/* ---- the decoder
 *
 * A decoder is EBML_DECODER_WORDS words that the caller owns: on the stack, in a struct, static. Nothing is kept
 * outside them, so copying them copies the decoder. Every content of them is answered: words that are no decoder's are
 * refused by 91 (not made by ebml_decoder_new or ebml_restore), 92 or 11 (damaged), and stay as they are.
 *
 * The loop, where TABLE stands for entries, entries_len, parts, parts_len:
 *
 *     ebml_decoder_new(&d);
 *     for (;;) {
 *         ebml_reply r = ended ? ebml_decode_eof(&d, TABLE, unread, unread_len, &e)
 *                              : ebml_decode(&d, TABLE, unread, unread_len, &e);
 *         if (r.events == 1) use(&e);              before the bytes move: a text is among them
 *         unread += r.taken, unread_len -= r.taken;
 *         if (r.events == 1) continue;
 *         if (!EBML_NEEDS_MORE(r.code)) break;     EBML_FINISHED, or a refusal: EBML_REFUSAL(r.code), r.place
 *         ..                                       put r.missing bytes or more behind the unread ones, or set `ended`
 *     }
 *
 * WHO OWNS WHAT: the caller lends the unread bytes at each call, those that a call left and then what came since. No
 * call keeps a pointer, to them or to anything. A text or binary is not copied: its event says where it begins and ends
 * in the stream, and ebml_event_bytes where that is among the bytes lent to the call that handed the event out. It
 * stays there as long as the caller leaves those bytes alone.
 *
 * The buffer must hold the largest element that is no master, header and data: until all of it is lent, more is needed.
 * No byte of the stream is asked for again once it was taken. Where the stream is cut into pieces does not matter, nor
 * how many events a call has room for: until the end of input or a recovery, the events and the words in the end are
 * the same, and so are the last reply's code, place and missing. */
#define EBML_DECODER_WORDS 320

typedef struct ebml_decoder {
    uint64_t words[EBML_DECODER_WORDS];
} ebml_decoder;

/* An event: a Start, a value, or an End. What an event does not have is 0.
 *
 * Where the table passed its check, the stream begins with a root of the table, there was no recovery, the hierarchy
 * test is on and every Start so far has its size, the Starts that are open at a Start or a value are the path that the
 * table gives its ID, if that is of IDs alone. */
typedef struct ebml_event {
    uint64_t kind;       /* EBML_START, EBML_END, EBML_UNSIGNED to EBML_FLOAT, or EBML_RAW */
    uint64_t id;         /* with its marker */
    uint64_t offset;     /* where the element begins in the stream; of an End, where its Start did, 0 if it had none */
    uint64_t value;      /* a number as its 64 bits; of text, binary and raw, where it begins in the stream */
    uint64_t end;        /* of text, binary and raw, where it ends in the stream */
    uint64_t count;      /* of an End, how many children came right inside the master */
    uint64_t size;       /* of a Start, how many bytes of data the master has */
    uint64_t size_known; /* of a Start, 1 where the size is given, else 0: then a cut would not show */
} ebml_event;

/* The kind of a value whose ID the table does not have, where that is allowed. */
#define EBML_RAW 7

/* The words of an event. */
#define EBML_EVENT_WORDS 8

/* What a call answers. */
typedef struct ebml_reply {
    uint64_t code;      /* EBML_FULL, EBML_FINISHED, need-more, a refusal; of a recovery EBML_FOUND, EBML_NOT_FOUND */
    uint64_t events;    /* how many events were handed out */
    uint64_t taken;     /* how many of the bytes lent were taken: lend the others again */
    uint64_t place;     /* of a refusal, the offset in the stream that it speaks of */
    uint64_t missing;   /* where more is needed, how many bytes at least: with fewer it is needed again */
    uint64_t cut_named; /* of refusal 23, what it names: EBML_CUT_ID, EBML_CUT_SIZE, EBML_CUT_BYTES, added up; else 0 */
    uint64_t cut_start; /* of refusal 23, where the element begins that the end cuts; else 0 */
    uint64_t cut_id;    /* its ID, where that is named; else 0, as the three below */
    uint64_t cut_size;  /* the size of its data */
    uint64_t cut_begin; /* where the bytes of it that are left begin: behind a whole header with a size, else all */
    uint64_t cut_end;   /* and where they end */
} ebml_reply;

/* The codes of a reply that is neither need-more nor a refusal. */
#define EBML_FULL 0      /* there is no room for another event: call again */
#define EBML_FINISHED 1  /* the input has ended, every event of it is handed out, and every Start has had its End */
#define EBML_FOUND 2     /* a recovery: the bytes behind those taken begin with a valid header */
#define EBML_NOT_FOUND 3 /* a recovery: no valid header in what is lent; what is not taken may begin one */

/* What refusal 23 names. */
#define EBML_CUT_ID 1
#define EBML_CUT_SIZE 2
#define EBML_CUT_BYTES 4

/* A number that a decoder tells of itself: `code` is 0, or a refusal, and then `value` is 0. */
typedef struct ebml_number {
    uint64_t code;
    uint64_t value;
} ebml_number;

/* The decoder's refusals beside EBML_TABLE_SHAPE; docs/GATEWAY.md says of each what to do. A refusal that comes to the
 * same bytes again is answered again, unless a setting was changed in between. */
enum ebml_decode_refusal {
    EBML_BAD_STATE = 11,               /* the words hold numbers that no decoder leaves */
    EBML_TOO_FAR = 12,                 /* a stream of over 2^62 bytes */
    EBML_AFTER_FINISH = 13,            /* bytes after the finish: begin a new decoder */
    EBML_INVALID_TAG_DATA = 14,        /* a damaged size, a number of over 8 bytes, a value without a size */
    EBML_INVALID_TAG_ID = 15,          /* an ID that the table does not have */
    EBML_HIERARCHY_ERROR = 16,         /* a place where the table does not allow it */
    EBML_INVALID_TAG_SIZE = 17,        /* more data than the greatest size that is set */
    EBML_OVERSIZED_CHILD = 18,         /* it reaches past the end of the master around it */
    EBML_TOO_MANY_OPEN = 19,           /* over 32 masters open */
    EBML_NOT_UTF8 = 20,                /* a text that is not UTF-8 */
    EBML_FLOAT_SIZE = 21,              /* a float that is not of 0, 4 or 8 bytes */
    EBML_UNEXPECTED_EOF = 23,          /* the input ended inside an element, or inside a master whose size is given */
    EBML_NOT_A_MASTER = 24,            /* never with a table that passed its check */
    EBML_INVALID_ID_FORM = 80,         /* strictly: an ID that no file may hold, or of over 4 bytes */
    EBML_UNKNOWN_SIZE_PAST_END = 81,   /* strictly: a header without a size that reaches past the end around it */
    EBML_BLOCK_LENGTH = 90,            /* a block that is not of EBML_BLOCK_BYTES bytes */
    EBML_UNKNOWN_LAYOUT = 91,          /* the first word of the block, or of the decoder, is none that is known */
    EBML_UNUSED_SET = 92               /* a yes-or-no word over 1, or an unused one that is not 0 */
};

/* ---- the decoder's calls. Each but ebml_decoder_new and ebml_restore refuses words that are no decoder's (91, 92, 11)
 * before all else, and then changes nothing at all. */

/* A fresh decoder, whatever `d` held: no test switched off, a greatest size of 4,000,000,000, not strict. The result is
 * 0. One decoder reads one record. */
uint64_t ebml_decoder_new(ebml_decoder *d);

/* From now on exactly those of these tests are switched off that are not 0: unknown IDs (15), hierarchy (16), children
 * larger than their master (18 and 81). The result is 0, or a refusal. */
uint64_t ebml_allow_errors(ebml_decoder *d, uint64_t ids, uint64_t hierarchy, uint64_t oversized);

/* From now on reading is strict, or with 0 as ported (docs/GATEWAY.md says what differs). The result is 0, or a
 * refusal. */
uint64_t ebml_set_strict(ebml_decoder *d, uint64_t strict);

/* From now on an element of over `size` bytes of data is refused (17), or with `given` 0 none is for its size. The
 * result is 0, or a refusal. */
uint64_t ebml_set_max_allowable_tag_size(ebml_decoder *d, uint64_t given, uint64_t size);

/* How many bytes of the stream were taken. */
ebml_number ebml_position(const ebml_decoder *d);

/* 1 where a call has found the end of input and every End is handed out, so that from then on the finish is answered,
 * or 13 if a byte is lent; else 0. It is 1 once the finish was answered. */
ebml_number ebml_is_finished(const ebml_decoder *d);

/* The next event of the `input_len` unread bytes, where they have one: then `events` of the reply is 1, and its code
 * EBML_FULL. Otherwise the code is need-more, a refusal, or after the finish EBML_FINISHED; then nothing is taken,
 * `event` is as it was, and so is the decoder, but that it may note at which depth the stream begins. Lent again with
 * more behind them, the bytes are answered as if this call had not been made.
 * The lengths of entries and parts count words, that of input bytes. */
ebml_reply ebml_decode(ebml_decoder *d, const uint64_t *entries, size_t entries_len, const uint64_t *parts,
                       size_t parts_len, const uint8_t *input, size_t input_len, ebml_event *event);

/* The same once the input has ended for good: it never needs more, hands out the Ends that are due one by one, and then
 * answers EBML_FINISHED, or refusal 23 of an input that was cut. */
ebml_reply ebml_decode_eof(ebml_decoder *d, const uint64_t *entries, size_t entries_len, const uint64_t *parts,
                           size_t parts_len, const uint8_t *input, size_t input_len, ebml_event *event);

/* As many events as the list has room for, EBML_EVENT_WORDS words each: write EBML_EVENTS(list, n) for an array of n.
 * It answers what calls of ebml_decode one after another on the unread rest would, until one has no event, whose code
 * is the reply's, or the list is full (EBML_FULL). So a refusal or need-more comes with the events before it, and
 * `taken` is all that they took. What stands in the list behind the events stays. */
ebml_reply ebml_decode_many(ebml_decoder *d, const uint64_t *entries, size_t entries_len, const uint64_t *parts,
                            size_t parts_len, const uint8_t *input, size_t input_len, uint64_t *events,
                            size_t events_len);

/* The same of ebml_decode_eof, once the input has ended for good. */
ebml_reply ebml_decode_many_eof(ebml_decoder *d, const uint64_t *entries, size_t entries_len, const uint64_t *parts,
                                size_t parts_len, const uint8_t *input, size_t input_len, uint64_t *events,
                                size_t events_len);

/* An array of n events, as these two are lent it. */
#define EBML_EVENTS(list, n) &(list)->kind, EBML_EVENT_WORDS * (n)

/* After a refusal: looks for the next valid header, and passes over what stands before it; `taken` says how many bytes.
 *  - EBML_FOUND: the sizes of the open masters grow by as many, and decoding goes on. With none passed over the refusal
 *    comes again: give the record up.
 *  - EBML_NOT_FOUND: no size grows. Call again with more bytes behind the rest, or give the record up.
 *  - Refusals: 10, 12.
 * So lend all bytes that are there. A record in which bytes were passed over is not whole. */
ebml_reply ebml_try_recover(ebml_decoder *d, const uint64_t *entries, size_t entries_len, const uint64_t *parts,
                            size_t parts_len, const uint8_t *input, size_t input_len);

/* The bytes of a stored decoder. */
#define EBML_BLOCK_BYTES 2560

/* The decoder as a block of EBML_BLOCK_BYTES bytes, to be kept over a restart, for any machine. It holds no unread
 * byte: keep those beside it, or have the stream sent again from ebml_position on. The result is 0, or a refusal: 90
 * where `block` has another length. */
uint64_t ebml_store(const ebml_decoder *d, uint8_t *block, size_t block_len);

/* The decoder that a block holds, whatever `d` held; it answers every call as the stored one would have. The result is
 * 0, or refusal 90, 91, 92 or 11, and then `d` is as it was. A block has no checksum: not every damage shows. */
uint64_t ebml_restore(ebml_decoder *d, const uint8_t *block, size_t block_len);

/* ---- the compiler lays these out as the archive does, or stops here; before C11 and C++11 it cannot say */
#if defined(__cplusplus) && __cplusplus >= 201103L
#define EBML_LAYOUT(holds) static_assert(holds, "not the layout of libebml.a");
#elif defined(__STDC_VERSION__) && __STDC_VERSION__ >= 201112L
#define EBML_LAYOUT(holds) _Static_assert(holds, "not the layout of libebml.a");
#else
#define EBML_LAYOUT(holds)
#endif
EBML_LAYOUT(sizeof(size_t) == 8)
EBML_LAYOUT(sizeof(ebml_decoder) == 2560)
EBML_LAYOUT(sizeof(ebml_number) == 16)
EBML_LAYOUT(offsetof(ebml_number, value) == 8)
EBML_LAYOUT(sizeof(ebml_event) == 64)
EBML_LAYOUT(sizeof(ebml_event) == EBML_EVENT_WORDS * sizeof(uint64_t))
EBML_LAYOUT(offsetof(ebml_event, value) == 24)
EBML_LAYOUT(offsetof(ebml_event, size_known) == 56)
EBML_LAYOUT(sizeof(ebml_reply) == 88)
EBML_LAYOUT(offsetof(ebml_reply, missing) == 32)
EBML_LAYOUT(offsetof(ebml_reply, cut_end) == 80)

/* ---- is a record whole: ebml-check's answer on a record in memory */

enum ebml_verdict_kind {
    EBML_WHOLE = 1,         /* one root from the first byte on, every size known, read to its end: feeds, bytes */
    EBML_EMPTY = 2,         /* no byte */
    EBML_FRONT_MISSING = 3, /* it does not begin with a root */
    EBML_DAMAGED = 4,       /* a refusal that is not 23: number, place */
    EBML_CUT = 6,           /* it ends inside an element: place, bytes, the root */
    EBML_CANNOT_TELL = 7,   /* a master without a size, root_id at root_start: a cut would not show */
    EBML_MORE = 8           /* several records one after the other, each whole: records, feeds, bytes */
};

typedef struct ebml_verdict {
    uint64_t verdict;         /* one of ebml_verdict_kind */
    uint64_t feeds;           /* masters directly in a root */
    uint64_t records;         /* elements with none around them */
    uint64_t bytes;           /* how many bytes there are */
    uint64_t number;          /* the refusal's number */
    uint64_t place;           /* where in the record */
    uint64_t root_named;      /* 1 where a master is named below: of a cut, the outermost open one; of EBML_CANNOT_TELL,
                               * the one without a size */
    uint64_t root_id;
    uint64_t root_start;
    uint64_t root_size_named; /* 1 where the size is known */
    uint64_t root_size;
} ebml_verdict;

EBML_LAYOUT(sizeof(ebml_verdict) == 88)
#undef EBML_LAYOUT

/* Whether the record is whole, read strictly or with `strict` 0 as ported. */
ebml_verdict ebml_is_whole(const uint64_t *entries, size_t entries_len, const uint64_t *parts, size_t parts_len,
                           uint64_t strict, const uint8_t *input, size_t input_len);

/* ---- in plain C: the value of an event */

/* Where the text, binary or raw bytes of an event stand, `end - value` of them: `lent` are the bytes that were lent to
 * the call that handed it out, the first of them at `base` in the stream, which is ebml_position before that call. */
static inline const uint8_t *ebml_event_bytes(const ebml_event *event, const uint8_t *lent, uint64_t base)
{
    return lent + (size_t)(event->value - base);
}

/* The signed number of an EBML_INTEGER. */
static inline int64_t ebml_event_i64(const ebml_event *event)
{
    return event->value <= INT64_MAX ? (int64_t)event->value : -(int64_t)(UINT64_MAX - event->value) - 1;
}

/* The double of an EBML_FLOAT, on a machine whose doubles are IEEE 754's. */
static inline double ebml_event_f64(const ebml_event *event)
{
    double d = 0;
    const unsigned char *from = (const unsigned char *)&event->value;
    unsigned char *to = (unsigned char *)&d;
    for (size_t i = 0; i < sizeof d; i++)
        to[i] = from[i];
    return d;
}

/* ---- in plain C: an item, and the bytes of its value */

/* Fills an item with these four words. */
static inline void ebml_item(uint64_t *item, uint64_t kind, uint64_t id, uint64_t offset, uint64_t length)
{
    item[0] = kind;
    item[1] = id;
    item[2] = offset;
    item[3] = length;
}

/* Fills an item: the Start of a master. */
static inline void ebml_start(uint64_t *item, uint64_t id)
{
    ebml_item(item, EBML_START, id, 0, 0);
}

/* Fills an item: the End of a master. */
static inline void ebml_end(uint64_t *item, uint64_t id)
{
    ebml_item(item, EBML_END, id, 0, 0);
}

/* Fills an item: a value of a type, whose `length` bytes begin at `offset` in the buffer of values. */
static inline void ebml_value(uint64_t *item, enum ebml_type type, uint64_t id, size_t offset, size_t length)
{
    ebml_item(item, (uint64_t)type, id, offset, length);
}

/* Puts a number into EBML_VALUE bytes, as an item's value has it. */
static inline void ebml_put_u64(uint8_t *value, uint64_t n)
{
    for (size_t i = EBML_VALUE; i > 0; i--) {
        value[i - 1] = (uint8_t)(n % 256);
        n /= 256;
    }
}

/* The same of a signed number. */
static inline void ebml_put_i64(uint8_t *value, int64_t n)
{
    ebml_put_u64(value, (uint64_t)n);
}

/* The same of a double, on a machine whose doubles are IEEE 754's. */
static inline void ebml_put_f64(uint8_t *value, double d)
{
    uint64_t bits = 0;
    const unsigned char *from = (const unsigned char *)&d;
    unsigned char *to = (unsigned char *)&bits;
    for (size_t i = 0; i < sizeof d; i++)
        to[i] = from[i];
    ebml_put_u64(value, bits);
}

/* ---- in plain C: the value that a call handed out, as a number of C */

/* The EBML_VALUE bytes as an unsigned number. */
static inline uint64_t ebml_u64(const uint8_t *value)
{
    uint64_t n = 0;
    for (size_t i = 0; i < EBML_VALUE; i++)
        n = n * 256 + value[i];
    return n;
}

/* The same bytes as a signed number. */
static inline int64_t ebml_i64(const uint8_t *value)
{
    uint64_t n = ebml_u64(value);
    return n <= INT64_MAX ? (int64_t)n : -(int64_t)(UINT64_MAX - n) - 1;
}

/* The same bytes as a double, of a machine whose doubles are IEEE 754's. */
static inline double ebml_f64(const uint8_t *value)
{
    const uint64_t bits = ebml_u64(value);
    const unsigned char *from = (const unsigned char *)&bits;
    double d = 0;
    unsigned char *to = (unsigned char *)&d;
    for (size_t i = 0; i < sizeof d; i++)
        to[i] = from[i];
    return d;
}

/* A refusal's number in words; docs/GATEWAY.md says of each what to do. The text is never null and not to be freed. */
static inline const char *ebml_refusal_text(int number)
{
    switch (number) {
    case 1: return "a vint's first byte is 0";
    case 2: return "the value is too large for a vint of this width";
    case 3: return "the value is too large or too small for a signed vint of this width";
    case 4: return "the width is not 1 to 8";
    case 5: return "the lent output is too short";
    case 6: return "an integer of over 8 bytes";
    case 7: return "a float that is not of 4 or 8 bytes";
    case 10: return "the table has a bad shape";
    case 11: return "the decoder's record is none that the decoder leaves";
    case 12: return "the stream is longer than 2^62 bytes";
    case 13: return "bytes after the finish";
    case 14: return "an element's size or data is damaged";
    case 15: return "an ID that the table does not have";
    case 16: return "an element at a place where the table does not allow it";
    case 17: return "an element larger than the greatest size that is allowed";
    case 18: return "an element that reaches past the end of the master around it";
    case 19: return "more than 32 masters open";
    case 20: return "text that is not UTF-8";
    case 21: return "a float that is not of 0, 4 or 8 bytes";
    case 23: return "the input ended inside an element";
    case 24: return "the table closes an element that is no master";
    case 31: return "the table has an ID that no file can hold";
    case 32: return "the table has an ID twice";
    case 33: return "a master's path in the table holds a global part";
    case 34: return "a path in the table names an ID that is no master of it";
    case 35: return "two paths in the table disagree about a master's parents";
    case 40: return "the table does not pass its check, so nothing is written";
    case 41: return "over 512 items to write";
    case 42: return "a Start without its End, or an End without its Start, in what is to be written";
    case 43: return "an item to write has a wrong place, kind or value";
    case 44: return "the lent output is shorter than the document";
    case 80: return "strictly: an ID that no file may hold, or longer than 4 bytes";
    case 81: return "strictly: an element without a size whose header reaches past the end of the master around it";
    case 90: return "the stored block does not have 2,560 bytes";
    case 91: return "the stored block has a layout that is not known";
    case 92: return "the stored block is damaged: a yes-or-no word over 1, or an unused byte set";
    default: return "no refusal has this number";
    }
}

#ifdef __cplusplus
}
#endif

#endif
