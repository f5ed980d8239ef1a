/* Sartrogheo: SML meter frames (transport version 1) and messages, every function proved. Link libsartrogheo.a; docs/LIBRARY.md tells how.

   Any bytes may come in: no call relies on what its caller checked, and none stops the program. What is refused has the number of a refusal below, and leaves
   what the comment says. A state whose counts could not be is refused; other bytes that no call left are taken as they are, and the answers mean nothing then. No heap, no global: a call touches only what it is lent, so that calls may run at once if none writes what another reads or writes.
   A pointer that is null with length 0 is an empty slice; every other pointer must be good for its length and aligned for its type, and what a call writes must not overlap with anything else that it is lent. */
#ifndef SARTROGHEO_H
#define SARTROGHEO_H

#include <stddef.h>
#include <stdint.h>

#ifdef __cplusplus
extern "C" {
#endif

/* ---- answers: 0, what is no refusal, or the number of a refusal */

#define SGH_GOOD 0u        /* done; of a push or finalize: nothing to say */
#define SGH_PAYLOAD 100u   /* a payload stands in the buffer, from its first byte on */
#define SGH_FINISHED 101u  /* no byte or event is left, or nothing more is lost */
#define SGH_NOT_FOUND 102u /* no row has the name */
#define SGH_LOST 103u      /* bytes of a recording are lost, and why is told */

#define SGH_PAYLOAD_TOO_LONG 1u      /* a payload of more than SGH_LIMIT bytes */
#define SGH_ENCODE_OUT_OF_MEMORY 2u  /* the whole frame doesn't fit in the output */
#define SGH_DECODER_OUT_OF_MEMORY 3u /* a byte to store doesn't fit in the decoder's buffer */
#define SGH_BAD_STATE 4u             /* a decoder, Encoder, reader, writer, watch or event that can't be (zeros are no decoder, no Encoder and no event), a message's place beyond the input, or an unknown way */
#define SGH_WRONG_BUFFER 5u          /* the lent buffer isn't as long as the capacity, or a capacity over SGH_LIMIT */
#define SGH_DISCARDED_BYTES 6u       /* bytes before a start, or before finalize, belong to no frame */
#define SGH_INVALID_ESC 7u           /* an escape with four bytes that mean nothing */
#define SGH_INVALID_MESSAGE 8u       /* a frame's end with the wrong CRC, alignment or padding */
#define SGH_INPUT_TOO_LONG 9u        /* message input of more than SGH_LIMIT bytes */
#define SGH_UNEXPECTED_EOF 10u       /* a byte is missing at the input's end */
#define SGH_INVALID_TLF 11u          /* wrong length bytes; its kinds: */
#define SGH_TLF_LENGTH_OVERFLOW 1u
#define SGH_TLF_RESERVED 2u
#define SGH_TLF_LENGTH_UNDERFLOW 3u
#define SGH_TLF_NEXT_BYTE_TYPE_MISMATCH 4u
#define SGH_TLF_INVALID_TY 5u
#define SGH_TLF_MISMATCH 12u       /* an element of another type or length than is wanted there */
#define SGH_UNEXPECTED_VARIANT 13u /* an unknown tag */
#define SGH_CRC_MISMATCH 14u       /* a message's CRC is wrong */
#define SGH_MSG_END_MISMATCH 15u   /* a message's end byte isn't 00 */
#define SGH_BAD_SPAN 16u           /* no payload stands in the buffer; an event's string is no part of what is lent for it; a table to look up in isn't whole rows within the input, strictly in order */
#define SGH_WRONG_NUMBER 17u       /* an entry or a list's end is to be written where none is due */
#define SGH_OUTPUT_TOO_SHORT 18u   /* what is to be written doesn't fit in the output */
#define SGH_TOO_DEEP 19u           /* a list opens inside sixteen open ones */
#define SGH_TOO_MANY_ENTRIES 20u   /* a message has more entries than the table has rows */

#define SGH_LIMIT 1048576u /* the longest payload to encode, the longest buffer and message input; a decoder hands out SGH_LIMIT - 4 bytes at most */

/* ---- the decoder: 28 plain bytes, which may be copied, stored and kept in an array */

#define SGH_DECODER_LEN 28u
#define SGH_FIRST_WAY 1u  /* searches as the crate sml-rs does: a stray 1b before a start hides it */
#define SGH_SECOND_WAY 2u /* finds every start: to be preferred unless all answers must be sml-rs's */

typedef struct {
    uint8_t bytes[SGH_DECODER_LEN];
} sgh_decoder;

/* Makes a decoder for a buffer of `capacity` bytes: a payload of n bytes needs n, rounded up to a multiple of 4, and 4 more.
   Gives 0; 4 for an unknown way, else 5 for a capacity over SGH_LIMIT, which leave `d` as it is. */
uint32_t sgh_decoder_new(sgh_decoder *d, size_t capacity, uint8_t way);

/* What an answer says goes to the first of `values`, which is never null, and the rest stay as they are:
   SGH_PAYLOAD: its length. SGH_DISCARDED_BYTES: how many; a count stops at 4,294,967,295. SGH_INVALID_ESC: the four bytes, one in each.
   SGH_INVALID_MESSAGE: CRC read, CRC computed, 1 if misaligned, number of padding bytes.
   sgh_reset's 0: how many bytes are lost, which stops there too. All else: nothing. */
#define SGH_VALUES 4u

/* Pushes a byte. Gives 0, SGH_PAYLOAD, 3 to 8. The buffer is the decoder's own: lend the same one each time, and let nobody else write it.
   4, then 5, are judged first, and leave decoder and buffer as they are. Behind 3, 7 and 8 it searches again (3 leaves the buffer as it is, 7 and 8 have stored the byte); behind 6 a frame has begun. */
uint32_t sgh_push_byte(sgh_decoder *d, uint8_t *buf, size_t len, uint8_t byte, uint64_t values[SGH_VALUES]);

/* Pushes bytes up to and with the first that has something to say, and writes how many it took. Gives what that byte's push gives, or 0 if all were taken;
   4 and 5 take none, and are given of an empty slice too. Push the rest again, from chunk + taken on. */
uint32_t sgh_push_slice(sgh_decoder *d, uint8_t *buf, size_t len, const uint8_t *chunk, size_t chunk_len, size_t *taken, uint64_t values[SGH_VALUES]);

/* The length of the payload that stands in the buffer, from the push that said it to the next call that changes the decoder.
   Gives 0; 16 and length 0 if none does, for bytes that are no decoder and for a buffer that isn't as long as the capacity too. */
uint32_t sgh_payload(const sgh_decoder *d, const uint8_t *buf, size_t len, size_t *payload_len);

/* Says how many bytes are lost, if any; the decoder begins again. Gives 0 or SGH_DISCARDED_BYTES; 4 leaves it as it is. */
uint32_t sgh_finalize(sgh_decoder *d, uint64_t values[SGH_VALUES]);

/* The decoder begins again. Gives 0, and in values[0] how many bytes are lost; 4 leaves it as it is. */
uint32_t sgh_reset(sgh_decoder *d, uint64_t values[SGH_VALUES]);

/* ---- why bytes of a recording are lost, for who looks for what is wrong with a line */

/* Causes are bits: one of the first six alone, or one to three of the last three, which may be true at once. */
#define SGH_CAUSE_NOISE 1u        /* no whole start sequence lies in these bytes */
#define SGH_CAUSE_UNFINISHED 2u   /* the recording ends inside a frame */
#define SGH_CAUSE_HIDDEN 4u       /* a whole start sequence lies in them, and the first way passed it by, since a 1b stands before it; the second way never does */
#define SGH_CAUSE_CUT 8u          /* a frame that a new start cuts off */
#define SGH_CAUSE_ESCAPE 16u      /* an escape with four bytes that mean nothing */
#define SGH_CAUSE_ROOM 32u        /* a frame that doesn't fit in the buffer */
#define SGH_CAUSE_CRC 64u         /* a frame's CRC is wrong */
#define SGH_CAUSE_MISALIGNED 128u /* its end doesn't stand at a multiple of four bytes */
#define SGH_CAUSE_PADS 256u       /* it has more than three padding bytes, or more than bytes */

/* A piece of the recording, its first and last byte counted from 1: from where a search or a frame began to the byte that told it, less the eight bytes of a new start. */
typedef struct {
    uint64_t causes, first, last;
} sgh_loss;

#define SGH_LOSS_WORDS 3u

/* What is lost next behind the recording's first `from` bytes, as a new decoder of that way tells it, whose capacity is the lent buffer's length, over the rest of the
   recording and finalize. The first call has 0, each later one the last byte of the loss before: then every refusal of the one decoder over the whole recording is told
   once, in order. Gives SGH_LOST and the loss; SGH_FINISHED: nothing more is lost, at and beyond the recording's end too; 4 for an unknown way, else 5 for a buffer of
   more than SGH_LIMIT bytes, which leave the buffer as it is. `loss` is written whole each time, and is 0 where nothing is lost. A recording may have any length. */
uint32_t sgh_next_loss(const uint8_t *recording, size_t recording_len, uint8_t way, uint8_t *buf, size_t len, size_t from, sgh_loss *loss);

/* The same without the whole recording at hand, and with the payloads: what stands beside a decoder while a recording is pushed, slice by slice. {0} is a new one, beside
   a new decoder: push both through the calls below alone. `pushed` is how many bytes have come, `begun` how many of them stand before the running search or frame. */
typedef struct {
    uint64_t pushed, begun, matched, start_end;
} sgh_watch;

#define SGH_WATCH_WORDS 4u

/* As sgh_push_slice, but what is refused is told as a loss: pushes bytes up to and with the first that brings a payload or a loss, and writes how many it took. Gives 0 if
   all were taken and nothing came; SGH_PAYLOAD: a payload stands in the buffer (sgh_payload gives its length), and `first` and `last` of `loss` are its frame's bytes,
   `causes` 0; SGH_LOST; 4, for a decoder or a watch that can't be, then 5, which leave decoder, watch and buffer as they are and take no byte. `loss` is written whole
   each time. However a recording is cut into slices, its losses are those of sgh_next_loss; they and the frames of the payloads follow each other without a gap. */
uint32_t sgh_watch_slice(sgh_decoder *d, sgh_watch *w, uint8_t *buf, size_t len, const uint8_t *chunk, size_t chunk_len, size_t *taken, sgh_loss *loss);

/* The recording ends: what is left is lost. Gives SGH_LOST or SGH_FINISHED, and the next byte begins a search; 4 leaves decoder and watch as they are. */
uint32_t sgh_watch_end(sgh_decoder *d, sgh_watch *w, sgh_loss *loss);

/* ---- frames */

/* Writes the payload's frame to `out`: 2 * payload_len + 19 bytes are always enough. Gives 0 and its length; 1 or 2, length 0, and `out` as it was. */
uint32_t sgh_encode(const uint8_t *payload, size_t payload_len, uint8_t *out, size_t len, size_t *frame_len);

/* A frame a byte at a time, for a payload that is lent at every call and stays the same. {0} is no Encoder: sgh_encoder_new makes one. */
typedef struct {
    uint64_t kind, count, place, crc;
} sgh_encoder;

/* Makes an Encoder that gave nothing yet. */
void sgh_encoder_new(sgh_encoder *e);

/* The frame's next byte. Gives 0 and the byte; SGH_FINISHED, or 1, else 4, which leave both as they are. */
uint32_t sgh_encoder_next(sgh_encoder *e, const uint8_t *payload, size_t payload_len, uint8_t *byte);

/* The CRC of the frames and messages: X25, as in the last two bytes of a frame, of which the low one comes first. */
uint16_t sgh_crc(const uint8_t *bytes, size_t len);

/* ---- messages */

/* Where a reader is: three zeros are a new one, {0} in C and {} in C++. */
typedef struct {
    uint64_t place, start, pending;
} sgh_reader;

/* A part of the input, or, of an event that is written, of its strings. */
typedef struct {
    uint64_t start, len;
} sgh_span;

/* Fields that may be absent: `present` is 0 or 1, and what is absent is 0. */
typedef struct {
    uint64_t present, start, len;
} sgh_opt_span;

typedef struct {
    uint64_t present, value;
} sgh_opt_unsigned;

typedef struct {
    uint64_t present;
    int64_t value;
} sgh_opt_signed;

typedef struct {
    uint64_t present, width, value;
} sgh_opt_status;

#define SGH_VALUE_BOOL 1u     /* `number` is 0 or 1 */
#define SGH_VALUE_BYTES 2u    /* `bytes` */
#define SGH_VALUE_SIGNED 3u   /* `number` as an int64_t; `width` is the least of 1, 2, 4 and 8 bytes that has room for the bytes sent */
#define SGH_VALUE_UNSIGNED 4u /* `number`; `width` as of a signed one */
#define SGH_VALUE_TIME 5u     /* a list with a time: `number` seconds */

/* What its kind doesn't use is 0. */
typedef struct {
    uint64_t kind, width, number;
    sgh_span bytes;
} sgh_value;

typedef struct {
    sgh_opt_span codepage, client_id;
    sgh_span req_file_id, server_id;
    sgh_opt_unsigned ref_time, sml_version;
} sgh_open_response;

typedef struct {
    sgh_opt_span global_signature;
} sgh_close_response;

typedef struct {
    sgh_opt_span client_id;
    sgh_span server_id;
    sgh_opt_span list_name;
    sgh_opt_unsigned act_sensor_time;
    uint64_t num_vals;
} sgh_get_list_response;

#define SGH_OPEN_RESPONSE 1u
#define SGH_CLOSE_RESPONSE 2u
#define SGH_GET_LIST_RESPONSE 3u

typedef struct {
    sgh_span transaction_id;
    uint64_t group_no, abort_on_error;
    uint64_t body; /* SGH_OPEN_RESPONSE, SGH_CLOSE_RESPONSE or SGH_GET_LIST_RESPONSE: which of these it is */
    union {
        sgh_open_response open;
        sgh_close_response close;
        sgh_get_list_response list;
    };
} sgh_message_start;

typedef struct {
    sgh_opt_span list_signature;
    sgh_opt_unsigned act_gateway_time;
} sgh_list_end;

typedef struct {
    sgh_span obj_name;
    sgh_opt_status status;
    sgh_opt_unsigned val_time, unit; /* in seconds; a byte, the code of a unit */
    sgh_opt_signed scaler;           /* -128 to 127: a number means `number` times ten to that */
    sgh_value value;
    sgh_opt_span value_signature;
} sgh_list_entry;

/* `kind` is one of SGH_INVALID_TLF's, else 0; `place` is where in the input. */
typedef struct {
    uint64_t number, kind, place;
} sgh_refusal;

#define SGH_NO_EVENT 0u
#define SGH_MESSAGE_START 1u
#define SGH_GET_LIST_RESPONSE_END 2u
#define SGH_LIST_ENTRY 3u
#define SGH_REFUSED 4u       /* at a place of the input */
#define SGH_REFUSED_ALONE 5u /* at none: 4, 9 and 20 */

#define SGH_EVENT_WORDS 24u

/* An event; `kind` says which of these it is. Words that it doesn't use are 0. */
typedef struct {
    uint64_t kind;
    union {
        sgh_message_start message;
        sgh_list_end end;
        sgh_list_entry entry;
        sgh_refusal refused;
        uint64_t words[SGH_EVENT_WORDS - 1];
    };
} sgh_event;

/* The next event of a payload, and the reader behind it. Gives 0 for an event; SGH_FINISHED with SGH_NO_EVENT; 9, else 4, which leave the reader as it is;
   10 to 15, which drop the rest of the input. `event` is written whole each time. Lend the same input at every call, and stop at the first refusal: SGH_FINISHED
   need not follow one (behind one of 10 to 15, once the message's start was given, every later call gives 10). A message's CRC is judged behind its last event. */
uint32_t sgh_next_event(const uint8_t *input, size_t len, sgh_reader *reader, sgh_event *event);

/* ---- whole messages, for who wants no events */

/* Where an entry's name stands in the input, without its length bytes, and where the entry does, from its first length byte on. A table is such rows, one behind the other. */
typedef struct {
    uint32_t name_start, name_len, entry_start, entry_len;
} sgh_row;

#define SGH_ROW_NUMBERS 4u

/* A message: its start, or why there is none; of a list its end, else SGH_NO_EVENT; how many rows its entries have taken, and the place behind its end byte. */
typedef struct {
    sgh_event start, end;
    uint64_t rows, next;
} sgh_message;

#define SGH_MESSAGE_WORDS 50u

/* Reads the message at `at`, whatever follows it, and puts a row for each entry into the table, from its first number on. `table_len` counts numbers, neither rows nor
   bytes: SGH_ROW_NUMBERS a row. A part of a row is no room; `len` / 8 rows are always enough, since an entry has eight bytes at least. What stands behind the rows stays.
   Gives 0; 9 for all `len` bytes, however short the message; else 4 for a place beyond the input; 10 to 15, as sgh_next_event with the reader {at, at, 0} would give
   first for this message, but 10 where the input ends at `at`, an empty one too; 20 for a message that would else be read.
   A refusal leaves the table as it was, and stands in `message->start.refused`: `start.kind` is SGH_REFUSED, with number, kind and place, or SGH_REFUSED_ALONE for 4, 9
   and 20, with the number alone. `end`, `rows` and `next` are 0 then, so that who goes on at `next` begins anew: stop, or after 20 ask again with a longer table.
   `message` is written whole each time. The fields of an entry: sgh_next_event with the reader {row.entry_start, row.entry_start, 3}, which says that an entry comes
   next, gives it over the same input; that reader is good for this one call. */
uint32_t sgh_read_message(const uint8_t *input, size_t len, size_t at, uint32_t *table, size_t table_len, sgh_message *message);

/* ---- an index of entries, for who asks for names many times: build it once for a message, then look up */

/* How many rows stand in the table, and the place behind the message's end byte; or why nothing was built. `refused` is 0 where all is good. */
typedef struct {
    uint64_t rows, next;
    sgh_refusal refused;
} sgh_index;

#define SGH_INDEX_WORDS 5u

/* Reads the message at `at`, and puts a row for each entry into the table, as sgh_read_message does, but sorted: by the bytes of the names, each from 0 to 255, a
   beginning before the longer name, and rows of one name by where their entries start. The empty name is a name. What stands behind the rows stays; an open or a close
   has no rows. Gives 0, or 9, 4, 10 to 15, 20 exactly as sgh_read_message does. A refusal leaves the table as it was, and stands in `index->refused`, with kind and
   place for 10 to 15 and the number alone for 4, 9 and 20; `rows` and `next` are 0 then. `index` is written whole each time. No memory but the table is taken:
   n rows, n below 2 to the l, are sorted with n + 3 * l * n comparisons at most. */
uint32_t sgh_build_index(const uint8_t *input, size_t len, size_t at, uint32_t *table, size_t table_len, sgh_index *index);

/* The first row with exactly this name, which may be empty: of a table that was built the first entry of its message. Lend the same input, and the rows alone,
   SGH_ROW_NUMBERS * index.rows numbers: all that is lent is judged as rows, in one pass, also what stands behind the row that is found. Any table may be lent, an empty
   one too, and one that no call has built: the answer speaks of its rows then. No message is read.
   Gives 0 and the row, whose entry is read as that of a row of sgh_read_message; SGH_NOT_FOUND exactly if no row has the name; 9, before all else, for an input that
   is too long; 16 for a part of a row, a row whose name or entry isn't within the input, or one that isn't strictly before the next (of two rows with one name and one
   entry start neither is before the other). SGH_NOT_FOUND, 9 and 16 leave the row as it was. */
uint32_t sgh_look_up(const uint8_t *input, size_t len, const uint32_t *table, size_t table_len, const uint8_t *name, size_t name_len, sgh_row *row);

/* ---- any content: elements, whatever they mean, for who wants to see what the other calls don't read, or refuse */

#define SGH_END_MARK 1u /* the byte 00 on its own, wherever an element may stand */
#define SGH_LEAF 2u     /* an element that is no list, of any type and length */
#define SGH_LIST 3u     /* a list of any number of elements, of none too */

/* The types of leaves. */
#define SGH_TY_OCTET_STRING 0u
#define SGH_TY_BOOLEAN 4u
#define SGH_TY_INTEGER 5u
#define SGH_TY_UNSIGNED 6u

/* What begins at a place. `kind` is one of the three, or 0 where it is refused; `ty` and `content` are a leaf's, `count` is how many elements a list has, and what its kind
   doesn't use is 0. `next` is the place behind an end mark or a leaf, or behind a list's length bytes: there its first element begins. `refused` is 0 where all is good. */
typedef struct {
    uint64_t kind, ty;
    sgh_span content;
    uint64_t count, next;
    sgh_refusal refused;
} sgh_item;

#define SGH_ITEM_WORDS 9u

/* What begins at `at`, whatever follows it: of a list its length bytes alone. A leaf is told by its length bytes and its content is not judged: a Boolean of no byte is one.
   Gives 0; 9, before all else, for all `len` bytes, however short the item; 10 where the input ends in the length bytes or in a leaf's content, and at every place at or
   beyond the input's end, an empty one's too, with the input's length as its place; 11 for wrong length bytes, with its kind, at the first of them.
   A refusal stands in `item->refused`, of 9 the number alone; all else is 0 then, so that who goes on at `next` begins anew: stop. `item` is written whole each time.
   All items of an element, in their order: go on at `next` each time. Count down how many elements each open list still wants: behind its last one a list is closed, a
   list of none at once, and where none is open any more the element ends. sgh_walk judges how deep they are; this call doesn't. */
uint32_t sgh_read_item(const uint8_t *input, size_t len, size_t at, sgh_item *item);

/* How many bytes an element takes, from its first length byte on, and how many leaves it has; or why there is none. `refused` is 0 where all is good. */
typedef struct {
    uint64_t bytes, leaves;
    sgh_refusal refused;
} sgh_walked;

#define SGH_WALKED_WORDS 5u

/* Walks over the whole element at `at`, a list with all that is in it. What follows it is not looked at: the next one begins at `at` + `bytes`. An end mark counts as a leaf
   of one byte; every element that is no list is a leaf, whatever its content; a list of none is its length bytes alone and has no leaf. Sixteen lists may be open at once,
   the outermost counted. Where sgh_read_message reads a message, the walk over it ends at the same place.
   Gives 0; 9, before all else, for all `len` bytes, however short the element; 10 and 11, as sgh_read_item gives them, where the walk first meets them; 19 for a list,
   even of none, inside sixteen open ones: behind its own length bytes, whose 10 and 11 come first, and before its elements, at the first of these length bytes.
   A refusal stands in `walked->refused`, with number, kind and place, of 9 the number alone; `bytes` and `leaves` are 0 then, so that who goes on by `bytes` stays where
   it is: stop. `walked` is written whole each time. */
uint32_t sgh_walk(const uint8_t *input, size_t len, size_t at, sgh_walked *walked);

/* ---- messages that are written, so that a bench can pose as a meter */

/* Where a writer is in the output; {0} is a new one at its first byte, {place} at another. `state` is 1 between a list's start and its end, where `left` entries
   are to come and `crc` is the CRC register; else all three are 0. */
typedef struct {
    uint64_t place, state, left, crc;
} sgh_writer;

/* Writes an event, as sgh_next_event gives it, whose strings are parts of `strings`, at the writer's place: an open or a close as a whole message, a list's start,
   an entry or a list's end, with the message's CRC and end byte. Numbers and lengths take the fewest bytes. Gives 0, and the writer stands behind it; 4 for an
   event or a writer that can't be, else 4 for a place beyond the output, 17 for an entry or end that isn't due, 16, 18, in this order, which leave both as they are.
   A message's start is due anywhere: behind it a list that was not ended stays cut. */
uint32_t sgh_write_event(uint8_t *out, size_t out_len, const uint8_t *strings, size_t strings_len, const sgh_event *event, sgh_writer *writer);

#ifdef __cplusplus
}
#endif

#endif
