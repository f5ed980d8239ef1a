/* The library from C: `library calls` makes every call with good and bad input and looks at all that it was lent; `library answers` answers commands, a line each, which
   tests/test_library.py holds to its own readings; `library thousand` keeps a thousand decoders in one array, whose answers tests/test_packed.py holds to its reading. */
#include <inttypes.h>
#include <stdbool.h>
#include <stdio.h>
#include <stdlib.h>
#include <string.h>

#include <sartrogheo.h>

static unsigned held, failed;

static void hold(bool fact, int line, const char *text)
{
    held++;
    if (!fact) {
        failed++;
        printf("tests/library.c:%d: %s\n", line, text);
    }
}

#define HELD(fact) hold((fact), __LINE__, #fact)

/* ---- what is lent, and whether a call left it as it was */

#define CAPACITY 8u
#define TOP UINT64_MAX

struct lent {
    sgh_decoder d;
    uint8_t buf[CAPACITY];
    uint64_t values[SGH_VALUES];
    size_t n;
};

static const struct lent UNTOUCHED = {{{0}}, {0xa5, 0xa5, 0xa5, 0xa5, 0xa5, 0xa5, 0xa5, 0xa5}, {TOP, TOP - 1, TOP - 2, TOP - 3}, 77};

static bool same_decoder(const sgh_decoder *a, const sgh_decoder *b)
{
    return memcmp(a, b, sizeof *a) == 0;
}

static bool same(const struct lent *a, const struct lent *b)
{
    return same_decoder(&a->d, &b->d) && memcmp(a->buf, b->buf, CAPACITY) == 0 && memcmp(a->values, b->values, sizeof a->values) == 0 && a->n == b->n;
}

/* Whether the first k of the values are these, and the rest are as they were. */
static bool says(const struct lent *l, unsigned k, uint64_t a, uint64_t b, uint64_t c, uint64_t d)
{
    const uint64_t first[] = {a, b, c, d};

    for (unsigned i = 0; i < SGH_VALUES; i++)
        if (l->values[i] != (i < k ? first[i] : UNTOUCHED.values[i]))
            return false;
    return true;
}

static struct lent fresh(uint8_t way)
{
    struct lent l = UNTOUCHED;

    HELD(sgh_decoder_new(&l.d, CAPACITY, way) == SGH_GOOD);
    return l;
}

static uint32_t push_byte(struct lent *l, uint8_t byte)
{
    return sgh_push_byte(&l->d, l->buf, CAPACITY, byte, l->values);
}

static uint32_t push_slice(struct lent *l, const uint8_t *chunk, size_t len)
{
    return sgh_push_slice(&l->d, l->buf, CAPACITY, chunk, len, &l->n, l->values);
}

/* Document 01's first frame, whose payload is 12345678, and its start. */
static const uint8_t FRAME[] = {0x1b, 0x1b, 0x1b, 0x1b, 1, 1, 1, 1, 0x12, 0x34, 0x56, 0x78, 0x1b, 0x1b, 0x1b, 0x1b, 0x1a, 0x00, 0xb8, 0x7b};
#define LAST (sizeof FRAME - 1)
#define START_LEN 8u

static uint8_t bytes[SGH_LIMIT + 1], out[2 * SGH_LIMIT + 19];

/* ---- the decoder */

static void making(void)
{
    static const uint8_t second[SGH_DECODER_LEN] = {0, 0, 2, 0, 0xff, 0xff, [24] = 0, 0, 0x10, 0};
    static const uint8_t unknown[] = {0, 3, 255};
    sgh_decoder d = {{7}}, before = d;

    HELD(sizeof d == SGH_DECODER_LEN);
    for (unsigned k = 0; k < sizeof unknown; k++) {
        HELD(sgh_decoder_new(&d, 8, unknown[k]) == SGH_BAD_STATE && same_decoder(&d, &before));
        HELD(sgh_decoder_new(&d, SGH_LIMIT + 1, unknown[k]) == SGH_BAD_STATE && same_decoder(&d, &before));
    }
    HELD(sgh_decoder_new(&d, SGH_LIMIT + 1, SGH_FIRST_WAY) == SGH_WRONG_BUFFER && same_decoder(&d, &before));
    HELD(sgh_decoder_new(&d, SIZE_MAX, SGH_SECOND_WAY) == SGH_WRONG_BUFFER && same_decoder(&d, &before));
    HELD(sgh_decoder_new(&d, SGH_LIMIT, SGH_SECOND_WAY) == SGH_GOOD && memcmp(&d, second, sizeof d) == 0);
    HELD(sgh_push_byte(&d, bytes, SGH_LIMIT, 0, (uint64_t[SGH_VALUES]){0}) == SGH_GOOD);
    HELD(sgh_decoder_new(&d, 0, SGH_FIRST_WAY) == SGH_GOOD);
}

static void pushing_bytes(void)
{
    struct lent l = fresh(SGH_FIRST_WAY);

    for (size_t i = 0; i < LAST; i++)
        HELD(push_byte(&l, FRAME[i]) == SGH_GOOD && says(&l, 0, 0, 0, 0, 0));
    HELD(push_byte(&l, FRAME[LAST]) == SGH_PAYLOAD && says(&l, 1, 4, 0, 0, 0));
    HELD(memcmp(l.buf, FRAME + START_LEN, 4) == 0 && memcmp(l.buf + 4, FRAME + 16, 4) == 0 && l.n == 77);

    l = fresh(SGH_SECOND_WAY);
    for (size_t i = 0; i < LAST; i++)
        push_byte(&l, FRAME[i]);
    HELD(push_byte(&l, 0x7a) == SGH_INVALID_MESSAGE && says(&l, 4, 0x7ab8, 0x7bb8, 0, 0) && l.buf[7] == 0x7a);
    for (size_t i = 0; i < START_LEN; i++)
        HELD(push_byte(&l, FRAME[i]) == SGH_GOOD);
    for (unsigned i = 0; i < CAPACITY; i++)
        HELD(push_byte(&l, (uint8_t)i) == SGH_GOOD && l.buf[i] == i);
    struct lent before = l, new = fresh(SGH_SECOND_WAY);
    HELD(push_byte(&l, 8) == SGH_DECODER_OUT_OF_MEMORY && same_decoder(&l.d, &new.d) && memcmp(l.buf, before.buf, CAPACITY) == 0);
    HELD(memcmp(l.values, before.values, sizeof l.values) == 0);
}

static void pushing_slices(void)
{
    static const uint8_t escape[] = {0x1b, 0x1b, 0x1b, 0x1b, 2, 0, 0, 9};
    struct lent l = fresh(SGH_SECOND_WAY);

    HELD(push_slice(&l, (const uint8_t[]){0x1b}, 1) == SGH_GOOD && l.n == 1);
    HELD(push_slice(&l, FRAME, sizeof FRAME) == SGH_DISCARDED_BYTES && l.n == START_LEN && says(&l, 1, 1, 0, 0, 0));
    HELD(push_slice(&l, FRAME + l.n, sizeof FRAME - l.n) == SGH_PAYLOAD && l.n == sizeof FRAME - START_LEN && says(&l, 1, 4, 0, 0, 0));
    HELD(push_slice(&l, FRAME, LAST) == SGH_GOOD && l.n == LAST);
    HELD(push_slice(&l, FRAME, 0) == SGH_GOOD && l.n == 0);
    HELD(push_slice(&l, FRAME + LAST, 1) == SGH_PAYLOAD && l.n == 1);
    HELD(push_slice(&l, FRAME, START_LEN) == SGH_GOOD);
    HELD(push_slice(&l, escape, sizeof escape) == SGH_INVALID_ESC && l.n == sizeof escape && says(&l, 4, 2, 0, 0, 9) && memcmp(l.buf, escape + 4, 4) == 0);
    HELD(push_slice(&l, FRAME, sizeof FRAME) == SGH_PAYLOAD && l.n == sizeof FRAME);

    /* in the first way the stray 1b hides the frame */
    l = fresh(SGH_FIRST_WAY);
    HELD(push_slice(&l, (const uint8_t[]){0x1b}, 1) == SGH_GOOD);
    HELD(push_slice(&l, FRAME, sizeof FRAME) == SGH_GOOD && l.n == sizeof FRAME && says(&l, 0, 0, 0, 0, 0));
}

/* No decoder, by some of its bytes: an unknown kind, a count that is too large, an unknown way, bytes that must be 0, a capacity over the limit. */
static void no_decoders(void)
{
    static const struct { uint8_t at, byte; } wrong[] = {{0, 5}, {0, 1}, {1, 8}, {2, 0}, {2, 3}, {3, 1}, {7, 1}, {8, 1}, {12, 1}, {27, 1}};

    for (unsigned k = 0; k <= sizeof wrong / sizeof *wrong; k++) {
        struct lent l = k ? fresh(SGH_FIRST_WAY) : UNTOUCHED;
        if (k)
            l.d.bytes[wrong[k - 1].at] = wrong[k - 1].byte;
        struct lent before = l;

        HELD(push_byte(&l, 0) == SGH_BAD_STATE && same(&l, &before));
        HELD(sgh_push_byte(&l.d, l.buf, CAPACITY - 1, 0, l.values) == SGH_BAD_STATE && same(&l, &before));
        HELD(sgh_finalize(&l.d, l.values) == SGH_BAD_STATE && same(&l, &before));
        HELD(sgh_reset(&l.d, l.values) == SGH_BAD_STATE && same(&l, &before));
        before.n = 0;
        HELD(push_slice(&l, FRAME, sizeof FRAME) == SGH_BAD_STATE && same(&l, &before));
        HELD(sgh_push_slice(&l.d, l.buf, CAPACITY - 1, FRAME, sizeof FRAME, &l.n, l.values) == SGH_BAD_STATE && same(&l, &before));
        l.n = 77;
        HELD(sgh_payload(&l.d, l.buf, CAPACITY, &l.n) == SGH_BAD_SPAN && same(&l, &before));
    }
}

static void wrong_buffers(void)
{
    struct lent l = fresh(SGH_SECOND_WAY);
    uint8_t longer[CAPACITY + 1] = {0};

    push_slice(&l, FRAME, 10);
    l.n = 77;
    struct lent before = l;
    HELD(sgh_push_byte(&l.d, l.buf, CAPACITY - 1, 0, l.values) == SGH_WRONG_BUFFER && same(&l, &before));
    HELD(sgh_push_byte(&l.d, longer, CAPACITY + 1, 0, l.values) == SGH_WRONG_BUFFER && same(&l, &before));
    before.n = 0;
    HELD(sgh_push_slice(&l.d, l.buf, CAPACITY - 1, FRAME, sizeof FRAME, &l.n, l.values) == SGH_WRONG_BUFFER && same(&l, &before));
    l.n = 77;
    HELD(sgh_push_slice(&l.d, longer, CAPACITY + 1, FRAME, 0, &l.n, l.values) == SGH_WRONG_BUFFER && same(&l, &before));
    for (unsigned i = 0; i <= CAPACITY; i++)
        HELD(longer[i] == 0);
}

static void payloads(void)
{
    struct lent l = fresh(SGH_FIRST_WAY);

    HELD(sgh_payload(&l.d, l.buf, CAPACITY, &l.n) == SGH_BAD_SPAN && l.n == 0);
    push_slice(&l, FRAME, sizeof FRAME);
    struct lent before = l;
    before.n = 4;
    HELD(sgh_payload(&l.d, l.buf, CAPACITY, &l.n) == SGH_GOOD && same(&l, &before));
    before.n = 0;
    HELD(sgh_payload(&l.d, l.buf, CAPACITY - 1, &l.n) == SGH_BAD_SPAN && same(&l, &before));
    push_byte(&l, 0);
    HELD(sgh_payload(&l.d, l.buf, CAPACITY, &l.n) == SGH_BAD_SPAN && l.n == 0);
}

static void ends(void)
{
    struct lent l = fresh(SGH_FIRST_WAY), new = l;

    HELD(sgh_finalize(&l.d, l.values) == SGH_GOOD && same(&l, &new));
    push_slice(&l, FRAME, 10);
    HELD(sgh_finalize(&l.d, l.values) == SGH_DISCARDED_BYTES && says(&l, 1, 10, 0, 0, 0) && same_decoder(&l.d, &new.d));

    l = new;
    HELD(sgh_reset(&l.d, l.values) == SGH_GOOD && says(&l, 1, 0, 0, 0, 0) && same_decoder(&l.d, &new.d));
    push_slice(&l, FRAME, 12);
    HELD(sgh_reset(&l.d, l.values) == SGH_GOOD && says(&l, 1, 12, 0, 0, 0) && same_decoder(&l.d, &new.d));
    HELD(push_slice(&l, FRAME, sizeof FRAME) == SGH_PAYLOAD);
    HELD(sgh_reset(&l.d, l.values) == SGH_GOOD && says(&l, 1, 0, 0, 0, 0) && same_decoder(&l.d, &new.d));
}

/* A decoder is plain bytes: moved in the middle of a frame, with its buffer, it goes on where it was. */
static void moved(void)
{
    struct lent rows[3] = {fresh(SGH_SECOND_WAY), UNTOUCHED, UNTOUCHED};

    push_slice(&rows[0], FRAME, 10);
    memcpy(&rows[2], &rows[0], sizeof rows[0]);
    memset(&rows[0], 0, sizeof rows[0]);
    HELD(push_slice(&rows[2], FRAME + 10, sizeof FRAME - 10) == SGH_PAYLOAD && memcmp(rows[2].buf, FRAME + START_LEN, 4) == 0);
}

/* ---- frames */

static bool all_are(const uint8_t *s, size_t len, uint8_t b)
{
    for (size_t i = 0; i < len; i++)
        if (s[i] != b)
            return false;
    return true;
}

/* What a decoder with the largest buffer says of the frame of n zeros. */
static uint32_t largest(size_t n, uint64_t values[SGH_VALUES])
{
    sgh_decoder d;
    size_t len, taken;

    memset(bytes, 0, sizeof bytes);
    HELD(sgh_encode(bytes, n, out, sizeof out, &len) == SGH_GOOD);
    HELD(sgh_decoder_new(&d, SGH_LIMIT, SGH_SECOND_WAY) == SGH_GOOD);
    return sgh_push_slice(&d, bytes, SGH_LIMIT, out, len, &taken, values);
}

/* The longest payload that a decoder hands out, and one more. */
static void longest(void)
{
    uint64_t values[SGH_VALUES] = {0};

    HELD(largest(SGH_LIMIT - 4, values) == SGH_PAYLOAD && values[0] == SGH_LIMIT - 4 && all_are(bytes, SGH_LIMIT - 4, 0));
    HELD(largest(SGH_LIMIT - 3, values) == SGH_DECODER_OUT_OF_MEMORY);
    memset(bytes, 0, sizeof bytes);
}

static void encoding(void)
{
    size_t n = 77;

    memset(out, 0xa5, sizeof out);
    HELD(sgh_encode(FRAME + START_LEN, 4, out, sizeof out, &n) == SGH_GOOD && n == sizeof FRAME);
    HELD(memcmp(out, FRAME, sizeof FRAME) == 0 && all_are(out + n, sizeof out - n, 0xa5));
    memset(out, 0xa5, sizeof out);
    HELD(sgh_encode(FRAME + START_LEN, 4, out, LAST, &n) == SGH_ENCODE_OUT_OF_MEMORY && n == 0 && all_are(out, sizeof out, 0xa5));
    HELD(sgh_encode(bytes, SGH_LIMIT + 1, out, sizeof out, &n) == SGH_PAYLOAD_TOO_LONG && n == 0 && all_are(out, sizeof out, 0xa5));
    n = 77;
    HELD(sgh_encode(bytes, SGH_LIMIT + 1, out, 1, &n) == SGH_PAYLOAD_TOO_LONG && n == 0 && all_are(out, sizeof out, 0xa5));
    /* the longest payload, each byte of it escaped: what the header says is always enough */
    memset(bytes, 0x1b, SGH_LIMIT);
    HELD(sgh_encode(bytes, SGH_LIMIT, out, 2 * SGH_LIMIT + 19, &n) == SGH_GOOD && n == 2 * SGH_LIMIT + 16);
    memset(bytes, 0, SGH_LIMIT);
}

/* Whether the Encoder gives exactly this frame, and then nothing, again and again. */
static bool gives(const uint8_t *payload, size_t len, const uint8_t *frame, size_t frame_len)
{
    sgh_encoder e;
    uint8_t byte = 0;

    sgh_encoder_new(&e);
    for (size_t i = 0; i < frame_len; i++)
        if (sgh_encoder_next(&e, payload, len, &byte) != SGH_GOOD || byte != frame[i])
            return false;
    for (int i = 0; i < 3; i++) {
        sgh_encoder before = e;
        byte = 0x77;
        if (sgh_encoder_next(&e, payload, len, &byte) != SGH_FINISHED || byte != 0x77 || memcmp(&e, &before, sizeof e) != 0)
            return false;
    }
    return true;
}

static void encoders(void)
{
    static const sgh_encoder wrong[] = {{0}, {0, 0, 0, 65535}, {5, 0, 0, 0}, {256, 0, 0, 0}, {257, 0, 0, 0}, {TOP, 0, 0, 0}, {1, 9, 0, 0}, {2, 5, 0, 0}, {3, 5, 0, 0}, {1, 256, 0, 0}, {2, 256, 0, 0}, {4, 12, 0, 0}, {4, 256, 0, 0}, {4, TOP, 0, 0}, {1, 0, 5, 0}, {4, 8, 5, 0}, {1, 0, TOP, 0}, {1, 0, 0, 65536}, {1, 0, 0, TOP}};
    sgh_encoder e = {TOP, TOP, TOP, TOP}, before;
    uint8_t byte = 0x77;

    HELD(gives(FRAME + START_LEN, 4, FRAME, sizeof FRAME));
    sgh_encoder_new(&e);
    HELD(e.kind == 1 && e.count == 0 && e.place == 0 && e.crc <= UINT16_MAX);
    before = e;
    HELD(sgh_encoder_next(&e, bytes, SGH_LIMIT + 1, &byte) == SGH_PAYLOAD_TOO_LONG && byte == 0x77 && memcmp(&e, &before, sizeof e) == 0);
    HELD(sgh_encoder_next(&e, bytes, SGH_LIMIT, &byte) == SGH_GOOD && byte == 0x1b);
    for (unsigned k = 0; k < sizeof wrong / sizeof *wrong; k++) {
        e = wrong[k];
        byte = 0x77;
        HELD(sgh_encoder_next(&e, FRAME + START_LEN, 4, &byte) == SGH_BAD_STATE && byte == 0x77 && memcmp(&e, &wrong[k], sizeof e) == 0);
        HELD(sgh_encoder_next(&e, bytes, SGH_LIMIT + 1, &byte) == SGH_PAYLOAD_TOO_LONG && byte == 0x77 && memcmp(&e, &wrong[k], sizeof e) == 0);
    }
}

/* An Encoder begins with kind 1, and goes through no kinds but 1 to 4, no counts over 11 and no CRC over 16 bits. */
static void encoder_words(void)
{
    static const uint8_t escaped[] = {0x1b, 0x1b, 0x1b, 0x1b, 7};
    unsigned found = 0;
    sgh_encoder e;
    uint8_t byte;

    sgh_encoder_new(&e);
    do {
        HELD(e.kind >= 1 && e.kind <= 4 && e.count <= 11 && e.place <= sizeof escaped && e.crc <= UINT16_MAX);
        found |= 1u << (e.kind & 7);
    } while (sgh_encoder_next(&e, escaped, sizeof escaped, &byte) == SGH_GOOD);
    HELD(found == (1u << 1 | 1u << 2 | 1u << 3 | 1u << 4));
}

/* ---- messages */

/* A close, whole; document 01's numbers for what is wrong with a byte of it, at its place, stand in docs/PLACES.md. */
static const uint8_t CLOSE[] = {0x76, 0x05, 0xdd, 0x43, 0x44, 0x00, 0x62, 0x00, 0x62, 0x00, 0x72, 0x63, 0x02, 0x01, 0x71, 0x01, 0x63, 0xfd, 0x56, 0x00};

static sgh_event used(void)
{
    sgh_event e;

    memset(&e, 0xa5, sizeof e);
    return e;
}

/* Whether the event is of this kind and its words from `from` on are 0. */
static bool ends_at(const sgh_event *e, uint64_t kind, unsigned from)
{
    for (unsigned i = from; i < SGH_EVENT_WORDS; i++)
        if (e->words[i - 1] != 0)
            return false;
    return e->kind == kind;
}

static bool refused(const sgh_event *e, uint64_t event, uint64_t number, uint64_t kind, uint64_t place)
{
    return ends_at(e, event, 4) && e->refused.number == number && e->refused.kind == kind && e->refused.place == place;
}

static bool is_reader(const sgh_reader *r, uint64_t place, uint64_t start, uint64_t pending)
{
    return r->place == place && r->start == start && r->pending == pending;
}

static void reading(void)
{
    sgh_reader r = {0};
    sgh_event e = used();

    HELD(sizeof e == 8 * SGH_EVENT_WORDS && sizeof r == 24 && sizeof(sgh_encoder) == 32);
    HELD(sgh_next_event(CLOSE, sizeof CLOSE, &r, &e) == SGH_GOOD && ends_at(&e, SGH_MESSAGE_START, 9) && is_reader(&r, 16, 0, 1));
    HELD(e.message.transaction_id.start == 2 && e.message.transaction_id.len == 4 && e.message.body == SGH_CLOSE_RESPONSE && e.message.close.global_signature.present == 0);
    e = used();
    HELD(sgh_next_event(CLOSE, sizeof CLOSE, &r, &e) == SGH_FINISHED && ends_at(&e, SGH_NO_EVENT, 1) && is_reader(&r, sizeof CLOSE, 0, 0));
    HELD(sgh_next_event(CLOSE, sizeof CLOSE, &r, &e) == SGH_FINISHED && ends_at(&e, SGH_NO_EVENT, 1));
    /* cut behind its first event, every later call says so */
    r = (sgh_reader){0};
    HELD(sgh_next_event(CLOSE, sizeof CLOSE - 1, &r, &e) == SGH_GOOD);
    for (int i = 0; i < 3; i++) {
        e = used();
        HELD(sgh_next_event(CLOSE, sizeof CLOSE - 1, &r, &e) == SGH_UNEXPECTED_EOF && refused(&e, SGH_REFUSED, SGH_UNEXPECTED_EOF, 0, 19) && is_reader(&r, 19, 0, 1));
    }
}

static void readers(void)
{
    static const sgh_reader wrong[] = {{21, 0, 0}, {TOP, 0, 0}, {3, 4, 0}, {20, 21, 1}, {20, TOP, 0}, {20, 0, 4294967298}, {0, 0, TOP}};

    for (unsigned k = 0; k < sizeof wrong / sizeof *wrong; k++) {
        sgh_reader r = wrong[k];
        sgh_event e = used();
        HELD(sgh_next_event(CLOSE, sizeof CLOSE, &r, &e) == SGH_BAD_STATE && refused(&e, SGH_REFUSED_ALONE, SGH_BAD_STATE, 0, 0) && memcmp(&r, &wrong[k], sizeof r) == 0);
        HELD(sgh_next_event(bytes, SGH_LIMIT + 1, &r, &e) == SGH_INPUT_TOO_LONG && refused(&e, SGH_REFUSED_ALONE, SGH_INPUT_TOO_LONG, 0, 0) && memcmp(&r, &wrong[k], sizeof r) == 0);
    }
    sgh_reader r = {0};
    sgh_event e = used();
    HELD(sgh_next_event(bytes, SGH_LIMIT, &r, &e) == SGH_INVALID_TLF && refused(&e, SGH_REFUSED, SGH_INVALID_TLF, SGH_TLF_LENGTH_UNDERFLOW, 0) && is_reader(&r, SGH_LIMIT, 0, 0));
}

/* ---- whole messages */

/* A list of two entries, whose rows these are; behind its end byte stands what begins no message. */
static const uint8_t TWO[] = {0x76, 3,    0xdd, 0x43, 0x62, 0,    0x62, 0,    0x72, 0x63, 7,    1,    0x77, 1,    2,    0x73, 1,    1,    0x72, 0x77, 2,    0x62, 1, 1,
                              1,    1,    0x62, 7,    1,    0x77, 2,    0x61, 1,    1,    1,    1,    0x62, 8,    1,    1,    1,    0x63, 1,    0x93, 0,    0xff};
#define TWO_LEN (sizeof TWO - 1)
static const sgh_row ROWS_OF_TWO[] = {{21, 1, 19, 10}, {31, 1, 29, 10}};
#define NUMBERS 28u /* of a table */
#define MARK 0x77777777u

struct whole {
    uint32_t table[NUMBERS];
    sgh_message message;
    sgh_index index;
};

static struct whole unread(void)
{
    struct whole w;

    for (unsigned i = 0; i < NUMBERS; i++)
        w.table[i] = MARK;
    memset(&w.message, 0xa5, sizeof w.message);
    memset(&w.index, 0xa5, sizeof w.index);
    return w;
}

/* Whether the table is as it was from a number on. */
static bool marked(const struct whole *w, unsigned from)
{
    while (from < NUMBERS && w->table[from] == MARK)
        from++;
    return from == NUMBERS;
}

static bool is_index(const sgh_index *x, uint64_t rows, uint64_t next, uint64_t number, uint64_t kind, uint64_t place)
{
    return x->rows == rows && x->next == next && x->refused.number == number && x->refused.kind == kind && x->refused.place == place;
}

/* Whether both calls refuse with this, say nothing else and leave the table. */
static bool refuses(const uint8_t *input, size_t len, size_t at, size_t room, uint32_t number, uint64_t kind, uint64_t place)
{
    struct whole w = unread();
    bool alone = number == SGH_INPUT_TOO_LONG || number == SGH_BAD_STATE || number == SGH_TOO_MANY_ENTRIES;

    return sgh_read_message(input, len, at, w.table, room, &w.message) == number && refused(&w.message.start, alone ? SGH_REFUSED_ALONE : SGH_REFUSED, number, kind, place) &&
           ends_at(&w.message.end, SGH_NO_EVENT, 1) && w.message.rows == 0 && w.message.next == 0 && marked(&w, 0) &&
           sgh_build_index(input, len, at, w.table, room, &w.index) == number && is_index(&w.index, 0, 0, number, kind, place) && marked(&w, 0);
}

static void wholes(void)
{
    for (size_t room = 8; room <= NUMBERS; room++) {
        struct whole w = unread();
        HELD(sgh_read_message(TWO, sizeof TWO, 0, w.table, room, &w.message) == SGH_GOOD && w.message.rows == 2 && w.message.next == TWO_LEN);
        HELD(memcmp(w.table, ROWS_OF_TWO, sizeof ROWS_OF_TWO) == 0 && marked(&w, 8));
        HELD(ends_at(&w.message.start, SGH_MESSAGE_START, 17) && w.message.start.message.list.num_vals == 2 && ends_at(&w.message.end, SGH_GET_LIST_RESPONSE_END, 1));
    }
    /* the entries at their rows, in all of the input */
    for (unsigned k = 0; k < 2; k++) {
        sgh_reader r = {ROWS_OF_TWO[k].entry_start, ROWS_OF_TWO[k].entry_start, 3};
        sgh_event e = used();
        HELD(sgh_next_event(TWO, sizeof TWO, &r, &e) == SGH_GOOD && e.kind == SGH_LIST_ENTRY && e.entry.value.number == 7 + k && r.place == r.start + ROWS_OF_TWO[k].entry_len);
        HELD(e.entry.obj_name.start == ROWS_OF_TWO[k].name_start && e.entry.obj_name.len == ROWS_OF_TWO[k].name_len);
    }
    /* an open or a close needs no table, and is read at any place */
    struct whole w = unread();
    memcpy(bytes, TWO, TWO_LEN);
    memcpy(bytes + TWO_LEN, CLOSE, sizeof CLOSE);
    HELD(sgh_read_message(bytes, TWO_LEN + sizeof CLOSE, TWO_LEN, NULL, 0, &w.message) == SGH_GOOD && w.message.rows == 0 && w.message.next == TWO_LEN + sizeof CLOSE);
    HELD(ends_at(&w.message.start, SGH_MESSAGE_START, 9) && w.message.start.message.transaction_id.start == TWO_LEN + 2 && ends_at(&w.message.end, SGH_NO_EVENT, 1));
    memset(bytes, 0, TWO_LEN + sizeof CLOSE);
}

/* 9, then 4, then what the reader of events refuses, then 20. */
static void unread_messages(void)
{
    for (size_t room = 0; room < 8; room++)
        HELD(refuses(TWO, sizeof TWO, 0, room, SGH_TOO_MANY_ENTRIES, 0, 0));
    for (size_t len = 0; len < TWO_LEN; len++)
        HELD(refuses(TWO, len, 0, 8, SGH_UNEXPECTED_EOF, 0, len) && refuses(TWO, len, 0, 0, SGH_UNEXPECTED_EOF, 0, len));
    HELD(refuses(CLOSE, sizeof CLOSE, sizeof CLOSE, NUMBERS, SGH_UNEXPECTED_EOF, 0, sizeof CLOSE));
    HELD(refuses(CLOSE, sizeof CLOSE, sizeof CLOSE + 1, NUMBERS, SGH_BAD_STATE, 0, 0) && refuses(CLOSE, sizeof CLOSE, SIZE_MAX, 0, SGH_BAD_STATE, 0, 0));
    HELD(refuses(bytes, SGH_LIMIT + 1, 0, NUMBERS, SGH_INPUT_TOO_LONG, 0, 0) && refuses(bytes, SGH_LIMIT + 1, SIZE_MAX, NUMBERS, SGH_INPUT_TOO_LONG, 0, 0));
    HELD(refuses(bytes, SGH_LIMIT, 0, NUMBERS, SGH_INVALID_TLF, SGH_TLF_LENGTH_UNDERFLOW, 0) && refuses(bytes, SGH_LIMIT, SGH_LIMIT, NUMBERS, SGH_UNEXPECTED_EOF, 0, SGH_LIMIT));
    HELD(refuses(TWO, sizeof TWO, TWO_LEN, NUMBERS, SGH_UNEXPECTED_EOF, 0, sizeof TWO));
}

/* ---- an index */

/* A list of six entries, named b, nothing, ab, the byte 80, a and b, and their rows by name. */
static const uint8_t SIX[] = {
    0x76, 0x03, 0xdd, 0x43, 0x62, 0x00, 0x62, 0x00, 0x72, 0x63, 0x07, 0x01, 0x77, 0x01, 0x02, 0x73, 0x01,
    0x01, 0x76, 0x77, 0x02, 0x62, 0x01, 0x01, 0x01, 0x01, 0x62, 0x00, 0x01, 0x77, 0x01, 0x01, 0x01, 0x01,
    0x01, 0x62, 0x01, 0x01, 0x77, 0x03, 0x61, 0x62, 0x01, 0x01, 0x01, 0x01, 0x62, 0x02, 0x01, 0x77, 0x02,
    0x80, 0x01, 0x01, 0x01, 0x01, 0x62, 0x03, 0x01, 0x77, 0x02, 0x61, 0x01, 0x01, 0x01, 0x01, 0x62, 0x04,
    0x01, 0x77, 0x02, 0x62, 0x01, 0x01, 0x01, 0x01, 0x62, 0x05, 0x01, 0x01, 0x01, 0x63, 0x3c, 0x55, 0x00,
};
static const sgh_row ROWS_OF_SIX[] = {{31, 0, 29, 9}, {61, 1, 59, 10}, {40, 2, 38, 11}, {21, 1, 19, 10}, {71, 1, 69, 10}, {51, 1, 49, 10}};
#define SIX_NUMBERS (SGH_ROW_NUMBERS * sizeof ROWS_OF_SIX / sizeof *ROWS_OF_SIX)

static void indexes(void)
{
    HELD(sizeof(sgh_index) == 8 * SGH_INDEX_WORDS);
    for (size_t room = SIX_NUMBERS; room <= NUMBERS; room++) {
        struct whole w = unread();
        HELD(sgh_build_index(SIX, sizeof SIX, 0, w.table, room, &w.index) == SGH_GOOD && is_index(&w.index, 6, sizeof SIX, 0, 0, 0));
        HELD(memcmp(w.table, ROWS_OF_SIX, sizeof ROWS_OF_SIX) == 0 && marked(&w, SIX_NUMBERS));
    }
    for (size_t room = 0; room < SIX_NUMBERS; room++)
        HELD(refuses(SIX, sizeof SIX, 0, room, SGH_TOO_MANY_ENTRIES, 0, 0));
    for (size_t len = 0; len < sizeof SIX; len++)
        HELD(refuses(SIX, len, 0, NUMBERS, SGH_UNEXPECTED_EOF, 0, len));
    /* at another place, and of a close, which needs no table; what follows a message is not looked at */
    struct whole w = unread();
    memcpy(bytes, CLOSE, sizeof CLOSE);
    memcpy(bytes + sizeof CLOSE, SIX, sizeof SIX);
    HELD(sgh_build_index(bytes, SGH_LIMIT, 0, NULL, 0, &w.index) == SGH_GOOD && is_index(&w.index, 0, sizeof CLOSE, 0, 0, 0));
    HELD(sgh_build_index(bytes, SGH_LIMIT, sizeof CLOSE, w.table, NUMBERS, &w.index) == SGH_GOOD && is_index(&w.index, 6, sizeof CLOSE + sizeof SIX, 0, 0, 0));
    for (unsigned i = 0; i < SIX_NUMBERS; i++)
        HELD(w.table[i] == ((const uint32_t *)ROWS_OF_SIX)[i] + (i % 2 ? 0 : sizeof CLOSE));
    memset(bytes, 0, sizeof CLOSE + sizeof SIX);
}

static const sgh_row UNFOUND = {MARK, MARK, MARK, MARK};

/* Whether a lookup gives this number, and the row if one is found; else the row is as it was. */
static bool looks_up(uint32_t number, const void *input, size_t len, const uint32_t *table, size_t n, const char *name, const void *row)
{
    sgh_row found = UNFOUND;

    return sgh_look_up(input, len, table, n, (const uint8_t *)name, strlen(name), &found) == number && memcmp(&found, number == SGH_GOOD ? row : &UNFOUND, sizeof found) == 0;
}

/* In the index, in parts of it and in the rows the other way; then in tables of no message over `aab`. */
static void lookups(void)
{
    static const struct { const char *name; unsigned row; } six[] = {{"", 0}, {"a", 1}, {"ab", 2}, {"b", 3}, {"\x80", 5}};
    static const char *const others[] = {"abc", "aa", "c", "\x7f", "\x80\x80", "\xff"};
    static const struct { uint32_t number; unsigned row, n; uint32_t table[12]; const char *name; } aab[] = {
        {SGH_NOT_FOUND, 0, 0, {0}, "a"}, {SGH_BAD_SPAN, 0, 8, {0, 1, 0, 1, 0, 1, 0, 1}, "a"}, {SGH_GOOD, 0, 8, {0, 1, 0, 1, 0, 1, 1, 1}, "a"}, {SGH_BAD_SPAN, 0, 8, {0, 1, 2, 1, 1, 1, 1, 1}, "a"},
        {SGH_BAD_SPAN, 0, 4, {0, 3, 4, 0}, "aab"}, {SGH_BAD_SPAN, 0, 4, {2, 2, 0, 1}, "b"}, {SGH_BAD_SPAN, 0, 4, {4294967295, 2, 0, 1}, "b"}, {SGH_BAD_SPAN, 0, 4, {0, 1, 4294967295, 1}, "a"},
        {SGH_GOOD, 1, 12, {0, 1, 0, 3, 0, 2, 0, 3, 2, 1, 0, 3}, "aa"}, {SGH_GOOD, 0, 4, {3, 0, 3, 0}, ""}, {SGH_BAD_SPAN, 0, 4, {0, 0, 0, 4}, ""}, {SGH_BAD_SPAN, 0, 12, {0, 1, 0, 3, 2, 1, 0, 3, 0, 2, 0, 3}, "a"},
    };
    struct whole w = unread();
    sgh_index x;

    HELD(sgh_build_index(SIX, sizeof SIX, 0, w.table, NUMBERS, &x) == SGH_GOOD);
    for (unsigned k = 0; k < sizeof six / sizeof *six; k++)
        for (size_t n = 0; n <= NUMBERS; n++) {
            uint32_t number = n % SGH_ROW_NUMBERS || n > SIX_NUMBERS ? SGH_BAD_SPAN : six[k].row < n / SGH_ROW_NUMBERS ? SGH_GOOD : SGH_NOT_FOUND;
            HELD(looks_up(number, SIX, sizeof SIX, w.table, n, six[k].name, &ROWS_OF_SIX[six[k].row]));
        }
    for (unsigned k = 0; k < sizeof others / sizeof *others; k++)
        HELD(looks_up(SGH_NOT_FOUND, SIX, sizeof SIX, w.table, SIX_NUMBERS, others[k], NULL));
    /* an input that is shorter than an entry; rows the other way */
    HELD(looks_up(SGH_GOOD, SIX, 79, w.table, SIX_NUMBERS, "a", &ROWS_OF_SIX[1]) && looks_up(SGH_BAD_SPAN, SIX, 78, w.table, SIX_NUMBERS, "a", NULL));
    memcpy(w.table, &ROWS_OF_SIX[1], sizeof(sgh_row));
    memcpy(w.table + SGH_ROW_NUMBERS, &ROWS_OF_SIX[0], sizeof(sgh_row));
    HELD(looks_up(SGH_BAD_SPAN, SIX, sizeof SIX, w.table, SIX_NUMBERS, "b", NULL));
    for (unsigned k = 0; k < sizeof aab / sizeof *aab; k++)
        HELD(looks_up(aab[k].number, "aab", 3, aab[k].table, aab[k].n, aab[k].name, aab[k].table + SGH_ROW_NUMBERS * aab[k].row));
    /* 9 first; the longest input, all of it a name */
    static const uint32_t long_row[] = {0, SGH_LIMIT, 0, SGH_LIMIT}, at_end[] = {SGH_LIMIT, 0, SGH_LIMIT, 0}, beyond[] = {SGH_LIMIT, 1, 0, 0};
    sgh_row row = UNFOUND;
    HELD(looks_up(SGH_INPUT_TOO_LONG, bytes, SGH_LIMIT + 1, at_end, 4, "", NULL) && looks_up(SGH_INPUT_TOO_LONG, bytes, SGH_LIMIT + 1, at_end, 3, "", NULL));
    HELD(looks_up(SGH_GOOD, bytes, SGH_LIMIT, at_end, 4, "", at_end) && looks_up(SGH_BAD_SPAN, bytes, SGH_LIMIT, beyond, 4, "", NULL));
    HELD(sgh_look_up(bytes, SGH_LIMIT, long_row, 4, bytes, SGH_LIMIT, &row) == SGH_GOOD && memcmp(&row, long_row, sizeof row) == 0);
    row = UNFOUND;
    HELD(sgh_look_up(bytes, SGH_LIMIT, long_row, 4, bytes, SGH_LIMIT + 1, &row) == SGH_NOT_FOUND && memcmp(&row, &UNFOUND, sizeof row) == 0);
}

/* ---- any content */

/* Whether a walk writes this, all of it, and gives its refusal's number. */
static bool walks(const uint8_t *input, size_t len, size_t at, sgh_walked wanted)
{
    sgh_walked walked;

    memset(&walked, 0xa5, sizeof walked);
    return sgh_walk(input, len, at, &walked) == wanted.refused.number && memcmp(&walked, &wanted, sizeof walked) == 0;
}

static bool begins(const uint8_t *input, size_t len, size_t at, sgh_item wanted)
{
    sgh_item item;

    memset(&item, 0xa5, sizeof item);
    return sgh_read_item(input, len, at, &item) == wanted.refused.number && memcmp(&item, &wanted, sizeof item) == 0;
}

/* Whether the walk refuses with this. */
static bool not_walked(const uint8_t *input, size_t len, size_t at, uint64_t number, uint64_t kind, uint64_t place)
{
    return walks(input, len, at, (sgh_walked){.refused = {number, kind, place}});
}

/* Whether both calls do. */
static bool no_content(const uint8_t *input, size_t len, size_t at, uint64_t number, uint64_t kind, uint64_t place)
{
    return not_walked(input, len, at, number, kind, place) && begins(input, len, at, (sgh_item){.refused = {number, kind, place}});
}

/* The close, item by item. */
static void items(void)
{
    static const sgh_item close[] = {
        {.kind = SGH_LIST, .count = 6, .next = 1},
        {.kind = SGH_LEAF, .ty = SGH_TY_OCTET_STRING, .content = {2, 4}, .next = 6},
        {.kind = SGH_LEAF, .ty = SGH_TY_UNSIGNED, .content = {7, 1}, .next = 8},
        {.kind = SGH_LEAF, .ty = SGH_TY_UNSIGNED, .content = {9, 1}, .next = 10},
        {.kind = SGH_LIST, .count = 2, .next = 11},
        {.kind = SGH_LEAF, .ty = SGH_TY_UNSIGNED, .content = {12, 2}, .next = 14},
        {.kind = SGH_LIST, .count = 1, .next = 15},
        {.kind = SGH_LEAF, .ty = SGH_TY_OCTET_STRING, .content = {16, 0}, .next = 16},
        {.kind = SGH_LEAF, .ty = SGH_TY_UNSIGNED, .content = {17, 2}, .next = 19},
        {.kind = SGH_END_MARK, .next = 20},
    };
    static const uint8_t several[] = {0x41, 0x42, 7, 0x51, 0x53, 0xff, 0x9c, 0x80, 0x02, 0xf0, 0x00, 0xff, 0x8f, 0x8f, 0x8f, 0x8f, 0x8f, 0x8f, 0x0f};
    uint64_t at = 0;

    HELD(sizeof(sgh_item) == 8 * SGH_ITEM_WORDS && sizeof(sgh_walked) == 8 * SGH_WALKED_WORDS);
    for (unsigned k = 0; k < sizeof close / sizeof *close; at = close[k++].next) {
        HELD(begins(CLOSE, sizeof CLOSE, at, close[k]) && begins(CLOSE, close[k].next, at, close[k]));
        HELD(close[k].kind == SGH_LIST || walks(CLOSE, sizeof CLOSE, at, (sgh_walked){close[k].next - at, 1, {0, 0, 0}}));
        for (size_t len = at + 1; len < close[k].next; len++)
            HELD(no_content(CLOSE, len, at, SGH_UNEXPECTED_EOF, 0, len));
    }
    HELD(at == sizeof CLOSE && no_content(CLOSE, sizeof CLOSE, at, SGH_UNEXPECTED_EOF, 0, sizeof CLOSE));
    /* a Boolean of no byte and of one, Integers, an empty string of two length bytes, a list of none and the longest one */
    HELD(begins(several, sizeof several, 0, (sgh_item){.kind = SGH_LEAF, .ty = SGH_TY_BOOLEAN, .content = {1, 0}, .next = 1}) && begins(several, sizeof several, 1, (sgh_item){.kind = SGH_LEAF, .ty = SGH_TY_BOOLEAN, .content = {2, 1}, .next = 3}));
    HELD(begins(several, sizeof several, 3, (sgh_item){.kind = SGH_LEAF, .ty = SGH_TY_INTEGER, .content = {4, 0}, .next = 4}) && begins(several, sizeof several, 4, (sgh_item){.kind = SGH_LEAF, .ty = SGH_TY_INTEGER, .content = {5, 2}, .next = 7}));
    HELD(begins(several, sizeof several, 7, (sgh_item){.kind = SGH_LEAF, .ty = SGH_TY_OCTET_STRING, .content = {9, 0}, .next = 9}) && begins(several, sizeof several, 9, (sgh_item){.kind = SGH_LIST, .next = 11}));
    HELD(begins(several, sizeof several, 11, (sgh_item){.kind = SGH_LIST, .count = 4294967295, .next = sizeof several}) && not_walked(several, sizeof several, 11, SGH_UNEXPECTED_EOF, 0, sizeof several));
}

/* The close, cut anywhere and with more behind it; the kinds of 11; places at the input's end and beyond it. */
static void elements(void)
{
    static const struct { uint8_t kind, bytes[9]; } wrong[] = {{SGH_TLF_LENGTH_OVERFLOW, {0x81, 0x80, 0x80, 0x80, 0x80, 0x80, 0x80, 0x80, 0x80}}, {SGH_TLF_RESERVED, {0xc2}}, {SGH_TLF_LENGTH_UNDERFLOW, {0x80}}, {SGH_TLF_LENGTH_UNDERFLOW, {0x40}}, {SGH_TLF_NEXT_BYTE_TYPE_MISMATCH, {0x81, 0x10}}, {SGH_TLF_INVALID_TY, {0x10}}};

    for (size_t len = 0; len <= sizeof CLOSE; len++)
        HELD(len == sizeof CLOSE ? walks(CLOSE, len, 0, (sgh_walked){sizeof CLOSE, 7, {0, 0, 0}}) : not_walked(CLOSE, len, 0, SGH_UNEXPECTED_EOF, 0, len));
    HELD(walks(CLOSE, sizeof CLOSE, 10, (sgh_walked){6, 2, {0, 0, 0}}) && walks(CLOSE, sizeof CLOSE, 14, (sgh_walked){2, 1, {0, 0, 0}}));
    for (unsigned k = 0; k < sizeof wrong / sizeof *wrong; k++) {
        uint8_t list[10] = {0x71};
        memcpy(list + 1, wrong[k].bytes, 9);
        HELD(no_content(list, sizeof list, 1, SGH_INVALID_TLF, wrong[k].kind, 1) && not_walked(list, sizeof list, 0, SGH_INVALID_TLF, wrong[k].kind, 1));
    }
    for (size_t len = 0; len <= sizeof CLOSE; len++)
        HELD(no_content(CLOSE, len, len, SGH_UNEXPECTED_EOF, 0, len) && no_content(CLOSE, len, len + 1, SGH_UNEXPECTED_EOF, 0, len) && no_content(CLOSE, len, SIZE_MAX, SGH_UNEXPECTED_EOF, 0, len));
}

#define DEEPEST 16u

/* Lists in lists: the last byte of as many as may be open, and of one more, which is read before it is too deep. */
static void depths(void)
{
    static const struct { uint8_t last; uint64_t number, leaves; } sixteen[] = {{0x01, 0, 1}, {0x00, 0, 1}, {0x70, SGH_TOO_DEEP, 0}, {0x71, SGH_TOO_DEEP, 0}, {0x7f, SGH_TOO_DEEP, 0}, {0xf1, SGH_UNEXPECTED_EOF, 0}, {0x02, SGH_UNEXPECTED_EOF, 0}};
    uint8_t open[DEEPEST + 1];

    memset(open, 0x71, DEEPEST);
    for (unsigned k = 0; k < sizeof sixteen / sizeof *sixteen; k++) {
        open[DEEPEST] = sixteen[k].last;
        if (sixteen[k].number == 0)
            HELD(walks(open, sizeof open, 0, (sgh_walked){sizeof open, sixteen[k].leaves, {0, 0, 0}}));
        else
            HELD(not_walked(open, sizeof open, 0, sixteen[k].number, 0, sixteen[k].number == SGH_TOO_DEEP ? DEEPEST : sizeof open));
        HELD(begins(open, sizeof open, 0, (sgh_item){.kind = SGH_LIST, .count = 1, .next = 1}));
    }
    /* a list of none is the sixteenth; a list that is closed is open no more */
    open[DEEPEST] = 0x70;
    HELD(walks(open, sizeof open, 1, (sgh_walked){DEEPEST, 0, {0, 0, 0}}));
    open[DEEPEST - 2] = 0x72;
    open[DEEPEST - 1] = 0x70;
    HELD(walks(open, sizeof open, 0, (sgh_walked){sizeof open, 0, {0, 0, 0}}));
}

/* 9 first, of all that is lent; the longest input: many end marks, a list of as many as fit, one more, one leaf, one that is longer. */
static void longest_contents(void)
{
    static const uint8_t list[] = {0xff, 0x8f, 0x8f, 0x8f, 0x0b}, string[] = {0x81, 0x80, 0x80, 0x80, 0x80, 0x00};

    HELD(no_content(bytes, SGH_LIMIT + 1, 0, SGH_INPUT_TOO_LONG, 0, 0) && no_content(bytes, SGH_LIMIT + 1, SGH_LIMIT + 1, SGH_INPUT_TOO_LONG, 0, 0) && no_content(bytes, SGH_LIMIT + 1, SIZE_MAX, SGH_INPUT_TOO_LONG, 0, 0));
    HELD(walks(bytes, SGH_LIMIT, SGH_LIMIT - 1, (sgh_walked){1, 1, {0, 0, 0}}) && begins(bytes, SGH_LIMIT, SGH_LIMIT - 1, (sgh_item){.kind = SGH_END_MARK, .next = SGH_LIMIT}));
    HELD(no_content(bytes, SGH_LIMIT, SGH_LIMIT, SGH_UNEXPECTED_EOF, 0, SGH_LIMIT) && no_content(bytes, SGH_LIMIT, SIZE_MAX, SGH_UNEXPECTED_EOF, 0, SGH_LIMIT));
    memcpy(bytes, list, sizeof list);
    HELD(walks(bytes, SGH_LIMIT, 0, (sgh_walked){SGH_LIMIT, SGH_LIMIT - sizeof list, {0, 0, 0}}) && begins(bytes, SGH_LIMIT, 0, (sgh_item){.kind = SGH_LIST, .count = SGH_LIMIT - sizeof list, .next = sizeof list}));
    bytes[sizeof list - 1]++;
    HELD(not_walked(bytes, SGH_LIMIT, 0, SGH_UNEXPECTED_EOF, 0, SGH_LIMIT) && not_walked(bytes, SGH_LIMIT + 1, 0, SGH_INPUT_TOO_LONG, 0, 0));
    memcpy(bytes, string, sizeof string);
    HELD(walks(bytes, SGH_LIMIT, 0, (sgh_walked){SGH_LIMIT, 1, {0, 0, 0}}) && begins(bytes, SGH_LIMIT, 0, (sgh_item){.kind = SGH_LEAF, .content = {sizeof string, SGH_LIMIT - sizeof string}, .next = SGH_LIMIT}));
    bytes[sizeof string - 1]++;
    HELD(no_content(bytes, SGH_LIMIT, 0, SGH_UNEXPECTED_EOF, 0, SGH_LIMIT));
    memset(bytes, 0, sizeof string);
}

/* ---- lost bytes */

static const sgh_loss NO_LOSS;

/* What a watch is lent, and a loss of which every number must be written. */
struct watched {
    struct lent l;
    sgh_watch w;
    sgh_loss loss;
};

static struct watched watching(uint8_t way)
{
    struct watched x = {fresh(way), {0}, {TOP, TOP, TOP}};

    return x;
}

static bool same_watched(const struct watched *x, const struct watched *y)
{
    return same(&x->l, &y->l) && memcmp(&x->w, &y->w, sizeof x->w) == 0 && memcmp(&x->loss, &y->loss, sizeof x->loss) == 0;
}

/* Whether a slice gives this, takes so many bytes and tells this loss; the values of a push stay. */
static bool watches(struct watched *x, const uint8_t *chunk, size_t len, uint32_t answer, size_t taken, sgh_loss wanted)
{
    x->loss = (sgh_loss){TOP, TOP, TOP};
    return sgh_watch_slice(&x->l.d, &x->w, x->l.buf, CAPACITY, chunk, len, &x->l.n, &x->loss) == answer && x->l.n == taken && memcmp(&x->loss, &wanted, sizeof wanted) == 0 && says(&x->l, 0, 0, 0, 0, 0);
}

static bool ended(struct watched *x, uint32_t answer, sgh_loss wanted)
{
    x->loss = (sgh_loss){TOP, TOP, TOP};
    return sgh_watch_end(&x->l.d, &x->w, &x->loss) == answer && memcmp(&x->loss, &wanted, sizeof wanted) == 0;
}

static bool is_watch(const sgh_watch *w, uint64_t pushed, uint64_t begun, uint64_t matched, uint64_t start_end)
{
    return w->pushed == pushed && w->begun == begun && w->matched == matched && w->start_end == start_end;
}

/* Noise, a frame, a cut one, a start behind a 1b, and the end; each number of the watch behind each. */
static void watched(void)
{
    struct watched x = watching(SGH_FIRST_WAY);

    HELD(sizeof(sgh_watch) == 8 * SGH_WATCH_WORDS && sizeof(sgh_loss) == 8 * SGH_LOSS_WORDS);
    HELD(watches(&x, (const uint8_t[]){7, 0x1b, 8}, 3, SGH_GOOD, 3, NO_LOSS) && is_watch(&x.w, 3, 0, 0, 0));
    HELD(watches(&x, FRAME, 0, SGH_GOOD, 0, NO_LOSS) && watches(&x, NULL, 0, SGH_GOOD, 0, NO_LOSS) && is_watch(&x.w, 3, 0, 0, 0));
    HELD(watches(&x, FRAME, 5, SGH_GOOD, 5, NO_LOSS) && is_watch(&x.w, 8, 0, 5, 0));
    HELD(watches(&x, FRAME + 5, sizeof FRAME - 5, SGH_LOST, 3, (sgh_loss){SGH_CAUSE_NOISE, 1, 3}) && is_watch(&x.w, 11, 3, 8, 8));
    HELD(watches(&x, FRAME + 8, sizeof FRAME - 8, SGH_PAYLOAD, 12, (sgh_loss){0, 4, 23}) && is_watch(&x.w, 23, 23, 0, 0));
    HELD(sgh_payload(&x.l.d, x.l.buf, CAPACITY, &x.l.n) == SGH_GOOD && x.l.n == 4 && memcmp(x.l.buf, FRAME + START_LEN, 4) == 0);
    HELD(watches(&x, FRAME, 11, SGH_GOOD, 11, NO_LOSS) && is_watch(&x.w, 34, 23, 8, 8));
    HELD(watches(&x, FRAME, sizeof FRAME, SGH_LOST, START_LEN, (sgh_loss){SGH_CAUSE_CUT, 24, 34}) && is_watch(&x.w, 42, 34, 8, 8));
    HELD(watches(&x, FRAME + 8, sizeof FRAME - 8, SGH_PAYLOAD, 12, (sgh_loss){0, 35, 54}) && is_watch(&x.w, 54, 54, 0, 0));
    HELD(watches(&x, FRAME, 1, SGH_GOOD, 1, NO_LOSS) && watches(&x, FRAME, sizeof FRAME, SGH_GOOD, sizeof FRAME, NO_LOSS) && is_watch(&x.w, 75, 54, 8, 9));
    HELD(ended(&x, SGH_LOST, (sgh_loss){SGH_CAUSE_HIDDEN, 55, 75}) && is_watch(&x.w, 75, 75, 0, 0));
    HELD(ended(&x, SGH_FINISHED, NO_LOSS) && is_watch(&x.w, 75, 75, 0, 0));
    HELD(watches(&x, FRAME, 9, SGH_GOOD, 9, NO_LOSS) && ended(&x, SGH_LOST, (sgh_loss){SGH_CAUSE_UNFINISHED, 76, 84}));
}

/* What is no decoder or no watch is 4, a buffer of another length 5, 4 first; both leave all, and take no byte. Counts that are none of a search or frame are taken. */
static void no_watches(void)
{
    static const sgh_watch bad[] = {{0, 1, 0, 0}, {5, 6, 0, 0}, {0, 0, 256, 0}, {0, 0, TOP, 0}, {TOP, 0, 0, 0}, {TOP - 1, 0, 0, 0}};
    struct watched x = watching(SGH_FIRST_WAY), before;

    for (unsigned k = 0; k < sizeof bad / sizeof *bad; k++) {
        x = watching(SGH_SECOND_WAY);
        x.w = bad[k];
        before = x;
        before.loss = NO_LOSS;
        before.l.n = 0;
        HELD(watches(&x, FRAME, 1, SGH_BAD_STATE, 0, NO_LOSS) && same_watched(&x, &before));
        HELD(sgh_watch_slice(&x.l.d, &x.w, x.l.buf, CAPACITY - 1, FRAME, 1, &x.l.n, &x.loss) == SGH_BAD_STATE && same_watched(&x, &before));
        HELD(k == 5 ? ended(&x, SGH_FINISHED, NO_LOSS) && x.w.pushed == TOP - 1 : ended(&x, SGH_BAD_STATE, NO_LOSS) && same_watched(&x, &before));
    }
    /* the last bytes that can be counted */
    x = watching(SGH_FIRST_WAY);
    x.w = (sgh_watch){TOP - 3, TOP - 3, 0, 0};
    HELD(watches(&x, FRAME, 3, SGH_BAD_STATE, 0, NO_LOSS) && watches(&x, FRAME, 2, SGH_GOOD, 2, NO_LOSS) && ended(&x, SGH_LOST, (sgh_loss){SGH_CAUSE_NOISE, TOP - 2, TOP - 1}));
    x = watching(SGH_FIRST_WAY);
    x.w.matched = 255;
    HELD(watches(&x, FRAME, 1, SGH_GOOD, 1, NO_LOSS));
    x = watching(SGH_FIRST_WAY);
    memset(&x.l.d, 0, sizeof x.l.d);
    before = x;
    before.loss = NO_LOSS;
    before.l.n = 0;
    HELD(watches(&x, FRAME, 1, SGH_BAD_STATE, 0, NO_LOSS) && same_watched(&x, &before) && ended(&x, SGH_BAD_STATE, NO_LOSS) && same_watched(&x, &before));
    x = watching(SGH_FIRST_WAY);
    before = x;
    before.loss = NO_LOSS;
    before.l.n = 0;
    HELD(sgh_watch_slice(&x.l.d, &x.w, x.l.buf, CAPACITY - 1, FRAME, 1, &x.l.n, &x.loss) == SGH_WRONG_BUFFER && same_watched(&x, &before));
    HELD(sgh_watch_slice(&x.l.d, &x.w, NULL, 0, NULL, 0, &x.l.n, &x.loss) == SGH_WRONG_BUFFER && same_watched(&x, &before));
}

/* Whether the next loss is this, with this answer; of nothing but refusals and ends the buffer stays. */
static bool loses(const uint8_t *s, size_t len, uint8_t way, size_t capacity, size_t from, uint32_t answer, sgh_loss wanted)
{
    sgh_loss loss = {TOP, TOP, TOP};

    return sgh_next_loss(s, len, way, out, capacity, from, &loss) == answer && memcmp(&loss, &wanted, sizeof wanted) == 0;
}

/* From each place of the frame, and beyond it; what is refused; the longest buffer, and one byte more. */
static void next_losses(void)
{
    static const uint8_t unknown[] = {0, 3, 255};
    uint8_t stray[1 + sizeof FRAME] = {0x1b};

    memcpy(stray + 1, FRAME, sizeof FRAME);
    HELD(loses(stray, sizeof stray, SGH_FIRST_WAY, CAPACITY, 0, SGH_LOST, (sgh_loss){SGH_CAUSE_HIDDEN, 1, 21}) && loses(stray, sizeof stray, SGH_FIRST_WAY, CAPACITY, 21, SGH_FINISHED, NO_LOSS));
    HELD(loses(stray, sizeof stray, SGH_SECOND_WAY, CAPACITY, 0, SGH_LOST, (sgh_loss){SGH_CAUSE_NOISE, 1, 1}) && loses(stray, sizeof stray, SGH_SECOND_WAY, CAPACITY, 1, SGH_FINISHED, NO_LOSS));
    HELD(loses(FRAME, sizeof FRAME, SGH_FIRST_WAY, CAPACITY, 0, SGH_FINISHED, NO_LOSS) && loses(FRAME, sizeof FRAME, SGH_FIRST_WAY, CAPACITY - 1, 0, SGH_LOST, (sgh_loss){SGH_CAUSE_ROOM, 1, 20}));
    for (size_t from = 1; from < sizeof FRAME; from++)
        HELD(loses(FRAME, sizeof FRAME, SGH_FIRST_WAY, CAPACITY, from, SGH_LOST, (sgh_loss){SGH_CAUSE_NOISE, from + 1, sizeof FRAME}));
    HELD(loses(FRAME, sizeof FRAME, SGH_FIRST_WAY, 0, sizeof FRAME, SGH_FINISHED, NO_LOSS) && loses(FRAME, sizeof FRAME, SGH_FIRST_WAY, 0, SIZE_MAX, SGH_FINISHED, NO_LOSS));
    for (unsigned k = 0; k < sizeof unknown; k++)
        HELD(loses(FRAME, sizeof FRAME, unknown[k], CAPACITY, 0, SGH_BAD_STATE, NO_LOSS) && loses(FRAME, sizeof FRAME, unknown[k], SGH_LIMIT + 1, SIZE_MAX, SGH_BAD_STATE, NO_LOSS));
    HELD(loses(FRAME, sizeof FRAME, SGH_SECOND_WAY, SGH_LIMIT + 1, 0, SGH_WRONG_BUFFER, NO_LOSS) && loses(NULL, 0, SGH_FIRST_WAY, SGH_LIMIT + 1, 0, SGH_WRONG_BUFFER, NO_LOSS));
    HELD(loses(stray, sizeof stray, SGH_FIRST_WAY, SGH_LIMIT, 0, SGH_LOST, (sgh_loss){SGH_CAUSE_HIDDEN, 1, 21}));
    memset(out, 0xa5, CAPACITY + 1);
    HELD(loses(FRAME, sizeof FRAME, SGH_FIRST_WAY, CAPACITY, 0, SGH_FINISHED, NO_LOSS) && memcmp(out, FRAME + START_LEN, 4) == 0 && memcmp(out + 4, FRAME + 16, 4) == 0 && out[CAPACITY] == 0xa5);
    HELD(loses(FRAME, sizeof FRAME, 3, CAPACITY, 0, SGH_BAD_STATE, NO_LOSS) && out[4] == FRAME[16]);
}

/* A recording, a buffer or a slice of no byte may be null. */
static void null_losses(void)
{
    sgh_decoder d;
    sgh_watch watch = {0};
    sgh_loss loss = {TOP, TOP, TOP};
    size_t n;

    sgh_decoder_new(&d, 0, SGH_FIRST_WAY);
    HELD(sgh_watch_slice(&d, &watch, NULL, 0, NULL, 0, &n, &loss) == SGH_GOOD && n == 0 && memcmp(&loss, &NO_LOSS, sizeof loss) == 0);
    HELD(sgh_watch_slice(&d, &watch, NULL, 0, FRAME, sizeof FRAME, &n, &loss) == SGH_LOST && n == 9 && loss.causes == SGH_CAUSE_ROOM && loss.last == 9);
    HELD(sgh_next_loss(NULL, 0, SGH_FIRST_WAY, NULL, 0, 0, &loss) == SGH_FINISHED && sgh_next_loss(FRAME, 1, SGH_FIRST_WAY, NULL, 0, 0, &loss) == SGH_LOST && loss.causes == SGH_CAUSE_NOISE);
}

/* ---- messages that are written */

/* The strings of the events below: a transaction, a name. */
static const uint8_t STRINGS[] = {0xdd, 0x43, 0x44, 0x00, 1, 0, 1, 8, 0, 0xff};
/* CLOSE's own event, a list that announces n entries, an entry of 7 under the name, a list's end. */
static const sgh_event CLOSES = {.kind = SGH_MESSAGE_START, .message = {.transaction_id = {0, 4}, .body = SGH_CLOSE_RESPONSE}};
static const sgh_event ENTRY = {.kind = SGH_LIST_ENTRY, .entry = {.obj_name = {4, 6}, .value = {.kind = SGH_VALUE_UNSIGNED, .width = 1, .number = 7}}};
static const sgh_event END = {.kind = SGH_GET_LIST_RESPONSE_END};
#define ROOM 128u
#define OVER_32 4294967296

static sgh_event starts(uint64_t n)
{
    return (sgh_event){.kind = SGH_MESSAGE_START, .message = {.transaction_id = {0, 4}, .body = SGH_GET_LIST_RESPONSE, .list = {.server_id = {0, 2}, .num_vals = n}}};
}

static uint32_t write_to(sgh_writer *w, const sgh_event *e)
{
    return sgh_write_event(out, ROOM, STRINGS, sizeof STRINGS, e, w);
}

static bool is_writer(const sgh_writer *w, uint64_t place, uint64_t state, uint64_t left)
{
    return w->place == place && w->state == state && w->left == left && (state ? w->crc <= UINT16_MAX : w->crc == 0);
}

/* Whether a call gives this number and leaves output and writer. */
static bool leaves(uint32_t number, const sgh_event *e, sgh_writer w)
{
    sgh_writer before = w;
    uint8_t kept[ROOM];

    memcpy(kept, out, ROOM);
    return write_to(&w, e) == number && memcmp(&w, &before, sizeof w) == 0 && memcmp(out, kept, ROOM) == 0;
}

static void writing(void)
{
    sgh_writer w = {0};
    sgh_event list = starts(2);

    HELD(sizeof w == 32);
    memset(out, 0xa5, ROOM);
    HELD(write_to(&w, &CLOSES) == SGH_GOOD && is_writer(&w, sizeof CLOSE, 0, 0) && memcmp(out, CLOSE, sizeof CLOSE) == 0 && all_are(out + sizeof CLOSE, ROOM - sizeof CLOSE, 0xa5));
    HELD(leaves(SGH_WRONG_NUMBER, &ENTRY, w) && leaves(SGH_WRONG_NUMBER, &END, w));
    HELD(write_to(&w, &list) == SGH_GOOD && is_writer(&w, sizeof CLOSE + 22, 1, 2));
    HELD(leaves(SGH_WRONG_NUMBER, &END, w));
    HELD(write_to(&w, &ENTRY) == SGH_GOOD && w.left == 1 && write_to(&w, &ENTRY) == SGH_GOOD && is_writer(&w, sizeof CLOSE + 22 + 2 * 15, 1, 0));
    HELD(leaves(SGH_WRONG_NUMBER, &ENTRY, w));
    HELD(write_to(&w, &END) == SGH_GOOD && w.state == 0 && w.left == 0 && w.crc == 0);

    /* what was written is read, and ends with the writer's place */
    sgh_reader r = {0};
    sgh_event e;
    for (int i = 0; i < 5; i++)
        HELD(sgh_next_event(out, w.place, &r, &e) == SGH_GOOD);
    HELD(e.kind == SGH_GET_LIST_RESPONSE_END && sgh_next_event(out, w.place, &r, &e) == SGH_FINISHED && r.place == w.place);
}

/* Events that can't be: kinds, bodies, flags, widths, numbers over their types, and words that aren't used. */
static void no_events(void)
{
    static const struct { uint8_t at; uint64_t word; } wrong[] = {{0, 0}, {0, 4}, {0, 5}, {0, TOP}, {3, 2}, {5, 1}, {6, 2}, {7, 1}, {7, OVER_32}, {8, TOP}, {9, 1}, {9, 256}, {10, 2}, {11, 1}, {12, 0}, {12, 6}, {13, 0}, {13, 3}, {13, 16}, {14, 256}, {15, 1}, {16, 1}, {17, 2}, {18, 1}, {20, 1}, {23, 1}};
    sgh_writer due = {5, 1, 2, 65535};

    HELD(leaves(SGH_BAD_STATE, &(sgh_event){0}, due));
    for (unsigned k = 0; k < sizeof wrong / sizeof *wrong; k++) {
        sgh_event e = ENTRY;
        memcpy((uint8_t *)&e + 8 * wrong[k].at, &wrong[k].word, 8);
        HELD(leaves(SGH_BAD_STATE, &e, due));
    }
    sgh_event e = CLOSES;
    e.message.body = 4;
    HELD(leaves(SGH_BAD_STATE, &e, due));
    e.message.body = SGH_CLOSE_RESPONSE;
    e.message.group_no = 256;
    HELD(leaves(SGH_BAD_STATE, &e, due));
    e = starts(OVER_32);
    HELD(leaves(SGH_BAD_STATE, &e, due));
    /* a scaler of -129 */
    e = ENTRY;
    e.entry.scaler = (sgh_opt_signed){1, -129};
    HELD(leaves(SGH_BAD_STATE, &e, due));
    e.entry.scaler.value = -128;
    HELD(write_to(&due, &e) == SGH_GOOD);
}

/* Writers that can't be, whatever the event; then a place, what is due, the strings and the room, in this order. */
static void writers(void)
{
    static const sgh_writer wrong[] = {{0, 2, 0, 0}, {0, TOP, 0, 0}, {0, 0, 1, 0}, {0, 0, 0, 1}, {0, 1, OVER_32, 0}, {0, 1, 1, 65536}, {0, 1, TOP, TOP}};
    sgh_event outside = ENTRY, list = starts(0);

    for (unsigned k = 0; k < sizeof wrong / sizeof *wrong; k++)
        HELD(leaves(SGH_BAD_STATE, &CLOSES, wrong[k]) && leaves(SGH_BAD_STATE, &ENTRY, wrong[k]) && leaves(SGH_BAD_STATE, &END, wrong[k]));
    outside.entry.obj_name.len = 7;
    HELD(leaves(SGH_BAD_STATE, &outside, (sgh_writer){ROOM + 1, 1, 0, 0}) && leaves(SGH_BAD_STATE, &CLOSES, (sgh_writer){TOP, 0, 0, 0}));
    HELD(leaves(SGH_WRONG_NUMBER, &outside, (sgh_writer){ROOM, 1, 0, 0}) && leaves(SGH_WRONG_NUMBER, &outside, (sgh_writer){ROOM, 0, 0, 0}));
    HELD(leaves(SGH_BAD_SPAN, &outside, (sgh_writer){ROOM, 1, 1, 0}));
    HELD(leaves(SGH_OUTPUT_TOO_SHORT, &ENTRY, (sgh_writer){ROOM, 1, 1, 0}) && leaves(SGH_OUTPUT_TOO_SHORT, &ENTRY, (sgh_writer){ROOM - 14, 1, 1, 0}));
    HELD(leaves(SGH_OUTPUT_TOO_SHORT, &CLOSES, (sgh_writer){ROOM - sizeof CLOSE + 1, 0, 0, 0}));
    outside = list;
    outside.message.list.server_id = (sgh_span){TOP, 1};
    HELD(leaves(SGH_BAD_SPAN, &outside, (sgh_writer){0, 0, 0, 0}));
    /* a start is due anywhere, the greatest numbers are taken */
    sgh_writer w = {0, 1, (OVER_32 - 1), UINT16_MAX};
    HELD(write_to(&w, &ENTRY) == SGH_GOOD && is_writer(&w, 15, 1, (OVER_32 - 1) - 1));
    HELD(write_to(&w, &list) == SGH_GOOD && is_writer(&w, 15 + 22, 1, 0));
}

/* A null pointer with length 0 is an empty slice, wherever one is taken. */
static void nulls(void)
{
    struct lent l = UNTOUCHED;
    sgh_encoder encoder;
    sgh_reader r = {0};
    sgh_event e = used();
    sgh_message m;
    uint8_t empty[16], byte;
    size_t n = 77;

    sgh_decoder_new(&l.d, 0, SGH_SECOND_WAY);
    for (unsigned i = 0; i < START_LEN; i++)
        HELD(sgh_push_byte(&l.d, NULL, 0, FRAME[i], l.values) == SGH_GOOD);
    HELD(sgh_push_slice(&l.d, NULL, 0, NULL, 0, &n, l.values) == SGH_GOOD && n == 0);
    HELD(sgh_push_slice(&l.d, NULL, 0, FRAME + START_LEN, 4, &n, l.values) == SGH_DECODER_OUT_OF_MEMORY && n == 1);
    n = 77;
    HELD(sgh_payload(&l.d, NULL, 0, &n) == SGH_BAD_SPAN && n == 0);
    l = fresh(SGH_FIRST_WAY);
    HELD(sgh_push_byte(&l.d, NULL, 0, 0, l.values) == SGH_WRONG_BUFFER);
    HELD(sgh_push_slice(&l.d, NULL, 0, NULL, 0, &n, l.values) == SGH_WRONG_BUFFER);
    HELD(push_slice(&l, NULL, 0) == SGH_GOOD && l.n == 0);
    HELD(sgh_encode(NULL, 0, empty, sizeof empty, &n) == SGH_GOOD && n == sizeof empty && empty[14] == 0xc6 && empty[15] == 0xe5);
    HELD(sgh_encode(NULL, 0, NULL, 0, &n) == SGH_ENCODE_OUT_OF_MEMORY && n == 0);
    HELD(gives(NULL, 0, empty, sizeof empty));
    sgh_encoder_new(&encoder);
    encoder.place = 1;
    HELD(sgh_encoder_next(&encoder, NULL, 0, &byte) == SGH_BAD_STATE);
    HELD(sgh_crc(NULL, 0) == 0);
    HELD(sgh_next_event(NULL, 0, &r, &e) == SGH_FINISHED && ends_at(&e, SGH_NO_EVENT, 1) && is_reader(&r, 0, 0, 0));
    HELD(refuses(NULL, 0, 0, 0, SGH_UNEXPECTED_EOF, 0, 0) && refuses(NULL, 0, 1, NUMBERS, SGH_BAD_STATE, 0, 0));
    sgh_index x;
    HELD(sgh_build_index(NULL, 0, 0, NULL, 0, &x) == SGH_UNEXPECTED_EOF && is_index(&x, 0, 0, SGH_UNEXPECTED_EOF, 0, 0) && sgh_build_index(SIX, sizeof SIX, 0, NULL, 0, &x) == SGH_TOO_MANY_ENTRIES);
    sgh_row row = UNFOUND;
    HELD(sgh_look_up(NULL, 0, NULL, 0, NULL, 0, &row) == SGH_NOT_FOUND && memcmp(&row, &UNFOUND, sizeof row) == 0);
    HELD(sgh_look_up(NULL, 0, (const uint32_t[SGH_ROW_NUMBERS]){0}, SGH_ROW_NUMBERS, NULL, 0, &row) == SGH_GOOD && memcmp(&row, &(sgh_row){0, 0, 0, 0}, sizeof row) == 0);
    HELD(no_content(NULL, 0, 0, SGH_UNEXPECTED_EOF, 0, 0) && no_content(NULL, 0, 1, SGH_UNEXPECTED_EOF, 0, 0) && no_content(NULL, 0, SIZE_MAX, SGH_UNEXPECTED_EOF, 0, 0));
    HELD(sgh_read_message(TWO, sizeof TWO, 0, NULL, 0, &m) == SGH_TOO_MANY_ENTRIES && refused(&m.start, SGH_REFUSED_ALONE, SGH_TOO_MANY_ENTRIES, 0, 0) && m.next == 0);
    sgh_writer w = {0};
    HELD(sgh_write_event(NULL, 0, NULL, 0, &END, &w) == SGH_WRONG_NUMBER && sgh_write_event(NULL, 0, NULL, 0, &CLOSES, &w) == SGH_BAD_SPAN);
    e = CLOSES;
    e.message.transaction_id.len = 0;
    HELD(sgh_write_event(NULL, 0, NULL, 0, &e, &w) == SGH_OUTPUT_TOO_SHORT && sgh_write_event(out, ROOM, NULL, 0, &e, &w) == SGH_GOOD);
}

static int calls(void)
{
    making();
    pushing_bytes();
    pushing_slices();
    no_decoders();
    wrong_buffers();
    payloads();
    ends();
    moved();
    longest();
    encoding();
    encoders();
    encoder_words();
    reading();
    readers();
    wholes();
    unread_messages();
    indexes();
    lookups();
    items();
    elements();
    depths();
    longest_contents();
    watched();
    no_watches();
    next_losses();
    null_losses();
    writing();
    no_events();
    writers();
    nulls();
    HELD(sgh_crc((const uint8_t *)"123456789", 9) == 0x906e);
    printf("%u facts, %u failed\n", held, failed);
    return failed ? 1 : 0;
}

/* ---- answers */

static void put_hex(const uint8_t *s, uint64_t len)
{
    for (uint64_t i = 0; i < len; i++)
        printf("%02x", s[i]);
}

static void put_string(const char *name, const uint8_t *s, uint64_t present, uint64_t start, uint64_t len)
{
    printf(" %s=%s", name, present ? "x" : "-");
    put_hex(s + start, len);
}

static void put_span(const char *name, const uint8_t *s, sgh_span p)
{
    put_string(name, s, 1, p.start, p.len);
}

static void put_opt_span(const char *name, const uint8_t *s, sgh_opt_span p)
{
    put_string(name, s, p.present, p.start, p.len);
}

static void put_opt(const char *name, const char *before, sgh_opt_unsigned n)
{
    if (n.present)
        printf(" %s=%s%" PRIu64, name, before, n.value);
    else
        printf(n.value ? " %s=absent, and not 0" : " %s=-", name);
}

static void put_value(const uint8_t *s, const sgh_value *v)
{
    printf(" value=");
    if (v->kind == SGH_VALUE_BYTES) {
        printf("oct:");
        put_hex(s + v->bytes.start, v->bytes.len);
    } else if (v->kind == SGH_VALUE_SIGNED) {
        printf("i%" PRIu64 ":%" PRId64, 8 * v->width, (int64_t)v->number);
    } else if (v->kind == SGH_VALUE_UNSIGNED) {
        printf("u%" PRIu64 ":%" PRIu64, 8 * v->width, v->number);
    } else {
        printf("%s%" PRIu64, v->kind == SGH_VALUE_BOOL ? "bool:" : "list:sec:", v->number);
    }
}

static void put_entry(const uint8_t *s, const sgh_list_entry *e)
{
    printf("entry");
    put_span("name", s, e->obj_name);
    if (e->status.present)
        printf(" status=u%" PRIu64 ":%" PRIu64, 8 * e->status.width, e->status.value);
    else
        printf(" status=-");
    put_opt("time", "sec:", e->val_time);
    put_opt("unit", "", e->unit);
    if (e->scaler.present)
        printf(" scaler=%" PRId64, e->scaler.value);
    else
        printf(" scaler=-");
    put_value(s, &e->value);
    put_opt_span("sig", s, e->value_signature);
}

static void put_body(const uint8_t *s, const sgh_message_start *m)
{
    if (m->body == SGH_OPEN_RESPONSE) {
        put_opt_span("codepage", s, m->open.codepage);
        put_opt_span("client", s, m->open.client_id);
        put_span("file", s, m->open.req_file_id);
        put_span("server", s, m->open.server_id);
        put_opt("time", "sec:", m->open.ref_time);
        put_opt("version", "", m->open.sml_version);
    } else if (m->body == SGH_CLOSE_RESPONSE) {
        put_opt_span("sig", s, m->close.global_signature);
    } else {
        put_opt_span("client", s, m->list.client_id);
        put_span("server", s, m->list.server_id);
        put_opt_span("name", s, m->list.list_name);
        put_opt("time", "sec:", m->list.act_sensor_time);
        printf(" n=%" PRIu64, m->list.num_vals);
    }
}

static void put_event(const uint8_t *s, const sgh_event *e)
{
    static const char *const bodies[] = {"body 0", "open", "close", "list"};

    if (e->kind == SGH_MESSAGE_START) {
        printf("%s", bodies[e->message.body]);
        put_span("tid", s, e->message.transaction_id);
        printf(" group=%" PRIu64 " abort=%" PRIu64, e->message.group_no, e->message.abort_on_error);
        put_body(s, &e->message);
    } else if (e->kind == SGH_LIST_ENTRY) {
        put_entry(s, &e->entry);
    } else if (e->kind == SGH_GET_LIST_RESPONSE_END) {
        printf("end");
        put_opt_span("sig", s, e->end.list_signature);
        put_opt("time", "sec:", e->end.act_gateway_time);
    } else if (e->kind == SGH_NO_EVENT) {
        printf("none");
    } else {
        printf("err %" PRIu64 " %" PRIu64 " @%" PRIu64, e->refused.number, e->refused.kind, e->refused.place);
    }
}

/* As `places` of bin/replay: up to the first call without an event, or to a refusal and three more calls. */
static void answer_events(const uint8_t *s, size_t len)
{
    sgh_reader r = {0};
    sgh_event e;
    uint32_t answer = SGH_GOOD;

    while (answer == SGH_GOOD) {
        answer = sgh_next_event(s, len, &r, &e);
        put_event(s, &e);
        fputs(answer == SGH_GOOD ? " | " : "", stdout);
    }
    for (int more = answer == SGH_FINISHED ? 0 : 3; more > 0; more--) {
        sgh_next_event(s, len, &r, &e);
        fputs(" | ", stdout);
        put_event(s, &e);
    }
}

/* The entry at a row. */
static void put_row(const uint8_t *s, size_t len, const sgh_row *row)
{
    sgh_reader r = {row->entry_start, row->entry_start, 3};
    sgh_event e;

    sgh_next_event(s, len, &r, &e);
    put_event(s, &e);
    fputs(" | ", stdout);
}

static sgh_row rows[SGH_LIMIT / 8];
#define ROWS_NUMBERS (SGH_ROW_NUMBERS * (sizeof rows / sizeof *rows))

/* Message by message, an entry at its row, up to the input's end or a refusal. */
static void answer_messages(const uint8_t *s, size_t len)
{
    sgh_message m;
    uint32_t answer = SGH_GOOD;

    for (size_t at = 0; at < len && answer == SGH_GOOD; at = m.next) {
        answer = sgh_read_message(s, len, at, (uint32_t *)rows, ROWS_NUMBERS, &m);
        put_event(s, &m.start);
        fputs(answer == SGH_GOOD ? " | " : "", stdout);
        for (uint64_t i = 0; i < m.rows; i++)
            put_row(s, len, &rows[i]);
        if (m.end.kind != SGH_NO_EVENT) {
            put_event(s, &m.end);
            fputs(" | ", stdout);
        }
    }
    fputs(answer == SGH_GOOD ? "none" : "", stdout);
}

/* Message by message, the entries by name, behind each the one that is found by its name, up to the input's end or a refusal. */
static void answer_indexes(const uint8_t *s, size_t len)
{
    sgh_index x;
    sgh_row found;
    uint32_t answer = SGH_GOOD;

    for (size_t at = 0; at < len && answer == SGH_GOOD; at = x.next) {
        answer = sgh_build_index(s, len, at, (uint32_t *)rows, ROWS_NUMBERS, &x);
        for (uint64_t i = 0; i < x.rows; i++) {
            put_row(s, len, &rows[i]);
            if (sgh_look_up(s, len, (const uint32_t *)rows, SGH_ROW_NUMBERS * x.rows, s + rows[i].name_start, rows[i].name_len, &found) == SGH_GOOD)
                put_row(s, len, &found);
        }
        if (answer != SGH_GOOD)
            printf("err %" PRIu64 " %" PRIu64 " @%" PRIu64, x.refused.number, x.refused.kind, x.refused.place);
    }
    fputs(answer == SGH_GOOD ? "none" : "", stdout);
}

static void put_refused(const sgh_refusal *r)
{
    printf(" %" PRIu64 " %" PRIu64 " %" PRIu64, r->number, r->kind, r->place);
}

/* What begins at a place, and the walk from there: each call's answer and all words. */
static void answer_content(const uint8_t *s, size_t len, size_t at)
{
    sgh_item i;
    sgh_walked w;

    printf("%" PRIu32, sgh_read_item(s, len, at, &i));
    printf(" %" PRIu64 " %" PRIu64 " %" PRIu64 " %" PRIu64 " %" PRIu64 " %" PRIu64, i.kind, i.ty, i.content.start, i.content.len, i.count, i.next);
    put_refused(&i.refused);
    printf(" | %" PRIu32, sgh_walk(s, len, at, &w));
    printf(" %" PRIu64 " %" PRIu64, w.bytes, w.leaves);
    put_refused(&w.refused);
}

static void put_loss(const sgh_loss *x)
{
    printf(" %" PRIu64 " %" PRIu64 " %" PRIu64, x->causes, x->first, x->last);
}

/* Frames and losses by a watch, in slices of `size` bytes, then the losses by place, each over a buffer of its own; `same` where both hold the same then. */
static void answer_losses(uint8_t way, size_t capacity, size_t size, const uint8_t *s, size_t len)
{
    uint8_t *by_place = out + SGH_LIMIT;
    sgh_decoder d;
    sgh_watch w = {0};
    sgh_loss loss;
    size_t taken = 1;

    sgh_decoder_new(&d, capacity, way);
    memset(out, 0, capacity);
    memset(by_place, 0, capacity);
    for (size_t i = 0; i < len && taken > 0; i += taken)
        if (sgh_watch_slice(&d, &w, out, capacity, s + i, len - i < size ? len - i : size, &taken, &loss) != SGH_GOOD)
            put_loss(&loss);
    if (sgh_watch_end(&d, &w, &loss) == SGH_LOST)
        put_loss(&loss);
    printf(" %" PRIu64 " %" PRIu64 " |", w.pushed, w.begun);
    for (loss = NO_LOSS; sgh_next_loss(s, len, way, by_place, capacity, loss.last, &loss) == SGH_LOST;)
        put_loss(&loss);
    fputs(memcmp(out, by_place, capacity) == 0 ? " | same" : " | differ", stdout);
}

static void put_answer(uint32_t answer, const uint8_t *buf, const uint64_t v[SGH_VALUES])
{
    if (answer == SGH_PAYLOAD) {
        fputs(v[0] ? "payload " : "payload", stdout);
        put_hex(buf, v[0]);
    } else if (answer == SGH_DISCARDED_BYTES) {
        printf("discarded %" PRIu64, v[0]);
    } else if (answer == SGH_INVALID_ESC) {
        printf("escape %02" PRIx64 "%02" PRIx64 "%02" PRIx64 "%02" PRIx64, v[0], v[1], v[2], v[3]);
    } else if (answer == SGH_INVALID_MESSAGE) {
        printf("invalid %04" PRIx64 " %04" PRIx64 " %s %" PRIu64, v[0], v[1], v[2] ? "misaligned" : "aligned", v[3]);
    } else if (answer == SGH_DECODER_OUT_OF_MEMORY) {
        fputs("memory", stdout);
    } else {
        printf("answer %" PRIu32, answer);
    }
}

/* Prints an answer that says something, behind `before` others; gives how many there are then. */
static unsigned put_said(unsigned before, size_t index, uint32_t answer, const uint8_t *buf, const uint64_t v[SGH_VALUES])
{
    if (answer == SGH_GOOD)
        return before;
    printf("%s%zu:", before ? ";" : "", index);
    put_answer(answer, buf, v);
    return before + 1;
}

/* As `push` of bin/replay, with finalize at the end: in chunks of `size` bytes, or by single pushes where that is 0. */
static void answer_push(uint8_t way, size_t capacity, size_t size, const uint8_t *s, size_t len)
{
    sgh_decoder d;
    uint64_t v[SGH_VALUES];
    size_t taken = 1;
    unsigned said = 0;

    sgh_decoder_new(&d, capacity, way);
    for (size_t i = 0; i < len && taken > 0; i += taken) {
        size_t n = len - i < size ? len - i : size;
        uint32_t answer = size == 0 ? sgh_push_byte(&d, out, capacity, s[i], v) : sgh_push_slice(&d, out, capacity, s + i, n, &taken, v);
        said = put_said(said, i + taken, answer, out, v);
    }
    said = put_said(said, len + 1, sgh_finalize(&d, v), out, v);
    fputs(said ? "" : "-", stdout);
}

/* The frame, if the Encoder gives the same. */
static void answer_encode(const uint8_t *s, size_t len)
{
    size_t n;

    sgh_encode(s, len, out, 2 * len + 19, &n);
    if (gives(s, len, out, n))
        put_hex(out, n);
    else
        printf("differ");
}

/* The events of an input up to the first call without one, written one behind the other. */
static void answer_written(const uint8_t *s, size_t len)
{
    sgh_reader r = {0};
    sgh_writer w = {0};
    sgh_event e;
    uint32_t number = SGH_GOOD;

    while (number == SGH_GOOD && sgh_next_event(s, len, &r, &e) == SGH_GOOD)
        number = sgh_write_event(out, sizeof out, s, len, &e, &w);
    put_hex(out, w.place);
    printf(" %" PRIu32 " %" PRIu64, number, w.left);
}

static size_t unhex(const char *text)
{
    size_t n = 0;

    for (; text[2 * n] > ' '; n++) {
        const char two[] = {text[2 * n], text[2 * n + 1], '\0'};
        bytes[n] = (uint8_t)strtoul(two, NULL, 16);
    }
    return n;
}

/* A line is a letter, three numbers (of `p` way, capacity and size of a chunk, and so of `l`, of `x` a place first) and the bytes in hex. */
static int answers(void)
{
    static char line[200000];

    while (fgets(line, sizeof line, stdin) != NULL) {
        char *at = line + 1;
        unsigned long n[3];
        for (int i = 0; i < 3; i++)
            n[i] = strtoul(at, &at, 10);
        size_t len = unhex(at + 1);
        if (line[0] == 'p')
            answer_push((uint8_t)n[0], n[1], n[2], bytes, len);
        else if (line[0] == 'l')
            answer_losses((uint8_t)n[0], n[1], n[2], bytes, len);
        else if (line[0] == 'e')
            answer_events(bytes, len);
        else if (line[0] == 'm')
            answer_messages(bytes, len);
        else if (line[0] == 'i')
            answer_indexes(bytes, len);
        else if (line[0] == 'x')
            answer_content(bytes, len, n[0]);
        else if (line[0] == 'f')
            answer_encode(bytes, len);
        else if (line[0] == 'w')
            answer_written(bytes, len);
        else
            printf("%04x", sgh_crc(bytes, len));
        putchar('\n');
    }
    return 0;
}

/* ---- a thousand decoders in one array, their memories in another (document 02, Q-11) */

#define DECODERS 1000u
#define MEMORY 24u

static sgh_decoder decoders[DECODERS];
static uint8_t memories[DECODERS][MEMORY];

/* What is said, how many bytes were taken, and the decoder's own bytes. */
static void operate(sgh_decoder *d, uint8_t *buf, char kind, size_t len)
{
    uint64_t v[SGH_VALUES] = {0};
    size_t taken = kind == 'b';
    uint32_t answer = kind == 'f'   ? sgh_finalize(d, v)
                      : kind == 'r' ? sgh_reset(d, v)
                      : kind == 'b' ? sgh_push_byte(d, buf, MEMORY, bytes[0], v)
                                    : sgh_push_slice(d, buf, MEMORY, bytes, len, &taken, v);

    if (kind == 'r' && answer == SGH_GOOD)
        printf("reset %" PRIu64, v[0]);
    else if (answer == SGH_GOOD)
        putchar('-');
    else if (answer == SGH_PAYLOAD && v[0] > MEMORY)
        printf("payload of %" PRIu64, v[0]);
    else
        put_answer(answer, buf, v);
    printf(" %zu ", taken);
    put_hex(d->bytes, SGH_DECODER_LEN);
    putchar('\n');
}

/* The even ones search in the first way, the odd ones in the second. A line is a decoder's number, a letter (b: a byte, s: a slice, f: finalize, r: reset) and the bytes in hex. */
static int thousand(void)
{
    static char line[200];

    for (unsigned i = 0; i < DECODERS; i++)
        if (sgh_decoder_new(&decoders[i], MEMORY, i % 2 ? SGH_SECOND_WAY : SGH_FIRST_WAY) != SGH_GOOD)
            return 1;
    while (fgets(line, sizeof line, stdin) != NULL) {
        char *at;
        unsigned long i = strtoul(line, &at, 10);
        bool known = at[0] == ' ' && (at[1] == 'b' || at[1] == 's' || at[1] == 'f' || at[1] == 'r');
        if (i >= DECODERS || !known || line[strlen(line) - 1] != '\n')
            return 1;
        operate(&decoders[i], memories[i], at[1], unhex(at + 3));
    }
    return 0;
}

int main(int argc, char **argv)
{
    if (argc == 2 && strcmp(argv[1], "calls") == 0)
        return calls();
    if (argc == 2 && strcmp(argv[1], "answers") == 0)
        return answers();
    if (argc == 2 && strcmp(argv[1], "thousand") == 0)
        return thousand();
    return 2;
}
