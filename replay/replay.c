/* replay: answers the commands of docs/REPLAY.md that are said by calls of the library, a line each. bin/replay runs it.

   It knows nothing of frames and messages: each answer is what the calls say. What can be asked in two ways is asked in both; where they disagree, the answer is `differ`. */
#include <stdbool.h>
#include <stdint.h>
#include <string.h>
#include <unistd.h>

#include <sartrogheo.h>

#define LONGEST 70000u        /* the characters of a line */
#define BYTES (LONGEST / 2u)  /* more than a line holds in hex */
#define ROOM (SGH_LIMIT + 1u) /* the largest output or table, and one more than a decoder takes */
#define TIMES 1048576u        /* how often zN:HH pushes its byte at the most */
#define SLICE 4096u           /* and how many of them make a slice */
#define NONE UINT64_MAX       /* a number that is none */
#define LARGEST 4294967295u   /* the largest number in a table */

/* ---- the output: kept until it is full, or until there is nothing left to read */

static char output[65536];
static size_t kept;
static bool silent; /* while an answer is tried, before it is given */

static void flush(void)
{
    for (size_t at = 0; at < kept;) {
        ssize_t n = write(STDOUT_FILENO, output + at, kept - at);
        if (n <= 0)
            _exit(1);
        at += (size_t)n;
    }
    kept = 0;
}

static void put_char(char c)
{
    if (silent)
        return;
    if (kept == sizeof output)
        flush();
    output[kept++] = c;
}

static void put(const char *s)
{
    for (; *s != '\0'; s++)
        put_char(*s);
}

static void put_hex(const uint8_t *bytes, uint64_t len)
{
    static const char digits[] = "0123456789abcdef";

    for (uint64_t i = 0; i < len && !silent; i++) {
        put_char(digits[bytes[i] >> 4]);
        put_char(digits[bytes[i] & 15]);
    }
}

static void put_hex16(uint64_t x)
{
    const uint8_t two[] = {(uint8_t)(x >> 8), (uint8_t)x};

    put_hex(two, sizeof two);
}

static void put_number(uint64_t x)
{
    if (x > 9)
        put_number(x / 10);
    put_char((char)('0' + x % 10));
}

static void put_signed(int64_t x)
{
    put(x < 0 ? "-" : "");
    put_number(x < 0 ? 0 - (uint64_t)x : (uint64_t)x);
}

/* ---- the words of a line, which may hold any byte */

struct text {
    const char *at;
    size_t len;
};

static bool is(struct text s, const char *word)
{
    return s.len == strlen(word) && memcmp(s.at, word, s.len) == 0;
}

static struct text from(struct text s, size_t n)
{
    return n < s.len ? (struct text){s.at + n, s.len - n} : (struct text){s.at + s.len, 0};
}

/* What stands before the first mark, or all. */
static struct text first(struct text s, char mark)
{
    size_t n = 0;

    while (n < s.len && s.at[n] != mark)
        n++;
    return (struct text){s.at, n};
}

/* What stands behind it, or nothing. */
static struct text behind(struct text s, char mark)
{
    return from(s, first(s, mark).len + 1);
}

/* A plain decimal number. One above ROOM is over every limit. */
static uint64_t number(struct text s)
{
    uint64_t x = 0;

    for (size_t i = 0; i < s.len; i++) {
        if (s.at[i] < '0' || s.at[i] > '9' || x > ROOM)
            return NONE;
        x = 10 * x + (uint64_t)(s.at[i] - '0');
    }
    return s.len > 0 ? x : NONE;
}

/* A digit in lower case, or 16. */
static uint8_t digit(char c)
{
    if (c >= '0' && c <= '9')
        return (uint8_t)(c - '0');
    return c >= 'a' && c <= 'f' ? (uint8_t)(c - 'a' + 10) : 16;
}

static bool is_hex(struct text s)
{
    if (is(s, "-"))
        return true;
    for (size_t i = 0; i < s.len; i++)
        if (digit(s.at[i]) > 15)
            return false;
    return s.len > 0 && s.len % 2 == 0;
}

/* ---- a command */

static uint8_t bytes[BYTES];  /* those of its hex, or of the operation that is run */
static uint8_t sought[BYTES]; /* and of the name that is looked up */
static uint32_t table[ROOM];

struct asked {
    uint64_t way, room; /* of a decoder; `room` of an output or a table too */
    struct text ops;
    size_t len;      /* how many bytes its hex has */
    size_t strings;  /* how many of them are lent as strings */
    size_t name_len; /* how many the name has that is looked up */
    uint64_t at;     /* a place in the output, or of `message`, `index`, `walk` and `item` in the input, or beyond it */
};

/* The bytes of a hex word, which is as long as two of them each; gives how many, and none for `-`. */
static size_t unhex(struct text s, uint8_t *to)
{
    size_t n = s.len / 2;

    for (size_t i = 0; i < n; i++)
        to[i] = (uint8_t)(digit(s.at[2 * i]) << 4 | digit(s.at[2 * i + 1]));
    return n;
}

static bool takes_bytes(struct asked *a, struct text rest)
{
    if (!is_hex(rest))
        return false;
    a->room = ROOM;
    a->len = unhex(rest, bytes);
    return true;
}

static bool takes_room(struct asked *a, struct text rest)
{
    uint64_t room = number(first(rest, ' '));

    if (room > ROOM || !takes_bytes(a, behind(rest, ' ')))
        return false;
    a->room = room;
    return true;
}

/* bHEX, zN:HH, f or r. */
static bool is_op(struct text op)
{
    struct text rest = from(op, 1), hex = behind(rest, ':');

    if (op.len == 0)
        return false;
    switch (op.at[0]) {
    case 'b':
        return is_hex(rest);
    case 'z':
        return number(first(rest, ':')) <= TIMES && hex.len == 2 && is_hex(hex);
    default:
        return is(op, "f") || is(op, "r");
    }
}

static bool are_ops(struct text ops)
{
    for (;; ops = behind(ops, ',')) {
        struct text op = first(ops, ',');
        if (!is_op(op))
            return false;
        if (op.len == ops.len)
            return true;
    }
}

static bool takes_ops(struct asked *a, struct text rest)
{
    a->room = number(first(rest, ' '));
    a->ops = behind(rest, ' ');
    return a->room <= ROOM && are_ops(a->ops);
}

static bool takes_push(struct asked *a, struct text rest)
{
    a->way = SGH_FIRST_WAY;
    return takes_ops(a, rest);
}

static bool takes_push2(struct asked *a, struct text rest)
{
    a->way = SGH_SECOND_WAY;
    return takes_ops(a, rest);
}

/* Any way; `-` for no operation, which is the push of no byte. */
static bool takes_packed(struct asked *a, struct text rest)
{
    struct text sized = behind(rest, ' '), ops = behind(sized, ' ');

    a->way = number(first(rest, ' '));
    a->room = number(first(sized, ' '));
    a->ops = is(ops, "-") ? (struct text){"b-", 2} : ops;
    return a->way <= UINT8_MAX && a->room <= ROOM && are_ops(a->ops);
}

/* A plain decimal number, or `most` for a larger one. */
static bool takes_up_to(uint64_t *x, struct text s, uint64_t most)
{
    *x = 0;
    for (size_t i = 0; i < s.len; i++) {
        if (s.at[i] < '0' || s.at[i] > '9')
            return false;
        *x = 10 * *x + (uint64_t)(s.at[i] - '0');
        if (*x > most)
            *x = most;
    }
    return s.len > 0;
}

/* Any way, where those that no byte holds are as unknown as 255; and any capacity, of which all that are too large lend the same. */
static bool takes_why(struct asked *a, struct text rest)
{
    struct text sized = behind(rest, ' ');
    uint64_t room;

    if (!takes_up_to(&a->way, first(rest, ' '), UINT8_MAX) || !takes_up_to(&room, first(sized, ' '), ROOM) || !takes_bytes(a, behind(sized, ' ')))
        return false;
    a->room = room;
    return true;
}

/* A plain decimal number up to `most`, which is 9 at least. */
static bool takes_number(uint64_t *x, struct text s, uint64_t most)
{
    *x = 0;
    for (size_t i = 0; i < s.len; i++) {
        uint64_t d = (uint64_t)(s.at[i] - '0');
        if (s.at[i] < '0' || s.at[i] > '9' || *x > (most - d) / 10)
            return false;
        *x = 10 * *x + d;
    }
    return s.len > 0;
}

/* A place, which may be any number of 64 bits. */
static bool takes_place(struct asked *a, struct text s)
{
    return takes_number(&a->at, s, UINT64_MAX);
}

static bool are_steps(struct text s)
{
    for (size_t i = 0; i < s.len; i++)
        if (s.at[i] != '.' && s.at[i] != '-' && s.at[i] != '+')
            return false;
    return s.len > 0;
}

/* N AT OPS HEX, or N AT OPS HEX K. */
static bool takes_rewrite(struct asked *a, struct text rest)
{
    struct text placed = behind(rest, ' '), stepped = behind(placed, ' '), last = behind(stepped, ' '), hex = first(last, ' ');
    uint64_t room = number(first(rest, ' ')), most = hex.len < last.len ? number(behind(last, ' ')) : ROOM;

    if (room > ROOM || most > ROOM || !takes_place(a, first(placed, ' ')) || !takes_bytes(a, hex))
        return false;
    a->room = room;
    a->ops = first(stepped, ' ');
    a->strings = most < a->len ? most : a->len;
    return are_steps(a->ops);
}

/* AT HEX. */
static bool takes_placed(struct asked *a, struct text rest)
{
    return takes_place(a, first(rest, ' ')) && takes_bytes(a, behind(rest, ' '));
}

/* N AT HEX. */
static bool takes_message(struct asked *a, struct text rest)
{
    uint64_t room = number(first(rest, ' '));

    if (room > ROOM || !takes_placed(a, behind(rest, ' ')))
        return false;
    a->room = room;
    return true;
}

/* Numbers of 32 bits with commas between them, or `-` for none. A line has room for fewer than the table. */
static bool takes_table(struct asked *a, struct text s)
{
    a->room = 0;
    for (bool more = !is(s, "-"); more; s = behind(s, ',')) {
        struct text one = first(s, ',');
        uint64_t x;
        if (!takes_number(&x, one, LARGEST))
            return false;
        table[a->room++] = (uint32_t)x;
        more = one.len < s.len;
    }
    return true;
}

/* HEX TABLE NAME. */
static bool takes_lookup(struct asked *a, struct text rest)
{
    struct text numbered = behind(rest, ' '), named = behind(numbered, ' ');

    if (!is_hex(named) || !takes_bytes(a, first(rest, ' ')) || !takes_table(a, first(numbered, ' ')))
        return false;
    a->name_len = unhex(named, sought);
    return true;
}

/* ---- frames */

static uint8_t frame[ROOM];

/* Whether the Encoder gives the bytes of the frame; it is left behind them. */
static bool gives(sgh_encoder *e, size_t len, size_t n)
{
    uint8_t byte;

    sgh_encoder_new(e);
    for (size_t i = 0; i < n; i++)
        if (sgh_encoder_next(e, bytes, len, &byte) != SGH_GOOD || byte != frame[i])
            return false;
    return true;
}

static bool says_frame(const struct asked *a)
{
    sgh_encoder e;
    uint8_t byte;
    size_t n;
    uint32_t answer = sgh_encode(bytes, a->len, frame, a->room, &n);

    if (answer != SGH_GOOD) {
        put(answer == SGH_ENCODE_OUT_OF_MEMORY ? "memory" : "too long");
        return n == 0;
    }
    put_hex(frame, n);
    return gives(&e, a->len, n) && sgh_encoder_next(&e, bytes, a->len, &byte) == SGH_FINISHED;
}

/* The bytes are written from the frame, since the Encoder gives the same. */
static bool says_stream(const struct asked *a)
{
    sgh_encoder e;
    uint8_t byte;
    size_t n;
    bool agree;

    sgh_encode(bytes, a->len, frame, a->room, &n);
    agree = gives(&e, a->len, n);
    put_hex(frame, n);
    for (int more = 0; more < 3; more++) {
        uint32_t answer = sgh_encoder_next(&e, bytes, a->len, &byte);
        put(answer == SGH_FINISHED ? " none" : answer == SGH_PAYLOAD_TOO_LONG ? " too long" : " bad state");
        agree = agree && answer != SGH_GOOD;
    }
    return agree;
}

static bool says_crc(const struct asked *a)
{
    put_hex16(sgh_crc(bytes, a->len));
    return true;
}

/* ---- a decoder's operations, by single pushes and by slices: two decoders, each with a buffer of its own */

static uint8_t single_buffer[ROOM], sliced_buffer[ROOM];

struct pair {
    sgh_decoder single, sliced;
    size_t room;    /* of each buffer */
    uint64_t index; /* operations so far */
    bool agree, said;
};

/* What a call says. */
struct said {
    uint32_t answer;
    uint64_t values[SGH_VALUES];
};

static const struct said NOTHING;

static bool same_said(const struct said *x, const struct said *y)
{
    return x->answer == y->answer && memcmp(x->values, y->values, sizeof x->values) == 0;
}

static bool same_decoder(const struct pair *p)
{
    return memcmp(&p->single, &p->sliced, sizeof p->single) == 0;
}

/* Whether both buffers hold the payload that was said, and none where none was. */
static bool same_payload(const struct pair *p, const struct said *s)
{
    uint32_t answer = s->answer == SGH_PAYLOAD ? SGH_GOOD : SGH_BAD_SPAN;
    size_t len = s->answer == SGH_PAYLOAD ? s->values[0] : 0, x, y;

    return sgh_payload(&p->single, single_buffer, p->room, &x) == answer && sgh_payload(&p->sliced, sliced_buffer, p->room, &y) == answer && x == len && y == len &&
           len <= p->room && memcmp(single_buffer, sliced_buffer, len) == 0;
}

static void put_escape(const uint64_t v[SGH_VALUES])
{
    const uint8_t four[] = {(uint8_t)v[0], (uint8_t)v[1], (uint8_t)v[2], (uint8_t)v[3]};

    put("escape ");
    put_hex(four, sizeof four);
}

static void put_invalid(const uint64_t v[SGH_VALUES])
{
    put("invalid ");
    put_hex16(v[0]);
    put(" ");
    put_hex16(v[1]);
    put(v[2] ? " misaligned " : " aligned ");
    put_number(v[3]);
}

static void put_counted(const char *word, uint64_t n)
{
    put(word);
    put_number(n);
}

static void put_said(const struct said *s)
{
    switch (s->answer) {
    case SGH_PAYLOAD:
        put(s->values[0] > 0 ? "payload " : "payload");
        put_hex(single_buffer, s->values[0]);
        break;
    case SGH_DISCARDED_BYTES:
        put_counted("discarded ", s->values[0]);
        break;
    case SGH_INVALID_ESC:
        put_escape(s->values);
        break;
    case SGH_INVALID_MESSAGE:
        put_invalid(s->values);
        break;
    default:
        put(s->answer == SGH_DECODER_OUT_OF_MEMORY ? "memory" : s->answer == SGH_WRONG_BUFFER ? "wrong buffer" : "bad state");
    }
}

/* The operation's number, behind an earlier one that had something to say. */
static void put_label(struct pair *p)
{
    put(p->said ? ";" : "");
    put_number(p->index);
    put(":");
    p->said = true;
}

/* An operation is done, and both decoders should have said the same. */
static void done(struct pair *p, const struct said *single, const struct said *sliced)
{
    p->index++;
    p->agree = p->agree && same_said(single, sliced);
    if (single->answer == SGH_GOOD)
        return;
    put_label(p);
    put_said(single);
}

/* Bytes up to and with the first that has something to say: as a slice, then singly. Gives how many. Of a slice that is refused none is taken, and the next byte alone must be refused alike. */
static size_t push_part(struct pair *p, const uint8_t *chunk, size_t len)
{
    struct said single = NOTHING, sliced = NOTHING;
    size_t taken, n;

    sliced.answer = sgh_push_slice(&p->sliced, sliced_buffer, p->room, chunk, len, &taken, sliced.values);
    n = taken == 0 ? 1 : taken;
    p->agree = p->agree && n <= len;
    for (size_t i = 0; i < n && i < len; i++) {
        single.answer = sgh_push_byte(&p->single, single_buffer, p->room, chunk[i], single.values);
        done(p, &single, i + 1 == n ? &sliced : &NOTHING);
    }
    p->agree = p->agree && same_decoder(p) && same_payload(p, &single);
    return n;
}

static void push_chunk(struct pair *p, const uint8_t *chunk, size_t len)
{
    for (size_t at = 0; at < len;)
        at += push_part(p, chunk + at, len - at);
}

/* N:HH, in slices. */
static void push_run(struct pair *p, struct text op)
{
    unhex(behind(op, ':'), bytes);
    memset(bytes, bytes[0], SLICE);
    for (uint64_t left = number(first(op, ':')); left > 0;) {
        size_t n = left < SLICE ? left : SLICE;
        push_chunk(p, bytes, n);
        left -= n;
    }
}

static void finalize(struct pair *p)
{
    struct said single = NOTHING, sliced = NOTHING;

    single.answer = sgh_finalize(&p->single, single.values);
    sliced.answer = sgh_finalize(&p->sliced, sliced.values);
    done(p, &single, &sliced);
    p->agree = p->agree && same_decoder(p) && same_payload(p, &single);
}

/* A reset always says how many bytes are lost. */
static void reset(struct pair *p)
{
    struct said single = NOTHING, sliced = NOTHING;

    single.answer = sgh_reset(&p->single, single.values);
    sliced.answer = sgh_reset(&p->sliced, sliced.values);
    done(p, &single, &sliced);
    put_label(p);
    put_counted("reset ", single.values[0]);
    p->agree = p->agree && single.answer == SGH_GOOD && same_decoder(p) && same_payload(p, &single);
}

static void run_op(struct pair *p, struct text op)
{
    struct text rest = from(op, 1);

    switch (op.at[0]) {
    case 'b':
        push_chunk(p, bytes, unhex(rest, bytes));
        break;
    case 'z':
        push_run(p, rest);
        break;
    case 'f':
        finalize(p);
        break;
    default:
        reset(p);
    }
}

static void run_ops(struct pair *p, struct text ops)
{
    for (;; ops = behind(ops, ',')) {
        struct text op = first(ops, ',');
        run_op(p, op);
        if (op.len == ops.len)
            break;
    }
    put(p->said ? "" : "-");
    p->agree = p->agree && memcmp(single_buffer, sliced_buffer, p->room) == 0;
}

/* Two new decoders and their buffers. */
static uint32_t begin(struct pair *p, size_t capacity, uint8_t way)
{
    uint32_t answer = sgh_decoder_new(&p->single, capacity, way);

    p->sliced = p->single;
    memset(single_buffer, 0, p->room);
    memset(sliced_buffer, 0, p->room);
    return answer;
}

/* For a capacity that no decoder takes the largest is made, which the buffer doesn't fit, so that it refuses every byte. */
static bool says_push(const struct asked *a)
{
    struct pair p = {.room = a->room, .agree = true};

    if (begin(&p, a->room, (uint8_t)a->way) == SGH_WRONG_BUFFER)
        begin(&p, SGH_LIMIT, (uint8_t)a->way);
    run_ops(&p, a->ops);
    return p.agree;
}

static bool says_packed(const struct asked *a)
{
    struct pair p = {.room = a->room, .agree = true};
    uint32_t answer = begin(&p, a->room, (uint8_t)a->way);

    if (answer != SGH_GOOD) {
        put_counted("refused ", answer);
        return true;
    }
    run_ops(&p, a->ops);
    put(" / ");
    put_hex(p.single.bytes, sizeof p.single.bytes);
    return p.agree;
}

/* ---- the events of a message; their strings are parts of `bytes` */

/* A span that isn't within the input, which no event has, is written as nothing. */
static void put_span(const char *name, uint64_t start, uint64_t len)
{
    put(name);
    if (start <= BYTES && len <= BYTES - start)
        put_hex(bytes + start, len);
}

static void put_opt_span(const char *name, sgh_opt_span s)
{
    put(name);
    if (s.present)
        put_span("x", s.start, s.len);
    else
        put("-");
}

static void put_opt(const char *name, const char *before, sgh_opt_unsigned x)
{
    put(name);
    if (x.present)
        put_counted(before, x.value);
    else
        put("-");
}

/* A letter, and how many bits a number of `width` bytes has. */
static void put_width(const char *letter, uint64_t width)
{
    put_counted(letter, 8 * width);
    put(":");
}

static void put_status(sgh_opt_status s)
{
    put(" status=");
    if (s.present) {
        put_width("u", s.width);
        put_number(s.value);
    } else {
        put("-");
    }
}

static void put_scaler(sgh_opt_signed x)
{
    put(" scaler=");
    if (x.present)
        put_signed(x.value);
    else
        put("-");
}

static void put_value(const sgh_value *v)
{
    put(" value=");
    switch (v->kind) {
    case SGH_VALUE_BOOL:
        put_counted("bool:", v->number);
        break;
    case SGH_VALUE_BYTES:
        put_span("oct:", v->bytes.start, v->bytes.len);
        break;
    case SGH_VALUE_SIGNED:
        put_width("i", v->width);
        put_signed((int64_t)v->number);
        break;
    case SGH_VALUE_UNSIGNED:
        put_width("u", v->width);
        put_number(v->number);
        break;
    default: /* SGH_VALUE_TIME */
        put_counted("list:sec:", v->number);
    }
}

static void put_open(const sgh_open_response *o)
{
    put_opt_span(" codepage=", o->codepage);
    put_opt_span(" client=", o->client_id);
    put_span(" file=x", o->req_file_id.start, o->req_file_id.len);
    put_span(" server=x", o->server_id.start, o->server_id.len);
    put_opt(" time=", "sec:", o->ref_time);
    put_opt(" version=", "", o->sml_version);
}

static void put_list(const sgh_get_list_response *l)
{
    put_opt_span(" client=", l->client_id);
    put_span(" server=x", l->server_id.start, l->server_id.len);
    put_opt_span(" name=", l->list_name);
    put_opt(" time=", "sec:", l->act_sensor_time);
    put_counted(" n=", l->num_vals);
}

static void put_start(const sgh_message_start *m)
{
    put(m->body == SGH_OPEN_RESPONSE ? "open" : m->body == SGH_CLOSE_RESPONSE ? "close" : "list");
    put_span(" tid=x", m->transaction_id.start, m->transaction_id.len);
    put_counted(" group=", m->group_no);
    put_counted(" abort=", m->abort_on_error);
    if (m->body == SGH_OPEN_RESPONSE)
        put_open(&m->open);
    else if (m->body == SGH_CLOSE_RESPONSE)
        put_opt_span(" sig=", m->close.global_signature);
    else
        put_list(&m->list);
}

static void put_entry(const sgh_list_entry *e)
{
    put_span("entry name=x", e->obj_name.start, e->obj_name.len);
    put_status(e->status);
    put_opt(" time=", "sec:", e->val_time);
    put_opt(" unit=", "", e->unit);
    put_scaler(e->scaler);
    put_value(&e->value);
    put_opt_span(" sig=", e->value_signature);
}

static const char *const kinds[] = {"", " TlfLengthOverflow", " TlfReserved", " TlfLengthUnderflow", " TlfNextByteTypeMismatch", " TlfInvalidTy"};

static void put_refusal(const sgh_refusal *r, bool places)
{
    static const char *const names[] = {"UnexpectedEOF", "InvalidTlf", "TlfMismatch", "UnexpectedVariant", "CrcMismatch", "MsgEndMismatch"};

    put("err ");
    put(names[r->number - SGH_UNEXPECTED_EOF]);
    put(kinds[r->kind]);
    if (places) {
        put_counted(" ", r->number);
        put_counted(" @", r->place);
    }
}

static void put_event(const sgh_event *e, bool places)
{
    switch (e->kind) {
    case SGH_NO_EVENT:
        put("none");
        break;
    case SGH_MESSAGE_START:
        put_start(&e->message);
        break;
    case SGH_GET_LIST_RESPONSE_END:
        put_opt_span("end sig=", e->end.list_signature);
        put_opt(" time=", "sec:", e->end.act_gateway_time);
        break;
    case SGH_LIST_ENTRY:
        put_entry(&e->entry);
        break;
    case SGH_REFUSED:
        put_refusal(&e->refused, places);
        break;
    default: /* SGH_REFUSED_ALONE */
        put(e->refused.number == SGH_INPUT_TOO_LONG ? "err InputTooLong" : "err BadState");
    }
}

/* Whether a refusal is at a place of the input. */
static bool has_place(uint64_t number)
{
    return number >= SGH_UNEXPECTED_EOF && number <= SGH_MSG_END_MISMATCH;
}

/* Whether a call's answer and the event that it wrote say the same. */
static bool is_answer(uint32_t answer, const sgh_event *e)
{
    switch (e->kind) {
    case SGH_NO_EVENT:
        return answer == SGH_FINISHED;
    case SGH_MESSAGE_START:
    case SGH_GET_LIST_RESPONSE_END:
    case SGH_LIST_ENTRY:
        return answer == SGH_GOOD;
    case SGH_REFUSED:
        return answer == e->refused.number && has_place(answer) && e->refused.kind <= SGH_TLF_INVALID_TY;
    default:
        return answer == e->refused.number && (answer == SGH_INPUT_TOO_LONG || answer == SGH_BAD_STATE);
    }
}

struct reading {
    sgh_reader reader;
    size_t len;
    bool places, agree, said;
};

/* One call, and what it says. */
static uint32_t read_next(struct reading *r)
{
    sgh_event event;
    uint32_t answer = sgh_next_event(bytes, r->len, &r->reader, &event);

    put(r->said ? " | " : "");
    r->said = true;
    r->agree = r->agree && is_answer(answer, &event);
    if (r->agree)
        put_event(&event, r->places);
    return answer;
}

/* Up to the first call without an event, and three more behind a refusal. */
static bool read_all(size_t len, bool places)
{
    struct reading r = {.len = len, .places = places, .agree = true};
    uint32_t answer;

    do
        answer = read_next(&r);
    while (answer == SGH_GOOD);
    for (int more = answer == SGH_FINISHED ? 0 : 3; more > 0; more--)
        read_next(&r);
    return r.agree;
}

static bool says_events(const struct asked *a)
{
    return read_all(a->len, false);
}

static bool says_places(const struct asked *a)
{
    return read_all(a->len, true);
}

/* ---- a whole message, and its table */

#define UNTOUCHED 0x77777777u /* what each number of a table is before; a place is less */

static uint32_t longer[BYTES]; /* has a row for each entry that a line holds: an entry has eight bytes at least, and a row four numbers */

static void clear(uint32_t *t, size_t room)
{
    for (size_t i = 0; i < room; i++)
        t[i] = UNTOUCHED;
}

static uint32_t read_whole(const struct asked *a, uint32_t *t, size_t room, sgh_message *m)
{
    clear(t, room);
    return sgh_read_message(bytes, a->len, a->at, t, room, m);
}

/* Whether a table is as it was, from a number on. */
static bool untouched(const uint32_t *t, size_t from, size_t room)
{
    while (from < room && t[from] == UNTOUCHED)
        from++;
    return from >= room;
}

static bool same_event(const sgh_event *x, const sgh_event *y)
{
    return memcmp(x, y, sizeof *x) == 0;
}

/* Whether the reader's next event is the entry of this row; read at the row, in all of the input, it must be the same. */
static bool is_row(const struct asked *a, size_t next, sgh_reader *r, const uint32_t *numbers)
{
    sgh_row row;
    sgh_event e, own;

    memcpy(&row, numbers, sizeof row);
    sgh_reader there = {row.entry_start, row.entry_start, 3};
    if (r->place != row.entry_start || sgh_next_event(bytes, next, r, &e) != SGH_GOOD || sgh_next_event(bytes, a->len, &there, &own) != SGH_GOOD)
        return false;
    return e.kind == SGH_LIST_ENTRY && same_event(&e, &own) && r->place == there.place && r->place == (uint64_t)row.entry_start + row.entry_len &&
           e.entry.obj_name.start == row.name_start && e.entry.obj_name.len == row.name_len;
}

/* Whether the event reader, lent no byte behind the message, gives its start, an entry for each row and its end, and then no event: that one's words are also those of an end that isn't there. */
static bool is_by_events(const struct asked *a, const uint32_t *t, size_t room, const sgh_message *m)
{
    sgh_reader r = {a->at, a->at, 0};
    sgh_event e;

    if (m->next > a->len || m->rows > room / SGH_ROW_NUMBERS || sgh_next_event(bytes, m->next, &r, &e) != SGH_GOOD || !same_event(&e, &m->start))
        return false;
    for (uint64_t i = 0; i < m->rows; i++)
        if (!is_row(a, m->next, &r, t + SGH_ROW_NUMBERS * i))
            return false;
    if (m->start.message.body == SGH_GET_LIST_RESPONSE)
        return sgh_next_event(bytes, m->next, &r, &e) == SGH_GOOD && same_event(&e, &m->end) && sgh_next_event(bytes, m->next, &r, &e) == SGH_FINISHED;
    return sgh_next_event(bytes, m->next, &r, &e) == SGH_FINISHED && same_event(&e, &m->end);
}

/* Whether the event reader's first refusal is this one. It refuses nothing where the input ends, which is 10 here. */
static bool is_refused_by_events(const struct asked *a, const sgh_message *m)
{
    sgh_reader r = {a->at, a->at, 0};
    sgh_event e;
    uint32_t answer;

    do
        answer = sgh_next_event(bytes, a->len, &r, &e);
    while (answer == SGH_GOOD);
    if (a->at == a->len)
        return answer == SGH_FINISHED && m->start.refused.number == SGH_UNEXPECTED_EOF && m->start.refused.place == a->len;
    return same_event(&e, &m->start);
}

/* 20 alone is no event's: a table with room for all must take the message then. */
static bool is_refused(const struct asked *a, uint32_t answer, const sgh_message *m)
{
    static const sgh_event none;
    sgh_message taken;

    if (!untouched(table, 0, a->room) || !same_event(&m->end, &none) || m->rows != 0 || m->next != 0 || answer != m->start.refused.number)
        return false;
    if (answer != SGH_TOO_MANY_ENTRIES)
        return is_answer(answer, &m->start) && is_refused_by_events(a, m);
    return m->start.kind == SGH_REFUSED_ALONE && read_whole(a, longer, BYTES, &taken) == SGH_GOOD && taken.rows > a->room / SGH_ROW_NUMBERS && is_by_events(a, longer, BYTES, &taken);
}

static void put_counts(uint64_t rows, uint64_t next)
{
    put_counted("rows ", rows);
    put_counted(" next ", next);
}

static void put_read(const sgh_message *m)
{
    put_event(&m->start, false);
    if (m->end.kind != SGH_NO_EVENT) {
        put(" | ");
        put_event(&m->end, false);
    }
    put(" | ");
    put_counts(m->rows, m->next);
}

static void put_not_read(const sgh_refusal *r)
{
    put_counted("refused ", r->number);
    put(kinds[r->kind]);
    if (has_place(r->number))
        put_counted(" @", r->place);
}

static void put_table(size_t room)
{
    put(room > 0 ? " | " : " | -");
    for (size_t i = 0; i < room && !silent; i++) {
        put(i > 0 ? "," : "");
        if (table[i] == UNTOUCHED)
            put("_");
        else
            put_number(table[i]);
    }
}

static bool says_message(const struct asked *a)
{
    sgh_message m;
    uint32_t answer = read_whole(a, table, a->room, &m);

    if (answer == SGH_GOOD ? !is_by_events(a, table, a->room, &m) || !untouched(table, SGH_ROW_NUMBERS * m.rows, a->room) : !is_refused(a, answer, &m))
        return false;
    if (answer == SGH_GOOD)
        put_read(&m);
    else
        put_not_read(&m.start.refused);
    put_table(a->room);
    return true;
}

/* ---- an index of a message's entries, and names that are looked up in any table */

#define NAMES 64u /* of so many entries the names are looked up in an index: each is a pass over it */

static uint32_t unsorted[ROOM]; /* the table that sgh_read_message leaves */

static sgh_row row_at(const uint32_t *t, uint64_t i)
{
    sgh_row row;

    memcpy(&row, t + SGH_ROW_NUMBERS * i, sizeof row);
    return row;
}

static bool same_row(sgh_row x, sgh_row y)
{
    return memcmp(&x, &y, sizeof x) == 0;
}

static bool same_name(sgh_row x, sgh_row y)
{
    return x.name_len == y.name_len && memcmp(bytes + x.name_start, bytes + y.name_start, x.name_len) == 0;
}

static bool same_refusal(const sgh_refusal *x, const sgh_refusal *y)
{
    return memcmp(x, y, sizeof *x) == 0;
}

/* Whether a row is one of the message's, whose entries stand one behind the other. */
static bool is_among(sgh_row row, uint64_t rows)
{
    uint64_t low = 0, high = rows;

    while (low < high) {
        uint64_t middle = low + (high - low) / 2;
        if (row_at(unsorted, middle).entry_start < row.entry_start)
            low = middle + 1;
        else
            high = middle;
    }
    return low < rows && same_row(row_at(unsorted, low), row);
}

/* Whether by the name of the message's entry k the first entry of that name is found. The names before were asked for. */
static bool finds(const struct asked *a, uint64_t rows, uint64_t k)
{
    sgh_row own = row_at(unsorted, k), found;
    uint64_t first = 0;

    if (own.name_start > a->len || own.name_len > a->len - own.name_start)
        return false;
    while (!same_name(row_at(unsorted, first), own))
        first++;
    return sgh_look_up(bytes, a->len, table, SGH_ROW_NUMBERS * rows, bytes + own.name_start, own.name_len, &found) == SGH_GOOD && same_row(found, row_at(unsorted, first));
}

/* Whether the index has the message's rows alone. None stands there twice, since each lookup judges whether all are strictly in order. */
static bool is_index(const struct asked *a, uint64_t rows)
{
    for (uint64_t i = 0; i < rows; i++)
        if (!is_among(row_at(table, i), rows))
            return false;
    for (uint64_t k = 0; k < rows && k < NAMES; k++)
        if (!finds(a, rows, k))
            return false;
    return true;
}

/* Whether the message is read by sgh_read_message, and by events, with as many rows up to the same place, or refused alike. */
static bool is_by_message(const struct asked *a, uint32_t answer, const sgh_index *x)
{
    static const sgh_refusal none;
    sgh_message m;

    if (read_whole(a, unsorted, a->room, &m) != answer || m.rows != x->rows || m.next != x->next)
        return false;
    if (answer != SGH_GOOD)
        return is_refused(a, answer, &m) && same_refusal(&x->refused, &m.start.refused);
    return is_by_events(a, unsorted, a->room, &m) && same_refusal(&x->refused, &none) && untouched(table, SGH_ROW_NUMBERS * x->rows, a->room) && is_index(a, x->rows);
}

static bool says_index(const struct asked *a)
{
    sgh_index x;
    uint32_t answer;

    clear(table, a->room);
    answer = sgh_build_index(bytes, a->len, a->at, table, a->room, &x);
    if (!is_by_message(a, answer, &x))
        return false;
    if (answer == SGH_GOOD)
        put_counts(x.rows, x.next);
    else
        put_not_read(&x.refused);
    put_table(a->room);
    return true;
}

static const sgh_row UNFOUND = {UNTOUCHED, UNTOUCHED, UNTOUCHED, UNTOUCHED};

/* What is said of so many numbers of the table. */
static uint32_t look_up(const struct asked *a, size_t from, size_t n, sgh_row *row)
{
    *row = UNFOUND;
    return sgh_look_up(bytes, a->len, table + from, n, sought, a->name_len, row);
}

/* What is said of each row alone, and with the next: a table is taken if these all are, and the first row that is found alone is the one. */
static uint32_t look_up_by_rows(const struct asked *a, sgh_row *row)
{
    uint32_t answer = a->room % SGH_ROW_NUMBERS == 0 ? SGH_NOT_FOUND : SGH_BAD_SPAN;
    sgh_row one;

    *row = UNFOUND;
    for (size_t at = 0; at < a->room && answer != SGH_BAD_SPAN; at += SGH_ROW_NUMBERS) {
        size_t left = a->room - at;
        uint32_t alone = look_up(a, at, SGH_ROW_NUMBERS, &one);
        if (alone == SGH_BAD_SPAN || look_up(a, at, left < 2 * SGH_ROW_NUMBERS ? left : 2 * SGH_ROW_NUMBERS, &one) == SGH_BAD_SPAN) {
            answer = SGH_BAD_SPAN;
            *row = UNFOUND;
        } else if (alone == SGH_GOOD && answer == SGH_NOT_FOUND) {
            answer = SGH_GOOD;
            *row = row_at(table + at, 0);
        }
    }
    return answer;
}

static void put_found(sgh_row row)
{
    put_counted("found ", row.name_start);
    put_counted(",", row.name_len);
    put_counted(",", row.entry_start);
    put_counted(",", row.entry_len);
}

static bool says_lookup(const struct asked *a)
{
    sgh_row row, by_rows;
    uint32_t answer = look_up(a, 0, a->room, &row);

    if (look_up_by_rows(a, &by_rows) != answer || !same_row(row, by_rows))
        return false;
    if (answer == SGH_GOOD)
        put_found(row);
    else if (answer == SGH_NOT_FOUND)
        put("none");
    else
        put_counted("refused ", answer);
    return true;
}

/* ---- any content: a whole element, and what begins at a place */

#define DEEPEST 16u /* so many lists may be open */

static bool same_walk(const sgh_walked *x, const sgh_walked *y)
{
    return memcmp(x, y, sizeof *x) == 0;
}

static bool same_item(const sgh_item *x, const sgh_item *y)
{
    return memcmp(x, y, sizeof *x) == 0;
}

/* Whether a refusal is one of these calls: its number, its kind and where a place can stand. */
static bool is_content_refusal(const sgh_refusal *r, size_t len)
{
    switch (r->number) {
    case SGH_INPUT_TOO_LONG:
        return r->kind == 0 && r->place == 0;
    case SGH_UNEXPECTED_EOF:
        return r->kind == 0 && r->place == len;
    case SGH_INVALID_TLF:
        return r->kind >= SGH_TLF_LENGTH_OVERFLOW && r->kind <= SGH_TLF_INVALID_TY && r->place < len;
    default:
        return r->number == SGH_TOO_DEEP && r->kind == 0 && r->place < len;
    }
}

/* The walk by items: `wants` is how many elements each open list still wants, the outermost first. */
static sgh_walked walk_by_items(const struct asked *a)
{
    uint64_t wants[DEEPEST], at = a->at, leaves = 0;
    size_t open = 0;
    sgh_item item;

    for (;;) {
        if (sgh_read_item(bytes, a->len, at, &item) != SGH_GOOD)
            return (sgh_walked){.refused = item.refused};
        if (item.kind == SGH_LIST && open == DEEPEST)
            return (sgh_walked){.refused = {SGH_TOO_DEEP, 0, at}};
        if (item.kind == SGH_LIST)
            wants[open++] = item.count;
        else
            leaves++;
        at = item.next;
        while (open > 0 && wants[open - 1] == 0)
            open--;
        if (open == 0)
            return (sgh_walked){.bytes = at - a->at, .leaves = leaves};
        wants[open - 1]--;
    }
}

/* Whether a call's answer is what it wrote, the items say the same, and so does the walk over the element alone. */
static bool is_walk(const struct asked *a, uint32_t answer, const sgh_walked *w)
{
    sgh_walked by_items = walk_by_items(a), alone;

    if (!same_walk(w, &by_items) || answer != w->refused.number)
        return false;
    if (answer != SGH_GOOD)
        return is_content_refusal(&w->refused, a->len);
    return w->bytes > 0 && a->at < a->len && w->bytes <= a->len - a->at && sgh_walk(bytes, a->at + w->bytes, a->at, &alone) == SGH_GOOD && same_walk(w, &alone);
}

static void put_content_refusal(const sgh_refusal *r)
{
    if (r->number == SGH_INPUT_TOO_LONG)
        put_counted("err InputTooLong ", r->number);
    else if (r->number == SGH_TOO_DEEP)
        put_counted("err TooDeep 19 @", r->place);
    else
        put_refusal(r, true);
}

static bool says_walk(const struct asked *a)
{
    sgh_walked w;
    uint32_t answer = sgh_walk(bytes, a->len, a->at, &w);

    if (!is_walk(a, answer, &w))
        return false;
    if (answer == SGH_GOOD) {
        put_counted("bytes ", w.bytes);
        put_counted(" leaves ", w.leaves);
    } else {
        put_content_refusal(&w.refused);
    }
    return true;
}

static const char *type_name(uint64_t ty)
{
    return ty == SGH_TY_OCTET_STRING ? "string" : ty == SGH_TY_BOOLEAN ? "boolean" : ty == SGH_TY_INTEGER ? "integer" : ty == SGH_TY_UNSIGNED ? "unsigned" : NULL;
}

/* Whether an item that is no list is as long as the walk says, and a leaf has its content before the next place; of a list the walk goes on by items. */
static bool is_item(const struct asked *a, const sgh_item *item, const sgh_walked *w)
{
    uint64_t own = item->next - a->at;

    switch (item->kind) {
    case SGH_END_MARK:
        return own == 1 && w->bytes == 1 && w->leaves == 1;
    case SGH_LEAF:
        return type_name(item->ty) != NULL && item->content.start + item->content.len == item->next && item->content.start > a->at && w->bytes == own && w->leaves == 1;
    default:
        return item->kind == SGH_LIST && own > 0;
    }
}

static void put_item(const sgh_item *item)
{
    switch (item->kind) {
    case SGH_END_MARK:
        put("end mark");
        break;
    case SGH_LEAF:
        put("leaf ");
        put(type_name(item->ty));
        put_counted(" ", item->content.start);
        put_counted(" ", item->content.len);
        break;
    default: /* SGH_LIST */
        put_counted("list ", item->count);
    }
    put_counted(" next ", item->next);
}

/* The walk must agree, and an input that ends behind the item must give the same. */
static bool says_item(const struct asked *a)
{
    sgh_item item, alone;
    sgh_walked w;
    uint32_t answer = sgh_read_item(bytes, a->len, a->at, &item);

    if (!is_walk(a, sgh_walk(bytes, a->len, a->at, &w), &w) || answer != item.refused.number)
        return false;
    if (answer != SGH_GOOD) {
        put_content_refusal(&item.refused);
        return answer != SGH_TOO_DEEP && same_walk(&w, &(sgh_walked){.refused = item.refused}) && same_item(&item, &(sgh_item){.refused = item.refused});
    }
    if (!is_item(a, &item, &w) || item.next > a->len || sgh_read_item(bytes, item.next, a->at, &alone) != SGH_GOOD || !same_item(&item, &alone))
        return false;
    put_item(&item);
    return true;
}

/* ---- why bytes are lost: by place, and by a watch */

static const struct {
    uint64_t bit;
    const char *name;
} causes[] = {
    {SGH_CAUSE_NOISE, "noise"},
    {SGH_CAUSE_UNFINISHED, "unfinished"},
    {SGH_CAUSE_HIDDEN, "hidden"},
    {SGH_CAUSE_CUT, "cut"},
    {SGH_CAUSE_ESCAPE, "escape"},
    {SGH_CAUSE_ROOM, "room"},
    {SGH_CAUSE_CRC, "crc"},
    {SGH_CAUSE_MISALIGNED, "misaligned"},
    {SGH_CAUSE_PADS, "pads"},
};

static sgh_loss lost[BYTES]; /* the losses by place, in order; each has a byte at least */

static bool same_loss(const sgh_loss *x, const sgh_loss *y)
{
    return memcmp(x, y, sizeof *x) == 0;
}

/* One of those that stand alone, or some of an end sequence's. */
static bool are_causes(uint64_t bits)
{
    uint64_t end = SGH_CAUSE_CRC | SGH_CAUSE_MISALIGNED | SGH_CAUSE_PADS;

    return bits != 0 && ((bits & ~end) == 0 || (bits < SGH_CAUSE_CRC && (bits & (bits - 1)) == 0));
}

/* Each byte stores one at the most: no more of a buffer than this is written. */
static size_t written(const struct asked *a)
{
    return a->len < a->room ? a->len : a->room;
}

/* Each time from the last byte of the loss before. Gives how many there are, and the last call's answer, which is SGH_LOST where a loss can't be. */
static size_t lost_by_place(const struct asked *a, uint32_t *answer)
{
    sgh_loss loss = {0};
    size_t n = 0;

    memset(single_buffer, 0, written(a));
    for (;;) {
        uint64_t from = loss.last;

        *answer = sgh_next_loss(bytes, a->len, (uint8_t)a->way, single_buffer, a->room, from, &loss);
        if (*answer != SGH_LOST || !are_causes(loss.causes) || loss.first <= from || loss.last < loss.first || loss.last > a->len)
            return n;
        lost[n++] = loss;
    }
}

struct watching {
    sgh_decoder decoder;
    sgh_watch watch;
    uint64_t end; /* the last byte of the frames and losses so far */
    size_t seen;  /* how many losses there were */
};

/* Whether what a watch tells is a frame or the next loss by place, directly behind what was told before. */
static bool is_told(struct watching *w, uint32_t answer, const sgh_loss *loss, size_t losses)
{
    if (answer == SGH_GOOD || answer == SGH_FINISHED)
        return same_loss(loss, &(sgh_loss){0});
    if (loss->first != w->end + 1 || loss->last < loss->first)
        return false;
    w->end = loss->last;
    if (answer == SGH_PAYLOAD)
        return loss->causes == 0;
    return answer == SGH_LOST && w->seen < losses && same_loss(loss, &lost[w->seen++]);
}

/* Whether a watch that gets the recording in slices of at most so many bytes tells the losses by place, every byte is in one of them or in a frame, and both leave the same in the buffer. */
static bool watches(const struct asked *a, size_t losses, size_t most)
{
    struct watching w = {0};
    sgh_loss loss;
    size_t taken;

    sgh_decoder_new(&w.decoder, a->room, (uint8_t)a->way);
    memset(sliced_buffer, 0, written(a));
    for (size_t at = 0; at < a->len; at += taken) {
        size_t n = most < a->len - at ? most : a->len - at;
        uint32_t answer = sgh_watch_slice(&w.decoder, &w.watch, sliced_buffer, a->room, bytes + at, n, &taken, &loss);

        if (taken == 0 || taken > n || (answer == SGH_GOOD && taken < n) || !is_told(&w, answer, &loss, losses))
            return false;
    }
    return is_told(&w, sgh_watch_end(&w.decoder, &w.watch, &loss), &loss, losses) && w.end == a->len && w.watch.pushed == a->len && w.seen == losses
        && memcmp(single_buffer, sliced_buffer, written(a)) == 0;
}

static void put_loss(const sgh_loss *loss)
{
    const char *before = "";

    for (size_t i = 0; i < sizeof causes / sizeof *causes; i++)
        if (loss->causes & causes[i].bit) {
            put(before);
            put(causes[i].name);
            before = "+";
        }
    put_counted(" ", loss->first);
    put_counted(" ", loss->last);
}

/* What is refused by place must be refused of a new decoder too. */
static bool says_why(const struct asked *a)
{
    sgh_decoder d;
    uint32_t answer;
    size_t losses = lost_by_place(a, &answer);

    if (answer != SGH_FINISHED) {
        put_counted("refused ", answer);
        return losses == 0 && (answer == SGH_BAD_STATE || answer == SGH_WRONG_BUFFER) && sgh_decoder_new(&d, a->room, (uint8_t)a->way) == answer;
    }
    if (!watches(a, losses, 1) || !watches(a, losses, 3) || !watches(a, losses, BYTES))
        return false;
    if (losses == 0)
        put("-");
    for (size_t i = 0; i < losses; i++) {
        put(i > 0 ? " | " : "");
        put_loss(&lost[i]);
    }
    return true;
}

/* ---- the events of a message, written again; their strings are parts of `bytes`, and the output is `frame` */

struct rewriting {
    sgh_reader reader;
    sgh_event event; /* the last that was read */
    bool any, over;  /* whether there is one, and whether none is left */
    sgh_writer list;
    uint64_t place; /* where the next message begins: behind what was last accepted */
    bool agree, said;
};

/* Whether there is an event more. Behind the first refusal there is none. */
static bool read_one(struct rewriting *w, size_t len)
{
    sgh_event event;

    w->over = w->over || sgh_next_event(bytes, len, &w->reader, &event) != SGH_GOOD;
    if (w->over)
        return false;
    w->event = event;
    w->any = true;
    return true;
}

/* A message's start is written at the place, an entry or end by the list's writer; an open or close has no part in that. A refusal must leave the writer as it was. */
static void write_again(struct rewriting *w, const struct asked *a)
{
    bool start = w->event.kind == SGH_MESSAGE_START;
    sgh_writer before = start ? (sgh_writer){.place = w->place} : w->list, after = before;
    uint32_t answer = sgh_write_event(frame, a->room, bytes, a->strings, &w->event, &after);

    put_counted(answer == SGH_GOOD ? "to " : "refused ", answer == SGH_GOOD ? after.place : answer);
    if (answer != SGH_GOOD) {
        w->agree = w->agree && memcmp(&before, &after, sizeof before) == 0;
        return;
    }
    w->place = after.place;
    if (!start || w->event.message.body == SGH_GET_LIST_RESPONSE)
        w->list = after;
}

/* `.` the next event, `+` the one before again. */
static void step(struct rewriting *w, const struct asked *a, char op)
{
    bool found = op == '+' ? w->any : read_one(w, a->len);

    if (op == '-')
        return;
    put(w->said ? " | " : "");
    w->said = true;
    if (found)
        write_again(w, a);
    else
        put("no event");
}

static bool says_rewrite(const struct asked *a)
{
    struct rewriting w = {.list = {.place = a->at}, .place = a->at, .agree = true};

    memset(frame, 0x5a, a->room);
    for (size_t i = 0; i < a->ops.len; i++)
        step(&w, a, a->ops.at[i]);
    put(w.said ? " | " : "");
    put(a->room > 0 ? "" : "-");
    put_hex(frame, a->room);
    return w.agree;
}

/* ---- lines */

/* `takes` gives whether the rest of the line is the command's; `says` writes its answer, and gives whether all calls agreed. */
static const struct command {
    const char *name;
    bool (*takes)(struct asked *, struct text);
    bool (*says)(const struct asked *);
} commands[] = {
    {"encode", takes_bytes, says_frame},
    {"encode_cap", takes_room, says_frame},
    {"stream", takes_bytes, says_stream},
    {"crc", takes_bytes, says_crc},
    {"push", takes_push, says_push},
    {"push2", takes_push2, says_push},
    {"packed", takes_packed, says_packed},
    {"events", takes_bytes, says_events},
    {"places", takes_bytes, says_places},
    {"rewrite", takes_rewrite, says_rewrite},
    {"message", takes_message, says_message},
    {"index", takes_message, says_index},
    {"lookup", takes_lookup, says_lookup},
    {"walk", takes_placed, says_walk},
    {"item", takes_placed, says_item},
    {"why", takes_why, says_why},
};

/* Without a word first, since it is known at the end alone whether all agree. */
static void try_and_say(const struct command *c, const struct asked *a)
{
    bool agree;

    silent = true;
    agree = c->says(a);
    silent = false;
    if (agree)
        c->says(a);
    else
        put("differ");
}

static void answer(struct text asked)
{
    struct asked a = {0};
    struct text word = first(asked, ' ');

    for (size_t i = 0; i < sizeof commands / sizeof *commands; i++)
        if (is(word, commands[i].name) && commands[i].takes(&a, behind(asked, ' '))) {
            try_and_say(&commands[i], &a);
            put("\n");
            return;
        }
    put("bad command\n");
}

/* The line so far; one that is too long, which is no command, has a length over LONGEST. */
static struct {
    char at[LONGEST];
    size_t len;
} line;

static void take(char c)
{
    if (c == '\n') {
        answer((struct text){line.at, line.len <= LONGEST ? line.len : 0});
        line.len = 0;
    } else if (line.len < LONGEST) {
        line.at[line.len++] = c;
    } else {
        line.len = LONGEST + 1;
    }
}

/* What was answered is written before it waits for more. A last line without its end is a line too. */
int main(void)
{
    static char chunk[65536];
    ssize_t n;

    while ((n = read(STDIN_FILENO, chunk, sizeof chunk)) > 0) {
        for (ssize_t i = 0; i < n; i++)
            take(chunk[i]);
        flush();
    }
    if (line.len > 0)
        take('\n');
    flush();
    return 0;
}
