/* smlmeter: poses as a meter. It reads events as text from standard input, a line each in the words of `events` (docs/REPLAY.md), and writes the frames of their messages to standard output. bin/smlmeter runs it.

   It knows no lengths, no CRC and no escapes: the library writes the messages (sgh_write_event) and the frame (sgh_encode). */
#include <errno.h>
#include <inttypes.h>
#include <stdbool.h>
#include <stdint.h>
#include <stdio.h>
#include <string.h>
#include <unistd.h>

#include <sartrogheo.h>

#define LONGEST 70000u            /* the characters of a line, without its end */
#define STRINGS (LONGEST / 2u)    /* more bytes than a line holds in hex */
#define ROOM (2 * SGH_LIMIT + 19) /* what the frame of SGH_LIMIT bytes takes at the most */

/* ---- the words of a line, which may hold any byte */

struct text {
    const char *at;
    size_t len;
};

static bool is(struct text s, const char *word)
{
    return s.len == strlen(word) && memcmp(s.at, word, s.len) == 0;
}

static struct text from(struct text s, size_t n)
{
    return n < s.len ? (struct text){s.at + n, s.len - n} : (struct text){s.at + s.len, 0};
}

/* What stands before the first mark, or all. */
static struct text first(struct text s, char mark)
{
    size_t n = 0;

    while (n < s.len && s.at[n] != mark)
        n++;
    return (struct text){s.at, n};
}

static bool begins(struct text s, const char *word)
{
    size_t n = strlen(word);

    return s.len >= n && memcmp(s.at, word, n) == 0;
}

/* ---- a line that is read from the left. The first fault stays, and what is read behind it counts for nothing, so that nobody has to ask field by field. */

static uint8_t strings[STRINGS]; /* those of the line's event, one behind the other */

struct line {
    struct text rest;
    size_t filled;     /* of `strings` */
    const char *field; /* the one that is read */
    const char *fault; /* null as long as there is none */
};

static void refuse(struct line *l, const char *fault)
{
    if (l->fault == NULL)
        l->fault = fault;
}

/* What stands in the field that must come next: ` NAME=` and all up to the next blank. */
static struct text field(struct line *l, const char *name)
{
    struct text rest = from(l->rest, 1), in;

    if (l->fault != NULL)
        return (struct text){"", 0};
    l->field = name;
    in = from(first(rest, ' '), strlen(name) + 1);
    if (!begins(l->rest, " ") || !begins(rest, name) || !begins(from(rest, strlen(name)), "="))
        refuse(l, "this field must stand here");
    l->rest = from(rest, strlen(name) + 1 + in.len);
    return in;
}

/* A digit in lower case, or 16. */
static uint8_t digit(char c)
{
    if (c >= '0' && c <= '9')
        return (uint8_t)(c - '0');
    return c >= 'a' && c <= 'f' ? (uint8_t)(c - 'a' + 10) : 16;
}

/* A plain decimal number. */
static uint64_t number(struct line *l, struct text s, uint64_t most)
{
    uint64_t x = 0;

    if (s.len == 0)
        refuse(l, "no number");
    for (size_t i = 0; i < s.len; i++) {
        uint8_t d = digit(s.at[i]);
        if (d > 9)
            refuse(l, "no number");
        else if (d > most || x > (most - d) / 10)
            refuse(l, "a number out of range");
        x = 10 * x + d;
    }
    return x;
}

/* A number with its sign, in two's complement; `most` is the greatest. */
static uint64_t signed_number(struct line *l, struct text s, uint64_t most)
{
    return begins(s, "-") ? 0 - number(l, from(s, 1), most + 1) : number(l, s, most);
}

/* The bytes of hex, kept behind those of the strings before. */
static sgh_span string(struct line *l, struct text hex)
{
    sgh_span s = {l->filled, hex.len / 2};

    if (hex.len % 2 != 0)
        refuse(l, "half a byte of hex");
    for (size_t i = 0; i < s.len; i++) {
        uint8_t high = digit(hex.at[2 * i]), low = digit(hex.at[2 * i + 1]);
        if (high > 15 || low > 15)
            refuse(l, "no hex in lower case");
        strings[l->filled++] = (uint8_t)(high << 4 | (low & 15));
    }
    return s;
}

/* ---- fields by their kind */

static uint64_t byte_field(struct line *l, const char *name)
{
    return number(l, field(l, name), UINT8_MAX);
}

static sgh_span string_field(struct line *l, const char *name)
{
    struct text in = field(l, name);

    if (!begins(in, "x"))
        refuse(l, "no string: x and hex");
    return string(l, from(in, 1));
}

static sgh_opt_span opt_string_field(struct line *l, const char *name)
{
    struct text in = field(l, name);
    sgh_span s;

    if (is(in, "-"))
        return (sgh_opt_span){0};
    if (!begins(in, "x"))
        refuse(l, "no string: x and hex, or -");
    s = string(l, from(in, 1));
    return (sgh_opt_span){1, s.start, s.len};
}

static sgh_opt_unsigned opt_byte_field(struct line *l, const char *name)
{
    struct text in = field(l, name);

    if (is(in, "-"))
        return (sgh_opt_unsigned){0};
    return (sgh_opt_unsigned){1, number(l, in, UINT8_MAX)};
}

static uint64_t seconds(struct line *l, struct text s)
{
    if (!begins(s, "sec:"))
        refuse(l, "no time: sec: and a number");
    return number(l, from(s, 4), 4294967295u);
}

static sgh_opt_unsigned opt_time_field(struct line *l, const char *name)
{
    struct text in = field(l, name);

    if (is(in, "-"))
        return (sgh_opt_unsigned){0};
    return (sgh_opt_unsigned){1, seconds(l, in)};
}

/* How many bytes the numbers of a kind have, as in u32; 0 for another letter or number of bits. */
static uint64_t width(struct text kind, const char *letter)
{
    static const char *const bits[] = {"8", "16", "32", "64"};

    for (uint64_t i = 0; i < 4; i++)
        if (begins(kind, letter) && is(from(kind, 1), bits[i]))
            return (uint64_t)1 << i;
    return 0;
}

/* The greatest number of so many bits. */
static uint64_t greatest(uint64_t bits)
{
    return UINT64_MAX >> (64 - bits);
}

static sgh_opt_status status_field(struct line *l)
{
    struct text in = field(l, "status"), kind = first(in, ':');
    uint64_t w = width(kind, "u");

    if (is(in, "-"))
        return (sgh_opt_status){0};
    if (w == 0 || kind.len == in.len) {
        refuse(l, "no status: u8:, u16:, u32: or u64: and a number");
        return (sgh_opt_status){0};
    }
    return (sgh_opt_status){1, w, number(l, from(in, kind.len + 1), greatest(8 * w))};
}

static sgh_opt_signed scaler_field(struct line *l)
{
    struct text in = field(l, "scaler");

    if (is(in, "-"))
        return (sgh_opt_signed){0};
    return (sgh_opt_signed){1, (int64_t)signed_number(l, in, greatest(7))};
}

static sgh_value value_field(struct line *l)
{
    struct text in = field(l, "value"), kind = first(in, ':'), rest = from(in, kind.len + 1);
    uint64_t u = width(kind, "u"), i = width(kind, "i");

    if (kind.len < in.len && is(kind, "bool"))
        return (sgh_value){SGH_VALUE_BOOL, 0, number(l, rest, 1), {0, 0}};
    if (kind.len < in.len && is(kind, "oct"))
        return (sgh_value){SGH_VALUE_BYTES, 0, 0, string(l, rest)};
    if (kind.len < in.len && is(kind, "list"))
        return (sgh_value){SGH_VALUE_TIME, 0, seconds(l, rest), {0, 0}};
    if (kind.len < in.len && i > 0)
        return (sgh_value){SGH_VALUE_SIGNED, i, signed_number(l, rest, greatest(8 * i - 1)), {0, 0}};
    if (kind.len < in.len && u > 0)
        return (sgh_value){SGH_VALUE_UNSIGNED, u, number(l, rest, greatest(8 * u)), {0, 0}};
    refuse(l, "no value: bool:, oct:, list:sec:, i8: to i64: or u8: to u64:");
    return (sgh_value){0};
}

/* ---- events: each field in its order, since C doesn't say in which one a list of values is evaluated. With `kind` alone in its initializer every other word of an event is 0, those that it doesn't use too. */

static sgh_event message_start(struct line *l, uint64_t body)
{
    sgh_event e = {.kind = SGH_MESSAGE_START};

    e.message.body = body;
    e.message.transaction_id = string_field(l, "tid");
    e.message.group_no = byte_field(l, "group");
    e.message.abort_on_error = byte_field(l, "abort");
    return e;
}

static sgh_event open_event(struct line *l)
{
    sgh_event e = message_start(l, SGH_OPEN_RESPONSE);
    sgh_open_response *o = &e.message.open;

    o->codepage = opt_string_field(l, "codepage");
    o->client_id = opt_string_field(l, "client");
    o->req_file_id = string_field(l, "file");
    o->server_id = string_field(l, "server");
    o->ref_time = opt_time_field(l, "time");
    o->sml_version = opt_byte_field(l, "version");
    return e;
}

static sgh_event close_event(struct line *l)
{
    sgh_event e = message_start(l, SGH_CLOSE_RESPONSE);

    e.message.close.global_signature = opt_string_field(l, "sig");
    return e;
}

static sgh_event list_event(struct line *l)
{
    sgh_event e = message_start(l, SGH_GET_LIST_RESPONSE);
    sgh_get_list_response *g = &e.message.list;

    g->client_id = opt_string_field(l, "client");
    g->server_id = string_field(l, "server");
    g->list_name = opt_string_field(l, "name");
    g->act_sensor_time = opt_time_field(l, "time");
    g->num_vals = number(l, field(l, "n"), 4294967295u);
    return e;
}

static sgh_event entry_event(struct line *l)
{
    sgh_event e = {.kind = SGH_LIST_ENTRY};

    e.entry.obj_name = string_field(l, "name");
    e.entry.status = status_field(l);
    e.entry.val_time = opt_time_field(l, "time");
    e.entry.unit = opt_byte_field(l, "unit");
    e.entry.scaler = scaler_field(l);
    e.entry.value = value_field(l);
    e.entry.value_signature = opt_string_field(l, "sig");
    return e;
}

static sgh_event end_event(struct line *l)
{
    sgh_event e = {.kind = SGH_GET_LIST_RESPONSE_END};

    e.end.list_signature = opt_string_field(l, "sig");
    e.end.act_gateway_time = opt_time_field(l, "time");
    return e;
}

static const struct event {
    const char *name;
    sgh_event (*read)(struct line *);
} events[] = {{"open", open_event}, {"close", close_event}, {"list", list_event}, {"entry", entry_event}, {"end", end_event}};

/* The event of a line; `fault` is set where it has none. */
static sgh_event event_of(struct line *l)
{
    struct text word = first(l->rest, ' ');
    sgh_event e = {0};

    for (size_t i = 0; i < sizeof events / sizeof *events; i++)
        if (is(word, events[i].name)) {
            l->rest = from(l->rest, word.len);
            e = events[i].read(l);
            if (l->rest.len > 0 && l->fault == NULL) {
                l->field = NULL;
                refuse(l, "more stands behind the last field");
            }
            return e;
        }
    refuse(l, "no event: it begins with none of open, close, list, entry and end");
    return e;
}

/* ---- a frame */

static uint8_t messages[SGH_LIMIT], whole[ROOM];

static struct {
    sgh_writer writer;
    uint64_t line;      /* of the input: the last that was read */
    uint64_t list_line; /* where the list's start stands */
    bool begun;         /* whether there is an event */
    bool refused;       /* then nothing is written of it, and the rest of it is not read */
    bool any_refused;   /* in the whole input */
} frame;

static void refuse_frame(const char *field, const char *fault)
{
    fprintf(stderr, "smlmeter: line %" PRIu64 ": %s%s%s\n", frame.line, field ? field : "", field ? ": " : "", fault);
    frame.refused = frame.any_refused = true;
}

/* What the list that is begun still needs, or that there is none. */
static void refuse_list(const char *before)
{
    char said[160];

    if (frame.writer.state == 0)
        snprintf(said, sizeof said, "%sno list is begun", before);
    else
        snprintf(said, sizeof said, "%sthe list of line %" PRIu64 " has %" PRIu64 " of its entries to come, then its end", before, frame.list_line, frame.writer.left);
    refuse_frame(NULL, said);
}

/* The library's refusal, with its number; 4 and 16 are for a place and spans that are never given here. */
static void refuse_event(uint32_t number)
{
    switch (number) {
    case 17:
        refuse_list("refused 17 WrongNumber: ");
        break;
    case 18:
        refuse_frame(NULL, "refused 18 OutputTooShort: a frame has at most 1048576 bytes of messages");
        break;
    default:
        refuse_frame(NULL, number == SGH_BAD_SPAN ? "refused 16 BadSpan" : "refused 4 BadState");
    }
}

/* The library begins a message wherever it is asked to; within a list that is not ended it is refused here. */
static void write_event(const sgh_event *e)
{
    bool start = e->kind == SGH_MESSAGE_START;
    uint32_t answer;

    if (start && frame.writer.state != 0) {
        refuse_list("a message begins, and ");
        return;
    }
    answer = sgh_write_event(messages, sizeof messages, strings, sizeof strings, e, &frame.writer);
    if (answer != SGH_GOOD)
        refuse_event(answer);
    if (start)
        frame.list_line = frame.line;
    frame.begun = true;
}

/* Status 2, but for a pipe that nobody reads any more, of which nothing is told. */
static void fail(const char *what)
{
    if (errno == EPIPE)
        _exit(1);
    fprintf(stderr, "smlmeter: %s: %s\n", what, strerror(errno));
    _exit(2);
}

static void put(const uint8_t *bytes, size_t len)
{
    for (size_t at = 0; at < len;) {
        ssize_t n = write(STDOUT_FILENO, bytes + at, len - at);
        if (n < 0)
            fail("output");
        at += (size_t)n;
    }
}

/* The frame goes out at once, so that a pipe works. All payloads that fit in `messages` are encoded. */
static void end_frame(void)
{
    size_t len = 0;

    if (frame.begun && !frame.refused && frame.writer.state != 0)
        refuse_list("the frame ends, and ");
    if (frame.begun && !frame.refused) {
        sgh_encode(messages, frame.writer.place, whole, sizeof whole, &len);
        put(whole, len);
    }
    frame.begun = frame.refused = false;
    frame.writer = (sgh_writer){0};
}

/* ---- lines */

static void take_line(struct text s)
{
    struct line l = {.rest = s};
    sgh_event e;

    if (begins(s, "#") || frame.refused)
        return;
    if (s.len > LONGEST) {
        refuse_frame(NULL, "a line of more than 70000 characters");
        return;
    }
    e = event_of(&l);
    if (l.fault != NULL)
        refuse_frame(l.field, l.fault);
    else
        write_event(&e);
}

/* The line so far: one character more than an event has, for the return before its end, and one more to tell what is too long. */
static struct {
    char at[LONGEST + 2];
    size_t len;
} input;

static void take(char c)
{
    if (c != '\n') {
        if (input.len < sizeof input.at)
            input.at[input.len++] = c;
        return;
    }
    if (input.len > 0 && input.at[input.len - 1] == '\r')
        input.len--;
    frame.line++;
    if (input.len == 0)
        end_frame();
    else
        take_line((struct text){input.at, input.len});
    input.len = 0;
}

/* A last line without its end is a line too, and the end of the input ends a frame. */
int main(void)
{
    static char chunk[65536];
    ssize_t n;

    while ((n = read(STDIN_FILENO, chunk, sizeof chunk)) > 0)
        for (ssize_t i = 0; i < n; i++)
            take(chunk[i]);
    if (n < 0)
        fail("input");
    if (input.len > 0)
        take('\n');
    end_frame();
    return frame.any_refused ? 1 : 0;
}
