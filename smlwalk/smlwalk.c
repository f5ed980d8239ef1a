/* smlwalk: prints every element of every payload that standard input holds, whether a reader knows its tag or not. bin/smlwalk runs it; its help tells what the lines are.

   It knows no frames and no length bytes: the library decodes (sgh_push_slice), says what begins at a place (sgh_read_item), and what of an element is refused (sgh_walk). */
#include <errno.h>
#include <inttypes.h>
#include <stdbool.h>
#include <stdint.h>
#include <stdio.h>
#include <string.h>
#include <unistd.h>

#include <sartrogheo.h>

#define DEEPEST 16u /* so many lists are open at the most: sgh_walk refuses one more */

/* ---- output, in a buffer of its own, so that what fails is told by its cause */

static struct {
    char at[65536];
    size_t len;
} output;

/* Status 2, but for a pipe that nobody reads any more, of which nothing is told. */
static void fail(const char *what)
{
    if (errno == EPIPE)
        _exit(1);
    fprintf(stderr, "smlwalk: %s: %s\n", what, strerror(errno));
    _exit(2);
}

/* A write may take a part, or be cut by a signal, and is called again for the rest. */
static void flush(void)
{
    for (size_t at = 0; at < output.len;) {
        ssize_t n = write(STDOUT_FILENO, output.at + at, output.len - at);
        if (n < 0 && errno != EINTR)
            fail("output");
        at += n > 0 ? (size_t)n : 0;
    }
    output.len = 0;
}

static void put(char c)
{
    if (output.len == sizeof output.at)
        flush();
    output.at[output.len++] = c;
}

static void put_text(const char *s)
{
    while (*s != '\0')
        put(*s++);
}

static void put_number(uint64_t n)
{
    char digits[sizeof "18446744073709551615"];

    snprintf(digits, sizeof digits, "%" PRIu64, n);
    put_text(digits);
}

static void put_hex(const uint8_t *bytes, uint64_t len)
{
    static const char digits[] = "0123456789abcdef";

    for (uint64_t i = 0; i < len; i++) {
        put(digits[bytes[i] >> 4]);
        put(digits[bytes[i] & 15]);
    }
}

/* ---- what a content may mean, told behind its hex */

/* An empty string has nothing to show. */
static bool is_text(const uint8_t *bytes, uint64_t len)
{
    for (uint64_t i = 0; i < len; i++)
        if (bytes[i] < ' ' || bytes[i] > '~')
            return false;
    return len > 0;
}

/* Quote and backslash are escaped, so that the last quote of a line is the text's end. */
static void put_quoted(const uint8_t *bytes, uint64_t len)
{
    put_text(" = \"");
    for (uint64_t i = 0; i < len; i++) {
        if (bytes[i] == '"' || bytes[i] == '\\')
            put('\\');
        put((char)bytes[i]);
    }
    put('"');
}

/* A string of six bytes is mostly an OBIS name, but not always: both readings are told where both are possible. */
static void put_string(const uint8_t *b, uint64_t len)
{
    char name[sizeof " = 255-255:255.255.255*255"];

    if (len == 6) {
        snprintf(name, sizeof name, " = %u-%u:%u.%u.%u*%u", b[0], b[1], b[2], b[3], b[4], b[5]);
        put_text(name);
    }
    if (is_text(b, len))
        put_quoted(b, len);
}

/* As the event reader takes it: all but 00 is true. */
static void put_boolean(const uint8_t *bytes, uint64_t len)
{
    if (len == 1)
        put_text(bytes[0] ? " = true" : " = false");
}

/* The bytes, high one first, behind those of `above`, which a negative number has set. */
static uint64_t number(const uint8_t *bytes, uint64_t len, uint64_t above)
{
    for (uint64_t i = 0; i < len; i++)
        above = above << 8 | bytes[i];
    return above;
}

/* The sign is put by hand, since the least number has no positive one. */
static void put_integer(const uint8_t *bytes, uint64_t len)
{
    bool negative = len > 0 && bytes[0] >= 0x80;
    uint64_t x;

    if (len < 1 || len > 8)
        return;
    x = number(bytes, len, negative ? UINT64_MAX : 0);
    put_text(negative ? " = -" : " = ");
    put_number(negative ? 0 - x : x);
}

static void put_unsigned(const uint8_t *bytes, uint64_t len)
{
    if (len < 1 || len > 8)
        return;
    put_text(" = ");
    put_number(number(bytes, len, 0));
}

/* ---- a line for each item */

static const struct {
    const char *name;
    void (*put)(const uint8_t *, uint64_t);
} types[] = {
    [SGH_TY_OCTET_STRING] = {"string", put_string},
    [SGH_TY_BOOLEAN] = {"boolean", put_boolean},
    [SGH_TY_INTEGER] = {"integer", put_integer},
    [SGH_TY_UNSIGNED] = {"unsigned", put_unsigned},
};

/* Seven digits have room for every place, so that what stands behind them begins in the same column in every payload. */
static void put_place(uint64_t at, size_t open)
{
    char before[sizeof "18446744073709551615 " + 2 * DEEPEST];

    snprintf(before, sizeof before, "%7" PRIu64 " %*s", at, (int)(2 * open), "");
    put_text(before);
}

static void put_sized(const char *what, uint64_t n)
{
    put_text(what);
    put_text(" of ");
    put_number(n);
}

/* The colon stands only where something follows. */
static void put_bytes(const char *what, const uint8_t *bytes, uint64_t len)
{
    put_sized(what, len);
    put_text(len > 0 ? ": " : "");
    put_hex(bytes, len);
}

static void put_item(const uint8_t *payload, const sgh_item *item)
{
    const uint8_t *content = payload + item->content.start;

    switch (item->kind) {
    case SGH_END_MARK:
        put_text("end mark");
        break;
    case SGH_LIST:
        put_sized("list", item->count);
        break;
    default: /* SGH_LEAF */
        put_bytes(types[item->ty].name, content, item->content.len);
        types[item->ty].put(content, item->content.len);
    }
    put('\n');
}

/* ---- refusals, behind all that was printed before them */

static bool any_refused; /* in the whole input */

static const char *const names[] = {
    [SGH_DECODER_OUT_OF_MEMORY] = "OutOfMemory", [SGH_BAD_STATE] = "BadState", [SGH_WRONG_BUFFER] = "WrongBuffer", [SGH_DISCARDED_BYTES] = "DiscardedBytes",
    [SGH_INVALID_ESC] = "InvalidEsc", [SGH_INVALID_MESSAGE] = "InvalidMessage", [SGH_INPUT_TOO_LONG] = "InputTooLong", [SGH_UNEXPECTED_EOF] = "UnexpectedEOF",
    [SGH_INVALID_TLF] = "InvalidTlf", [SGH_TOO_DEEP] = "TooDeep",
};

static const char *const kinds[] = {
    [0] = "", [SGH_TLF_LENGTH_OVERFLOW] = " TlfLengthOverflow", [SGH_TLF_RESERVED] = " TlfReserved", [SGH_TLF_LENGTH_UNDERFLOW] = " TlfLengthUnderflow",
    [SGH_TLF_NEXT_BYTE_TYPE_MISMATCH] = " TlfNextByteTypeMismatch", [SGH_TLF_INVALID_TY] = " TlfInvalidTy",
};

static void refuse_payload(uint64_t payload, const sgh_refusal *r)
{
    any_refused = true;
    flush();
    fprintf(stderr, "smlwalk: payload %" PRIu64 ": %" PRIu64 " %s%s at payload byte %" PRIu64 "\n", payload, r->number, names[r->number], kinds[r->kind], r->place);
}

/* A decoder's refusal, in one write; which values it has, its number says. */
static void refuse_frame(uint32_t number, uint64_t place, const uint64_t values[SGH_VALUES])
{
    char said[100] = "";

    any_refused = true;
    flush();
    if (number == SGH_DISCARDED_BYTES)
        snprintf(said, sizeof said, ": %" PRIu64 " lost", values[0]);
    if (number == SGH_INVALID_ESC)
        snprintf(said, sizeof said, ": %02" PRIx64 "%02" PRIx64 "%02" PRIx64 "%02" PRIx64, values[0], values[1], values[2], values[3]);
    if (number == SGH_INVALID_MESSAGE)
        snprintf(said, sizeof said, ": CRC %04" PRIx64 ", computed %04" PRIx64 ", %s, %" PRIu64 " pads", values[0], values[1], values[2] ? "misaligned" : "aligned", values[3]);
    fprintf(stderr, "smlwalk: input: %" PRIu32 " %s at byte %" PRIu64 "%s\n", number, names[number], place, said);
}

/* ---- a payload */

/* It stands here; one byte more than the longest tells what is too long. The decoder is lent all but that one. */
static uint8_t buffer[SGH_LIMIT + 1];
static uint64_t payloads; /* that were begun */

/* How many lists are open behind an item: `wants` has for each how many elements are to come, and one that wants none is closed. */
static size_t still_open(uint64_t wants[DEEPEST], size_t open, const sgh_item *item)
{
    if (open > 0)
        wants[open - 1]--;
    if (item->kind == SGH_LIST)
        wants[open++] = item->count;
    while (open > 0 && wants[open - 1] == 0)
        open--;
    return open;
}

/* The bytes that a refusal leaves, as they stand: of an element that is cut short they are all that there is to see. */
static void put_rest(size_t len, uint64_t at, size_t open)
{
    if (at == len)
        return;
    put_place(at, open);
    put_bytes("rest", buffer + at, len - at);
    put('\n');
}

/* The items of an element that was walked, in the order of the bytes: to its end, or to what is refused in it. Gives the place behind the element. */
static uint64_t print_element(size_t len, uint64_t at, const sgh_walked *walked)
{
    bool refused = walked->refused.number != SGH_GOOD;
    uint64_t end = refused ? walked->refused.place : at + walked->bytes, wants[DEEPEST];
    size_t open = 0;
    sgh_item item;

    while (at < end && sgh_read_item(buffer, len, at, &item) == SGH_GOOD) {
        put_place(at, open);
        put_item(buffer, &item);
        open = still_open(wants, open, &item);
        at = item.next;
    }
    if (refused)
        put_rest(len, at, open);
    return at;
}

/* Elements, one behind the other; behind one that is refused nothing can be told apart. Flushed, so that who reads the output waits for no later payload. */
static void print_elements(size_t len)
{
    sgh_walked walked = {0};
    uint64_t at = 0;

    while (at < len && walked.refused.number == SGH_GOOD) {
        sgh_walk(buffer, len, at, &walked);
        at = print_element(len, at, &walked);
    }
    if (walked.refused.number != SGH_GOOD)
        refuse_payload(payloads, &walked.refused);
    flush();
}

static void begin_payload(size_t len)
{
    put_text("payload ");
    put_number(++payloads);
    put_text(": length ");
    put_number(len);
}

/* ---- the input */

/* What has come so far; 0 at the input's end, which a signal is not. */
static size_t taken_in(uint8_t *to, size_t room)
{
    ssize_t n;

    do
        n = read(STDIN_FILENO, to, room);
    while (n < 0 && errno == EINTR);
    if (n < 0)
        fail("input");
    return (size_t)n;
}

static struct {
    sgh_decoder decoder;
    uint64_t bytes; /* that were pushed */
} line;

static void print_payload(size_t len)
{
    begin_payload(len);
    put_text(", frame ends at byte ");
    put_number(line.bytes - 1);
    put('\n');
    print_elements(len);
}

/* A push stops behind the first byte that has something to say, and is called again with the rest. One that takes no byte (4 or 5) would take none again. */
static void push(const uint8_t *chunk, size_t len)
{
    size_t taken = 1;

    while (len > 0 && taken > 0) {
        uint64_t values[SGH_VALUES];
        uint32_t answer = sgh_push_slice(&line.decoder, buffer, SGH_LIMIT, chunk, len, &taken, values);

        line.bytes += taken;
        if (answer == SGH_PAYLOAD)
            print_payload(values[0]);
        else if (answer != SGH_GOOD)
            refuse_frame(answer, line.bytes - 1, values);
        chunk += taken;
        len -= taken;
    }
}

/* At the input's end a frame may have begun, or noise be left. */
static void print_frames(uint8_t way)
{
    static uint8_t chunk[65536];
    uint64_t values[SGH_VALUES];
    uint32_t answer;
    size_t n;

    sgh_decoder_new(&line.decoder, SGH_LIMIT, way);
    while ((n = taken_in(chunk, sizeof chunk)) > 0)
        push(chunk, n);
    answer = sgh_finalize(&line.decoder, values);
    if (answer != SGH_GOOD)
        refuse_frame(answer, line.bytes, values);
}

/* The whole input is a payload. Of one that is too long the library refuses even the first element, and it has no length to print. */
static void print_plain(void)
{
    size_t len = 0, n;
    sgh_walked walked;

    while (len < sizeof buffer && (n = taken_in(buffer + len, sizeof buffer - len)) > 0)
        len += n;
    if (sgh_walk(buffer, len, 0, &walked) == SGH_INPUT_TOO_LONG) {
        any_refused = true;
        fprintf(stderr, "smlwalk: payload 1: 9 InputTooLong: more than %u bytes\n", SGH_LIMIT);
        return;
    }
    begin_payload(len);
    put('\n');
    print_elements(len);
}

int main(int argc, char **argv)
{
    uint8_t way = SGH_FIRST_WAY;
    bool plain = false;

    for (int i = 1; i < argc; i++) {
        if (strcmp(argv[i], "-2") == 0)
            way = SGH_SECOND_WAY;
        else if (strcmp(argv[i], "-p") == 0)
            plain = true;
        else {
            fputs("usage: smlwalk [-2] [-p]\n", stderr);
            return 2;
        }
    }
    if (plain)
        print_plain();
    else
        print_frames(way);
    return any_refused ? 1 : 0;
}
