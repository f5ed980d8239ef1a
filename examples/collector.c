/* collector [FILE]: reads what electricity meters send, from a file or a pipe, and prints each value on a line as soon as it has come.

   Build it with an installed library (docs/LIBRARY.md): cc -std=c11 collector.c $(pkg-config --cflags --libs sartrogheo) -o collector */
#include <errno.h>
#include <fcntl.h>
#include <inttypes.h>
#include <stdbool.h>
#include <stdio.h>
#include <string.h>
#include <unistd.h>

#include <sartrogheo.h>

#define CAPACITY 4096u /* for payloads of up to 4,092 bytes; those of meters have some hundreds */

/* A meter's line. Nobody but its decoder writes the buffer. */
struct line {
    sgh_decoder decoder;
    uint8_t buffer[CAPACITY];
    uint64_t bytes;    /* that were pushed */
    uint64_t payloads; /* that were handed out */
    bool refused;      /* whether anything was */
};

static const char help[] =
    "collector [FILE]: prints the values of SML meter frames, a line for each, as they come.\n"
    "Without FILE, or with -, it reads standard input.\n"
    "\n"
    "A line is NAME VALUE [UNIT], as in 1-0:1.8.0*255 4719126.3 Wh; a string is printed in hex, and - if it is empty.\n"
    "What is refused is a line too: refused NUMBER NAME at byte PLACE of the input, or of payload N, counted from 1; places are counted from 0.\n"
    "Status: 0 all read, 1 something refused, 2 usage or file.\n";

/* ---- refusals */

static const char *const names[] = {
    [SGH_DECODER_OUT_OF_MEMORY] = "OutOfMemory", [SGH_BAD_STATE] = "BadState", [SGH_WRONG_BUFFER] = "WrongBuffer", [SGH_DISCARDED_BYTES] = "DiscardedBytes",
    [SGH_INVALID_ESC] = "InvalidEsc", [SGH_INVALID_MESSAGE] = "InvalidMessage", [SGH_INPUT_TOO_LONG] = "InputTooLong", [SGH_UNEXPECTED_EOF] = "UnexpectedEOF",
    [SGH_INVALID_TLF] = "InvalidTlf", [SGH_TLF_MISMATCH] = "TlfMismatch", [SGH_UNEXPECTED_VARIANT] = "UnexpectedVariant", [SGH_CRC_MISMATCH] = "CrcMismatch",
    [SGH_MSG_END_MISMATCH] = "MsgEndMismatch",
};

static const char *const kinds[] = {
    [0] = "", [SGH_TLF_LENGTH_OVERFLOW] = " TlfLengthOverflow", [SGH_TLF_RESERVED] = " TlfReserved", [SGH_TLF_LENGTH_UNDERFLOW] = " TlfLengthUnderflow",
    [SGH_TLF_NEXT_BYTE_TYPE_MISMATCH] = " TlfNextByteTypeMismatch", [SGH_TLF_INVALID_TY] = " TlfInvalidTy",
};

/* A decoder's refusal; which values it has, its number says. */
static void refuse_frame(struct line *l, uint32_t number, uint64_t place, const uint64_t values[SGH_VALUES])
{
    l->refused = true;
    printf("refused %" PRIu32 " %s at byte %" PRIu64 " of the input", number, names[number], place);
    if (number == SGH_DISCARDED_BYTES)
        printf(": %" PRIu64 " lost", values[0]);
    if (number == SGH_INVALID_ESC)
        printf(": %02" PRIx64 "%02" PRIx64 "%02" PRIx64 "%02" PRIx64, values[0], values[1], values[2], values[3]);
    if (number == SGH_INVALID_MESSAGE)
        printf(": CRC %04" PRIx64 ", computed %04" PRIx64 ", %s, %" PRIu64 " pads", values[0], values[1], values[2] ? "misaligned" : "aligned", values[3]);
    putchar('\n');
}

static void refuse_message(struct line *l, const sgh_refusal *r)
{
    l->refused = true;
    printf("refused %" PRIu64 " %s%s at byte %" PRIu64 " of payload %" PRIu64 "\n", r->number, names[r->number], kinds[r->kind], r->place, l->payloads);
}

/* ---- an entry */

static void print_hex(const uint8_t *bytes, uint64_t len)
{
    if (len == 0)
        putchar('-');
    for (uint64_t i = 0; i < len; i++)
        printf("%02x", bytes[i]);
}

/* The six bytes of an OBIS name as they are written, A-B:C.D.E*F. */
static void print_name(const uint8_t *name, uint64_t len)
{
    if (len == 6)
        printf("%u-%u:%u.%u.%u*%u", name[0], name[1], name[2], name[3], name[4], name[5]);
    else
        print_hex(name, len);
}

/* A number times ten to the scaler. The point is put between the digits, since a float hasn't room for all that a counter of 64 bits has. */
static void print_scaled(bool negative, uint64_t magnitude, int64_t scaler)
{
    char digits[sizeof "18446744073709551615"];
    int n = snprintf(digits, sizeof digits, "%" PRIu64, magnitude);
    int before = magnitude == 0 && scaler > 0 ? 1 : n + (int)scaler; /* how many digits stand before the point */

    fputs(negative ? "-" : "", stdout);
    fputs(before <= 0 ? "0." : "", stdout);
    for (int i = before; i < 0; i++)
        putchar('0');
    for (int i = 0; i < n; i++) {
        if (i == before && i > 0)
            putchar('.');
        putchar(digits[i]);
    }
    for (int i = n; i < before; i++)
        putchar('0');
}

/* A scaler that is absent has the value 0, which moves no point. */
static void print_value(const uint8_t *payload, const sgh_value *v, int64_t scaler)
{
    bool negative = v->kind == SGH_VALUE_SIGNED && (int64_t)v->number < 0;

    switch (v->kind) {
    case SGH_VALUE_BOOL:
        fputs(v->number ? "true" : "false", stdout);
        break;
    case SGH_VALUE_BYTES:
        print_hex(payload + v->bytes.start, v->bytes.len);
        break;
    case SGH_VALUE_TIME:
        printf("%" PRIu64 " s", v->number);
        break;
    default: /* SGH_VALUE_SIGNED, SGH_VALUE_UNSIGNED */
        print_scaled(negative, negative ? 0 - v->number : v->number, scaler);
    }
}

/* A unit is a byte, a code of DLMS. Those that meters send most have their names here; any other is printed as its number. */
static void print_unit(uint64_t unit)
{
    static const char *const units[UINT8_MAX + 1] = {[27] = "W", [30] = "Wh", [33] = "A", [35] = "V", [44] = "Hz"};

    if (units[unit] != NULL)
        printf(" %s", units[unit]);
    else
        printf(" unit %" PRIu64, unit);
}

static void print_entry(const uint8_t *payload, const sgh_list_entry *e)
{
    print_name(payload + e->obj_name.start, e->obj_name.len);
    putchar(' ');
    print_value(payload, &e->value, e->scaler.value);
    if (e->unit.present)
        print_unit(e->unit.value);
    putchar('\n');
}

/* ---- the line */

/* The payload is read where it stands, in the decoder's buffer: it stays there until the next push. A refusal drops the rest of it, so the loop ends there too. */
static void print_payload(struct line *l, uint64_t len)
{
    sgh_reader reader = {0};
    sgh_event event;
    uint32_t answer;

    l->payloads++;
    while ((answer = sgh_next_event(l->buffer, len, &reader, &event)) == SGH_GOOD)
        if (event.kind == SGH_LIST_ENTRY)
            print_entry(l->buffer, &event.entry);
    if (answer != SGH_FINISHED)
        refuse_message(l, &event.refused);
}

/* A push stops behind the first byte that has something to say, and is called again with the rest. One that takes no byte (4 or 5) would take none again. */
static void take(struct line *l, const uint8_t *chunk, size_t len)
{
    size_t taken = 1;

    while (len > 0 && taken > 0) {
        uint64_t values[SGH_VALUES];
        uint32_t answer = sgh_push_slice(&l->decoder, l->buffer, CAPACITY, chunk, len, &taken, values);

        l->bytes += taken;
        if (answer == SGH_PAYLOAD)
            print_payload(l, values[0]);
        else if (answer != SGH_GOOD)
            refuse_frame(l, answer, l->bytes - 1, values);
        chunk += taken;
        len -= taken;
    }
}

/* At the input's end a frame may have begun, or noise be left. */
static void finish(struct line *l)
{
    uint64_t values[SGH_VALUES];
    uint32_t answer = sgh_finalize(&l->decoder, values);

    if (answer != SGH_GOOD)
        refuse_frame(l, answer, l->bytes, values);
}

static int fail(const char *what)
{
    fprintf(stderr, "collector: %s: %s\n", what, strerror(errno));
    return 2;
}

static bool flushed(void)
{
    return fflush(stdout) == 0 && !ferror(stdout);
}

/* By read, which gives what has come so far and is called again where a signal cut it; flushed behind each chunk, so that whoever reads the output waits for no more than that. */
static int collect(int in, const char *path, struct line *l)
{
    uint8_t chunk[1024];
    ssize_t n;

    while ((n = read(in, chunk, sizeof chunk)) > 0 || (n < 0 && errno == EINTR)) {
        if (n > 0)
            take(l, chunk, (size_t)n);
        if (!flushed())
            return fail("output");
    }
    if (n < 0)
        return fail(path);
    finish(l);
    if (!flushed())
        return fail("output");
    return l->refused ? 1 : 0;
}

int main(int argc, char **argv)
{
    const char *path = argc > 1 ? argv[1] : "-";
    static struct line line;
    int in = STDIN_FILENO;

    if (argc == 2 && strcmp(path, "-h") == 0)
        return fputs(help, stdout) < 0 || !flushed() ? fail("output") : 0;
    if (argc > 2 || (path[0] == '-' && path[1] != '\0')) {
        fputs("usage: collector [-h] [FILE]\n", stderr);
        return 2;
    }
    if (strcmp(path, "-") != 0 && (in = open(path, O_RDONLY)) < 0)
        return fail(path);
    /* the second way of searching: a stray 1b before a frame doesn't hide it */
    sgh_decoder_new(&line.decoder, CAPACITY, SGH_SECOND_WAY);
    return collect(in, path, &line);
}
