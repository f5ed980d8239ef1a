/* host [FILE]: what a machine with 200 meters does. A recording, from a file or standard input, is played to 200 lines at once, to each from another place on and in pieces
   of other sizes, and what each line hands out is printed.

   Build it with an installed library (docs/LIBRARY.md): cc -std=c11 host.c $(pkg-config --cflags --libs sartrogheo) -o host */
#include <errno.h>
#include <inttypes.h>
#include <stdbool.h>
#include <stdio.h>
#include <string.h>

#include <sartrogheo.h>

#define LINES 200u
#define CAPACITY 4096u /* for payloads of up to 4,092 bytes; those of meters have some hundreds */
#define LONGEST (1u << 20)
#define TIMES 2u /* so that each line hears all of the recording in one piece, wherever it begins */

/* The decoders are plain bytes, 28 each: one array, which may be copied or stored as it is. Each has a buffer of its own, and nothing is to be freed. */
static sgh_decoder decoders[LINES];
static uint8_t buffers[LINES][CAPACITY];

/* What a line has handed out. */
static struct {
    size_t pushed;
    unsigned payloads, refused;
    uint64_t lost; /* bytes that belong to no frame */
    uint16_t sum;  /* of the payloads' CRCs */
} told[LINES];

static uint8_t recording[LONGEST];

static const char help[] =
    "host [FILE]: plays a recording to 200 decoders at once and prints what each hands out.\n"
    "Without FILE, or with -, it reads standard input. Line i begins i/200 of the recording behind its first byte, and hears it twice.\n"
    "\n"
    "A line is LINE: payloads N, refused N, lost N, sum HEX: how many payloads, how many refusals, how many bytes belong to no frame, and the sum of the payloads' CRCs.\n"
    "Status: 0 done, 2 usage or file.\n";

/* Counts an answer. A payload stands in the line's buffer until the line's next push, so it is looked at now. */
static void note(unsigned i, uint32_t answer, const uint64_t values[SGH_VALUES])
{
    if (answer == SGH_GOOD)
        return;
    if (answer == SGH_PAYLOAD) {
        told[i].payloads++;
        told[i].sum += sgh_crc(buffers[i], values[0]);
        return;
    }
    told[i].refused++;
    if (answer == SGH_DISCARDED_BYTES)
        told[i].lost += values[0];
}

/* A push stops behind the first byte that has something to say, and is called again with the rest. One that takes no byte (4 or 5) would take none again. */
static void push(unsigned i, const uint8_t *chunk, size_t len)
{
    size_t taken = 1;

    while (len > 0 && taken > 0) {
        uint64_t values[SGH_VALUES];
        uint32_t answer = sgh_push_slice(&decoders[i], buffers[i], CAPACITY, chunk, len, &taken, values);

        note(i, answer, values);
        chunk += taken;
        len -= taken;
    }
}

static size_t least(size_t a, size_t b)
{
    return a < b ? a : b;
}

/* Plays line i its next piece: 1 to 97 bytes, by turn and line, up to the recording's end, behind which it goes on at the first byte. False where the line has had all. */
static bool play(unsigned i, size_t turn, size_t len)
{
    size_t left = TIMES * len - told[i].pushed;

    if (left == 0)
        return false;
    size_t at = (len * i / LINES + told[i].pushed) % len;
    size_t size = least(1 + (turn * 31 + i * 7) % 97, least(left, len - at));

    push(i, recording + at, size);
    told[i].pushed += size;
    return true;
}

/* The lines take turns, as a host that waits for whichever has something. */
static void play_all(size_t len)
{
    bool more = true;

    for (unsigned i = 0; i < LINES; i++)
        sgh_decoder_new(&decoders[i], CAPACITY, SGH_SECOND_WAY);
    for (size_t turn = 0; more; turn++) {
        more = false;
        for (unsigned i = 0; i < LINES; i++)
            more |= play(i, turn, len);
    }
    for (unsigned i = 0; i < LINES; i++) {
        uint64_t values[SGH_VALUES];
        uint32_t answer = sgh_finalize(&decoders[i], values);

        note(i, answer, values);
    }
}

static void print_all(void)
{
    unsigned payloads = 0, refused = 0;
    uint64_t lost = 0;

    for (unsigned i = 0; i < LINES; i++) {
        printf("%u: payloads %u, refused %u, lost %" PRIu64 ", sum %04x\n", i, told[i].payloads, told[i].refused, told[i].lost, told[i].sum);
        payloads += told[i].payloads;
        refused += told[i].refused;
        lost += told[i].lost;
    }
    printf("all: payloads %u, refused %u, lost %" PRIu64 "\n", payloads, refused, lost);
}

static int fail(const char *path, const char *what)
{
    fprintf(stderr, "host: %s: %s\n", path, what);
    return 2;
}

/* The status behind the last words: those that wait to be written may find no room. */
static int written(int answer)
{
    return answer < 0 || fflush(stdout) != 0 || ferror(stdout) ? fail("output", strerror(errno)) : 0;
}

int main(int argc, char **argv)
{
    const char *path = argc > 1 ? argv[1] : "-";
    FILE *in = stdin;

    if (argc == 2 && strcmp(path, "-h") == 0)
        return written(fputs(help, stdout));
    if (argc > 2 || (path[0] == '-' && path[1] != '\0')) {
        fputs("usage: host [-h] [FILE]\n", stderr);
        return 2;
    }
    if (strcmp(path, "-") != 0 && (in = fopen(path, "rb")) == NULL)
        return fail(path, strerror(errno));
    size_t len = fread(recording, 1, LONGEST, in);
    if (ferror(in))
        return fail(path, strerror(errno));
    if (len == LONGEST)
        return fail(path, "a recording of a megabyte or more");
    play_all(len);
    print_all();
    return written(0);
}
