/* smlwhy: names for all that is lost of the recording on standard input why it is lost, and what to do about it. bin/smlwhy runs it; its help tells what the lines are.

   It knows no frames: the library tells what is lost (sgh_watch_slice, sgh_watch_end). No more of a recording is kept than the bytes that were read last. */
#define _POSIX_C_SOURCE 200809L /* for sigaction */
#include <errno.h>
#include <inttypes.h>
#include <signal.h>
#include <stdbool.h>
#include <stdint.h>
#include <stdio.h>
#include <string.h>
#include <unistd.h>

#include <sartrogheo.h>

/* Status 2, but for a pipe that nobody reads any more, of which nothing is told. */
static void fail(const char *what)
{
    if (errno == EPIPE)
        _exit(1);
    fprintf(stderr, "smlwhy: %s: %s\n", what, strerror(errno));
    _exit(2);
}

/* ---- a line, written as soon as it is whole, so that who reads the output waits for no later byte */

static struct {
    char at[600]; /* more than the longest has */
    size_t len;
} line;

static void put(const char *s)
{
    size_t n = strlen(s), room = sizeof line.at - line.len;

    n = n < room ? n : room;
    memcpy(line.at + line.len, s, n);
    line.len += n;
}

static void put_number(uint64_t n)
{
    char digits[sizeof "18446744073709551615"];

    snprintf(digits, sizeof digits, "%" PRIu64, n);
    put(digits);
}

/* A write may take a part, or be cut by a signal, and is called again for the rest. */
static void end_line(void)
{
    put("\n");
    for (size_t at = 0; at < line.len;) {
        ssize_t n = write(STDOUT_FILENO, line.at + at, line.len - at);
        if (n < 0 && errno != EINTR)
            fail("output");
        at += n > 0 ? (size_t)n : 0;
    }
    line.len = 0;
}

/* ---- causes: each with its word, what it means, and what to do about it where it is the only one */

#define IF_IT_GOES_ON "; if it goes on, look at the reading head, the cable and the baud rate"
#define DAMAGED "bytes were lost, doubled or changed on the line" IF_IT_GOES_ON
#define OWN_FAULT "since the CRC is right, the meter's own fault if it happens again, ask its maker; else bytes were "

static const struct {
    uint64_t bit;
    const char *name, *means, *advice;
} causes[] = {
    {SGH_CAUSE_NOISE, "noise", "no frame begins here", "nothing to do on an idle line, behind another loss, or where the recording begins inside a frame; if it goes on, look at the baud rate and the parity"},
    {SGH_CAUSE_UNFINISHED, "unfinished", "the recording ends inside a frame", "record longer; if it is cut then, its end was lost on the line"},
    {SGH_CAUSE_HIDDEN, "hidden", "a frame's start lies here, and a 1b before it hid it", "search in the second way, -2; behind room give the larger buffer first"},
    {SGH_CAUSE_CUT, "cut", "a new frame begins before this one's end", "the meter began anew, or bytes up to the end were lost or changed on the line" IF_IT_GOES_ON},
    {SGH_CAUSE_ESCAPE, "escape", "an escape that means nothing", "bytes inside the frame were lost, doubled or changed on the line" IF_IT_GOES_ON},
    {SGH_CAUSE_ROOM, "room", "the frame doesn't fit in the buffer", NULL},
    {SGH_CAUSE_CRC, "crc", "the CRC is wrong", DAMAGED},
    {SGH_CAUSE_MISALIGNED, "misaligned", "the end isn't at a multiple of four bytes", OWN_FAULT "lost or doubled on the line"},
    {SGH_CAUSE_PADS, "pads", "the number of padding bytes is wrong", OWN_FAULT "changed on the line"},
};

#define CAUSES (sizeof causes / sizeof *causes)

/* How large a buffer the frame wants is known behind its end alone, and the line doesn't wait for that. */
static void put_larger(size_t capacity)
{
    if (capacity == SGH_LIMIT) {
        put("there is no larger one: the frame's end was lost on the line, or no meter sent this");
        return;
    }
    put("give a larger one, -c ");
    put_number(SGH_LIMIT);
    put(" is the largest; if the frame is lost with that too, its end was lost on the line");
}

/* Each cause that is named, by its word or by what it means. */
static void put_causes(uint64_t bits, bool words, const char *between)
{
    const char *before = "";

    for (size_t i = 0; i < CAUSES; i++)
        if (bits & causes[i].bit) {
            put(before);
            put(words ? causes[i].name : causes[i].means);
            before = between;
        }
}

/* Of several causes one advice is given; of no room it depends on the buffer. A right CRC says that the bytes came as they were sent. */
static void put_advice(uint64_t bits, size_t capacity)
{
    const char *advice = DAMAGED;

    if ((bits & SGH_CAUSE_CRC) == 0)
        advice = OWN_FAULT "lost, doubled or changed on the line";
    for (size_t i = 0; i < CAUSES; i++)
        if (bits == causes[i].bit)
            advice = causes[i].advice;
    if (advice == NULL)
        put_larger(capacity);
    else
        put(advice);
}

static void print_loss(const sgh_loss *loss, size_t capacity)
{
    put_causes(loss->causes, true, "+");
    put(" ");
    put_number(loss->first);
    put(" ");
    put_number(loss->last);
    put(": ");
    put_causes(loss->causes, false, ", ");
    put("; ");
    put_advice(loss->causes, capacity);
    end_line();
}

/* ---- signals: Ctrl-C and the like end the recording as its last byte does, so that what was lost so far is told */

static volatile sig_atomic_t ended;

/* A read that waits is cut, and one that is about to begin finds no input any more. */
static void end_input(int number)
{
    int error = errno;

    (void)number;
    ended = 1;
    close(STDIN_FILENO);
    errno = error;
}

/* Without SA_RESTART, with which a read that was cut would go on. */
static void hear_signals(void)
{
    struct sigaction action = {.sa_handler = end_input};

    sigemptyset(&action.sa_mask);
    sigaction(SIGINT, &action, NULL);
    sigaction(SIGTERM, &action, NULL);
}

/* ---- the recording */

static struct {
    sgh_decoder decoder;
    sgh_watch watch;
    uint8_t buffer[SGH_LIMIT];
    size_t capacity;                 /* so many bytes of it are lent */
    uint64_t kept, frames, lost, pieces; /* bytes in frames, and in losses */
} recording;

/* A frame or a loss, from its first to its last byte. */
static void take(uint32_t answer, const sgh_loss *loss)
{
    uint64_t bytes = loss->last - loss->first + 1;

    if (answer == SGH_PAYLOAD) {
        recording.kept += bytes;
        recording.frames++;
    } else if (answer == SGH_LOST) {
        recording.lost += bytes;
        recording.pieces++;
        print_loss(loss, recording.capacity);
    }
}

/* A call stops behind the first byte that has something to say, and is called again with the rest. One that takes no byte (4 or 5) would take none again. */
static void push(const uint8_t *chunk, size_t len)
{
    size_t taken = 1;

    while (len > 0 && taken > 0) {
        sgh_loss loss;

        take(sgh_watch_slice(&recording.decoder, &recording.watch, recording.buffer, recording.capacity, chunk, len, &taken, &loss), &loss);
        chunk += taken;
        len -= taken;
    }
}

/* What has come so far; 0 at the input's end, or where a signal has ended it; -1 where it can't be read. Any other signal changes nothing. */
static ssize_t taken_in(uint8_t *to, size_t room)
{
    ssize_t n;

    do
        n = ended ? 0 : read(STDIN_FILENO, to, room);
    while (n < 0 && (errno == EINTR || ended));
    return n;
}

/* A number, and what is counted: one, or several. */
static void put_count(uint64_t n, const char *one, const char *several)
{
    put_number(n);
    put(n == 1 ? one : several);
}

static void print_sum(void)
{
    put("kept ");
    put_number(recording.kept);
    put(" of ");
    put_count(recording.watch.pushed, " byte in ", " bytes in ");
    put_count(recording.frames, " frame, lost ", " frames, lost ");
    put_number(recording.lost);
    put(" in ");
    put_count(recording.pieces, " piece", " pieces");
    end_line();
}

/* At the recording's end a frame may have begun, or noise be left; one that can't be read on has ended, too. */
static void print_losses(void)
{
    static uint8_t chunk[65536];
    sgh_loss loss;
    ssize_t n;

    while ((n = taken_in(chunk, sizeof chunk)) > 0)
        push(chunk, (size_t)n);
    int error = errno;
    take(sgh_watch_end(&recording.decoder, &recording.watch, &loss), &loss);
    print_sum();
    errno = error;
    if (n < 0)
        fail("input");
}

/* ---- the words of the command */

/* A plain decimal number; one that is too large stays over every limit. */
static bool takes_capacity(const char *s)
{
    size_t x = 0, n = strlen(s);

    for (size_t i = 0; i < n; i++) {
        if (s[i] < '0' || s[i] > '9')
            return false;
        x = x > SGH_LIMIT ? x : 10 * x + (size_t)(s[i] - '0');
    }
    recording.capacity = x;
    return n > 0;
}

static int refuse(const char *capacity, const char *why)
{
    fprintf(stderr, "smlwhy: -c %s: %s\n", capacity, why);
    return 2;
}

int main(int argc, char **argv)
{
    const char *capacity = "4096";
    uint8_t way = SGH_FIRST_WAY;

    for (int i = 1; i < argc; i++) {
        if (strcmp(argv[i], "-2") == 0)
            way = SGH_SECOND_WAY;
        else if (strcmp(argv[i], "-c") == 0 && i + 1 < argc)
            capacity = argv[++i];
        else {
            fputs("usage: smlwhy [-2] [-c CAPACITY]\n", stderr);
            return 2;
        }
    }
    if (!takes_capacity(capacity))
        return refuse(capacity, "not a number");
    if (sgh_decoder_new(&recording.decoder, recording.capacity, way) != SGH_GOOD)
        return refuse(capacity, "5 WrongBuffer: a capacity over 1048576");
    hear_signals();
    print_losses();
    return 0;
}
