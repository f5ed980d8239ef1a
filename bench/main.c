/* Calls one function on standard input: main FUNCTION CALLS REPEAT CAPACITY STEP. The input is repeated REPEAT times.
   Pushes of slices take STEP bytes a call, or all that are left for 0. Prints the last call's number and the nanoseconds of all calls. */
#include "sartrogheo.h"

typedef uint64_t u64;
typedef uint8_t u8;

long read(int, void *, size_t);
int atoi(const char *);
int strcmp(const char *, const char *);
int dprintf(int, const char *, ...);
struct timespec { long sec, nsec; };
int clock_gettime(int, struct timespec *);

extern u64 bench_push(const u8 *, size_t, u8 *, size_t);
extern u64 bench_push_slice(const u8 *, size_t, u8 *, size_t, size_t);
extern u64 bench_push_slice_second(const u8 *, size_t, u8 *, size_t, size_t);
extern void bench_pack(u8 *, size_t, size_t);
extern size_t bench_packed(u8 *, size_t, u8 *, size_t, const u8 *, size_t);
extern u64 bench_encode(const u8 *, size_t, u8 *, size_t);
extern u64 bench_stream(const u8 *, size_t);
extern u64 bench_events(const u8 *, size_t);
extern u64 bench_write(const u8 *, size_t, u8 *, size_t, uint32_t);
extern u64 bench_crc(const u8 *, size_t);
extern u64 bench_crc_byte(const u8 *, size_t);

static u8 in[1 << 20], out[1 << 22];
static uint32_t rows[1 << 18];

static const char *names[] = {"bench_push", "bench_push_slice", "bench_push_slice_second", "bench_encode", "bench_stream", "bench_events", "bench_crc", "bench_crc_byte", "bench_packed", "sgh_push_byte", "sgh_push_slice", "bench_write", "sgh_next_event", "sgh_read_message", "sgh_walk"};

/* pushes of slices over the 28 bytes of a decoder, a call for each event */
static u64 packed(size_t n, size_t cap) {
    u8 bytes[28];
    size_t i = 0, taken = 1;
    bench_pack(bytes, sizeof bytes, cap);
    for (; i < n && taken; i += taken) taken = bench_packed(bytes, sizeof bytes, out, cap, in + i, n - i);
    return i;
}

/* the payloads, by the library's pushes of single bytes */
static u64 library_bytes(size_t n, size_t cap) {
    sgh_decoder d;
    uint64_t values[SGH_VALUES];
    u64 payloads = 0;
    if (sgh_decoder_new(&d, cap, SGH_FIRST_WAY)) return ~0ul;
    for (size_t i = 0; i < n; i++) payloads += sgh_push_byte(&d, out, cap, in[i], values) == SGH_PAYLOAD;
    return payloads;
}

/* the payloads, by the library's pushes of slices */
static u64 library_slices(size_t n, size_t cap, size_t step) {
    sgh_decoder d;
    uint64_t values[SGH_VALUES];
    u64 payloads = 0;
    size_t taken = 1;
    if (sgh_decoder_new(&d, cap, SGH_FIRST_WAY)) return ~0ul;
    for (size_t i = 0; i < n && taken; i += taken)
        payloads += sgh_push_slice(&d, out, cap, in + i, step && step < n - i ? step : n - i, &taken, values) == SGH_PAYLOAD;
    return payloads;
}

/* the events, by the library's calls */
static u64 library_events(size_t n) {
    sgh_reader reader = {0};
    sgh_event event;
    u64 events = 0;
    uint32_t answer;
    while ((answer = sgh_next_event(in, n, &reader, &event)) == SGH_GOOD) events++;
    return answer == SGH_FINISHED ? events : ~0ul;
}

/* the entries, message by message */
static u64 library_messages(size_t n) {
    sgh_message message;
    u64 entries = 0;
    for (size_t at = 0; at < n; at = message.next) {
        if (sgh_read_message(in, n, at, rows, sizeof rows / sizeof *rows, &message)) return ~0ul;
        entries += message.rows;
    }
    return entries;
}

/* the leaves, element by element */
static u64 library_walks(size_t n) {
    sgh_walked walked;
    u64 leaves = 0;
    for (size_t at = 0; at < n; at += walked.bytes) {
        if (sgh_walk(in, n, at, &walked)) return ~0ul;
        leaves += walked.leaves;
    }
    return leaves;
}

static u64 call(size_t which, size_t n, size_t cap, size_t step) {
    switch (which) {
    case 0: return bench_push(in, n, out, cap);
    case 1: return bench_push_slice(in, n, out, cap, step);
    case 2: return bench_push_slice_second(in, n, out, cap, step);
    case 3: return bench_encode(in, n, out, cap);
    case 4: return bench_stream(in, n);
    case 5: return bench_events(in, n);
    case 6: return bench_crc(in, n);
    case 7: return bench_crc_byte(in, n);
    case 8: return packed(n, cap);
    case 9: return library_bytes(n, cap);
    case 10: return library_slices(n, cap, step);
    case 11: return bench_write(in, n, out, cap, step) == step ? step : ~0ul;
    case 12: return library_events(n);
    case 13: return library_messages(n);
    case 14: return library_walks(n);
    }
    return ~0ul;
}

int main(int argc, char **argv) {
    if (argc != 6) return 2;
    size_t n = 0, once, which = 0, cap = atoi(argv[4]), step = atoi(argv[5]);
    long k;
    /* found once, before the calls: no call's count has the search in it */
    while (strcmp(argv[1], names[which]))
        if (++which == sizeof names / sizeof *names) return 2;
    while ((k = read(0, in + n, sizeof in - n)) > 0) n += k;
    once = n;
    for (int r = atoi(argv[3]); r > 1; r--)
        for (size_t i = 0; i < once; i++) in[n++] = in[i];
    u64 last = 0;
    struct timespec began, ended;
    clock_gettime(1, &began);
    for (int i = atoi(argv[2]); i > 0; i--) last = call(which, n, cap, step);
    clock_gettime(1, &ended);
    dprintf(1, "%lu %ld\n", last, (ended.sec - began.sec) * 1000000000 + ended.nsec - began.nsec);
    return last == ~0ul; /* what is refused would look quick */
}
