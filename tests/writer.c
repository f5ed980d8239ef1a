/* writer: makes one call of sgh_write_event a line, for tests/test_writer.py. A line is the output and the strings in hex (- for none), the event's 24 words and the writer's four; the answer is the call's, then output and writer as it leaves them. */
#include <inttypes.h>
#include <stdio.h>
#include <stdlib.h>
#include <string.h>

#include <sartrogheo.h>

#define MOST 8192u /* bytes of output or strings */

static uint8_t out[MOST], strings[MOST];
static char line[5 * MOST];

/* The bytes of a hex word at `s`, and where the word ends. */
static char *unhex(char *s, uint8_t *bytes, size_t *len)
{
    char two[3] = {0};

    for (*len = 0; *s != ' ' && *s != '-' && *len < MOST; s += 2) {
        memcpy(two, s, 2);
        bytes[(*len)++] = (uint8_t)strtoul(two, NULL, 16);
    }
    return *s == '-' ? s + 1 : s;
}

/* So many numbers at `s`, and where the last ends. */
static char *numbers(char *s, uint64_t *words, size_t n)
{
    for (size_t i = 0; i < n; i++)
        words[i] = strtoul(s, &s, 10);
    return s;
}

static void put_hex(const uint8_t *bytes, size_t len)
{
    if (len == 0)
        putchar('-');
    for (size_t i = 0; i < len; i++)
        printf("%02x", bytes[i]);
}

int main(void)
{
    uint64_t words[SGH_EVENT_WORDS], w[4];
    size_t out_len, strings_len;
    sgh_event event;
    sgh_writer writer;

    while (fgets(line, sizeof line, stdin) != NULL) {
        numbers(numbers(unhex(unhex(line, out, &out_len) + 1, strings, &strings_len), words, SGH_EVENT_WORDS), w, 4);
        memcpy(&event, words, sizeof event);
        writer = (sgh_writer){w[0], w[1], w[2], w[3]};
        printf("%" PRIu32 " ", sgh_write_event(out, out_len, strings, strings_len, &event, &writer));
        put_hex(out, out_len);
        printf(" %" PRIu64 " %" PRIu64 " %" PRIu64 " %" PRIu64 "\n", writer.place, writer.state, writer.left, writer.crc);
    }
    return 0;
}
