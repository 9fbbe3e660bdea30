/* The exchange in lock step. Standard input has records (a kind, 0, a length of two octets, that many octets):
 *   T  whole multiframes that the exchange receives; as many that it sends are the answer
 *   L  a command as text: call N ANI DNIS, answer N, hangup N, block N, unblock N
 * Standard output has a T record for each T record, and before it an E record with each event: milliseconds of the
 * trunk, circuit (0 is the trunk), what happened. Time is the octets of the trunk, so no clock and no load matters. */
#include <stdarg.h>
#include <stdlib.h>
#include <string.h>
#include "exchange.h"

circuit_t circuits[CIRCUITS + 1];
options_t options = { .dnis = 4, .ani = 10, .answer_after = -1 };
int64_t frames;

enum { HEAD = 4, MOST = 65535, WORDS = 6 };

static void put_record(int kind, const void *body, int length)
{
    uint8_t head[HEAD] = { kind, 0, length >> 8, length & 0xFF };
    if (fwrite(head, 1, HEAD, stdout) != HEAD || fwrite(body, 1, length, stdout) != (size_t)length) exit(1);
}

void report(int circuit, const char *format, ...)
{
    char line[1024];
    int length = snprintf(line, sizeof line, "%.3f %d ", frames / 8.0, circuit);
    va_list list;
    va_start(list, format);
    length += vsnprintf(line + length, sizeof line - length, format, list);
    va_end(list);
    put_record('E', line, length < (int)sizeof line ? length : (int)sizeof line - 1);
}

static void obey(char *line)
{
    char *words[WORDS], *rest = NULL;
    int count = 0;
    for (char *word = strtok_r(line, " \n", &rest); word && count < WORDS; word = strtok_r(NULL, " \n", &rest))
        words[count++] = word;
    if (!count) return;
    int n = count > 1 ? atoi(words[1]) : 0;
    if (n < 1 || n > CIRCUITS) report(0, "no circuit for %s", words[0]);
    else if (!obey_call(&circuits[n], words, count)) report(n, "unknown command %s", words[0]);
}

static void exchange_multiframe(uint8_t *octets)
{
    receive_octets(octets, MULTIFRAME);
    for (int n = 1; n <= CIRCUITS; n++) process_calls(&circuits[n]);
    for (int k = 0; k < FRAMES; k++) send_frame(octets + k * FRAME);
}

static void exchange_octets(uint8_t *octets, int length)
{
    for (int at = 0; at + MULTIFRAME <= length; at += MULTIFRAME) exchange_multiframe(octets + at);
    put_record('T', octets, length / MULTIFRAME * MULTIFRAME);
    if (fflush(stdout)) exit(1);
}

static void read_options(int count, char **words)
{
    const struct { const char *name; int *value; } rows[] = { { "--ani", &options.ani }, { "--dnis", &options.dnis },
        { "--answer", &options.answer_after }, { "--threshold", &options.threshold } };
    for (int i = 1; i < count; i += 2) {
        int *value = NULL;
        for (size_t k = 0; i + 1 < count && k < sizeof rows / sizeof *rows; k++)
            if (!strcmp(words[i], rows[k].name)) value = rows[k].value;
        if (!value) {
            fprintf(stderr, "exchange [--ani DIGITS] [--dnis DIGITS] [--answer MS] [--threshold MS]\n");
            exit(2);
        }
        *value = atoi(words[i + 1]);
    }
}

int main(int count, char **words)
{
    static uint8_t body[MOST + 1];
    uint8_t head[HEAD];
    read_options(count, words);
    open_channels();
    while (fread(head, 1, HEAD, stdin) == HEAD) {
        int length = head[2] << 8 | head[3];
        if (fread(body, 1, length, stdin) != (size_t)length) return 1;
        body[length] = 0;
        if (head[0] == 'T') exchange_octets(body, length);
        else if (head[0] == 'L') obey((char *)body);
        else return 1;
    }
    return 0;
}
