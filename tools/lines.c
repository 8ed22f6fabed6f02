/*
 * lines WAY RUNS: a session from standard input, again and again: WAY 0 as one input to the stream, WAY 1 line by line through the library.
 * Both print the length of all replies and a sum over their bytes. For `tools/lines`, which counts what each way costs.
 */
#include "fitting_ledger.h"

#include <stdio.h>
#include <stdlib.h>
#include <string.h>

size_t session_whole(const uint8_t *input, size_t input_bytes, uint8_t *log, size_t log_bytes, uint8_t *out, size_t out_bytes);

enum { MOST = 1 << 22 };

static uint8_t input[MOST], out[MOST], log_buffer[FL_LOG_BYTES];
static fl_site site;

/* The session line by line; the state is without a site at first. */
static size_t by_lines(size_t bytes) {
    size_t at = 0, used = 0;
    if (fl_start(&site, log_buffer, sizeof log_buffer, 0) != FL_WRONG_COUNT) return 0;
    while (at < bytes) {
        const uint8_t *end = memchr(input + at, '\n', bytes - at);
        size_t line = (size_t)(end - (input + at));
        used += fl_line(&site, input + at, line, out + used, sizeof out - used);
        at += line + 1;
    }
    return used;
}

int main(int argc, char **argv) {
    size_t bytes = fread(input, 1, sizeof input, stdin), used = 0;
    uint64_t sum = 0;
    if (argc != 3 || !fl_fits()) return 1;
    for (int runs = atoi(argv[2]); runs > 0; runs--)
        used = argv[1][0] == '1' ? by_lines(bytes) : session_whole(input, bytes, log_buffer, sizeof log_buffer, out, sizeof out);
    for (size_t i = 0; i < used; i++) sum = sum * 31 + out[i];
    printf("%zu bytes of replies, %llu\n", used, (unsigned long long)sum);
    return 0;
}
