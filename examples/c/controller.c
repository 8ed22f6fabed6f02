/*
 * A controller that keeps its site's log in a file: what is new in the log is appended after each line that was accepted, so that the file
 * always holds the first bytes of the log. It can be killed at any moment, and goes on from what the file holds. At the end it shows its
 * histories, and the card of its last lines.
 *
 * usage: controller FILE [BYTES]     with BYTES it kills itself once it has written that many, in the middle of a line too
 */
#include "fitting_ledger.h"
#include "stored.h"

#include <inttypes.h>
#include <string.h>

enum { HISTORIES = 4, OPERATIONS = 24, WINDOW = 10 };

static fl_site site;
static uint8_t log_buffer[FL_LOG_BYTES];
static stored file;

/* Stores what is new in the log. */
static void store(void) { stored_grow(&file, log_buffer, fl_log_used(&site)); }

/* One line in, one reply out; the reply is a text that ends with a 0. */
static const char *ask(const char *line) {
    static uint8_t reply[FL_REPLY_BYTES + 1];
    size_t n = fl_line(&site, (const uint8_t *)line, strlen(line), reply, FL_REPLY_BYTES);
    if (n > FL_REPLY_BYTES) fail("no room for a reply");
    reply[n] = 0;
    store();
    return (const char *)reply;
}

static void must(const char *line) {
    if (strncmp(ask(line), "(ok", 3) != 0) fail(line);
}

/* A new log, or the one that the file holds: a last line that was cut off is cut out of the file too. */
static void begin(const char *name) {
    stored_open(&file, name, log_buffer, sizeof log_buffer);
    if (memchr(log_buffer, '\n', file.bytes) == NULL) {
        stored_cut(&file, 0);
        if (fl_start(&site, log_buffer, sizeof log_buffer, HISTORIES) != FL_OK) fail("cannot start");
        store();
        return;
    }
    if (fl_restart(&site, log_buffer, sizeof log_buffer, file.bytes) != FL_OK) fail("the file holds no log");
    stored_cut(&file, fl_log_used(&site));
    must("(end)");
}

/* How many operations the log has: a did line each. */
static unsigned done(void) {
    unsigned lines = 0;
    for (size_t i = 1; i < file.bytes; i++) lines += log_buffer[i - 1] == '(' && log_buffer[i] == 'd';
    return lines;
}

/* The first n operations are stored: they are persistent, and stable. They leave the table once the line that says so is stored too. */
static void settle(unsigned n) {
    char line[FL_LINE_BYTES];
    snprintf(line, sizeof line, "(persistent %u)", n);
    must(line);
    snprintf(line, sizeof line, "(stable %u)", n);
    must(line);
    snprintf(line, sizeof line, "(persistent %u)", n);
    must(line);
}

/* Operation i: a part of a history's profile gets a new value. */
static void operate(unsigned i) {
    char line[FL_LINE_BYTES];
    unsigned history = i % HISTORIES, version = i / HISTORIES + 1, part = i % 8, value = (i * 11 + salt()) % 256;
    size_t before = file.bytes;
    snprintf(line, sizeof line, "(add %u (inc %u %u %u))", i, history, version, part * 256 + value);
    must(line);
    snprintf(line, sizeof line, "(finish %u)", i);
    must(line);
    acknowledge(log_buffer + before, file.bytes - before);
    settle(i + 1);
}

/* Over the last WINDOW lines, the updates of each rule that each history had: inc, set, not. */
static void show_card(void) {
    uint64_t counts[FL_CARD_WORDS];
    size_t lines;
    if (fl_card(&site, WINDOW, counts, &lines) != FL_OK || lines != WINDOW) fail("no card");
    for (uint64_t h = 0; h < HISTORIES; h++)
        printf("(card %" PRIu64 " %" PRIu64 " %" PRIu64 " %" PRIu64 ")\n", h, fl_card_count(counts, h, FL_INC),
               fl_card_count(counts, h, FL_SET), fl_card_count(counts, h, FL_NOT));
}

int main(int argc, char **argv) {
    if (argc < 2) fail("usage: controller FILE [BYTES]");
    if (!fl_fits()) fail("header and library differ");
    if (argc > 2) bytes_left = (size_t)strtoul(argv[2], NULL, 10);
    begin(argv[1]);
    settle(done());
    for (unsigned i = done(); i < OPERATIONS; i++) operate(i);
    for (unsigned h = 0; h < HISTORIES; h++) {
        char line[FL_LINE_BYTES];
        snprintf(line, sizeof line, "(show %u)", h);
        fputs(ask(line), stdout);
    }
    show_card();
    return close(file.file);
}
