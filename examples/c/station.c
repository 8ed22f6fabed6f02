/*
 * A controller and its station, on numbers. Each did line goes to the station at once, a keeper over a file; the controller stores its log only
 * every few operations. It can be killed at any moment: it goes on from what its file holds, and takes back from the station what it lost. At
 * the end the station asks what would fall with a line that nobody has any more.
 *
 * usage: station LOG KEPT [BYTES]     with BYTES it kills itself once it has written that many to both files, in the middle of a line too
 */
#include "fitting_ledger.h"
#include "stored.h"

#include <inttypes.h>
#include <string.h>

enum { HISTORIES = 4, OPERATIONS = 24, BATCH = 5 };

/* ### The station */

static fl_keeper keeper;
static uint8_t kept_lines[FL_LOG_BYTES];
static stored kept_file;

/* Takes up what its file holds, once; a last line that was cut off is cut out of the file too. */
static void station_begin(const char *name) {
    stored_open(&kept_file, name, kept_lines, sizeof kept_lines);
    if (fl_keeper_resume(&keeper, kept_lines, sizeof kept_lines, kept_file.bytes) != FL_OK) fail("the file holds no kept lines");
    stored_cut(&kept_file, keeper.used);
}

/* Keeps a did line, and stores it. */
static void station_keep(const uint8_t *line, size_t bytes) {
    if (fl_keeper_keep(&keeper, line, bytes) != FL_OK) fail("the station does not keep a line");
    stored_grow(&kept_file, kept_lines, keeper.used);
}

/* Is told a history's persistent place. The lines that it still keeps move up. */
static void station_drop(uint64_t history, uint64_t place) {
    if (fl_keeper_drop(&keeper, history, place) != FL_OK) fail("the station does not drop lines");
}

/* ### The controller */

static fl_site site;
static uint8_t log_buffer[FL_LOG_BYTES];
static stored log_file;
static fl_reply reply;

static void must(uint64_t code, const char *what) {
    if (code != FL_OK) fail(what);
}

static uint64_t place_of(uint64_t history) {
    must(fl_show(&site, history, &reply), "show");
    return reply.answer[FL_PLACE];
}

/* How many operations the log has: a did line each. */
static uint64_t done(void) {
    uint64_t lines = 0;
    for (size_t i = 1; i < fl_log_used(&site); i++) lines += log_buffer[i - 1] == '(' && log_buffer[i] == 'd';
    return lines;
}

/* Takes back from the station each line with a place above those that the site still has. */
static void take_back(void) {
    static uint8_t handed[FL_LOG_BYTES];
    uint64_t places[FL_PLACES] = {0};
    size_t bytes, lines = 0;
    for (uint64_t h = 0; h < HISTORIES; h++) places[h] = place_of(h);
    must(fl_keeper_hand_out(&keeper, places, handed, sizeof handed, &bytes), "hand out");
    for (size_t at = 0; at < bytes; lines++) {
        size_t end = at;
        while (handed[end] != '\n') end++;
        must(fl_redo(&site, handed + at, end - at, &reply), "redo");
        at = end + 1;
    }
    must(fl_end(&site, &reply), "end");
    if (reply.answer[FL_FIRST_COUNT] != 0) fail("a line still waits");
    if (lines > 0) fprintf(stderr, "%zu lines came back\n", lines);
}

/* A new log, or the one that the file holds and what the station has of the rest. */
static void begin(const char *name) {
    stored_open(&log_file, name, log_buffer, sizeof log_buffer);
    if (memchr(log_buffer, '\n', log_file.bytes) != NULL) {
        must(fl_restart(&site, log_buffer, sizeof log_buffer, log_file.bytes), "restart");
        stored_cut(&log_file, fl_log_used(&site));
        take_back();
    } else {
        stored_cut(&log_file, 0);
        must(fl_start(&site, log_buffer, sizeof log_buffer, HISTORIES), "start");
        stored_grow(&log_file, log_buffer, fl_log_used(&site));
    }
}

/* Stores the log, and says so: to the site, which calls it persistent and stable, and to the station, which needs the lines no longer. */
static void settle(void) {
    uint64_t n = done();
    stored_grow(&log_file, log_buffer, fl_log_used(&site));
    must(fl_persistent(&site, n, &reply), "persistent");
    must(fl_stable(&site, n, &reply), "stable");
    stored_grow(&log_file, log_buffer, fl_log_used(&site));
    must(fl_persistent(&site, n, &reply), "persistent");
    for (uint64_t h = 0; h < HISTORIES; h++) station_drop(h, place_of(h));
    stored_replace(&kept_file, kept_lines, keeper.used);
}

/* Operation i: a part of a history's profile gets a new value. Its line, the last of the log, goes to the station. */
static void operate(uint64_t i) {
    const fl_update update = {FL_INC, i % HISTORIES, i / HISTORIES + 1, i % 8 * 256 + (i * 11 + salt()) % 256};
    size_t before = fl_log_used(&site);
    must(fl_add(&site, i, &update, 1, &reply), "add");
    must(fl_finish(&site, i, &reply), "finish");
    station_keep(log_buffer + before, fl_log_used(&site) - before - 1);
    acknowledge(log_buffer + before, fl_log_used(&site) - before);
    if (i % BATCH == BATCH - 1) settle();
}

/* Which fittings must be taken back if line 20 is lost for good. Two operations each were one visit, and fall together. */
static void show_falls(void) {
    static uint64_t fallen[FL_LOG_LINES];
    uint64_t visits[2 * OPERATIONS];
    const uint64_t lost[] = {20};
    size_t count;
    for (uint64_t i = 0; i < OPERATIONS; i++) {
        visits[2 * i] = i + 1;
        visits[2 * i + 1] = i / 2;
    }
    must(fl_removals(log_buffer, fl_log_used(&site), visits, 2 * OPERATIONS, lost, 1, fallen, FL_LOG_LINES, &count), "removals");
    printf("(falls");
    for (size_t i = 0; i < count; i++) printf(" %" PRIu64, fallen[i]);
    printf(")\n");
}

int main(int argc, char **argv) {
    if (argc < 3) fail("usage: station LOG KEPT [BYTES]");
    if (!fl_fits() || !fl_station_fits()) fail("header and library differ");
    if (argc > 3) bytes_left = (size_t)strtoul(argv[3], NULL, 10);
    station_begin(argv[2]);
    begin(argv[1]);
    for (uint64_t i = done(); i < OPERATIONS; i++) operate(i);
    settle();
    for (uint64_t h = 0; h < HISTORIES; h++) {
        must(fl_show(&site, h, &reply), "show");
        printf("(history");
        for (unsigned i = FL_HISTORY; i <= FL_PROFILE; i++) printf(" %" PRIu64, reply.answer[i]);
        printf(")\n");
    }
    show_falls();
    return close(log_file.file) | close(kept_file.file);
}
