/*
 * How much of the stack each call uses: it is run on a stack of its own that was painted before, and what is painted no longer was used. The
 * calls are given much to do: a log, a table, a keeper and records that are full. More than FL_STACK_BYTES is a failure; of fl_removals, more
 * than FL_REMOVALS_STACK_BYTES.
 *
 * usage: stack
 */
#define _GNU_SOURCE
#include "fitting_ledger.h"

#include <stdio.h>
#include <stdlib.h>
#include <string.h>
#include <ucontext.h>

enum { STACK = 1 << 22, PAINT = 0xA5 };

static uint8_t painted[STACK], log_buffer[FL_LOG_BYTES], fresh[FL_LOG_BYTES], lines[FL_LOG_BYTES], text[FL_REPLY_BYTES];
static ucontext_t here, there;
static fl_site site;
static fl_keeper keeper;
static fl_records records;
static fl_reply reply;

/* The stack that a function uses. */
static size_t used_by(void (*call)(void)) {
    memset(painted, PAINT, sizeof painted);
    if (getcontext(&there) != 0) exit(1);
    there.uc_stack.ss_sp = painted;
    there.uc_stack.ss_size = sizeof painted;
    there.uc_link = &here;
    makecontext(&there, call, 0);
    if (swapcontext(&here, &there) != 0) exit(1);
    size_t at = 0;
    while (at < sizeof painted && painted[at] == PAINT) at++;
    return sizeof painted - at;
}

/* Measures a call, and keeps the most that one used. */
static void measure_in(const char *name, void (*call)(void), size_t *most) {
    size_t bytes = used_by(call);
    if (bytes > *most) *most = bytes;
    fprintf(stderr, "%8zu %s\n", bytes, name);
}

static size_t most, most_removals;

static void measure(const char *name, void (*call)(void)) { measure_in(name, call, &most); }

static void line(const char *s) { fl_line(&site, (const uint8_t *)s, strlen(s), text, sizeof text); }

static void nothing(void) {}
static void start(void) { fl_start(&site, log_buffer, sizeof log_buffer, 16); }

/* Four updates each, 48 operations in the table; all but the last sixteen are stable. */
static void fill(void) {
    uint64_t n = 0;
    start();
    for (;; n++) {
        fl_update four[FL_UPDATES];
        for (uint64_t i = 0; i < FL_UPDATES; i++) four[i] = (fl_update){FL_SET, (4 * n + i) % 16, n + 1, UINT64_MAX - n};
        if (fl_add(&site, UINT64_MAX - n, four, FL_UPDATES, &reply) != FL_OK || fl_finish(&site, UINT64_MAX - n, &reply) != FL_OK) break;
        if (n >= 16 && n % 16 == 0 && (fl_persistent(&site, n, &reply) != FL_OK || fl_stable(&site, n - 16, &reply) != FL_OK)) break;
        if (fl_log_used(&site) + 400 > FL_LOG_BYTES) break;
    }
}

static void restart(void) { fl_restart(&site, log_buffer, sizeof log_buffer, fl_log_used(&site)); }
static void cut_line(void) { line("(cut 60000)"); }
static void cut(void) { fl_cut(&site, 50000, &reply); }
static void redo_line(void) { line("(redo (did 7 (set 0 1 1 1)(set 1 1 1 1)(set 2 1 1 1)(set 3 1 1 1)))"); }
static void end_line(void) { line("(end)"); }
static void show_line(void) { line("(show 15)"); }
static void add_line(void) { line("(add 1 (inc 0 99999 0)(set 1 99999 7)(not 2 99999 0)(inc 3 99999 2047))"); }
static void finish_line(void) { line("(finish 1)"); }
static void persistent_line(void) { line("(persistent 1)"); }
static void stable_line(void) { line("(stable 1)"); }
static void withdraw_line(void) { line("(withdraw 1)"); }
static void poll(void) { fl_poll(&site, 0); }
static void trim(void) {
    size_t used = 0;
    fl_trim(&site, 100, fresh, sizeof fresh, &used);
}
static void find_cut(void) {
    const uint64_t places[16] = {1};
    size_t kept = 0;
    fl_find_cut(&site, places, 16, &kept);
}
static void card(void) {
    uint64_t counts[FL_CARD_WORDS];
    size_t lines = 0;
    fl_card(&site, 100, counts, &lines);
}
static void upgrade(void) {
    size_t used = 0;
    fl_upgrade(log_buffer, sizeof log_buffer, 9, &used);
}

/* A keeper with every did line of the log, most of which fill its buffer. */
static void keep_all(void) {
    size_t at = 0, used = fl_log_used(&site);
    fl_keeper_start(&keeper, lines, sizeof lines);
    while (at < used) {
        size_t end = at;
        while (log_buffer[end] != '\n') end++;
        fl_keeper_keep(&keeper, log_buffer + at, end - at);
        at = end + 1;
    }
}
static void keep(void) {
    const char *did = "(did 9 (set 0 1 999999 1)(set 1 1 999999 1)(set 2 1 999999 1)(set 3 1 999999 1))";
    fl_keeper_keep(&keeper, (const uint8_t *)did, strlen(did));
}
static void resume(void) { fl_keeper_resume(&keeper, lines, sizeof lines, keeper.used); }
static void hand_out(void) {
    const uint64_t places[FL_PLACES] = {0};
    size_t handed = 0;
    fl_keeper_hand_out(&keeper, places, fresh, sizeof fresh, &handed);
}
static void drop(void) { fl_keeper_drop(&keeper, 0, 10); }

static void record_all(void) {
    fl_records_start(&records);
    for (uint64_t id = 0; fl_records_record(&records, id, 255, 255, 8) == FL_OK; id++) continue;
}
static void report(void) { fl_records_report(&records, 63, 7); }
static void question(void) { fl_records_question(&records, 63); }
static void forget(void) { fl_records_forget(&records, 0); }

/* The most short lines that fit, in one history; each is of one visit with the line before it. */
static uint64_t visits[4 * FL_LOG_LINES], fallen[FL_LOG_LINES];
static size_t long_bytes, long_lines, count;

static void fill_log(void) {
    long_lines = 0;
    long_bytes = (size_t)sprintf((char *)fresh, "(site 1)\n");
    while (long_bytes + 40 < sizeof fresh && long_lines < FL_LOG_LINES) {
        long_lines++;
        long_bytes += (size_t)sprintf((char *)fresh + long_bytes, "(did 1 (not 0 0 %zu 0))\n", long_lines);
        long_bytes += long_lines % 64 ? 0 : (size_t)sprintf((char *)fresh + long_bytes, "(stable %zu)\n", long_lines);
        visits[4 * long_lines - 4] = long_lines;
        visits[4 * long_lines - 3] = long_lines;
        visits[4 * long_lines - 2] = long_lines > 1 ? long_lines - 1 : 1;
        visits[4 * long_lines - 1] = long_lines;
    }
    long_bytes += (size_t)sprintf((char *)fresh + long_bytes, "(stable %zu)\n", long_lines);
}
static void removals_from(uint64_t lost, size_t numbers) {
    count = 0;
    if (fl_removals(fresh, long_bytes, visits, numbers, &lost, 1, fallen, FL_LOG_LINES, &count) != FL_OK) exit(1);
}
static void fall_forward(void) { removals_from(1, 0); }
static void fall_back(void) { removals_from(long_lines, 4 * long_lines); }

int main(void) {
    if (!fl_fits() || !fl_station_fits()) return 1;
    measure("nothing", nothing);
    measure("fl_start", start);
    measure("fl_add, fl_finish, fl_persistent, fl_stable", fill);
    if (fl_log_used(&site) < 60000) return 1;
    measure("fl_poll", poll);
    measure("fl_trim", trim);
    measure("fl_find_cut", find_cut);
    measure("fl_card", card);
    measure("show, as a line", show_line);
    measure("add, as a line", add_line);
    measure("finish, as a line", finish_line);
    measure("persistent, as a line", persistent_line);
    measure("stable, as a line", stable_line);
    measure("withdraw, as a line", withdraw_line);
    measure("fl_keeper_keep, all", keep_all);
    measure("fl_restart", restart);
    measure("cut, as a line", cut_line);
    measure("fl_cut", cut);
    measure("redo, as a line", redo_line);
    measure("end, as a line", end_line);
    measure("fl_upgrade", upgrade);
    measure("fl_keeper_keep", keep);
    measure("fl_keeper_resume", resume);
    measure("fl_keeper_hand_out", hand_out);
    measure("fl_keeper_drop", drop);
    measure("fl_records_record, all", record_all);
    measure("fl_records_report", report);
    measure("fl_records_question", question);
    measure("fl_records_forget", forget);
    fill_log();
    measure_in("fl_removals, all lines of a history", fall_forward, &most_removals);
    if (count != long_lines || count < 2500) return 1;
    measure_in("fl_removals, line by line through visits", fall_back, &most_removals);
    if (count != long_lines) return 1;
    int fits = most < FL_STACK_BYTES && most_removals < FL_REMOVALS_STACK_BYTES;
    printf("%s\n", fits ? "every call below FL_STACK_BYTES, fl_removals below FL_REMOVALS_STACK_BYTES" : "above FL_STACK_BYTES");
    return fits ? 0 : 1;
}
