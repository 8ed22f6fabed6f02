/*
 * How much of the stack each call of a module uses, as stack.c measures those of a site: a log that is full, a table that is full. More than
 * FM_STACK_BYTES is a failure.
 *
 * usage: module_stack
 */
#define _GNU_SOURCE
#include "fitting_module.h"

#include <stdio.h>
#include <stdlib.h>
#include <string.h>
#include <ucontext.h>

enum { STACK = 1 << 16, PAINT = 0xA5 };

static uint8_t painted[STACK], buffers[FM_SLOTS][FM_LOG_BYTES], text[FM_REPLY_BYTES];
static ucontext_t here, there;
static uint8_t fresh[FM_LOG_BYTES];
static fm_module module;
static fm_reply reply;
static size_t most, copied;

/* The stack that a function uses. */
static size_t used_by(void (*call)(void)) {
    memset(painted, PAINT, sizeof painted);
    if (getcontext(&there) != 0) exit(1);
    there.uc_stack.ss_sp = painted;
    there.uc_stack.ss_size = sizeof painted;
    there.uc_link = &here;
    makecontext(&there, call, 0);
    if (swapcontext(&here, &there) != 0) exit(1);
    size_t at = 0;
    while (at < sizeof painted && painted[at] == PAINT) at++;
    return sizeof painted - at;
}

static void measure(const char *name, void (*call)(void)) {
    size_t bytes = used_by(call);
    if (bytes > most) most = bytes;
    fprintf(stderr, "%8zu %s\n", bytes, name);
}

/* Obeys a line for a slot; gives whether it is accepted. */
static int obey(size_t slot, const char *s) {
    fm_line(&module, slot, (const uint8_t *)s, strlen(s), text, sizeof text);
    return strncmp((const char *)text, "(ok", 3) == 0;
}

static void nothing(void) {}
static void start(void) {
    uint8_t *logs[FM_SLOTS];
    size_t log_bytes[FM_SLOTS];
    for (size_t slot = 0; slot < FM_SLOTS; slot++) {
        logs[slot] = buffers[slot];
        log_bytes[slot] = FM_LOG_BYTES;
    }
    fm_start(&module, logs, log_bytes);
}

/* Slot 0's log is filled, and the table by all four. */
static void fill(void) {
    char line[FM_LINE_BYTES];
    for (size_t slot = 0; slot < FM_SLOTS; slot++) obey(slot, "(site 16)");
    for (unsigned n = 1; fm_log_used(&module, 0) + 800 < FM_LOG_BYTES; n++) {
        int at = snprintf(line, sizeof line, "(add %u (set %u %u %u)", n, n % 16, n, n);
        for (unsigned i = 1; i < 4; i++) at += snprintf(line + at, sizeof line - (size_t)at, "(set %u %u %u)", (n + i) % 16, n, n);
        snprintf(line + at, sizeof line - (size_t)at, ")");
        if (!obey(0, line)) exit(1);
        snprintf(line, sizeof line, "(finish %u)", n);
        if (!obey(0, line)) exit(1);
        if (n % 48 != 0) continue;
        snprintf(line, sizeof line, "(persistent %u)", n);
        if (!obey(0, line)) exit(1);
        snprintf(line, sizeof line, "(stable %u)", n);
        if (!obey(0, line)) exit(1);
        snprintf(line, sizeof line, "(persistent %u)", n);
        if (!obey(0, line)) exit(1);
    }
    for (size_t slot = 0; slot < FM_SLOTS; slot++) {
        unsigned n = 0;
        do {
            n++;
            snprintf(line, sizeof line, "(add %u (set 0 %u 7))", 100000 + n, 200000 + n);
        } while (obey(slot, line));
    }
}

static void show(void) { obey(0, "(show 15)"); }
static void add(void) { obey(0, "(add 1 (inc 0 99999 0)(set 1 99999 7)(not 2 99999 0)(inc 3 99999 2047))"); }
static void finish(void) { obey(0, "(finish 100001)"); }
static void withdraw(void) { obey(0, "(withdraw 100001)"); }
static void persistent(void) { obey(0, "(persistent 100)"); }
static void stable(void) { obey(0, "(stable 100)"); }
static void cut(void) { obey(0, "(cut 60000)"); }
static void redo(void) { obey(0, "(redo (did 7 (set 0 99999 99999 1)(set 1 99999 99999 1)(set 2 99999 99999 1)(set 3 99999 99999 1)))"); }
static void end(void) { obey(0, "(end)"); }

/* The same calls on numbers; the operation that is finished and the line that comes back are those of the lines above. */
static const fm_update updates[] = {{FM_INC, 0, 99999, 0}, {FM_SET, 1, 99999, 7}, {FM_NOT, 2, 99999, 0}, {FM_INC, 3, 99999, 2047}};
static const char did[] = "(did 7 (set 0 99999 99999 1)(set 1 99999 99999 1)(set 2 99999 99999 1)(set 3 99999 99999 1))";
static void n_show(void) { fm_show(&module, 0, 15, &reply); }
static void n_add(void) { fm_add(&module, 0, 1, updates, 4, &reply); }
static void n_finish(void) { fm_finish(&module, 0, 100002, &reply); }
static void n_withdraw(void) { fm_withdraw(&module, 0, 100003, &reply); }
static void n_persistent(void) { fm_persistent(&module, 0, 200, &reply); }
static void n_stable(void) { fm_stable(&module, 0, 200, &reply); }
static void n_cut(void) { fm_cut(&module, 0, 50000, &reply); }
static void n_redo(void) { fm_redo(&module, 0, (const uint8_t *)did, sizeof did - 1, &reply); }
static void n_end(void) { fm_end(&module, 0, &reply); }
static void trim(void) { fm_trim(&module, 0, 48, fresh, sizeof fresh, &copied); }

static void restart(void) { fm_restart(&module, 0, buffers[0], FM_LOG_BYTES, fm_log_used(&module, 0)); }
static void used(void) { fm_log_used(&module, 0); }

int main(void) {
    if (!fm_fits()) return 1;
    measure("nothing", nothing);
    measure("fm_start", start);
    measure("site, add, finish, persistent, stable, as lines", fill);
    if (fm_log_used(&module, 0) < 60000) return 1;
    measure("fm_log_used", used);
    measure("show", show);
    measure("add", add);
    measure("finish", finish);
    measure("withdraw", withdraw);
    measure("persistent", persistent);
    measure("stable", stable);
    measure("fm_show", n_show);
    measure("fm_add", n_add);
    measure("fm_finish", n_finish);
    measure("fm_withdraw", n_withdraw);
    measure("fm_persistent", n_persistent);
    measure("fm_stable", n_stable);
    measure("fm_trim", trim);
    if (copied == 0) return 1;
    measure("cut", cut);
    measure("redo", redo);
    measure("end", end);
    measure("fm_cut", n_cut);
    measure("fm_redo", n_redo);
    measure("fm_end", n_end);
    measure("fm_restart", restart);
    printf("%s\n", most < FM_STACK_BYTES ? "every call below FM_STACK_BYTES" : "above FM_STACK_BYTES");
    return most < FM_STACK_BYTES ? 0 : 1;
}
