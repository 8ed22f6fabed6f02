/*
 * A compact module on numbers: the session of document 01 in slot 1, call by call, with a neighbour in slot 3 that takes all the entries that it
 * may. Slot 1 is cut, its lost line comes back, and at last its log is copied shorter and the slot changed over to the copy.
 *
 * usage: slots
 */
#include "fitting_module.h"

#include <inttypes.h>
#include <stdio.h>
#include <stdlib.h>
#include <string.h>

enum { ROOM = 4096, OWN = 1, NEIGHBOUR = 3 };

static uint8_t buffers[FM_SLOTS][ROOM], fresh[ROOM];
static fm_module module;
static fm_reply reply;

static void list(const char *name, const uint64_t *numbers, uint64_t count) {
    printf("(%s", name);
    for (uint64_t i = 0; i < count; i++) printf(" %" PRIu64, numbers[i]);
    printf(")");
}

/* Prints a reply: its single numbers, then its lists, which have these names. */
static void say(uint64_t code, unsigned singles, const char *first, const char *second) {
    if (code != FM_OK) {
        printf("(refused %" PRIu64 ")\n", code);
        return;
    }
    printf("(ok");
    for (unsigned i = 0; i < singles; i++) printf(" %" PRIu64, reply.answer[FM_LOG_NUMBER + i]);
    if (first != NULL) {
        printf(" ");
        list(first, fm_first(&reply), reply.answer[FM_FIRST_COUNT]);
    }
    if (second != NULL) list(second, fm_second(&reply), reply.answer[FM_SECOND_COUNT]);
    printf(")\n");
}

/* Opens a slot, by its line. */
static void open(size_t slot, const char *line) {
    uint8_t text[FM_REPLY_BYTES];
    size_t n = fm_line(&module, slot, (const uint8_t *)line, strlen(line), text, sizeof text);
    if (n > sizeof text) exit(1);
    printf("%zu %s: %.*s", slot, line, (int)n, (const char *)text);
}

static void finish(size_t slot, uint64_t id) {
    uint64_t code = fm_finish(&module, slot, id, &reply);
    if (code != FM_OK) {
        say(code, 0, NULL, NULL);
        return;
    }
    uint64_t overtaken = reply.answer[FM_OVERTAKEN];
    printf("(ok %" PRIu64 " ", reply.answer[FM_LOG_NUMBER]);
    list("values", fm_first(&reply), reply.answer[FM_FIRST_COUNT]);
    list("ready", fm_second(&reply) + overtaken, reply.answer[FM_SECOND_COUNT] - overtaken);
    list("overtaken", fm_second(&reply), overtaken);
    printf(")\n");
}

static void show(size_t slot, uint64_t history) {
    uint64_t code = fm_show(&module, slot, history, &reply);
    if (code != FM_OK) {
        say(code, 0, NULL, NULL);
        return;
    }
    printf("(history");
    for (unsigned i = FM_HISTORY; i <= FM_PROFILE; i++) printf(" %" PRIu64, reply.answer[i]);
    printf(")\n");
}

/* Adds operations that wait until one is refused, and says how many went in and why no more did. */
static void crowd(size_t slot) {
    for (uint64_t n = 1;; n++) {
        const fm_update waiting[] = {{FM_INC, 0, 1000 + n, 1}};
        uint64_t code = fm_add(&module, slot, n, waiting, 1, &reply);
        if (code == FM_OK) continue;
        printf("%zu takes %" PRIu64 ": (refused %" PRIu64 ")\n", slot, n - 1, code);
        return;
    }
}

int main(void) {
    const fm_update five[] = {{FM_INC, 0, 1, 513}, {FM_NOT, 1, 0, 0}};
    const fm_update six[] = {{FM_SET, 1, 4, 1000}};
    const fm_update nine[] = {{FM_SET, 1, 9, 50}};
    const fm_update eight[] = {{FM_INC, 1, 5, 1}};
    const fm_update none[] = {{7, 0, 1, 0}};
    const char *lost = "(did 6 (set 1 4 2 1000))";
    uint8_t *logs[FM_SLOTS];
    size_t log_bytes[FM_SLOTS], used = 0;
    if (!fm_fits()) return 1;
    memset(&module, 0xAA, sizeof module);
    for (size_t slot = 0; slot < FM_SLOTS; slot++) {
        logs[slot] = buffers[slot];
        log_bytes[slot] = ROOM;
    }
    fm_start(&module, logs, log_bytes);
    /* before the slot is open, and in one that is not there */
    say(fm_add(&module, OWN, 5, five, 2, &reply), 0, "ready", NULL);
    finish(FM_SLOTS, 5);
    open(OWN, "(site 2)");
    open(NEIGHBOUR, "(site 1)");
    crowd(NEIGHBOUR);
    say(fm_add(&module, OWN, 5, five, 2, &reply), 0, "ready", NULL);
    say(fm_add(&module, OWN, 6, six, 1, &reply), 0, "ready", NULL);
    finish(OWN, 5);
    finish(OWN, 6);
    say(fm_persistent(&module, OWN, 1, &reply), 0, "histories", "dry");
    show(OWN, 0);
    say(fm_cut(&module, OWN, 60, &reply), 2, NULL, NULL);
    show(OWN, 1);
    say(fm_redo(&module, OWN, (const uint8_t *)lost, strlen(lost), &reply), 2, NULL, NULL);
    say(fm_redo(&module, OWN, (const uint8_t *)lost, strlen(lost), &reply), 2, NULL, NULL);
    say(fm_end(&module, OWN, &reply), 0, "waiting", NULL);
    show(OWN, 1);
    /* 9 takes the history past the version that 8 waits for */
    say(fm_add(&module, OWN, 9, nine, 1, &reply), 0, "ready", NULL);
    say(fm_add(&module, OWN, 8, eight, 1, &reply), 0, "ready", NULL);
    finish(OWN, 9);
    /* a rule that is none, an operation without updates, and what is not there */
    say(fm_add(&module, OWN, 7, none, 1, &reply), 0, "ready", NULL);
    say(fm_add(&module, OWN, 7, none, 0, &reply), 0, "ready", NULL);
    say(fm_withdraw(&module, OWN, 7, &reply), 0, "dry", NULL);
    /* a neighbour's operation that waits goes; its history is not dry, since others wait */
    say(fm_withdraw(&module, NEIGHBOUR, 1, &reply), 0, "dry", NULL);
    /* all is stored and stable: a copy without did lines, and the slot goes on from it */
    say(fm_persistent(&module, OWN, 3, &reply), 0, "histories", "dry");
    say(fm_stable(&module, OWN, 4, &reply), 0, "histories", NULL);
    say(fm_stable(&module, OWN, 3, &reply), 0, "histories", NULL);
    say(fm_trim(&module, OWN, 4, fresh, sizeof fresh, &used), 0, NULL, NULL);
    say(fm_trim(&module, OWN, 3, fresh, sizeof fresh, &used), 0, NULL, NULL);
    printf("%zu bytes of log, of the copy %zu\n%.*s", fm_log_used(&module, OWN), used, (int)used, (const char *)fresh);
    say(fm_restart(&module, OWN, fresh, sizeof fresh, used), 0, NULL, NULL);
    say(fm_end(&module, OWN, &reply), 0, "waiting", NULL);
    show(OWN, 0);
    show(OWN, 1);
    return 0;
}
