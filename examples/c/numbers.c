/*
 * The session of document 01 on numbers: each call prints what the session prints. The supply is cut in the middle, the lost line comes back,
 * and the histories are as before. Then a finish overtakes an operation, and what is done becomes stable. Between the calls histories are
 * polled. It is asked which cut leaves given places. At last a log from before stable lines is changed over and taken up.
 *
 * usage: numbers
 */
#include "fitting_ledger.h"

#include <inttypes.h>
#include <stdio.h>
#include <string.h>

static fl_site site;
static uint8_t log_buffer[FL_LOG_BYTES];
static fl_reply reply;

static void list(const char *name, const uint64_t *numbers, uint64_t count) {
    printf("(%s", name);
    for (uint64_t i = 0; i < count; i++) printf(" %" PRIu64, numbers[i]);
    printf(")");
}

/* Prints a reply: its single numbers, then its lists, which have these names. */
static void say(uint64_t code, unsigned singles, const char *first, const char *second) {
    if (code != FL_OK) {
        printf("(refused %" PRIu64 ")\n", code);
        return;
    }
    printf("(ok");
    for (unsigned i = 0; i < singles; i++) printf(" %" PRIu64, reply.answer[FL_LOG_NUMBER + i]);
    if (first != NULL) {
        printf(" ");
        list(first, fl_first(&reply), reply.answer[FL_FIRST_COUNT]);
    }
    if (second != NULL) list(second, fl_second(&reply), reply.answer[FL_SECOND_COUNT]);
    printf(")\n");
}

static void finish(uint64_t id) {
    uint64_t code = fl_finish(&site, id, &reply);
    if (code != FL_OK) {
        say(code, 0, NULL, NULL);
        return;
    }
    uint64_t overtaken = reply.answer[FL_OVERTAKEN];
    printf("(ok %" PRIu64 " ", reply.answer[FL_LOG_NUMBER]);
    list("values", fl_first(&reply), reply.answer[FL_FIRST_COUNT]);
    list("ready", fl_second(&reply) + overtaken, reply.answer[FL_SECOND_COUNT] - overtaken);
    list("overtaken", fl_second(&reply), overtaken);
    printf(")\n");
}

static void poll(uint64_t history) {
    uint64_t code = fl_poll(&site, history);
    if (code == FL_DRY || code == FL_BUSY)
        printf("%" PRIu64 " is %s\n", history, code == FL_DRY ? "dry" : "not dry");
    else
        say(code, 0, NULL, NULL);
}

static void show(uint64_t history) {
    if (fl_show(&site, history, &reply) != FL_OK) return;
    printf("(history");
    for (unsigned i = FL_HISTORY; i <= FL_PROFILE; i++) printf(" %" PRIu64, reply.answer[i]);
    printf(")\n");
}

static void find(const uint64_t *places, size_t count) {
    size_t kept;
    uint64_t code = fl_find_cut(&site, places, count, &kept);
    if (code != FL_OK)
        say(code, 0, NULL, NULL);
    else
        printf("keep %zu\n", kept);
}

int main(void) {
    const fl_update five[] = {{FL_INC, 0, 1, 513}, {FL_NOT, 1, 0, 0}};
    const fl_update six[] = {{FL_SET, 1, 4, 1000}};
    const fl_update nine[] = {{FL_SET, 1, 9, 50}};
    const fl_update eight[] = {{FL_INC, 1, 5, 1}};
    const fl_update ten[] = {{FL_INC, 1, 10, 7}};
    const fl_update none[] = {{7, 0, 1, 0}};
    const char *lost = "(did 6 (set 1 4 2 1000))";
    const char *older = "(site 1)\n(did 5 (inc 0 1 1 513))\n";
    if (!fl_fits()) return 1;
    say(fl_start(&site, log_buffer, sizeof log_buffer, 2), 0, NULL, NULL);
    say(fl_add(&site, 5, five, 2, &reply), 0, "ready", NULL);
    say(fl_add(&site, 6, six, 1, &reply), 0, "ready", NULL);
    finish(5);
    finish(6);
    say(fl_persistent(&site, 1, &reply), 0, "histories", "dry");
    for (uint64_t history = 0; history <= 2; history++) poll(history);
    show(0);
    say(fl_cut(&site, 60, &reply), 2, NULL, NULL);
    show(1);
    say(fl_redo(&site, (const uint8_t *)lost, strlen(lost), &reply), 2, NULL, NULL);
    say(fl_redo(&site, (const uint8_t *)lost, strlen(lost), &reply), 2, NULL, NULL);
    say(fl_end(&site, &reply), 0, "waiting", NULL);
    show(1);
    /* 9 takes the history past the version that 8 waits for, and to the one that 10 waits for */
    say(fl_add(&site, 9, nine, 1, &reply), 0, "ready", NULL);
    say(fl_add(&site, 8, eight, 1, &reply), 0, "ready", NULL);
    say(fl_add(&site, 10, ten, 1, &reply), 0, "ready", NULL);
    finish(9);
    finish(10);
    say(fl_persistent(&site, 4, &reply), 0, "histories", "dry");
    poll(1);
    /* a line of the log says it */
    say(fl_stable(&site, 4, &reply), 0, "histories", NULL);
    show(1);
    /* a rule that is none, an operation without updates, and what is not there */
    say(fl_add(&site, 7, none, 1, &reply), 0, "ready", NULL);
    say(fl_add(&site, 7, none, 0, &reply), 0, "ready", NULL);
    say(fl_withdraw(&site, 7, &reply), 0, "dry", NULL);
    say(fl_stable(&site, 5, &reply), 0, "histories", NULL);
    printf("%zu bytes of log\n", fl_log_used(&site));
    /* the end of the third did line, and places that no cut leaves: too high, and too few */
    find((const uint64_t[]){1, 3}, 2);
    find((const uint64_t[]){1, 5}, 2);
    find((const uint64_t[]){1}, 1);
    size_t used = strlen(older);
    memcpy(log_buffer, older, used);
    say(fl_upgrade(log_buffer, sizeof log_buffer, used, &used), 0, NULL, NULL);
    printf("%zu bytes of log\n", used);
    say(fl_restart(&site, log_buffer, sizeof log_buffer, used), 0, NULL, NULL);
    show(0);
    return 0;
}
