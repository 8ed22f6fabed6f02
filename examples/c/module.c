/*
 * A compact module: four sites on one table of 128 entries. The table is filled, 64, 32, 16 and 16; two sites of it are cut, and the
 * neighbours find no entry (10); then all lost lines come again, in reverse, and everything shows as before.
 *
 * usage: module
 */
#include "fitting_module.h"

#include <stdio.h>
#include <stdlib.h>
#include <string.h>

enum { ROOM = 4096 };

static uint8_t buffers[FM_SLOTS][ROOM], before[2][ROOM];
static fm_module module;

/* Obeys a line for a slot, and gives its reply, without its end. */
static const char *obey(size_t slot, const char *line) {
    static char reply[FM_REPLY_BYTES];
    size_t n = fm_line(&module, slot, (const uint8_t *)line, strlen(line), (uint8_t *)reply, sizeof reply);
    if (n == 0 || n > sizeof reply || reply[n - 1] != '\n') exit(1);
    reply[n - 1] = 0;
    return reply;
}

static void say(size_t slot, const char *line) { printf("%zu %s\n  %s\n", slot, line, obey(slot, line)); }

/* Adds and finishes operations in history 0 until one is refused, and says how many went in and why no more did. */
static void fill(size_t slot) {
    char line[80];
    for (unsigned n = 1;; n++) {
        snprintf(line, sizeof line, "(add %u (set 0 %u %u))", n, n, n);
        const char *reply = obey(slot, line);
        if (strncmp(reply, "(refused", 8) == 0) {
            printf("%zu filled with %u: %s\n", slot, n - 1, reply);
            return;
        }
        snprintf(line, sizeof line, "(finish %u)", n);
        if (strncmp(obey(slot, line), "(refused", 8) == 0) exit(1);
    }
}

static void show_all(void) {
    for (size_t slot = 0; slot < FM_SLOTS; slot++) say(slot, "(show 0)");
}

/* Redoes the did lines in the first `used` bytes of a log, the last first, and says how many ran. */
static void redo_all(size_t slot, const uint8_t *log, size_t used) {
    char line[FM_LINE_BYTES];
    unsigned ran = 0, refused = 0;
    for (size_t end = used; end > 0;) {
        size_t start = end - 1;
        while (start > 0 && log[start - 1] != '\n') start--;
        if (memcmp(log + start, "(did ", 5) == 0) {
            snprintf(line, sizeof line, "(redo %.*s)", (int)(end - 1 - start), (const char *)(log + start));
            unsigned n = 0, examined = 0;
            if (sscanf(obey(slot, line), "(ok %u %u)", &n, &examined) == 2)
                ran += n;
            else
                refused++;
        }
        end = start;
    }
    printf("%zu redo, the last line first: %u lines ran, %u refused\n", slot, ran, refused);
    say(slot, "(end)");
}

int main(void) {
    uint8_t *logs[FM_SLOTS];
    size_t log_bytes[FM_SLOTS], used[2];
    if (!fm_fits()) return 1;
    memset(&module, 0xAA, sizeof module);
    for (size_t slot = 0; slot < FM_SLOTS; slot++) {
        logs[slot] = buffers[slot];
        log_bytes[slot] = ROOM;
    }
    fm_start(&module, logs, log_bytes);
    say(0, "(show 0)");
    say(4, "(site 1)");
    say(4, "(site 1");
    for (size_t slot = 0; slot < FM_SLOTS; slot++) say(slot, "(site 1)");
    say(0, "(site 1)");
    for (size_t slot = 0; slot < FM_SLOTS; slot++) fill(slot);
    show_all();
    printf("0 poll 0: %s\n", fm_poll(&module, 0, 0) == FM_BUSY ? "busy" : "dry");
    for (size_t slot = 0; slot < 2; slot++) {
        used[slot] = fm_log_used(&module, slot);
        memcpy(before[slot], buffers[slot], used[slot]);
        say(slot, "(cut 9)");
    }
    for (size_t slot = 2; slot < FM_SLOTS; slot++) say(slot, "(add 999 (inc 0 900 1))");
    for (size_t slot = 0; slot < 2; slot++) redo_all(slot, before[slot], used[slot]);
    show_all();
    for (size_t slot = 0; slot < 2; slot++) {
        int same = fm_log_used(&module, slot) == used[slot] && memcmp(before[slot], buffers[slot], used[slot]) == 0;
        printf("%zu has %s log\n", slot, same ? "the same" : "another");
    }
    /* a restart from the bytes of the log; and one from bytes that are none, which leaves the site as it is */
    printf("3 restart: %u\n", (unsigned)fm_restart(&module, 3, buffers[3], ROOM, fm_log_used(&module, 3)));
    printf("3 restart from 5 bytes: %u\n", (unsigned)fm_restart(&module, 3, buffers[3], ROOM, 5));
    printf("4 restart: %u\n", (unsigned)fm_restart(&module, 4, buffers[3], ROOM, 9));
    say(3, "(show 0)");
    say(3, "(end)");
    printf("3 poll 0: %s\n", fm_poll(&module, 3, 0) == FM_DRY ? "dry" : "busy");
    printf("3 poll 1: %u\n", (unsigned)fm_poll(&module, 3, 1));
    printf("4 poll 0: %u\n", (unsigned)fm_poll(&module, 4, 0));
    for (size_t slot = 0; slot <= FM_SLOTS; slot++) printf("%zu has %zu bytes of log\n", slot, fm_log_used(&module, slot));
    return 0;
}
