/*
 * A file that holds the first bytes of something that grows in memory: what the examples store a log and kept lines in. Bytes are written one
 * after the other, so that a kill can come in the middle of a line. What is stored is stored when a call returns.
 */
#ifndef STORED_H
#define STORED_H

#include <fcntl.h>
#include <signal.h>
#include <stdint.h>
#include <stdio.h>
#include <stdlib.h>
#include <unistd.h>

typedef struct stored {
    const char *name;
    int file;
    size_t bytes; /* how many it holds */
} stored;

static size_t bytes_left = SIZE_MAX; /* to write, before the program kills itself */

static inline void fail(const char *what) {
    fprintf(stderr, "failed: %s\n", what);
    exit(1);
}

static inline void write_bytes(int file, const uint8_t *bytes, size_t n) {
    for (size_t i = 0; i < n; i++) {
        if (bytes_left-- == 0) raise(SIGKILL);
        if (write(file, bytes + i, 1) != 1) fail("cannot write");
    }
    if (fdatasync(file) != 0) fail("cannot store");
}

/*
 * For the gate, which kills these programs. SALT differs from start to start, and with it the values that operations bring; so an operation
 * that was lost and done again is not the same. A line is acknowledged to the file ACKNOWLEDGED, once it is stored where it will not be lost.
 */
static inline unsigned salt(void) {
    const char *told = getenv("SALT");
    return told == NULL ? 0 : (unsigned)strtoul(told, NULL, 10);
}

static inline void acknowledge(const uint8_t *line, size_t n) {
    const char *name = getenv("ACKNOWLEDGED");
    if (name == NULL) return;
    int file = open(name, O_WRONLY | O_CREAT | O_APPEND, 0644);
    if (file < 0 || write(file, line, n) != (ssize_t)n || close(file) != 0) fail("cannot acknowledge");
}

/* Opens a file, or makes it, and reads what it holds to the front of a buffer. */
static inline void stored_open(stored *s, const char *name, uint8_t *buffer, size_t room) {
    s->name = name;
    s->file = open(name, O_RDWR | O_CREAT | O_APPEND, 0644);
    if (s->file < 0) fail("cannot open a file");
    ssize_t n = read(s->file, buffer, room);
    if (n < 0) fail("cannot read");
    s->bytes = (size_t)n;
}

/* Cuts it to its first bytes: a last line that a kill has cut off does not count. */
static inline void stored_cut(stored *s, size_t bytes) {
    if (ftruncate(s->file, (off_t)bytes) != 0) fail("cannot cut a file");
    s->bytes = bytes;
}

/* Stores what is new in a buffer whose first bytes it holds. */
static inline void stored_grow(stored *s, const uint8_t *buffer, size_t used) {
    if (used <= s->bytes) return;
    write_bytes(s->file, buffer + s->bytes, used - s->bytes);
    s->bytes = used;
}

/* Stores other bytes in its place: in a file beside it, which then takes its name. Killed before that, it holds what it held. */
static inline void stored_replace(stored *s, const uint8_t *buffer, size_t used) {
    char beside[4096];
    snprintf(beside, sizeof beside, "%s.new", s->name);
    int file = open(beside, O_RDWR | O_CREAT | O_TRUNC | O_APPEND, 0644);
    if (file < 0) fail("cannot open a file");
    write_bytes(file, buffer, used);
    if (rename(beside, s->name) != 0 || close(s->file) != 0) fail("cannot replace a file");
    s->file = file;
    s->bytes = used;
}

#endif
