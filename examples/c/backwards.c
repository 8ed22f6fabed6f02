/*
 * A paper set backwards: the examiner says how many steps shall have touched each profile after the cut, and the library names the cut. Reads
 * a paper up to its first cut, or to its end, and prints the cut line that leaves these places.
 *
 * usage: backwards PAPER PLACE..
 */
#include "fitting_ledger.h"

#include <errno.h>
#include <inttypes.h>
#include <stdio.h>
#include <stdlib.h>
#include <string.h>

static fl_site site;
static uint8_t log_buffer[FL_LOG_BYTES];
static uint8_t reply[FL_REPLY_BYTES];

/* Obeys the lines of a paper that stand before its first cut. */
static int fit(FILE *paper) {
    char line[FL_LINE_BYTES + 2];
    while (fgets(line, sizeof line, paper) != NULL && strncmp(line, "(cut ", 5) != 0) {
        size_t length = strcspn(line, "\n");
        if (fl_line(&site, (const uint8_t *)line, length, reply, sizeof reply) == 0) return 0;
    }
    return !ferror(paper);
}

int main(int count, char **words) {
    uint64_t places[64];
    size_t asked = count > 2 ? (size_t)count - 2 : 0;
    if (!fl_fits() || count < 2 || asked > sizeof places / sizeof places[0]) {
        fputs("usage: backwards PAPER PLACE..\n", stderr);
        return 2;
    }
    for (size_t i = 0; i < asked; i++) {
        char *end;
        errno = 0;
        places[i] = strtoull(words[i + 2], &end, 10);
        if (errno != 0 || *end != '\0' || words[i + 2][0] < '0' || words[i + 2][0] > '9') {
            fprintf(stderr, "backwards: %s is no place\n", words[i + 2]);
            return 2;
        }
    }
    FILE *paper = fopen(words[1], "rb");
    if (paper == NULL) {
        perror(words[1]);
        return 2;
    }
    fl_start(&site, log_buffer, sizeof log_buffer, 0); /* no site yet: the paper opens it */
    int fitted = fit(paper);
    fclose(paper);
    if (!fitted) {
        fprintf(stderr, "backwards: %s can't be read\n", words[1]);
        return 2;
    }
    size_t kept;
    uint64_t code = fl_find_cut(&site, places, asked, &kept);
    if (code != FL_OK) {
        printf("(refused %" PRIu64 ")\n", code);
        return 1;
    }
    printf("(cut %zu)\n", kept);
    return 0;
}
