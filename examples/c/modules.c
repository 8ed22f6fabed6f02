/*
 * Operations that live on several modules, as a station records them: a fitting split over two modules counts as persistent once both have
 * reported it, a mirrored one once one has. The records are stored and taken up again in between.
 *
 * usage: modules
 */
#include "fitting_ledger.h"

#include <inttypes.h>
#include <stdio.h>
#include <string.h>

static fl_records records;

static void say(const char *what, uint64_t code) {
    if (code == FL_OK)
        printf("%s: done, %zu recorded\n", what, records.count);
    else if (code == FL_PERSISTENT || code == FL_NOT_PERSISTENT)
        printf("%s: %s\n", what, code == FL_PERSISTENT ? "persistent" : "not persistent");
    else
        printf("%s: refused %" PRIu64 "\n", what, code);
}

int main(void) {
    const uint8_t seat = 1 << 0, drive = 1 << 1, display = 1 << 2; /* sites 0, 1 and 2 */
    fl_records stored;
    if (!fl_station_fits()) return 1;
    memset(&records, 0xAA, sizeof records);
    fl_records_start(&records);
    /* 5 is split over seat and drive, and the display gets a copy without details; 6 is mirrored */
    say("record 5", fl_records_record(&records, 5, seat | drive | display, seat | drive, 2));
    say("record 6", fl_records_record(&records, 6, seat | drive, seat | drive, 1));
    say("record 6 again", fl_records_record(&records, 6, seat, seat, 1));
    say("record 7, two of one", fl_records_record(&records, 7, seat | drive, seat, 2));
    say("record 7, full where it is not", fl_records_record(&records, 7, seat, seat | drive, 1));
    say("5 at the seat", fl_records_report(&records, 5, 0));
    say("5 at the display", fl_records_report(&records, 5, 2));
    say("5 at the seat again", fl_records_report(&records, 5, 0));
    say("6 at the drive", fl_records_report(&records, 6, 1));
    say("6 at the display", fl_records_report(&records, 6, 2));
    /* a restart of the station */
    stored = records;
    memset(&records, 0xAA, sizeof records);
    memcpy(records.words, stored.words, sizeof records.words);
    say("resume, too many", fl_records_resume(&records, FL_RECORDS + 1));
    say("resume", fl_records_resume(&records, stored.count));
    say("5", fl_records_question(&records, 5));
    say("5 at the drive", fl_records_report(&records, 5, 1));
    say("5", fl_records_question(&records, 5));
    say("6", fl_records_question(&records, 6));
    say("forget 5", fl_records_forget(&records, 5));
    say("5", fl_records_question(&records, 5));
    say("forget 5 again", fl_records_forget(&records, 5));
    /* one freed entry is used again, a 65th is too many */
    for (uint64_t id = 100; fl_records_record(&records, id, seat, seat, 1) == FL_OK; id++) continue;
    say("a 65th", fl_records_record(&records, 5, seat, seat, 1));
    printf("%zu recorded\n", records.count);
    return 0;
}
