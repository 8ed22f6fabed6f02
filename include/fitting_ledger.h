/*
 * The fitting ledger for controllers and stations: a site, a keeper and records that live on from call to call, in memory that their owner
 * lends.
 *
 * Link with libfitting_ledger.a for a site, with libfitting_station.a for a keeper, records and the report of what falls with lost lines
 * (`rt staticlib NAME`), x86-64 Linux. C11 and C++17. docs/LIBRARY.md is the page to begin with.
 *
 * What is proved of the calls holds for a state that `fl_start` or `fl_restart` has filled (a keeper: `fl_keeper_start`, `fl_keeper_resume`;
 * records: `fl_records_start`, `fl_records_resume`) and that nobody but these calls has changed since, neither the state nor the bytes of its
 * log (the keeper's lines) in use: that is all they ask. Each call is then what documents 01 and 02 say of a session (a keeper, records).
 *
 * - The library has no memory of its own, allocates nothing, opens nothing and keeps no pointer beyond a call. It uses the stack alone: fewer
 *   than FL_STACK_BYTES; fl_removals, fewer than FL_REMOVALS_STACK_BYTES.
 * - Calls on different states may run at the same time. Calls on one state may not.
 * - What is lent to one call must not overlap.
 */
#ifndef FITTING_LEDGER_H
#define FITTING_LEDGER_H

#include <stddef.h>
#include <stdint.h>

#ifdef __cplusplus
extern "C" {
#endif

/* The version of this header. `fl_fits` compares it with the library. */
#define FL_VERSION 4

/* "A site has 1 to 16 histories": the greatest number that fl_start takes. */
#define FL_HISTORIES 16
/* "At most 64 operations are live": the entries of a site's table. */
#define FL_LIVE 64
/* "a log buffer at most 65,536": no more can be lent. Less may be lent, 9 bytes at least. */
#define FL_LOG_BYTES 65536
/* "above 1,024 bytes without its end": a longer line is unreadable. */
#define FL_LINE_BYTES 1024
/* The longest reply, its end among them: the room that fl_line asks for. */
#define FL_REPLY_BYTES 2741
/* More than any call was seen to need of the stack (examples/c/stack.c): fl_line, which may be a cut, some 15,800, a restart 14,400, finding
 * a cut 13,700, a changeover 11,300, most calls below 5,500, a card and the calls of a station below 2,000. */
#define FL_STACK_BYTES 20480
/* The same of fl_removals, which calls itself as deep as lines fall one by one: some 720,000 with a full log, all of whose lines fall. */
#define FL_REMOVALS_STACK_BYTES 1048576

/* "1 to 4 updates": as many as fl_add can be given. */
#define FL_UPDATES 4

/* "W is chosen from 1 to 1,024": the most lines that a card counts. */
#define FL_WINDOW 1024
/* Counts of a history on a card: inc, set, not. */
#define FL_CARD_RULES 3
/* Counts of a card. */
#define FL_CARD_WORDS (FL_HISTORIES * FL_CARD_RULES)

/* Words of a state's parts. */
#define FL_COUNTER_WORDS 13
#define FL_ROW_WORDS 24
#define FL_HISTORY_WORDS 6

/* Words of a reply's parts. */
#define FL_ANSWER_WORDS 8
#define FL_NUMBER_WORDS 68

/* What all calls but fl_line and fl_log_used return: FL_OK, or a refusal's number, the paper's and that of a reply `(refused N)`. */
enum {
    FL_OK = 0,
    FL_UNREADABLE = 1,
    FL_WRONG_COUNT = 2,
    FL_NO_SUCH_HISTORY = 3,
    FL_HISTORY_TWICE = 4,
    FL_OPERAND_RANGE = 5,
    FL_NOTHING_ORDERS = 6,
    FL_ID_PENDING = 7,
    FL_ALREADY_DONE = 8,
    FL_READ_OVERTAKEN = 9,
    FL_TABLE_FULL = 10,
    FL_WRONG_STATE = 11,
    FL_NO_ROOM = 12,
    FL_ABOVE_LIMIT = 13,
    FL_OUT_OF_TURN = 14,
    FL_BAD_LOG = 15,
    FL_NOT_AMONG = 16,
    FL_HIGHEST_VERSION = 17,
    FL_WRONG_THRESHOLD = 18,
    FL_NOT_SENT = 19,
    FL_CONFLICT = 20,
    FL_NO_LENGTH_FITS = 21,
    FL_WINDOW_RANGE = 22
};

/* What fl_poll returns in place of FL_OK: the history is not dry, or it is. */
enum { FL_BUSY = 1000, FL_DRY = 1001 };

/*
 * A site's state. The owner lends it, and the buffer of its log beside it; both must stay where they are and as they are between calls.
 * The numbers mean nothing outside the library. It may be copied, with the bytes of its log, to put a site back as it was.
 */
typedef struct fl_site {
    uint64_t counters[FL_COUNTER_WORDS];
    uint64_t rows[FL_LIVE * FL_ROW_WORDS];
    uint64_t histories[FL_HISTORIES * FL_HISTORY_WORDS];
    uint8_t order[FL_LIVE];
    uint8_t *log;     /* the log's buffer; its first fl_log_used bytes are the log */
    size_t log_bytes; /* how long that buffer is */
} fl_site;

/* The rules of updates. */
enum { FL_INC = 0, FL_SET = 1, FL_NOT = 2, FL_UNK = 3 };

/* An update of fl_add: (RULE H U O). */
typedef struct fl_update {
    uint64_t rule; /* FL_INC, FL_SET, FL_NOT or FL_UNK */
    uint64_t history;
    uint64_t version;
    uint64_t operand;
} fl_update;

/* The reply to a call without text. A refused call leaves it as it was. */
typedef struct fl_reply {
    uint64_t answer[FL_ANSWER_WORDS];  /* how many numbers its lists have, and its single numbers; 0 where a reply has fewer */
    uint64_t numbers[FL_NUMBER_WORDS]; /* its lists: fl_first, and behind it fl_second; those behind are as they were */
} fl_reply;

/* Where a reply's answer has what. */
enum {
    FL_FIRST_COUNT = 0,
    FL_SECOND_COUNT = 1,
    FL_LOG_NUMBER = 2, /* of a finish .. */
    FL_OVERTAKEN = 3,  /* .. and how many ids of its second list, the first ones, were overtaken */
    FL_LINES = 2,      /* of a cut: the operations done after it, those of the base line and the did lines that it kept .. */
    FL_USED = 3,       /* .. and the bytes of the log in use */
    FL_RAN = 2,        /* of a redo: the lines that ran .. */
    FL_EXAMINED = 3,   /* .. and the examinations that it made */
    FL_HISTORY = 2,    /* of a show .. */
    FL_HISTORY_VERSION = 3,
    FL_PERSISTENT_VERSION = 4,
    FL_STABLE_VERSION = 5,
    FL_PLACE = 6,
    FL_PROFILE = 7
};

/*
 * What the library exports: the calls below hand it the parts of a state, one by one. A slice passes as its address and its length.
 */
uint64_t fl_version(void);
size_t fl_state_bytes(void);
size_t fl_reply_bytes(void);
size_t fl_answer_words(void);
size_t fl_number_words(void);
size_t fl_card_words(void);
uint64_t fl_start_parts(uint64_t *counters, uint8_t *log, size_t log_bytes, const uint64_t *rows, uint8_t *order, uint64_t *histories,
                        uint64_t count);
uint64_t fl_restart_parts(uint64_t *counters, const uint8_t *log, size_t log_bytes, uint64_t *rows, uint8_t *order, uint64_t *histories,
                          size_t kept);
size_t fl_line_parts(uint64_t *counters, uint8_t *log, size_t log_bytes, uint64_t *rows, uint8_t *order, uint64_t *histories,
                     const uint8_t *line, size_t line_bytes, uint8_t *reply, size_t reply_bytes);
size_t fl_log_used_parts(const uint64_t *counters, const uint8_t *log, size_t log_bytes, const uint64_t *rows, const uint8_t *order,
                         const uint64_t *histories);

uint64_t fl_add_parts(uint64_t *counters, const uint8_t *log, size_t log_bytes, uint64_t *rows, const uint8_t *order,
                      uint64_t *histories, uint64_t *numbers, uint64_t *answer, uint64_t id, const uint64_t *updates, size_t count);
uint64_t fl_finish_parts(uint64_t *counters, uint8_t *log, size_t log_bytes, uint64_t *rows, uint8_t *order, uint64_t *histories,
                         uint64_t *numbers, uint64_t *answer, uint64_t id);
uint64_t fl_withdraw_parts(uint64_t *counters, const uint8_t *log, size_t log_bytes, const uint64_t *rows, uint8_t *order,
                           uint64_t *histories, uint64_t *numbers, uint64_t *answer, uint64_t id);
uint64_t fl_persistent_parts(uint64_t *counters, const uint8_t *log, size_t log_bytes, const uint64_t *rows, uint8_t *order,
                             uint64_t *histories, uint64_t *numbers, uint64_t *answer, uint64_t n);
uint64_t fl_stable_parts(uint64_t *counters, uint8_t *log, size_t log_bytes, const uint64_t *rows, const uint8_t *order,
                         uint64_t *histories, uint64_t *numbers, uint64_t *answer, uint64_t n);
uint64_t fl_end_parts(uint64_t *counters, const uint8_t *log, size_t log_bytes, const uint64_t *rows, const uint8_t *order,
                      const uint64_t *histories, uint64_t *numbers, uint64_t *answer);
uint64_t fl_show_parts(uint64_t *counters, const uint8_t *log, size_t log_bytes, const uint64_t *rows, const uint8_t *order,
                       const uint64_t *histories, uint64_t *answer, uint64_t history);
uint64_t fl_cut_parts(uint64_t *counters, const uint8_t *log, size_t log_bytes, uint64_t *rows, const uint8_t *order,
                      uint64_t *histories, uint64_t *answer, uint64_t kept);
uint64_t fl_redo_parts(uint64_t *counters, uint8_t *log, size_t log_bytes, uint64_t *rows, uint8_t *order, uint64_t *histories,
                       uint64_t *answer, const uint8_t *line, size_t line_bytes);
uint64_t fl_poll_parts(const uint64_t *counters, const uint8_t *log, size_t log_bytes, const uint64_t *rows, const uint8_t *order,
                       const uint64_t *histories, uint64_t history);
uint64_t fl_trim_parts(const uint64_t *counters, const uint8_t *log, size_t log_bytes, const uint64_t *rows, const uint8_t *order,
                       const uint64_t *histories, uint64_t n, uint8_t *fresh, size_t fresh_bytes, size_t *used);
uint64_t fl_find_cut_parts(const uint64_t *counters, const uint8_t *log, size_t log_bytes, const uint64_t *rows, const uint8_t *order,
                           const uint64_t *histories, const uint64_t *places, size_t count, size_t *kept);
uint64_t fl_card_parts(const uint64_t *counters, const uint8_t *log, size_t log_bytes, const uint64_t *rows, const uint8_t *order,
                       const uint64_t *histories, uint64_t window, uint64_t *counts, size_t *lines);

/* Whether the library that was linked is the one that this header speaks of: 1 or 0. Ask once, first. */
static inline int fl_fits(void) {
    return fl_version() == FL_VERSION && fl_reply_bytes() == FL_REPLY_BYTES && fl_state_bytes() == offsetof(fl_site, order) + FL_LIVE &&
           fl_answer_words() == FL_ANSWER_WORDS && fl_number_words() == FL_NUMBER_WORDS && fl_card_words() == FL_CARD_WORDS;
}

/*
 * Begins a site of so many histories in a state and a log buffer, whatever they hold.
 * FL_OK: the site is open, and its site line is the log.
 * FL_WRONG_COUNT: not 1 to FL_HISTORIES. FL_NO_ROOM: the buffer is shorter than the site line. FL_ABOVE_LIMIT: it is above FL_LOG_BYTES.
 * A refusal changes no byte of the log buffer and leaves the state without a site: all that fl_line takes is then `(site N)`.
 */
static inline uint64_t fl_start(fl_site *site, uint8_t *log, size_t log_bytes, uint64_t histories) {
    site->log = log;
    site->log_bytes = log_bytes;
    return fl_start_parts(site->counters, log, log_bytes, site->rows, site->order, site->histories, histories);
}

/*
 * Changes over a log that was stored before there were stable lines, the first `kept` bytes of a log buffer: where it has did lines, a
 * stable line of their number is put right behind its last whole line, so that after fl_restart all of them are stable, as they were then.
 * Only for such logs: of a log of today that has no stable line yet, it would call all operations stable too. Store it before the restart.
 * FL_OK: `*used` is how many bytes at the front of the buffer are the log now; those behind are as they were.
 * FL_BAD_LOG: these bytes are no such log; one with a stable line is none. FL_NO_ROOM: the line does not fit the buffer. FL_ABOVE_LIMIT:
 * `kept` is above log_bytes, or log_bytes above FL_LOG_BYTES. A refusal changes neither the buffer nor `*used`.
 */
uint64_t fl_upgrade(uint8_t *log, size_t log_bytes, size_t kept, size_t *used);

/*
 * Takes a site up again from the first `kept` bytes of a log, which stand at the front of the log buffer, whatever the state holds.
 * FL_OK: the site is restoring, and the operations above its last stable line are live again; a last line without its end is not counted,
 * so that fl_log_used may be less than `kept`: cut the stored log to that. FL_BAD_LOG: these bytes are no site's log, or they leave more
 * than FL_LIVE operations live, or two with one id. FL_ABOVE_LIMIT: `kept` is above log_bytes, or log_bytes above FL_LOG_BYTES.
 * No byte of the log buffer changes. A refusal leaves the state without a site.
 */
static inline uint64_t fl_restart(fl_site *site, uint8_t *log, size_t log_bytes, size_t kept) {
    site->log = log;
    site->log_bytes = log_bytes;
    return fl_restart_parts(site->counters, log, log_bytes, site->rows, site->order, site->histories, kept);
}

/*
 * Obeys one line of a session, given without its end, and writes its reply, with its end, at the front of `reply`.
 * Returns the bytes of the reply; bytes behind them are as they were.
 * A number above reply_bytes says that nothing has happened, since the longest reply does not fit: it is the room needed, FL_REPLY_BYTES.
 * A reply `(refused N)` says that nothing has changed, neither the state nor the log.
 */
static inline size_t fl_line(fl_site *site, const uint8_t *line, size_t line_bytes, uint8_t *reply, size_t reply_bytes) {
    return fl_line_parts(site->counters, site->log, site->log_bytes, site->rows, site->order, site->histories, line, line_bytes, reply,
                         reply_bytes);
}

/*
 * How many bytes at the front of the log buffer are the log: what the owner has to store. A finish, a redo and a stable add whole lines
 * behind them; only a line `(cut K)` takes some away. 0 without a site.
 */
static inline size_t fl_log_used(const fl_site *site) {
    return fl_log_used_parts(site->counters, site->log, site->log_bytes, site->rows, site->order, site->histories);
}

/*
 * The same calls without text. Each returns FL_OK and fills the reply, or the number of the refusal, and then neither the state nor the log
 * nor the reply has changed; FL_OUT_OF_TURN without a site.
 */

/*
 * Adds an operation. FL_UNREADABLE: a rule's number is none. FL_HIGHEST_VERSION: an unk in a history at the highest version.
 * The reply's first list: the ids that became ready.
 */
static inline uint64_t fl_add(fl_site *site, uint64_t id, const fl_update *updates, size_t count, fl_reply *reply) {
    uint64_t words[FL_UPDATES * 4] = {0};
    for (size_t i = 0; i < count && i < FL_UPDATES; i++) {
        words[4 * i] = updates[i].rule;
        words[4 * i + 1] = updates[i].history;
        words[4 * i + 2] = updates[i].version;
        words[4 * i + 3] = updates[i].operand;
    }
    return fl_add_parts(site->counters, site->log, site->log_bytes, site->rows, site->order, site->histories, reply->numbers, reply->answer,
                        id, words, count);
}

/*
 * Finishes an operation that is in progress: FL_LOG_NUMBER. First list: the values after it. Second list: first the ids of the future
 * operations that it overtook and dropped, oldest first, as many as answer[FL_OVERTAKEN] says; behind them the ids that became ready.
 */
static inline uint64_t fl_finish(fl_site *site, uint64_t id, fl_reply *reply) {
    return fl_finish_parts(site->counters, site->log, site->log_bytes, site->rows, site->order, site->histories, reply->numbers,
                           reply->answer, id);
}

/* Withdraws a future operation: first list: the histories that became dry. */
static inline uint64_t fl_withdraw(fl_site *site, uint64_t id, fl_reply *reply) {
    return fl_withdraw_parts(site->counters, site->log, site->log_bytes, site->rows, site->order, site->histories, reply->numbers,
                             reply->answer, id);
}

/*
 * Makes log numbers up to n persistent: first list: the histories whose persistent version rose, second: those that became dry.
 * It also says that the stable lines before did line n are stored, and, where n is all that is done, every stable line: the operations up
 * to the last of them leave the table.
 */
static inline uint64_t fl_persistent(fl_site *site, uint64_t n, fl_reply *reply) {
    return fl_persistent_parts(site->counters, site->log, site->log_bytes, site->rows, site->order, site->histories, reply->numbers,
                               reply->answer, n);
}

/*
 * Makes log numbers up to n stable: first list: the histories whose stable version rose. Where n is above what is stable it adds a line
 * `(stable N)` to the log, which is to be stored as a did line is; else it is accepted and changes nothing. FL_OUT_OF_TURN while restoring,
 * FL_NO_ROOM where the line does not fit, FL_ABOVE_LIMIT above what is persistent.
 */
static inline uint64_t fl_stable(fl_site *site, uint64_t n, fl_reply *reply) {
    return fl_stable_parts(site->counters, site->log, site->log_bytes, site->rows, site->order, site->histories, reply->numbers,
                           reply->answer, n);
}

/* Ends restoring: first list: the ids of the lines that still waited, and are dropped. */
static inline uint64_t fl_end(fl_site *site, fl_reply *reply) {
    return fl_end_parts(site->counters, site->log, site->log_bytes, site->rows, site->order, site->histories, reply->numbers,
                        reply->answer);
}

/* Shows a history: FL_HISTORY to FL_PROFILE. */
static inline uint64_t fl_show(fl_site *site, uint64_t history, fl_reply *reply) {
    return fl_show_parts(site->counters, site->log, site->log_bytes, site->rows, site->order, site->histories, reply->answer, history);
}

/* A supply cut that leaves the first `kept` bytes of the log, and a restart from them: FL_LINES and FL_USED. FL_BAD_LOG also for a cut
 * inside the site line or the base line. */
static inline uint64_t fl_cut(fl_site *site, uint64_t kept, fl_reply *reply) {
    return fl_cut_parts(site->counters, site->log, site->log_bytes, site->rows, site->order, site->histories, reply->answer, kept);
}

/* Takes back a did line, given without its end: FL_RAN and FL_EXAMINED. */
static inline uint64_t fl_redo(fl_site *site, const uint8_t *line, size_t line_bytes, fl_reply *reply) {
    return fl_redo_parts(site->counters, site->log, site->log_bytes, site->rows, site->order, site->histories, reply->answer, line,
                         line_bytes);
}

/* Polls a history: FL_DRY or FL_BUSY, FL_NO_SUCH_HISTORY, or FL_OUT_OF_TURN without a site. While restoring too. Nothing changes. */
static inline uint64_t fl_poll(const fl_site *site, uint64_t history) {
    return fl_poll_parts(site->counters, site->log, site->log_bytes, site->rows, site->order, site->histories, history);
}

/*
 * Copies the log into a fresh buffer, with a base line in place of its first n operations: FL_OK, and `*used` is how many bytes at its front
 * are the copy. Bytes behind them are as they were; so are the state, the log and, after a refusal, the fresh buffer and `*used`. While
 * restoring too.
 * FL_ABOVE_LIMIT: n is above the stable mark, above 2^63 or below the log's own base, or fresh_bytes is above FL_LOG_BYTES. Only after
 * these FL_NO_ROOM: the copy does not fit; FL_LOG_BYTES are the most that can be lent. FL_OUT_OF_TURN without a site.
 * The changeover is fl_restart from all bytes of the copy, in its buffer, once they are stored; from then on the old log is not needed.
 */
static inline uint64_t fl_trim(const fl_site *site, uint64_t n, uint8_t *fresh, size_t fresh_bytes, size_t *used) {
    return fl_trim_parts(site->counters, site->log, site->log_bytes, site->rows, site->order, site->histories, n, fresh, fresh_bytes, used);
}

/*
 * Names the smallest number of bytes of the log that fl_cut can keep so that the histories have these places, one for each history in
 * rising number: FL_OK, and `*kept` is that number. While restoring too. Nothing else changes.
 * FL_NO_LENGTH_FITS: no cut leaves them; also where there are more or fewer places than histories. FL_OUT_OF_TURN without a site. A refusal
 * leaves `*kept` as it was.
 */
static inline uint64_t fl_find_cut(const fl_site *site, const uint64_t *places, size_t count, size_t *kept) {
    return fl_find_cut_parts(site->counters, site->log, site->log_bytes, site->rows, site->order, site->histories, places, count, kept);
}

/*
 * Counts the card of the last `window` did lines of the log: FL_OK, `counts`, FL_CARD_WORDS numbers, has how many updates of each rule each
 * history had over these lines, and `*lines` is how many lines count: `window`, or all where the log has fewer. It is counted afresh from the
 * whole log then held, so it can be asked for at any time, behind a cut or a changeover too. While restoring too. Counts past those of the
 * site's histories are as they were; so are the state and the log.
 * FL_WINDOW_RANGE: not 1 to FL_WINDOW. FL_OUT_OF_TURN without a site. A refusal changes neither `counts` nor `*lines`.
 */
static inline uint64_t fl_card(const fl_site *site, uint64_t window, uint64_t *counts, size_t *lines) {
    return fl_card_parts(site->counters, site->log, site->log_bytes, site->rows, site->order, site->histories, window, counts, lines);
}

/* Of a card's counts, how many updates of a rule, FL_INC, FL_SET or FL_NOT, a history had; an FL_UNK is logged as an inc. */
static inline uint64_t fl_card_count(const uint64_t *counts, uint64_t history, uint64_t rule) {
    return history < FL_HISTORIES && rule < FL_CARD_RULES ? counts[history * FL_CARD_RULES + rule] : 0;
}

/* The lists of a reply: fl_first has answer[FL_FIRST_COUNT] numbers, fl_second has answer[FL_SECOND_COUNT]. */
static inline const uint64_t *fl_first(const fl_reply *reply) { return reply->numbers; }

static inline const uint64_t *fl_second(const fl_reply *reply) { return reply->numbers + reply->answer[FL_FIRST_COUNT]; }

/*
 * A station. Link with libfitting_station.a; a program that holds a site too links both archives.
 */

/* "The list of kept places, one for each of the sixteen histories". */
#define FL_PLACES 16
/* "a 65th record 10": as many records as can be held. */
#define FL_RECORDS 64
/* Words of a record. */
#define FL_RECORD_WORDS 5
/* No log has more did lines, so no report of fl_removals names more. */
#define FL_LOG_LINES 2978

/* What the two resume calls return for what is not stored by a keeper, or not by records. */
enum { FL_NOT_RESUMED = 999 };

/* What fl_records_report and fl_records_question return in place of FL_OK: whether the operation counts as persistent. */
enum { FL_NOT_PERSISTENT = 1000, FL_PERSISTENT = 1001 };

/*
 * A keeper: copies of did lines in a buffer of at most FL_LOG_BYTES, which the owner lends. Both must stay where they are and as they are
 * between calls. The first `used` bytes of the buffer are the kept lines, in the order of their arrival, each with its end: what the owner
 * has to store. A keep adds a line behind them; a drop moves lines up, so that what is stored has to be written anew.
 */
typedef struct fl_keeper {
    size_t used;
    uint8_t *lines;
    size_t lines_bytes;
} fl_keeper;

/*
 * Records of operations that live on several modules. The first `count` records are the first FL_RECORD_WORDS * count words: the id; the masks
 * of the sites that it was sent to, of those with full details, of those that reported it persistent, where site s has the bit 1 << s, s from
 * 0 to 7; the threshold. To be stored as they stand.
 */
typedef struct fl_records {
    size_t count;
    uint64_t words[FL_RECORDS * FL_RECORD_WORDS];
} fl_records;

/* What the library exports: the calls below hand it the parts. */
uint64_t fl_station_version(void);
size_t fl_record_words(void);
size_t fl_place_words(void);
void fl_keeper_start_parts(size_t *used, const uint8_t *lines, size_t lines_bytes);
uint64_t fl_keeper_resume_parts(size_t *used, const uint8_t *lines, size_t lines_bytes, size_t kept);
uint64_t fl_keeper_keep_parts(size_t *used, uint8_t *lines, size_t lines_bytes, const uint8_t *line, size_t line_bytes);
uint64_t fl_keeper_drop_parts(size_t *used, uint8_t *lines, size_t lines_bytes, uint64_t history, uint64_t place);
uint64_t fl_keeper_hand_out_parts(const size_t *used, const uint8_t *lines, size_t lines_bytes, const uint64_t *places, uint8_t *out,
                                  size_t out_bytes, size_t *handed);
void fl_records_start_parts(size_t *count, const uint64_t *words);
uint64_t fl_records_resume_parts(size_t *count, const uint64_t *words, size_t kept);
uint64_t fl_records_record_parts(size_t *count, uint64_t *words, uint64_t id, uint8_t sent, uint8_t full, uint64_t threshold);
uint64_t fl_records_report_parts(size_t *count, uint64_t *words, uint64_t id, uint64_t site);
uint64_t fl_records_question_parts(const size_t *count, const uint64_t *words, uint64_t id);
uint64_t fl_records_forget_parts(size_t *count, uint64_t *words, uint64_t id);
size_t fl_log_lines(void);

/* Whether the library for stations that was linked is the one that this header speaks of: 1 or 0. Ask once, first. */
static inline int fl_station_fits(void) {
    return fl_station_version() == FL_VERSION && fl_record_words() == FL_RECORDS * FL_RECORD_WORDS && fl_place_words() == FL_PLACES &&
           fl_log_lines() == FL_LOG_LINES;
}

/* Begins a keeper that keeps nothing, whatever the keeper and the buffer hold. A buffer above FL_LOG_BYTES is refused by the calls below. */
static inline void fl_keeper_start(fl_keeper *keeper, uint8_t *lines, size_t lines_bytes) {
    keeper->lines = lines;
    keeper->lines_bytes = lines_bytes;
    fl_keeper_start_parts(&keeper->used, lines, lines_bytes);
}

/*
 * Takes a keeper up again from the first `kept` bytes of its stored lines, which stand at the front of the buffer, whatever the keeper holds.
 * To be called once: the keeper lives on from there. A last line without its end is not counted, so that `used` may be less than `kept`: cut
 * what is stored to that.
 * FL_OK, or FL_NOT_RESUMED: a whole line is not one that a keeper keeps, or `kept` is above lines_bytes; it then keeps nothing. No byte changes.
 */
static inline uint64_t fl_keeper_resume(fl_keeper *keeper, uint8_t *lines, size_t lines_bytes, size_t kept) {
    keeper->lines = lines;
    keeper->lines_bytes = lines_bytes;
    return fl_keeper_resume_parts(&keeper->used, lines, lines_bytes, kept);
}

/*
 * Keeps a copy of a did line, given without its end. A refusal changes nothing: FL_UNREADABLE to FL_OPERAND_RANGE for what is no did line of
 * histories 0 to 15; FL_ALREADY_DONE: the same line is kept; FL_CONFLICT: another one with its id, histories and places is; FL_NO_ROOM: the
 * buffer is full for it; FL_ABOVE_LIMIT: the buffer is above FL_LOG_BYTES.
 */
static inline uint64_t fl_keeper_keep(fl_keeper *keeper, const uint8_t *line, size_t line_bytes) {
    return fl_keeper_keep_parts(&keeper->used, keeper->lines, keeper->lines_bytes, line, line_bytes);
}

/*
 * The history is persistent up to this place: drops every line with that place or a lower one in that history. FL_NO_SUCH_HISTORY: above 15.
 * FL_ABOVE_LIMIT as above.
 */
static inline uint64_t fl_keeper_drop(fl_keeper *keeper, uint64_t history, uint64_t place) {
    return fl_keeper_drop_parts(&keeper->used, keeper->lines, keeper->lines_bytes, history, place);
}

/*
 * Hands out, in the order of their arrival, copies of the lines with a place above its entry in `places`, FL_PLACES numbers, one for each
 * history: what a site lost that still has these places. FL_OK, and `*handed` is how many bytes at the front of `out` they are, each line with
 * its end; those behind are as they were. FL_NO_ROOM: they do not fit; as much room as the keeper uses is always enough. FL_ABOVE_LIMIT: a
 * buffer is above FL_LOG_BYTES. A refusal changes neither `out` nor `*handed`; the keeper does not change at all.
 */
static inline uint64_t fl_keeper_hand_out(const fl_keeper *keeper, const uint64_t *places, uint8_t *out, size_t out_bytes, size_t *handed) {
    return fl_keeper_hand_out_parts(&keeper->used, keeper->lines, keeper->lines_bytes, places, out, out_bytes, handed);
}

/* Begins without records, whatever they hold. */
static inline void fl_records_start(fl_records *records) { fl_records_start_parts(&records->count, records->words); }

/*
 * Takes up `kept` records that were stored and stand in the words again. FL_OK, or FL_NOT_RESUMED: more than FL_RECORDS; there are then none.
 * No word changes.
 */
static inline uint64_t fl_records_resume(fl_records *records, size_t kept) {
    return fl_records_resume_parts(&records->count, records->words, kept);
}

/*
 * Records an operation: the masks of the sites that it was sent to and of those with full details, and how many of these must report it
 * persistent before it counts. FL_ID_PENDING: it is recorded. FL_TABLE_FULL: there are FL_RECORDS. FL_WRONG_THRESHOLD: 0, or above the number
 * of full copies. FL_NOT_SENT: a full copy at a site that it was not sent to.
 */
static inline uint64_t fl_records_record(fl_records *records, uint64_t id, uint8_t sent, uint8_t full, uint64_t threshold) {
    return fl_records_record_parts(&records->count, records->words, id, sent, full, threshold);
}

/*
 * A site reports an operation persistent: FL_PERSISTENT if it then counts as persistent, else FL_NOT_PERSISTENT. A report that comes twice
 * changes nothing. FL_NOT_SENT: there is no record, or it was not sent to this site.
 */
static inline uint64_t fl_records_report(fl_records *records, uint64_t id, uint64_t site) {
    return fl_records_report_parts(&records->count, records->words, id, site);
}

/* Whether an operation counts as persistent: FL_PERSISTENT or FL_NOT_PERSISTENT. FL_NOT_SENT: there is no record. Nothing changes. */
static inline uint64_t fl_records_question(const fl_records *records, uint64_t id) {
    return fl_records_question_parts(&records->count, records->words, id);
}

/* Forgets the record of an operation; the records behind it move up. FL_NOT_SENT: there is none. */
static inline uint64_t fl_records_forget(fl_records *records, uint64_t id) {
    return fl_records_forget_parts(&records->count, records->words, id);
}

/*
 * Names the lines of a log that fall with lines lost for good: all later lines that share a history with one that falls, and all lines of its
 * transactions, by their log numbers, which count from 1, or behind a base line of N from N + 1. No state is lent; `log` is a whole log, and a
 * last line without its end is none.
 * `pairs` are log number and transaction number in turn, pair_numbers numbers in all; a last one without a partner is no pair. `lost` are the
 * log numbers lost. FL_OK: `*count` numbers, rising, stand at the front of `out`; those behind are as they were.
 * FL_ABOVE_LIMIT: log_bytes is above FL_LOG_BYTES. FL_BAD_LOG: these bytes are no log. FL_NOT_AMONG: a number of a pair or a line lost is no did
 * line's. FL_NO_ROOM: the answer does not fit `room` numbers; room for FL_LOG_LINES is always enough. In this order. A refusal changes neither
 * `out` nor `*count`. It needs FL_REMOVALS_STACK_BYTES of stack.
 */
uint64_t fl_removals(const uint8_t *log, size_t log_bytes, const uint64_t *pairs, size_t pair_numbers, const uint64_t *lost, size_t lost_numbers,
                     uint64_t *out, size_t room, size_t *count);

#ifdef __cplusplus
}
#endif

#endif
