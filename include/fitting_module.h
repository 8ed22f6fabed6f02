/*
 * The fitting ledger for a compact module: up to four sites on one controller that share a table of 128 entries (02, (m)). They live
 * on from call to call, in memory that their owner lends.
 *
 * Link with libfitting_module.a (`tools/build fitting_module`), x86-64 Linux. C11 and C++17. docs/LIBRARY.md is the page to begin with.
 *
 * What is proved of the calls holds for a state that `fm_start` has filled and that nobody but these calls has changed since, neither the
 * state nor the bytes of the logs in use: that is all they ask. Each call is then what document 02 says of the module: of a slot that is not
 * opened, and of one above 3, the reply is 14.
 *
 * - The library has no memory of its own, allocates nothing, opens nothing and keeps no pointer beyond a call. It uses the stack alone: fewer
 *   than FM_STACK_BYTES.
 * - Calls on different states may run at the same time. Calls on one state may not, of different slots neither.
 * - What is lent to one call must not overlap.
 */
#ifndef FITTING_MODULE_H
#define FITTING_MODULE_H

#include <stddef.h>
#include <stdint.h>

#ifdef __cplusplus
extern "C" {
#endif

/* The version of this header. `fm_fits` compares it with the library. */
#define FM_VERSION 2

/* "carries up to four sites on 128 live entries": the slots are 0 to 3. */
#define FM_SLOTS 4
#define FM_ENTRIES 128
/* "is promised 16 and may use 64" */
#define FM_PROMISE 16
#define FM_LIVE 64
/* "A site has 1 to 16 histories". */
#define FM_HISTORIES 16
/* "a log buffer at most 65,536": no more can be lent for a slot. Less may be lent; a slot that is never opened needs none. */
#define FM_LOG_BYTES 65536
/* "above 1,024 bytes without its end": a longer line is unreadable. */
#define FM_LINE_BYTES 1024
/* The longest reply, its end among them: the room that fm_line asks for. */
#define FM_REPLY_BYTES 2741
/* More than any call was seen to need of the stack (examples/c/module_stack.c): fm_line, which may be a cut, some 20,500, fm_cut 18,500, a
 * restart 16,800, other lines below 10,000, other calls on numbers and a copy below 7,500. */
#define FM_STACK_BYTES 24576

/* "1 to 4 updates": as many as fm_add can be given. */
#define FM_UPDATES 4

/* Words of a state's parts. */
#define FM_SLOT_WORDS 15
#define FM_ROW_WORDS 24
#define FM_HISTORY_WORDS 6

/* Words of a reply's parts. */
#define FM_ANSWER_WORDS 8
#define FM_NUMBER_WORDS 68

/* What all calls but fm_start, fm_line and fm_log_used return: FM_OK, or a refusal's number, the paper's and that of a reply `(refused N)`. */
enum {
    FM_OK = 0,
    FM_UNREADABLE = 1,
    FM_WRONG_COUNT = 2,
    FM_NO_SUCH_HISTORY = 3,
    FM_HISTORY_TWICE = 4,
    FM_OPERAND_RANGE = 5,
    FM_NOTHING_ORDERS = 6,
    FM_ID_PENDING = 7,
    FM_ALREADY_DONE = 8,
    FM_READ_OVERTAKEN = 9,
    FM_TABLE_FULL = 10,
    FM_WRONG_STATE = 11,
    FM_NO_ROOM = 12,
    FM_ABOVE_LIMIT = 13,
    FM_OUT_OF_TURN = 14,
    FM_BAD_LOG = 15,
    FM_HIGHEST_VERSION = 17
};

/* What fm_poll returns in place of FM_OK: the history is not dry, or it is. */
enum { FM_BUSY = 1000, FM_DRY = 1001 };

/*
 * A module's state. The owner lends it, and the buffers of its slots' logs beside it; all must stay where they are and as they are between
 * calls. The numbers mean nothing outside the library. It may be copied, with the bytes of its logs, to put a module back as it was.
 */
typedef struct fm_module {
    uint64_t slots[FM_SLOTS][FM_SLOT_WORDS];
    uint64_t rows[FM_ENTRIES * FM_ROW_WORDS];
    uint64_t histories[FM_SLOTS][FM_HISTORIES * FM_HISTORY_WORDS];
    uint8_t numbers[FM_SLOTS * FM_LIVE];
    uint8_t *logs[FM_SLOTS];    /* each slot's log buffer; its first fm_log_used bytes are the log */
    size_t log_bytes[FM_SLOTS]; /* how long these buffers are */
} fm_module;

/* The rules of updates. */
enum { FM_INC = 0, FM_SET = 1, FM_NOT = 2, FM_UNK = 3 };

/* An update of fm_add: (RULE H U O). */
typedef struct fm_update {
    uint64_t rule; /* FM_INC, FM_SET, FM_NOT or FM_UNK */
    uint64_t history;
    uint64_t version;
    uint64_t operand;
} fm_update;

/* The reply to a call without text. A refused call leaves it as it was. */
typedef struct fm_reply {
    uint64_t answer[FM_ANSWER_WORDS];  /* how many numbers its lists have, and its single numbers; 0 where a reply has fewer */
    uint64_t numbers[FM_NUMBER_WORDS]; /* its lists: fm_first, and behind it fm_second; those behind are as they were */
} fm_reply;

/* Where a reply's answer has what. */
enum {
    FM_FIRST_COUNT = 0,
    FM_SECOND_COUNT = 1,
    FM_LOG_NUMBER = 2, /* of a finish .. */
    FM_OVERTAKEN = 3,  /* .. and how many ids of its second list, the first ones, were overtaken */
    FM_LINES = 2,      /* of a cut: the operations done after it, those of the base line and the did lines that it kept .. */
    FM_USED = 3,       /* .. and the bytes of the log in use */
    FM_RAN = 2,        /* of a redo: the lines that ran .. */
    FM_EXAMINED = 3,   /* .. and the examinations that it made */
    FM_HISTORY = 2,    /* of a show .. */
    FM_HISTORY_VERSION = 3,
    FM_PERSISTENT_VERSION = 4,
    FM_STABLE_VERSION = 5,
    FM_PLACE = 6,
    FM_PROFILE = 7
};

/*
 * What the library exports: the calls below hand it the parts of a state, one by one, and of the slot that is called its log and histories. A
 * slice passes as its address and its length.
 */
uint64_t fm_version(void);
size_t fm_state_bytes(void);
size_t fm_reply_bytes(void);
size_t fm_answer_words(void);
size_t fm_number_words(void);
void fm_start_parts(uint64_t *first, uint64_t *second, uint64_t *third, uint64_t *fourth, const uint64_t *rows, uint8_t *numbers);
uint64_t fm_restart_parts(uint64_t *first, uint64_t *second, uint64_t *third, uint64_t *fourth, const uint8_t *log, size_t log_bytes,
                          uint64_t *rows, uint8_t *numbers, uint64_t *histories, size_t slot, size_t kept);
size_t fm_line_parts(uint64_t *first, uint64_t *second, uint64_t *third, uint64_t *fourth, uint8_t *log, size_t log_bytes, uint64_t *rows,
                     uint8_t *numbers, uint64_t *histories, size_t slot, const uint8_t *line, size_t line_bytes, uint8_t *reply,
                     size_t reply_bytes);
size_t fm_log_used_parts(const uint64_t *first, const uint64_t *second, const uint64_t *third, const uint64_t *fourth, const uint8_t *log,
                         size_t log_bytes, const uint64_t *rows, const uint8_t *numbers, const uint64_t *histories, size_t slot);
uint64_t fm_poll_parts(const uint64_t *first, const uint64_t *second, const uint64_t *third, const uint64_t *fourth, const uint8_t *log,
                       size_t log_bytes, const uint64_t *rows, const uint8_t *numbers, const uint64_t *histories, size_t slot,
                       uint64_t history);
uint64_t fm_add_parts(uint64_t *first, uint64_t *second, uint64_t *third, uint64_t *fourth, const uint8_t *log, size_t log_bytes,
                      uint64_t *rows, uint8_t *numbers, uint64_t *histories, uint64_t *lists, uint64_t *answer, size_t slot, uint64_t id,
                      const uint64_t *updates, size_t count);
uint64_t fm_finish_parts(uint64_t *first, uint64_t *second, uint64_t *third, uint64_t *fourth, uint8_t *log, size_t log_bytes,
                         uint64_t *rows, uint8_t *numbers, uint64_t *histories, uint64_t *lists, uint64_t *answer, size_t slot,
                         uint64_t id);
uint64_t fm_withdraw_parts(uint64_t *first, uint64_t *second, uint64_t *third, uint64_t *fourth, const uint8_t *log, size_t log_bytes,
                           const uint64_t *rows, uint8_t *numbers, uint64_t *histories, uint64_t *lists, uint64_t *answer, size_t slot,
                           uint64_t id);
uint64_t fm_persistent_parts(uint64_t *first, uint64_t *second, uint64_t *third, uint64_t *fourth, const uint8_t *log, size_t log_bytes,
                             const uint64_t *rows, uint8_t *numbers, uint64_t *histories, uint64_t *lists, uint64_t *answer, size_t slot,
                             uint64_t n);
uint64_t fm_stable_parts(uint64_t *first, uint64_t *second, uint64_t *third, uint64_t *fourth, uint8_t *log, size_t log_bytes,
                         const uint64_t *rows, const uint8_t *numbers, uint64_t *histories, uint64_t *lists, uint64_t *answer, size_t slot,
                         uint64_t n);
uint64_t fm_end_parts(uint64_t *first, uint64_t *second, uint64_t *third, uint64_t *fourth, const uint8_t *log, size_t log_bytes,
                      const uint64_t *rows, const uint8_t *numbers, const uint64_t *histories, uint64_t *lists, uint64_t *answer,
                      size_t slot);
uint64_t fm_show_parts(uint64_t *first, uint64_t *second, uint64_t *third, uint64_t *fourth, const uint8_t *log, size_t log_bytes,
                       const uint64_t *rows, const uint8_t *numbers, const uint64_t *histories, uint64_t *answer, size_t slot,
                       uint64_t history);
uint64_t fm_cut_parts(uint64_t *first, uint64_t *second, uint64_t *third, uint64_t *fourth, const uint8_t *log, size_t log_bytes,
                      uint64_t *rows, uint8_t *numbers, uint64_t *histories, uint64_t *answer, size_t slot, uint64_t kept);
uint64_t fm_redo_parts(uint64_t *first, uint64_t *second, uint64_t *third, uint64_t *fourth, uint8_t *log, size_t log_bytes, uint64_t *rows,
                       uint8_t *numbers, uint64_t *histories, uint64_t *answer, size_t slot, const uint8_t *line, size_t line_bytes);
uint64_t fm_trim_parts(const uint64_t *first, const uint64_t *second, const uint64_t *third, const uint64_t *fourth, const uint8_t *log,
                       size_t log_bytes, const uint64_t *rows, const uint8_t *numbers, const uint64_t *histories, size_t slot, uint64_t n,
                       uint8_t *fresh, size_t fresh_bytes, size_t *used);

/* Whether the library that was linked is the one that this header speaks of: 1 or 0. Ask once, first. */
static inline int fm_fits(void) {
    return fm_version() == FM_VERSION && fm_reply_bytes() == FM_REPLY_BYTES &&
           fm_state_bytes() == offsetof(fm_module, numbers) + FM_SLOTS * FM_LIVE && fm_answer_words() == FM_ANSWER_WORDS &&
           fm_number_words() == FM_NUMBER_WORDS;
}

/* The slot whose log and histories are lent: a call of a slot above 3 is lent those of slot 0, and leaves them as they are. */
static inline size_t fm_lent(size_t slot) { return slot < FM_SLOTS ? slot : 0; }

/* Begins a module in a state, whatever it holds, over a log buffer for each slot: no slot is opened. The buffers are not looked at. */
static inline void fm_start(fm_module *module, uint8_t *const logs[FM_SLOTS], const size_t log_bytes[FM_SLOTS]) {
    for (size_t i = 0; i < FM_SLOTS; i++) {
        module->logs[i] = logs[i];
        module->log_bytes[i] = log_bytes[i];
    }
    fm_start_parts(module->slots[0], module->slots[1], module->slots[2], module->slots[3], module->rows, module->numbers);
}

/*
 * Takes the site of a slot up again from the first `kept` bytes of a log, which stand at the front of a log buffer: that of the slot or
 * another, which is the slot's from then on. Whatever site the slot had is replaced.
 * FM_OK: the site is restoring, and the operations above its last stable line are live again. The slot is promised as many entries as it had
 * live, if more than 16: after the whole module lost its supply it had none, so that neighbours who add before all have ended their
 * restoring can take entries that lost lines need.
 * FM_ABOVE_LIMIT: `kept` is above log_bytes, or log_bytes above FM_LOG_BYTES. FM_OUT_OF_TURN: there is no such slot. FM_BAD_LOG: these bytes
 * are no site's log, or they leave more than FM_LIVE operations live, or two with one id. FM_TABLE_FULL: the entries that the others leave do
 * not cover those live operations.
 * No byte of the buffer changes. A refusal changes nothing: the slot keeps the site that it had, in the buffer that it had.
 */
static inline uint64_t fm_restart(fm_module *module, size_t slot, uint8_t *log, size_t log_bytes, size_t kept) {
    uint64_t code = fm_restart_parts(module->slots[0], module->slots[1], module->slots[2], module->slots[3], log, log_bytes, module->rows,
                                     module->numbers, module->histories[fm_lent(slot)], slot, kept);
    if (code == FM_OK) {
        module->logs[slot] = log;
        module->log_bytes[slot] = log_bytes;
    }
    return code;
}

/*
 * Obeys one line of a session for a slot, given without its end, and writes its reply, with its end, at the front of `reply`; `(site N)`
 * opens the slot. Returns the bytes of the reply; bytes behind them are as they were.
 * A number above reply_bytes says that nothing has happened, since the longest reply does not fit: it is the room needed, FM_REPLY_BYTES.
 * A reply `(refused N)` says that nothing has changed, neither the state nor a log.
 */
static inline size_t fm_line(fm_module *module, size_t slot, const uint8_t *line, size_t line_bytes, uint8_t *reply, size_t reply_bytes) {
    size_t i = fm_lent(slot);
    return fm_line_parts(module->slots[0], module->slots[1], module->slots[2], module->slots[3], module->logs[i], module->log_bytes[i],
                         module->rows, module->numbers, module->histories[i], slot, line, line_bytes, reply, reply_bytes);
}

/* How many bytes at the front of a slot's log buffer are its log: what the owner has to store. 0 without a site. */
static inline size_t fm_log_used(const fm_module *module, size_t slot) {
    size_t i = fm_lent(slot);
    return fm_log_used_parts(module->slots[0], module->slots[1], module->slots[2], module->slots[3], module->logs[i], module->log_bytes[i],
                             module->rows, module->numbers, module->histories[i], slot);
}

/* Polls a history of a slot: FM_DRY or FM_BUSY, FM_NO_SUCH_HISTORY, or FM_OUT_OF_TURN without a site. While restoring too. Nothing changes. */
static inline uint64_t fm_poll(const fm_module *module, size_t slot, uint64_t history) {
    size_t i = fm_lent(slot);
    return fm_poll_parts(module->slots[0], module->slots[1], module->slots[2], module->slots[3], module->logs[i], module->log_bytes[i],
                         module->rows, module->numbers, module->histories[i], slot, history);
}

/*
 * A session's calls of a slot without text. Each returns FM_OK and fills the reply, or the number of the refusal, and then neither the state nor
 * a log nor the reply has changed; FM_OUT_OF_TURN for a slot that is not opened, and for one above 3. A slot is opened by fm_line or by
 * fm_restart.
 */

/*
 * Adds an operation. FM_UNREADABLE: a rule's number is none. FM_HIGHEST_VERSION: an unk in a history at the highest version. FM_TABLE_FULL: the
 * slot has FM_LIVE, or the others' promises leave no entry.
 * The reply's first list: the ids that became ready.
 */
static inline uint64_t fm_add(fm_module *module, size_t slot, uint64_t id, const fm_update *updates, size_t count, fm_reply *reply) {
    size_t i = fm_lent(slot);
    uint64_t words[FM_UPDATES * 4] = {0};
    for (size_t k = 0; k < count && k < FM_UPDATES; k++) {
        words[4 * k] = updates[k].rule;
        words[4 * k + 1] = updates[k].history;
        words[4 * k + 2] = updates[k].version;
        words[4 * k + 3] = updates[k].operand;
    }
    return fm_add_parts(module->slots[0], module->slots[1], module->slots[2], module->slots[3], module->logs[i], module->log_bytes[i],
                        module->rows, module->numbers, module->histories[i], reply->numbers, reply->answer, slot, id, words, count);
}

/*
 * Finishes an operation that is in progress: FM_LOG_NUMBER. First list: the values after it. Second list: first the ids of the future
 * operations that it overtook and dropped, oldest first, as many as answer[FM_OVERTAKEN] says; behind them the ids that became ready.
 */
static inline uint64_t fm_finish(fm_module *module, size_t slot, uint64_t id, fm_reply *reply) {
    size_t i = fm_lent(slot);
    return fm_finish_parts(module->slots[0], module->slots[1], module->slots[2], module->slots[3], module->logs[i], module->log_bytes[i],
                           module->rows, module->numbers, module->histories[i], reply->numbers, reply->answer, slot, id);
}

/* Withdraws a future operation: first list: the histories that became dry. */
static inline uint64_t fm_withdraw(fm_module *module, size_t slot, uint64_t id, fm_reply *reply) {
    size_t i = fm_lent(slot);
    return fm_withdraw_parts(module->slots[0], module->slots[1], module->slots[2], module->slots[3], module->logs[i], module->log_bytes[i],
                             module->rows, module->numbers, module->histories[i], reply->numbers, reply->answer, slot, id);
}

/*
 * Makes log numbers up to n persistent: first list: the histories whose persistent version rose, second: those that became dry.
 * It also says that the stable lines before did line n are stored, and, where n is all that is done, every stable line: the operations up
 * to the last of them leave the table, and their entries are free for all slots.
 */
static inline uint64_t fm_persistent(fm_module *module, size_t slot, uint64_t n, fm_reply *reply) {
    size_t i = fm_lent(slot);
    return fm_persistent_parts(module->slots[0], module->slots[1], module->slots[2], module->slots[3], module->logs[i], module->log_bytes[i],
                               module->rows, module->numbers, module->histories[i], reply->numbers, reply->answer, slot, n);
}

/*
 * Makes log numbers up to n stable: first list: the histories whose stable version rose. Where n is above what is stable it adds a line
 * `(stable N)` to the log, which is to be stored as a did line is; else it is accepted and changes nothing. FM_OUT_OF_TURN while restoring,
 * FM_NO_ROOM where the line does not fit, FM_ABOVE_LIMIT above what is persistent.
 */
static inline uint64_t fm_stable(fm_module *module, size_t slot, uint64_t n, fm_reply *reply) {
    size_t i = fm_lent(slot);
    return fm_stable_parts(module->slots[0], module->slots[1], module->slots[2], module->slots[3], module->logs[i], module->log_bytes[i],
                           module->rows, module->numbers, module->histories[i], reply->numbers, reply->answer, slot, n);
}

/*
 * Ends restoring: first list: the ids of the lines that still waited, and are dropped. From then on the slot is promised FM_PROMISE again.
 */
static inline uint64_t fm_end(fm_module *module, size_t slot, fm_reply *reply) {
    size_t i = fm_lent(slot);
    return fm_end_parts(module->slots[0], module->slots[1], module->slots[2], module->slots[3], module->logs[i], module->log_bytes[i],
                        module->rows, module->numbers, module->histories[i], reply->numbers, reply->answer, slot);
}

/* Shows a history: FM_HISTORY to FM_PROFILE. */
static inline uint64_t fm_show(fm_module *module, size_t slot, uint64_t history, fm_reply *reply) {
    size_t i = fm_lent(slot);
    return fm_show_parts(module->slots[0], module->slots[1], module->slots[2], module->slots[3], module->logs[i], module->log_bytes[i],
                         module->rows, module->numbers, module->histories[i], reply->answer, slot, history);
}

/*
 * A supply cut of the slot that leaves the first `kept` bytes of its log, and a restart from them: FM_LINES and FM_USED. FM_BAD_LOG also for a
 * cut inside the site line or the base line. FM_TABLE_FULL as with fm_restart. The slot is promised as many entries as it had live, if more
 * than FM_PROMISE, until fm_end.
 */
static inline uint64_t fm_cut(fm_module *module, size_t slot, uint64_t kept, fm_reply *reply) {
    size_t i = fm_lent(slot);
    return fm_cut_parts(module->slots[0], module->slots[1], module->slots[2], module->slots[3], module->logs[i], module->log_bytes[i],
                        module->rows, module->numbers, module->histories[i], reply->answer, slot, kept);
}

/* Takes back a did line, given without its end: FM_RAN and FM_EXAMINED. FM_TABLE_FULL as with fm_add. */
static inline uint64_t fm_redo(fm_module *module, size_t slot, const uint8_t *line, size_t line_bytes, fm_reply *reply) {
    size_t i = fm_lent(slot);
    return fm_redo_parts(module->slots[0], module->slots[1], module->slots[2], module->slots[3], module->logs[i], module->log_bytes[i],
                         module->rows, module->numbers, module->histories[i], reply->answer, slot, line, line_bytes);
}

/*
 * Copies a slot's log into a fresh buffer, with a base line in place of its first n operations: FM_OK, and `*used` is how many bytes at its front
 * are the copy. Bytes behind them are as they were; so are the state, the log and, after a refusal, the fresh buffer and `*used`. While
 * restoring too.
 * FM_ABOVE_LIMIT: n is above the stable mark, above 2^63 or below the log's own base, or fresh_bytes is above FM_LOG_BYTES. Only after
 * these FM_NO_ROOM: the copy does not fit; FM_LOG_BYTES are the most that can be lent. FM_OUT_OF_TURN without a site.
 * The changeover is fm_restart of the slot from all bytes of the copy, in its buffer, once they are stored; from then on the old log is not
 * needed.
 */
static inline uint64_t fm_trim(const fm_module *module, size_t slot, uint64_t n, uint8_t *fresh, size_t fresh_bytes, size_t *used) {
    size_t i = fm_lent(slot);
    return fm_trim_parts(module->slots[0], module->slots[1], module->slots[2], module->slots[3], module->logs[i], module->log_bytes[i],
                         module->rows, module->numbers, module->histories[i], slot, n, fresh, fresh_bytes, used);
}

/* The lists of a reply: fm_first has answer[FM_FIRST_COUNT] numbers, fm_second has answer[FM_SECOND_COUNT]. */
static inline const uint64_t *fm_first(const fm_reply *reply) { return reply->numbers; }

static inline const uint64_t *fm_second(const fm_reply *reply) { return reply->numbers + reply->answer[FM_FIRST_COUNT]; }

#ifdef __cplusplus
}
#endif

#endif
