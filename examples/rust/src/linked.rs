//! The library's functions. A slice passes as its address and its length, an array as its address.

use super::card::COUNTS;
use super::keeper::PLACES;
use super::records::WORDS;
use super::{ANSWER, COUNTERS, HISTORIES, NUMBERS, ORDER, ROWS, UPDATES};

extern "C" {
    pub fn fl_version() -> u64;
    pub fn fl_state_bytes() -> usize;
    pub fn fl_reply_bytes() -> usize;
    pub fn fl_answer_words() -> usize;
    pub fn fl_number_words() -> usize;

    pub fn fl_start_parts(
        counters: &mut [u64; COUNTERS],
        log: *mut u8,
        log_bytes: usize,
        rows: &[u64; ROWS],
        order: &mut [u8; ORDER],
        histories: &mut [u64; HISTORIES],
        count: u64,
    ) -> u64;

    pub fn fl_restart_parts(
        counters: &mut [u64; COUNTERS],
        log: *const u8,
        log_bytes: usize,
        rows: &mut [u64; ROWS],
        order: &mut [u8; ORDER],
        histories: &mut [u64; HISTORIES],
        kept: usize,
    ) -> u64;

    pub fn fl_line_parts(
        counters: &mut [u64; COUNTERS],
        log: *mut u8,
        log_bytes: usize,
        rows: &mut [u64; ROWS],
        order: &mut [u8; ORDER],
        histories: &mut [u64; HISTORIES],
        line: *const u8,
        line_bytes: usize,
        reply: *mut u8,
        reply_bytes: usize,
    ) -> usize;

    pub fn fl_log_used_parts(
        counters: &[u64; COUNTERS],
        log: *const u8,
        log_bytes: usize,
        rows: &[u64; ROWS],
        order: &[u8; ORDER],
        histories: &[u64; HISTORIES],
    ) -> usize;

    pub fn fl_add_parts(
        counters: &mut [u64; COUNTERS],
        log: *const u8,
        log_bytes: usize,
        rows: &mut [u64; ROWS],
        order: &[u8; ORDER],
        histories: &mut [u64; HISTORIES],
        numbers: &mut [u64; NUMBERS],
        answer: &mut [u64; ANSWER],
        id: u64,
        updates: &[u64; UPDATES * 4],
        count: usize,
    ) -> u64;

    pub fn fl_finish_parts(
        counters: &mut [u64; COUNTERS],
        log: *mut u8,
        log_bytes: usize,
        rows: &mut [u64; ROWS],
        order: &mut [u8; ORDER],
        histories: &mut [u64; HISTORIES],
        numbers: &mut [u64; NUMBERS],
        answer: &mut [u64; ANSWER],
        id: u64,
    ) -> u64;

    pub fn fl_withdraw_parts(
        counters: &mut [u64; COUNTERS],
        log: *const u8,
        log_bytes: usize,
        rows: &[u64; ROWS],
        order: &mut [u8; ORDER],
        histories: &mut [u64; HISTORIES],
        numbers: &mut [u64; NUMBERS],
        answer: &mut [u64; ANSWER],
        id: u64,
    ) -> u64;

    pub fn fl_persistent_parts(
        counters: &mut [u64; COUNTERS],
        log: *const u8,
        log_bytes: usize,
        rows: &[u64; ROWS],
        order: &mut [u8; ORDER],
        histories: &mut [u64; HISTORIES],
        numbers: &mut [u64; NUMBERS],
        answer: &mut [u64; ANSWER],
        n: u64,
    ) -> u64;

    pub fn fl_stable_parts(
        counters: &mut [u64; COUNTERS],
        log: *mut u8,
        log_bytes: usize,
        rows: &[u64; ROWS],
        order: &[u8; ORDER],
        histories: &mut [u64; HISTORIES],
        numbers: &mut [u64; NUMBERS],
        answer: &mut [u64; ANSWER],
        n: u64,
    ) -> u64;

    pub fn fl_end_parts(
        counters: &mut [u64; COUNTERS],
        log: *const u8,
        log_bytes: usize,
        rows: &[u64; ROWS],
        order: &[u8; ORDER],
        histories: &[u64; HISTORIES],
        numbers: &mut [u64; NUMBERS],
        answer: &mut [u64; ANSWER],
    ) -> u64;

    pub fn fl_show_parts(
        counters: &mut [u64; COUNTERS],
        log: *const u8,
        log_bytes: usize,
        rows: &[u64; ROWS],
        order: &[u8; ORDER],
        histories: &[u64; HISTORIES],
        answer: &mut [u64; ANSWER],
        history: u64,
    ) -> u64;

    pub fn fl_cut_parts(
        counters: &mut [u64; COUNTERS],
        log: *const u8,
        log_bytes: usize,
        rows: &mut [u64; ROWS],
        order: &[u8; ORDER],
        histories: &mut [u64; HISTORIES],
        answer: &mut [u64; ANSWER],
        kept: u64,
    ) -> u64;

    pub fn fl_redo_parts(
        counters: &mut [u64; COUNTERS],
        log: *mut u8,
        log_bytes: usize,
        rows: &mut [u64; ROWS],
        order: &mut [u8; ORDER],
        histories: &mut [u64; HISTORIES],
        answer: &mut [u64; ANSWER],
        line: *const u8,
        line_bytes: usize,
    ) -> u64;

    pub fn fl_poll_parts(
        counters: &[u64; COUNTERS],
        log: *const u8,
        log_bytes: usize,
        rows: &[u64; ROWS],
        order: &[u8; ORDER],
        histories: &[u64; HISTORIES],
        history: u64,
    ) -> u64;

    pub fn fl_trim_parts(
        counters: &[u64; COUNTERS],
        log: *const u8,
        log_bytes: usize,
        rows: &[u64; ROWS],
        order: &[u8; ORDER],
        histories: &[u64; HISTORIES],
        n: u64,
        fresh: *mut u8,
        fresh_bytes: usize,
        used: &mut usize,
    ) -> u64;

    pub fn fl_find_cut_parts(
        counters: &[u64; COUNTERS],
        log: *const u8,
        log_bytes: usize,
        rows: &[u64; ROWS],
        order: &[u8; ORDER],
        histories: &[u64; HISTORIES],
        places: *const u64,
        count: usize,
        kept: &mut usize,
    ) -> u64;

    pub fn fl_upgrade(log: *mut u8, log_bytes: usize, kept: usize, used: &mut usize) -> u64;

    pub fn fl_card_words() -> usize;

    pub fn fl_card_parts(
        counters: &[u64; COUNTERS],
        log: *const u8,
        log_bytes: usize,
        rows: &[u64; ROWS],
        order: &[u8; ORDER],
        histories: &[u64; HISTORIES],
        window: u64,
        counts: &mut [u64; COUNTS],
        lines: &mut usize,
    ) -> u64;

    pub fn fl_station_version() -> u64;
    pub fn fl_record_words() -> usize;
    pub fn fl_place_words() -> usize;
    pub fn fl_log_lines() -> usize;

    pub fn fl_keeper_start_parts(used: &mut usize, lines: *const u8, lines_bytes: usize);

    pub fn fl_keeper_resume_parts(
        used: &mut usize,
        lines: *const u8,
        lines_bytes: usize,
        kept: usize,
    ) -> u64;

    pub fn fl_keeper_keep_parts(
        used: &mut usize,
        lines: *mut u8,
        lines_bytes: usize,
        line: *const u8,
        line_bytes: usize,
    ) -> u64;

    pub fn fl_keeper_drop_parts(
        used: &mut usize,
        lines: *mut u8,
        lines_bytes: usize,
        history: u64,
        place: u64,
    ) -> u64;

    pub fn fl_keeper_hand_out_parts(
        used: &usize,
        lines: *const u8,
        lines_bytes: usize,
        places: &[u64; PLACES],
        out: *mut u8,
        out_bytes: usize,
        handed: &mut usize,
    ) -> u64;

    pub fn fl_records_start_parts(count: &mut usize, words: &[u64; WORDS]);

    pub fn fl_records_resume_parts(count: &mut usize, words: &[u64; WORDS], kept: usize) -> u64;

    pub fn fl_records_record_parts(
        count: &mut usize,
        words: &mut [u64; WORDS],
        id: u64,
        sent: u8,
        full: u8,
        threshold: u64,
    ) -> u64;

    pub fn fl_records_report_parts(
        count: &mut usize,
        words: &mut [u64; WORDS],
        id: u64,
        site: u64,
    ) -> u64;

    pub fn fl_records_question_parts(count: &usize, words: &[u64; WORDS], id: u64) -> u64;

    pub fn fl_records_forget_parts(count: &mut usize, words: &mut [u64; WORDS], id: u64) -> u64;

    pub fn fl_removals(
        log: *const u8,
        log_bytes: usize,
        pairs: *const u64,
        pair_numbers: usize,
        lost: *const u64,
        lost_numbers: usize,
        out: *mut u64,
        room: usize,
        count: &mut usize,
    ) -> u64;
}
