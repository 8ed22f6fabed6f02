//! The proved library for a compact module, linked as a static library, behind safe functions: by
//! lines, and on numbers.

use crate::forms::{Command, Operation};
use crate::program::Outcome;
use crate::reader;
use crate::rules::Rules;
use crate::slots::Slots;

const SLOTS: usize = 4;

/// The room that a line asks for its reply.
pub const REPLY_BYTES: usize = 2741;

/// The library's functions. A slice passes as its address and its length, an array as its address.
mod linked {
    extern "C" {
        pub fn fm_start_parts(
            first: *mut u64,
            second: *mut u64,
            third: *mut u64,
            fourth: *mut u64,
            rows: *const u64,
            numbers: *mut u8,
        );

        pub fn fm_restart_parts(
            first: *mut u64,
            second: *mut u64,
            third: *mut u64,
            fourth: *mut u64,
            log: *const u8,
            log_length: usize,
            rows: *mut u64,
            numbers: *mut u8,
            histories: *mut u64,
            slot: usize,
            kept: usize,
        ) -> u64;

        pub fn fm_line_parts(
            first: *mut u64,
            second: *mut u64,
            third: *mut u64,
            fourth: *mut u64,
            log: *mut u8,
            log_length: usize,
            rows: *mut u64,
            numbers: *mut u8,
            histories: *mut u64,
            slot: usize,
            line: *const u8,
            line_length: usize,
            out: *mut u8,
            out_length: usize,
        ) -> usize;

        pub fn fm_log_used_parts(
            first: *const u64,
            second: *const u64,
            third: *const u64,
            fourth: *const u64,
            log: *const u8,
            log_length: usize,
            rows: *const u64,
            numbers: *const u8,
            histories: *const u64,
            slot: usize,
        ) -> usize;

        pub fn fm_poll_parts(
            first: *const u64,
            second: *const u64,
            third: *const u64,
            fourth: *const u64,
            log: *const u8,
            log_length: usize,
            rows: *const u64,
            numbers: *const u8,
            histories: *const u64,
            slot: usize,
            history: u64,
        ) -> u64;

        pub fn fm_add_parts(
            first: *mut u64,
            second: *mut u64,
            third: *mut u64,
            fourth: *mut u64,
            log: *const u8,
            log_length: usize,
            rows: *mut u64,
            numbers: *mut u8,
            histories: *mut u64,
            lists: *mut u64,
            answer: *mut u64,
            slot: usize,
            id: u64,
            updates: *const u64,
            count: usize,
        ) -> u64;

        pub fn fm_finish_parts(
            first: *mut u64,
            second: *mut u64,
            third: *mut u64,
            fourth: *mut u64,
            log: *mut u8,
            log_length: usize,
            rows: *mut u64,
            numbers: *mut u8,
            histories: *mut u64,
            lists: *mut u64,
            answer: *mut u64,
            slot: usize,
            id: u64,
        ) -> u64;

        pub fn fm_withdraw_parts(
            first: *mut u64,
            second: *mut u64,
            third: *mut u64,
            fourth: *mut u64,
            log: *const u8,
            log_length: usize,
            rows: *const u64,
            numbers: *mut u8,
            histories: *mut u64,
            lists: *mut u64,
            answer: *mut u64,
            slot: usize,
            id: u64,
        ) -> u64;

        pub fn fm_persistent_parts(
            first: *mut u64,
            second: *mut u64,
            third: *mut u64,
            fourth: *mut u64,
            log: *const u8,
            log_length: usize,
            rows: *const u64,
            numbers: *mut u8,
            histories: *mut u64,
            lists: *mut u64,
            answer: *mut u64,
            slot: usize,
            n: u64,
        ) -> u64;

        pub fn fm_stable_parts(
            first: *mut u64,
            second: *mut u64,
            third: *mut u64,
            fourth: *mut u64,
            log: *mut u8,
            log_length: usize,
            rows: *const u64,
            numbers: *const u8,
            histories: *mut u64,
            lists: *mut u64,
            answer: *mut u64,
            slot: usize,
            n: u64,
        ) -> u64;

        pub fn fm_end_parts(
            first: *mut u64,
            second: *mut u64,
            third: *mut u64,
            fourth: *mut u64,
            log: *const u8,
            log_length: usize,
            rows: *const u64,
            numbers: *const u8,
            histories: *const u64,
            lists: *mut u64,
            answer: *mut u64,
            slot: usize,
        ) -> u64;

        pub fn fm_show_parts(
            first: *mut u64,
            second: *mut u64,
            third: *mut u64,
            fourth: *mut u64,
            log: *const u8,
            log_length: usize,
            rows: *const u64,
            numbers: *const u8,
            histories: *const u64,
            answer: *mut u64,
            slot: usize,
            history: u64,
        ) -> u64;

        pub fn fm_cut_parts(
            first: *mut u64,
            second: *mut u64,
            third: *mut u64,
            fourth: *mut u64,
            log: *const u8,
            log_length: usize,
            rows: *mut u64,
            numbers: *mut u8,
            histories: *mut u64,
            answer: *mut u64,
            slot: usize,
            kept: u64,
        ) -> u64;

        pub fn fm_redo_parts(
            first: *mut u64,
            second: *mut u64,
            third: *mut u64,
            fourth: *mut u64,
            log: *mut u8,
            log_length: usize,
            rows: *mut u64,
            numbers: *mut u8,
            histories: *mut u64,
            answer: *mut u64,
            slot: usize,
            line: *const u8,
            line_length: usize,
        ) -> u64;

        pub fn fm_trim_parts(
            first: *const u64,
            second: *const u64,
            third: *const u64,
            fourth: *const u64,
            log: *const u8,
            log_length: usize,
            rows: *const u64,
            numbers: *const u8,
            histories: *const u64,
            slot: usize,
            n: u64,
            fresh: *mut u8,
            fresh_length: usize,
            used: *mut usize,
        ) -> u64;
    }
}

/// The reply to a call on numbers.
#[derive(Clone, Debug, PartialEq, Eq)]
pub struct Numbers {
    /// How many numbers its lists have, and its single numbers.
    pub answer: [u64; 8],
    /// Its lists, the second behind the first.
    pub lists: [u64; 68],
}

impl Numbers {
    /// Room for a reply, which held anything.
    pub fn new() -> Numbers {
        Numbers { answer: [u64::MAX; 8], lists: [u64::MAX; 68] }
    }

    fn first(&self) -> &[u64] {
        &self.lists[..self.answer[0] as usize]
    }

    fn second(&self) -> &[u64] {
        &self.lists[self.answer[0] as usize..][..self.answer[1] as usize]
    }

    /// The numbers behind the lists.
    pub fn past(&self) -> &[u64] {
        &self.lists[self.first().len() + self.second().len()..]
    }

    /// The reply as a session prints it, with its end, to an accepted call.
    fn text(&self, command: &Command) -> Vec<u8> {
        let (first, second) = (self.first(), self.second());
        let single = |count: usize| joined(&self.answer[2..2 + count]);
        let text = match command {
            Command::Site(_) => "(ok".to_string(),
            Command::Add(_) => format!("(ok {}", list("ready", first)),
            Command::Finish(_) => {
                let (overtaken, ready) = second.split_at(self.answer[3] as usize);
                let lists = [("values", first), ("ready", ready), ("overtaken", overtaken)];
                let lists: String = lists.iter().map(|(word, l)| list(word, l)).collect();
                format!("(ok{} {lists}", single(1))
            }
            Command::Withdraw(_) => format!("(ok {}", list("dry", first)),
            Command::Persistent(_) => {
                format!("(ok {}{}", list("histories", first), list("dry", second))
            }
            Command::Stable(_) => format!("(ok {}", list("histories", first)),
            Command::Show(_) => format!("(history{}", single(6)),
            Command::Cut(_) | Command::Redo(_) => format!("(ok{}", single(2)),
            Command::End => format!("(ok {}", list("waiting", first)),
        };
        (text + ")\n").into_bytes()
    }
}

impl Default for Numbers {
    fn default() -> Numbers {
        Numbers::new()
    }
}

/// Numbers, each behind a space.
fn joined(numbers: &[u64]) -> String {
    numbers.iter().map(|number| format!(" {number}")).collect()
}

fn list(word: &str, numbers: &[u64]) -> String {
    format!("({word}{})", joined(numbers))
}

/// The updates of an operation in numbers, four for each of the first four.
fn words_of(operation: &Operation) -> [u64; 16] {
    let mut words = [0; 16];
    for (four, update) in words.chunks_exact_mut(4).zip(operation.updates.iter()) {
        let numbers = [update.rule as u64, update.history, update.version, update.operand];
        four.copy_from_slice(&numbers);
    }
    words
}

/// A module of the library: what is lent to each of its calls, beside a log.
#[derive(Clone, Debug, PartialEq, Eq)]
pub struct LinkedModule {
    slots: [[u64; 15]; SLOTS],
    rows: Vec<u64>,
    numbers: [u8; 256],
    histories: [[u64; 96]; SLOTS],
}

// Each call lends the library memory that is valid, of the length that it asks for, and, where it
// writes, borrowed by nobody else until it returns. It keeps none of it. Nobody but these calls
// changes the module, and the log that is lent is the slot's.
impl LinkedModule {
    /// A new module, in memory that held anything.
    pub fn new() -> LinkedModule {
        let mut module = LinkedModule {
            slots: [[u64::MAX; 15]; SLOTS],
            rows: vec![u64::MAX; 128 * 24],
            numbers: [u8::MAX; 256],
            histories: [[u64::MAX; 96]; SLOTS],
        };
        let [first, second, third, fourth] = &mut module.slots;
        // SAFETY: see above.
        unsafe {
            linked::fm_start_parts(
                first.as_mut_ptr(),
                second.as_mut_ptr(),
                third.as_mut_ptr(),
                fourth.as_mut_ptr(),
                module.rows.as_ptr(),
                module.numbers.as_mut_ptr(),
            );
        }
        module
    }

    /// Obeys a line for a slot; the reply comes to the front of `out`, or more bytes than it has are
    /// asked for.
    pub fn line_into(&mut self, slot: usize, line: &[u8], log: &mut [u8], out: &mut [u8]) -> usize {
        let [first, second, third, fourth] = &mut self.slots;
        // SAFETY: see above.
        unsafe {
            linked::fm_line_parts(
                first.as_mut_ptr(),
                second.as_mut_ptr(),
                third.as_mut_ptr(),
                fourth.as_mut_ptr(),
                log.as_mut_ptr(),
                log.len(),
                self.rows.as_mut_ptr(),
                self.numbers.as_mut_ptr(),
                self.histories[slot.min(SLOTS - 1)].as_mut_ptr(),
                slot,
                line.as_ptr(),
                line.len(),
                out.as_mut_ptr(),
                out.len(),
            )
        }
    }

    /// Makes the call of a line on numbers: 0, or the refusal's number. `line` is what was read as
    /// the command: of a redo the did line is taken from it. A slot is opened by its line alone.
    pub fn numbers_into(
        &mut self,
        slot: usize,
        line: &[u8],
        command: &Command,
        log: &mut [u8],
        reply: &mut Numbers,
    ) -> Option<u64> {
        let [first, second, third, fourth] = &mut self.slots;
        let histories = &mut self.histories[slot.min(SLOTS - 1)];
        // SAFETY: see above; `(redo ` and `)` stand around the bytes of a redo.
        Some(unsafe {
            match command {
                Command::Site(_) => return None,
                Command::Add(operation) => linked::fm_add_parts(
                    first.as_mut_ptr(),
                    second.as_mut_ptr(),
                    third.as_mut_ptr(),
                    fourth.as_mut_ptr(),
                    log.as_ptr(),
                    log.len(),
                    self.rows.as_mut_ptr(),
                    self.numbers.as_mut_ptr(),
                    histories.as_mut_ptr(),
                    reply.lists.as_mut_ptr(),
                    reply.answer.as_mut_ptr(),
                    slot,
                    operation.id,
                    words_of(operation).as_ptr(),
                    operation.updates.said(),
                ),
                Command::Finish(id) => linked::fm_finish_parts(
                    first.as_mut_ptr(),
                    second.as_mut_ptr(),
                    third.as_mut_ptr(),
                    fourth.as_mut_ptr(),
                    log.as_mut_ptr(),
                    log.len(),
                    self.rows.as_mut_ptr(),
                    self.numbers.as_mut_ptr(),
                    histories.as_mut_ptr(),
                    reply.lists.as_mut_ptr(),
                    reply.answer.as_mut_ptr(),
                    slot,
                    *id,
                ),
                Command::Withdraw(id) => linked::fm_withdraw_parts(
                    first.as_mut_ptr(),
                    second.as_mut_ptr(),
                    third.as_mut_ptr(),
                    fourth.as_mut_ptr(),
                    log.as_ptr(),
                    log.len(),
                    self.rows.as_ptr(),
                    self.numbers.as_mut_ptr(),
                    histories.as_mut_ptr(),
                    reply.lists.as_mut_ptr(),
                    reply.answer.as_mut_ptr(),
                    slot,
                    *id,
                ),
                Command::Persistent(n) => linked::fm_persistent_parts(
                    first.as_mut_ptr(),
                    second.as_mut_ptr(),
                    third.as_mut_ptr(),
                    fourth.as_mut_ptr(),
                    log.as_ptr(),
                    log.len(),
                    self.rows.as_ptr(),
                    self.numbers.as_mut_ptr(),
                    histories.as_mut_ptr(),
                    reply.lists.as_mut_ptr(),
                    reply.answer.as_mut_ptr(),
                    slot,
                    *n,
                ),
                Command::Stable(n) => linked::fm_stable_parts(
                    first.as_mut_ptr(),
                    second.as_mut_ptr(),
                    third.as_mut_ptr(),
                    fourth.as_mut_ptr(),
                    log.as_mut_ptr(),
                    log.len(),
                    self.rows.as_ptr(),
                    self.numbers.as_ptr(),
                    histories.as_mut_ptr(),
                    reply.lists.as_mut_ptr(),
                    reply.answer.as_mut_ptr(),
                    slot,
                    *n,
                ),
                Command::End => linked::fm_end_parts(
                    first.as_mut_ptr(),
                    second.as_mut_ptr(),
                    third.as_mut_ptr(),
                    fourth.as_mut_ptr(),
                    log.as_ptr(),
                    log.len(),
                    self.rows.as_ptr(),
                    self.numbers.as_ptr(),
                    histories.as_ptr(),
                    reply.lists.as_mut_ptr(),
                    reply.answer.as_mut_ptr(),
                    slot,
                ),
                Command::Show(history) => linked::fm_show_parts(
                    first.as_mut_ptr(),
                    second.as_mut_ptr(),
                    third.as_mut_ptr(),
                    fourth.as_mut_ptr(),
                    log.as_ptr(),
                    log.len(),
                    self.rows.as_ptr(),
                    self.numbers.as_ptr(),
                    histories.as_ptr(),
                    reply.answer.as_mut_ptr(),
                    slot,
                    *history,
                ),
                Command::Cut(kept) => linked::fm_cut_parts(
                    first.as_mut_ptr(),
                    second.as_mut_ptr(),
                    third.as_mut_ptr(),
                    fourth.as_mut_ptr(),
                    log.as_ptr(),
                    log.len(),
                    self.rows.as_mut_ptr(),
                    self.numbers.as_mut_ptr(),
                    histories.as_mut_ptr(),
                    reply.answer.as_mut_ptr(),
                    slot,
                    *kept,
                ),
                Command::Redo(_) => linked::fm_redo_parts(
                    first.as_mut_ptr(),
                    second.as_mut_ptr(),
                    third.as_mut_ptr(),
                    fourth.as_mut_ptr(),
                    log.as_mut_ptr(),
                    log.len(),
                    self.rows.as_mut_ptr(),
                    self.numbers.as_mut_ptr(),
                    histories.as_mut_ptr(),
                    reply.answer.as_mut_ptr(),
                    slot,
                    line.as_ptr().add(6),
                    line.len() - 7,
                ),
            }
        })
    }
}

impl Default for LinkedModule {
    fn default() -> LinkedModule {
        LinkedModule::new()
    }
}

impl Slots for LinkedModule {
    fn line(&mut self, slot: usize, line: &[u8], log: &mut [u8]) -> Vec<u8> {
        let mut out = vec![0; REPLY_BYTES];
        let length = self.line_into(slot, line, log, &mut out);
        out.truncate(length);
        out
    }

    fn restart(&mut self, slot: usize, log: &[u8], kept: usize) -> u64 {
        let [first, second, third, fourth] = &mut self.slots;
        // SAFETY: see above.
        unsafe {
            linked::fm_restart_parts(
                first.as_mut_ptr(),
                second.as_mut_ptr(),
                third.as_mut_ptr(),
                fourth.as_mut_ptr(),
                log.as_ptr(),
                log.len(),
                self.rows.as_mut_ptr(),
                self.numbers.as_mut_ptr(),
                self.histories[slot.min(SLOTS - 1)].as_mut_ptr(),
                slot,
                kept,
            )
        }
    }

    fn used(&self, slot: usize, log: &[u8]) -> usize {
        let [first, second, third, fourth] = &self.slots;
        // SAFETY: see above.
        unsafe {
            linked::fm_log_used_parts(
                first.as_ptr(),
                second.as_ptr(),
                third.as_ptr(),
                fourth.as_ptr(),
                log.as_ptr(),
                log.len(),
                self.rows.as_ptr(),
                self.numbers.as_ptr(),
                self.histories[slot.min(SLOTS - 1)].as_ptr(),
                slot,
            )
        }
    }

    fn poll(&self, slot: usize, log: &[u8], history: u64) -> u64 {
        let [first, second, third, fourth] = &self.slots;
        // SAFETY: see above.
        unsafe {
            linked::fm_poll_parts(
                first.as_ptr(),
                second.as_ptr(),
                third.as_ptr(),
                fourth.as_ptr(),
                log.as_ptr(),
                log.len(),
                self.rows.as_ptr(),
                self.numbers.as_ptr(),
                self.histories[slot.min(SLOTS - 1)].as_ptr(),
                slot,
                history,
            )
        }
    }

    fn trim(&self, slot: usize, log: &[u8], n: u64, fresh: &mut [u8]) -> Outcome {
        let [first, second, third, fourth] = &self.slots;
        let mut used = usize::MAX;
        // SAFETY: see above.
        let number = unsafe {
            linked::fm_trim_parts(
                first.as_ptr(),
                second.as_ptr(),
                third.as_ptr(),
                fourth.as_ptr(),
                log.as_ptr(),
                log.len(),
                self.rows.as_ptr(),
                self.numbers.as_ptr(),
                self.histories[slot.min(SLOTS - 1)].as_ptr(),
                slot,
                n,
                fresh.as_mut_ptr(),
                fresh.len(),
                &mut used,
            )
        };
        assert!(number == 0 || used == usize::MAX, "a refused trim says how many bytes it used");
        if number == 0 {
            Ok(used)
        } else {
            Err(number)
        }
    }
}

/// The same module, asked on numbers wherever there is such a call, with its replies printed here.
#[derive(Clone, Debug, Default, PartialEq, Eq)]
pub struct OnNumbers {
    pub module: LinkedModule,
}

impl Slots for OnNumbers {
    fn line(&mut self, slot: usize, line: &[u8], log: &mut [u8]) -> Vec<u8> {
        let Some(command) = reader::command(line, Rules::PAPER) else {
            return self.module.line(slot, line, log);
        };
        let mut reply = Numbers::new();
        match self.module.numbers_into(slot, line, &command, log, &mut reply) {
            None => self.module.line(slot, line, log),
            Some(0) => {
                assert!(reply.past().iter().all(|&number| number == u64::MAX), "past the lists");
                reply.text(&command)
            }
            Some(number) => {
                assert_eq!(reply, Numbers::new(), "a refused call changes the reply");
                format!("(refused {number})\n").into_bytes()
            }
        }
    }

    fn restart(&mut self, slot: usize, log: &[u8], kept: usize) -> u64 {
        self.module.restart(slot, log, kept)
    }

    fn used(&self, slot: usize, log: &[u8]) -> usize {
        self.module.used(slot, log)
    }

    fn poll(&self, slot: usize, log: &[u8], history: u64) -> u64 {
        self.module.poll(slot, log, history)
    }

    fn trim(&self, slot: usize, log: &[u8], n: u64, fresh: &mut [u8]) -> Outcome {
        self.module.trim(slot, log, n, fresh)
    }
}
