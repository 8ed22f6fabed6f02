//! The library for controllers and stations behind safe types: a [`Site`] can only be had from [`Site::start`] or [`Site::restart`], and its
//! words and the log that was lent to it can only be changed by its calls. That is what these ask for. So it is with a [`Keeper`] and its
//! lines, and with [`Records`].

mod calls;
mod card;
mod keeper;
mod linked;
mod records;
mod removals;

pub use card::Card;
pub use keeper::Keeper;
pub use records::Records;
pub use removals::{removals, LOG_LINES};

/// The greatest log buffer.
pub const LOG_BYTES: usize = 65_536;
/// The longest reply.
pub const REPLY_BYTES: usize = 2_741;
const VERSION: u64 = 4;
const COUNTERS: usize = 13;
const ROWS: usize = 64 * 24;
const HISTORIES: usize = 16 * 6;
const ORDER: usize = 64;
const ANSWER: usize = 8;
const NUMBERS: usize = 68;
const UPDATES: usize = 4;

/// The number of a refusal.
#[derive(Clone, Copy, Debug, PartialEq, Eq)]
pub struct Refusal(pub u64);

/// The rule of an update.
#[derive(Clone, Copy, Debug, PartialEq, Eq)]
pub enum Rule {
    /// the next version
    Inc = 0,
    /// any later version
    Set = 1,
    /// a read of a version
    Not = 2,
    /// whatever version is next
    Unk = 3,
}

/// An update of an operation.
#[derive(Clone, Copy, Debug, PartialEq, Eq)]
pub struct Update {
    /// its rule
    pub rule: Rule,
    /// the history that it is in
    pub history: u64,
    /// the version that it asks for
    pub version: u64,
    /// its operand
    pub operand: u64,
}

/// The reply to a call on numbers.
#[derive(Clone, Debug)]
pub struct Reply {
    answer: [u64; ANSWER],
    numbers: [u64; NUMBERS],
}

impl Reply {
    /// Its single numbers, in their printed order, and 0 behind them; behind the log number of a finish, how many ids of its second list,
    /// the first ones, were overtaken: the others are ready.
    pub fn single(&self) -> &[u64] {
        &self.answer[2..]
    }

    /// Its first list.
    pub fn first(&self) -> &[u64] {
        &self.numbers[..self.answer[0] as usize]
    }

    /// Its second list.
    pub fn second(&self) -> &[u64] {
        &self.numbers[self.answer[0] as usize..][..self.answer[1] as usize]
    }
}

/// A site over a log buffer that is lent to it.
pub struct Site<'log> {
    counters: [u64; COUNTERS],
    rows: [u64; ROWS],
    histories: [u64; HISTORIES],
    order: [u8; ORDER],
    log: &'log mut [u8],
}

// Each call lends the library parts of a site, which `start` or `restart` has filled and only the library has changed since. They are
// borrowed by nobody else until it returns, and it keeps none of them.
impl<'log> Site<'log> {
    /// Whether the library that was linked is the one that this type speaks of.
    pub fn fits() -> bool {
        // SAFETY: these are lent nothing.
        let (version, state, reply, answer, numbers, counts) = unsafe {
            (
                linked::fl_version(),
                linked::fl_state_bytes(),
                linked::fl_reply_bytes(),
                linked::fl_answer_words(),
                linked::fl_number_words(),
                linked::fl_card_words(),
            )
        };
        let words = 8 * (COUNTERS + ROWS + HISTORIES) + ORDER;
        (version, state, reply) == (VERSION, words, REPLY_BYTES)
            && (answer, numbers, counts) == (ANSWER, NUMBERS, card::COUNTS)
    }

    fn blank(log: &'log mut [u8]) -> Self {
        Site {
            counters: [0; COUNTERS],
            rows: [0; ROWS],
            histories: [0; HISTORIES],
            order: [0; ORDER],
            log,
        }
    }

    /// Begins a site of so many histories.
    pub fn start(log: &'log mut [u8], histories: u64) -> Result<Self, Refusal> {
        let mut site = Site::blank(log);
        // SAFETY: see above.
        let code = unsafe {
            linked::fl_start_parts(
                &mut site.counters,
                site.log.as_mut_ptr(),
                site.log.len(),
                &site.rows,
                &mut site.order,
                &mut site.histories,
                histories,
            )
        };
        accepted(code, site)
    }

    /// Takes a site up again from the first bytes of its log.
    pub fn restart(log: &'log mut [u8], kept: usize) -> Result<Self, Refusal> {
        let mut site = Site::blank(log);
        // SAFETY: see above.
        let code = unsafe {
            linked::fl_restart_parts(
                &mut site.counters,
                site.log.as_ptr(),
                site.log.len(),
                &mut site.rows,
                &mut site.order,
                &mut site.histories,
                kept,
            )
        };
        accepted(code, site)
    }

    /// The log: what is to be stored.
    pub fn log(&self) -> &[u8] {
        // SAFETY: see above.
        let used = unsafe {
            linked::fl_log_used_parts(
                &self.counters,
                self.log.as_ptr(),
                self.log.len(),
                &self.rows,
                &self.order,
                &self.histories,
            )
        };
        &self.log[..used]
    }

    /// Obeys a line, given without its end. Gives the reply, with its end.
    pub fn line<'reply>(
        &mut self,
        line: &[u8],
        reply: &'reply mut [u8; REPLY_BYTES],
    ) -> &'reply [u8] {
        // SAFETY: see above.
        let bytes = unsafe {
            linked::fl_line_parts(
                &mut self.counters,
                self.log.as_mut_ptr(),
                self.log.len(),
                &mut self.rows,
                &mut self.order,
                &mut self.histories,
                line.as_ptr(),
                line.len(),
                reply.as_mut_ptr(),
                reply.len(),
            )
        };
        &reply[..bytes]
    }
}

/// Gives the log in the first `kept` bytes, if it is from before stable lines, its stable line. Gives the bytes that are the log then.
pub fn upgrade(log: &mut [u8], kept: usize) -> Result<usize, Refusal> {
    let mut used = 0;
    // SAFETY: the buffer and the number are borrowed by nobody else until it returns, and it keeps neither.
    let code = unsafe { linked::fl_upgrade(log.as_mut_ptr(), log.len(), kept, &mut used) };
    accepted(code, used)
}

fn blank_reply() -> Reply {
    Reply { answer: [0; ANSWER], numbers: [0; NUMBERS] }
}

/// 0 accepts, and any other number refuses.
fn accepted<T>(code: u64, value: T) -> Result<T, Refusal> {
    if code == 0 {
        Ok(value)
    } else {
        Err(Refusal(code))
    }
}
