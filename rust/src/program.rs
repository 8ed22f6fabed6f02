//! The face that a comparison sees: calls on numbers and byte slices, state in lent buffers.

use crate::card::{self, Counts};
use crate::forms::{Answer, Reply};
use crate::keeper::{Keeper, Places};
use crate::module::Module;
use crate::records::{RecordCall, Records};
use crate::refusal::Refusal;
use crate::removal;
use crate::rules::Rules;
use crate::session::{self, Session};
use crate::site::Site;
use crate::slots::Slots;
use crate::writer;

/// The bytes in use after a call, or handed out by it; else the refusal's number.
pub type Outcome = Result<usize, u64>;

/// The number in place of a refusal's where the first bytes are not what a keeper keeps.
pub const NO_KEEPER: u64 = 999;

/// The number in place of a refusal's where there are more records than 64, or fewer numbers
/// than those of 64.
pub const NO_RECORDS: u64 = 999;

/// What a poll gives for a dry history, and for one that is not dry.
pub const DRY: u64 = 1001;
pub const BUSY: u64 = 1000;

/// The room that is lent behind the replies of a session. No reply has more bytes.
pub const SPARE: usize = 2741;

/// One implementation of the ledger.
pub trait Program {
    fn name(&self) -> &str;

    /// Runs a whole session over a log buffer. Gives the length of the replies, or nothing
    /// when `out` is too short for them. It may ask for [`SPARE`] bytes more than they have.
    fn session(&self, input: &[u8], log: &mut [u8], out: &mut [u8]) -> Option<usize>;

    /// The same, and then each number of `histories` becomes what a poll of that history gives at
    /// the session's end: [`DRY`], [`BUSY`] or a refusal's number. They stay as they are when
    /// `out` is too short.
    fn session_polls(
        &self,
        input: &[u8],
        log: &mut [u8],
        out: &mut [u8],
        histories: &mut [u64],
    ) -> Option<usize>;

    /// Restarts from the first `kept` bytes of a log. Gives the length of the reply line, for
    /// which 64 bytes are enough, or nothing when `out` is too short for it.
    fn restart(&self, log: &[u8], kept: usize, out: &mut [u8]) -> Option<usize>;

    /// Restarts from the first `kept` bytes of a log buffer and goes on with a session. Gives the
    /// length of the replies, that of the restart first, or nothing when `out` is too short for
    /// them, or where the program has no such call.
    fn session_from(
        &self,
        _input: &[u8],
        _log: &mut [u8],
        _kept: usize,
        _out: &mut [u8],
    ) -> Option<usize> {
        None
    }

    /// Restarts from the first `kept` bytes of a log and copies it from `n` on into a fresh buffer.
    /// Gives the bytes used there.
    fn trim(&self, log: &[u8], kept: usize, n: u64, fresh: &mut [u8]) -> Outcome;

    /// Restarts from the first `kept` bytes of a log and names the smallest number of its bytes whose
    /// cut leaves these places.
    fn find_cut(&self, log: &[u8], kept: usize, places: &[u64]) -> Outcome;

    /// Restarts from the first `begun` bytes of a log, with a card of its last w lines, and then
    /// from the first `kept`: the numbers are those of the card then. Gives the lines that count.
    fn card(&self, log: &[u8], begun: usize, kept: usize, w: u64, counts: &mut Counts) -> Outcome;

    /// Changes over an older log in the first `kept` bytes of a buffer. Gives the bytes in use.
    fn upgrade(&self, log: &mut [u8], kept: usize) -> Outcome;

    /// Names the lines of a log that fall with those lost, at the front of `out`. Pairs are line and
    /// transaction in turn. Gives how many lines it names.
    fn removals(&self, log: &[u8], pairs: &[u64], lost: &[u64], out: &mut [u64]) -> Outcome;

    /// Stores a did line in a keeper's buffer. Here and below the first `used` bytes of the
    /// buffer must be what a keeper keeps: else nothing changes, and [`NO_KEEPER`] says so.
    fn keep(&self, buffer: &mut [u8], used: usize, line: &[u8]) -> Outcome;

    /// Drops the lines up to a place of a history from a keeper's buffer.
    fn drop_up_to(&self, buffer: &mut [u8], used: usize, history: u64, place: u64) -> Outcome;

    /// Hands out the lines above the kept places.
    fn hand_out(&self, buffer: &[u8], used: usize, kept: &Places, out: &mut [u8]) -> Outcome;

    /// A call about the records in the first numbers. Gives how many records there are after
    /// it; of a report or a question, 1 if the operation counts as persistent, else 0.
    fn records(&self, numbers: &mut [u64], count: usize, call: RecordCall) -> Outcome;

    /// A new compact module, or nothing where the program has none.
    fn module(&self) -> Option<Box<dyn Slots>> {
        None
    }
}

/// The programs that are there to be compared, this one first.
pub fn all() -> Vec<Box<dyn Program>> {
    vec![
        Box::new(Second::from_paper()),
        #[cfg(feature = "library")]
        Box::new(crate::library::Library),
    ]
}

/// This program, following the paper or with a flaw.
pub struct Second {
    name: String,
    rules: Rules,
    /// The log from which the site of a session is restarted; without it a session opens one.
    start: Option<Vec<u8>>,
}

impl Second {
    pub fn new(name: &str, rules: Rules) -> Second {
        Second { name: name.to_string(), rules, start: None }
    }

    /// The program as the paper has it.
    pub fn from_paper() -> Second {
        Second::new("second program", Rules::PAPER)
    }

    /// The program whose sessions begin with a site restarted from a log, at the front of the log
    /// buffer, which must have room for it.
    pub fn starting_from(self, log: &[u8]) -> Second {
        Second { start: Some(log.to_vec()), ..self }
    }

    fn begin(&self, log: &mut [u8]) -> Session {
        let Some(start) = &self.start else { return Session::new(self.rules) };
        log[..start.len()].copy_from_slice(start);
        let site = Site::restart(log, start.len() as u64, self.rules).expect("a log");
        Session::of(site, self.rules)
    }

    /// The keeper whose lines the first bytes of a buffer are.
    fn keeper(&self, buffer: &[u8], used: usize) -> Result<Keeper, u64> {
        Keeper::resume(buffer, used, self.rules).ok_or(NO_KEEPER)
    }
}

impl Program for Second {
    fn name(&self) -> &str {
        &self.name
    }

    fn session(&self, input: &[u8], log: &mut [u8], out: &mut [u8]) -> Option<usize> {
        put(&session::run_on(self.begin(log), input, log).0, out)
    }

    fn session_polls(
        &self,
        input: &[u8],
        log: &mut [u8],
        out: &mut [u8],
        histories: &mut [u64],
    ) -> Option<usize> {
        let (replies, session) = session::run_on(self.begin(log), input, log);
        let length = put(&replies, out)?;
        for number in histories {
            *number = match session.poll(*number) {
                Ok(true) => DRY,
                Ok(false) => BUSY,
                Err(refusal) => refusal.number(),
            };
        }
        Some(length)
    }

    fn restart(&self, log: &[u8], kept: usize, out: &mut [u8]) -> Option<usize> {
        put(&restart_reply(&Site::restart(log, kept as u64, self.rules)), out)
    }

    fn session_from(
        &self,
        input: &[u8],
        log: &mut [u8],
        kept: usize,
        out: &mut [u8],
    ) -> Option<usize> {
        let restarted = Site::restart(log, kept as u64, self.rules);
        let first = restart_reply(&restarted);
        let session = match restarted {
            Ok(site) => Session::of(site, self.rules),
            Err(_) => Session::new(self.rules),
        };
        put(&[first, session::run_on(session, input, log).0].concat(), out)
    }

    fn trim(&self, log: &[u8], kept: usize, n: u64, fresh: &mut [u8]) -> Outcome {
        let site = Site::restart(log, kept as u64, self.rules);
        outcome(site.and_then(|site| site.trim(n, log, fresh)))
    }

    fn find_cut(&self, log: &[u8], kept: usize, places: &[u64]) -> Outcome {
        let site = Site::restart(log, kept as u64, self.rules);
        outcome(site.and_then(|site| site.find_cut(places, log)))
    }

    fn card(&self, log: &[u8], begun: usize, kept: usize, w: u64, counts: &mut Counts) -> Outcome {
        let before = outcome_of(Site::restart(log, begun as u64, self.rules))?;
        let site = outcome_of(Site::restart(log, kept as u64, self.rules))?;
        outcome(card::card(&before, &site, log, w, counts, self.rules))
    }

    fn upgrade(&self, log: &mut [u8], kept: usize) -> Outcome {
        outcome(Site::upgrade(log, kept as u64, self.rules))
    }

    fn removals(&self, log: &[u8], pairs: &[u64], lost: &[u64], out: &mut [u64]) -> Outcome {
        outcome(removal::report(log, pairs, lost, out, self.rules))
    }

    fn keep(&self, buffer: &mut [u8], used: usize, line: &[u8]) -> Outcome {
        let mut keeper = self.keeper(buffer, used)?;
        outcome(keeper.keep(line, buffer).map(|()| keeper.used()))
    }

    fn drop_up_to(&self, buffer: &mut [u8], used: usize, history: u64, place: u64) -> Outcome {
        let mut keeper = self.keeper(buffer, used)?;
        outcome(keeper.drop_up_to(history, place, buffer).map(|()| keeper.used()))
    }

    fn hand_out(&self, buffer: &[u8], used: usize, kept: &Places, out: &mut [u8]) -> Outcome {
        outcome(self.keeper(buffer, used)?.hand_out(kept, buffer, out))
    }

    fn records(&self, numbers: &mut [u64], count: usize, call: RecordCall) -> Outcome {
        outcome(Records::resume(numbers, count, self.rules).ok_or(NO_RECORDS)?.call(call))
    }

    fn module(&self) -> Option<Box<dyn Slots>> {
        Some(Box::new(Module::new(self.rules)))
    }
}

/// The reply line of a restart.
fn restart_reply(restarted: &Result<Site, Refusal>) -> Vec<u8> {
    let answer: Answer = match restarted {
        Ok(site) => Ok(Reply::Restarted { lines: site.lines_kept(), bytes: site.used() }),
        Err(refusal) => Err(*refusal),
    };
    let mut reply = Vec::new();
    writer::answer(&mut reply, &answer);
    reply
}

/// Puts a text at the front of a buffer, if it fits; gives its length.
fn put(text: &[u8], out: &mut [u8]) -> Option<usize> {
    out.get_mut(..text.len())?.copy_from_slice(text);
    Some(text.len())
}

fn outcome(result: Result<usize, Refusal>) -> Outcome {
    outcome_of(result)
}

fn outcome_of<T>(result: Result<T, Refusal>) -> Result<T, u64> {
    result.map_err(Refusal::number)
}
