//! The things that lines say: rules, updates, operations, did lines, commands and replies.

use crate::few::Few;
use crate::refusal::Refusal;
use crate::site::{Finished, History};

/// What an update does.
#[derive(Clone, Copy, Debug, Default, PartialEq, Eq)]
pub enum Rule {
    /// Replaces one part, at the next version.
    #[default]
    Inc,
    /// Replaces the profile, at any higher version.
    Set,
    /// Reads at the version.
    Not,
    /// Replaces one part, at whichever version is next.
    Unk,
}

impl Rule {
    /// The word that stands for the rule in a line.
    pub fn word(self) -> &'static [u8] {
        match self {
            Rule::Inc => b"inc",
            Rule::Set => b"set",
            Rule::Not => b"not",
            Rule::Unk => b"unk",
        }
    }

    /// Strong updates change the history.
    pub fn is_strong(self) -> bool {
        self != Rule::Not
    }

    /// Ordered updates say their version.
    pub fn is_ordered(self) -> bool {
        self != Rule::Unk
    }
}

/// `(RULE H U O)`.
#[derive(Clone, Copy, Debug, Default, PartialEq, Eq)]
pub struct Update {
    pub rule: Rule,
    pub history: u64,
    pub version: u64,
    pub operand: u64,
}

/// `(RULE H V P O)`: an update as a did line has it. Its version, the one after the update,
/// is also the one that the update was made for.
#[derive(Clone, Copy, Debug, Default, PartialEq, Eq)]
pub struct Entry {
    pub update: Update,
    pub place: u64,
}

/// An id and its updates.
#[derive(Clone, Copy, Debug, PartialEq, Eq)]
pub struct Operation {
    pub id: u64,
    pub updates: Few<Update>,
}

/// `(did ID (RULE H V P O)...)`.
#[derive(Clone, Copy, Debug, PartialEq, Eq)]
pub struct Did {
    pub id: u64,
    pub entries: Few<Entry>,
}

impl Did {
    /// Its entries without their places.
    pub fn updates(&self) -> impl Iterator<Item = &Update> + Clone {
        self.entries.iter().map(|entry| &entry.update)
    }
}

/// `(H V P O)`: a history's version, place and profile, as a base line has them.
#[derive(Clone, Copy, Debug, PartialEq, Eq)]
pub struct BaseCell {
    pub history: u64,
    pub version: u64,
    pub place: u64,
    pub profile: u64,
}

/// `(base N (H V P O)...)`: where a shorter log begins, after N operations.
#[derive(Clone, Debug, PartialEq, Eq)]
pub struct Base {
    pub up_to: u64,
    pub cells: Vec<BaseCell>,
}

/// A line of a log behind its site line and its base line.
#[derive(Clone, Copy, Debug, PartialEq, Eq)]
pub enum LogLine {
    Did(Did),
    /// `(stable N)`.
    Stable(u64),
}

/// One readable line of a session.
#[derive(Clone, Copy, Debug, PartialEq, Eq)]
pub enum Command {
    Site(u64),
    Add(Operation),
    Finish(u64),
    Withdraw(u64),
    Persistent(u64),
    Stable(u64),
    Show(u64),
    Cut(u64),
    Redo(Did),
    End,
}

/// Some of the sixteen histories.
#[derive(Clone, Copy, Debug, Default, PartialEq, Eq)]
pub struct HistorySet(u16);

impl HistorySet {
    /// The histories that the updates touch.
    pub fn of<'u>(updates: impl Iterator<Item = &'u Update>) -> HistorySet {
        let mut set = HistorySet::default();
        for update in updates {
            set.insert(update.history);
        }
        set
    }

    /// The histories with a lower number.
    pub fn below(count: u64) -> HistorySet {
        HistorySet(((1u32 << count) - 1) as u16)
    }

    pub fn insert(&mut self, history: u64) {
        self.0 |= 1 << history;
    }

    pub fn contains(self, history: u64) -> bool {
        self.0 >> history & 1 == 1
    }

    pub fn union(self, other: HistorySet) -> HistorySet {
        HistorySet(self.0 | other.0)
    }

    pub fn without(self, other: HistorySet) -> HistorySet {
        HistorySet(self.0 & !other.0)
    }

    /// Its members in rising number.
    pub fn iter(self) -> impl Iterator<Item = u64> {
        (0..16).filter(move |&history| self.contains(history))
    }
}

/// What an accepted command answers.
#[derive(Clone, Debug, PartialEq, Eq)]
pub enum Reply {
    Opened,
    Added { ready: Vec<u64> },
    Finished(Finished),
    Withdrawn { dry: HistorySet },
    Persistent { rose: HistorySet, dry: HistorySet },
    Stable { rose: HistorySet },
    Shown { number: u64, history: History },
    Restarted { lines: u64, bytes: usize },
    Redone { lines: u64, examined: u64 },
    Ended { waiting: Vec<u64> },
}

/// A reply, or the refusal of the call.
pub type Answer = Result<Reply, Refusal>;
