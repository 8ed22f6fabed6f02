//! Which fittings must be taken back: what takes what with it, and which numbers are refused.

use super::{Flaw, Rules};
use crate::forms::Rule;
use crate::refusal::Refusal;

/// The report of the lines that fall.
impl Rules {
    /// The pairs that numbers say, line and transaction in turn.
    pub fn pairs(self, numbers: &[u64]) -> Vec<(u64, u64)> {
        let mut pairs: Vec<(u64, u64)> =
            numbers.chunks_exact(2).map(|pair| (pair[0], pair[1])).collect();
        if self.has(Flaw::LastNumberIsPair) && numbers.len() % 2 == 1 {
            pairs.push((numbers[numbers.len() - 1], 0));
        }
        pairs
    }

    /// The first log number that is among the lines, behind a base.
    pub fn first_number(self, base: u64) -> u64 {
        if self.has(Flaw::BaseNumbersNamed) {
            1
        } else {
            base + 1
        }
    }

    /// Whether the lines of pairs are asked whether they are there.
    pub fn asks_pairs(self) -> bool {
        !self.has(Flaw::PairsNotAsked)
    }

    /// How many passes over the lines there are at most.
    pub fn removal_passes(self, lines: usize) -> usize {
        if self.has(Flaw::TransactionsOneLevel) {
            1
        } else {
            lines + 1
        }
    }

    /// Whether earlier lines of a history fall too.
    pub fn removes_earlier(self) -> bool {
        self.has(Flaw::EarlierLinesFall)
    }

    /// Whether an update takes no other of its kind with it.
    pub fn is_reader_beside(self, rule: Rule) -> bool {
        self.has(Flaw::ReadersStand) && rule == Rule::Not
    }

    /// The refusals of a report, the first one first: 16 and then 12. `full` says that no answer
    /// would fit.
    pub fn order_removal(self, tests: [(bool, Refusal); 2], full: bool) -> [(bool, Refusal); 2] {
        if self.has(Flaw::RemovalRoomFirst) {
            [(tests[1].0 || full, tests[1].1), tests[0]]
        } else {
            tests
        }
    }

    /// The order in which lines are named.
    pub fn order_names(self, named: &mut [u64]) {
        if self.has(Flaw::NamesFalling) {
            named.reverse();
        }
    }

    /// Whether a report changes the number behind its answer.
    pub fn writes_past_the_names(self) -> bool {
        self.has(Flaw::WritesPastTheNames)
    }
}
