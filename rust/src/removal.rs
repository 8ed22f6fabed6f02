//! Which fittings must be taken back: the lines that fall with lines lost for good.
//!
//! The lines are gone through in order, again and again, until a pass removes none: a line falls
//! if it was lost, if an earlier one of its histories fell in this pass, or if one of its
//! transactions has a line that fell.

use std::collections::BTreeSet;

use crate::forms::{Did, LogLine};
use crate::reader;
use crate::refusal::{refuse_if, Refusal};
use crate::rules::Rules;
use crate::site::Site;

/// Names the lines of a log that fall with those lost, rising, at the front of `out`; gives how
/// many there are. Pairs are line and transaction in turn.
pub fn report(
    log: &[u8],
    pairs: &[u64],
    lost: &[u64],
    out: &mut [u64],
    rules: Rules,
) -> Result<usize, Refusal> {
    let site = Site::restart(log, log.len() as u64, rules)?;
    let lines = did_lines(&log[..site.used()], rules);
    let pairs: Vec<(u64, u64)> = rules.pairs(pairs);
    let first = rules.first_number(site.base());
    let unknown = |number: &u64| *number < first || *number > site.done();
    let of_pairs = rules.asks_pairs() && pairs.iter().any(|(line, _)| unknown(line));
    let not_among = of_pairs || lost.iter().any(unknown);
    let named = match not_among {
        true => Vec::new(),
        false => Removal { lines, base: site.base(), pairs, rules }.named(lost),
    };
    let tests = [(not_among, Refusal::NotAmong), (named.len() > out.len(), Refusal::NoRoom)];
    rules.refuse_first(rules.order_removal(tests, out.is_empty() && !lost.is_empty()))?;
    refuse_if(not_among, Refusal::NotAmong)?;
    for (number, named) in out.iter_mut().zip(&named) {
        *number = *named;
    }
    if rules.writes_past_the_names() {
        out[named.len()..].iter_mut().take(1).for_each(|number| *number = 0);
    }
    Ok(named.len())
}

/// The did lines of a log.
fn did_lines(log: &[u8], rules: Rules) -> Vec<Did> {
    let lines = log.split(|&byte| byte == b'\n');
    let did = |line: &[u8]| match reader::log_line(line, rules) {
        Some(LogLine::Did(did)) => Some(did),
        _ => None,
    };
    lines.filter_map(did).collect()
}

/// A log's did lines and the transactions that they are in.
struct Removal {
    lines: Vec<Did>,
    /// The number before that of the first line.
    base: u64,
    pairs: Vec<(u64, u64)>,
    rules: Rules,
}

impl Removal {
    /// The log numbers of the lines that fall.
    fn named(&self, lost: &[u64]) -> Vec<u64> {
        let mut gone = vec![false; self.lines.len()];
        for line in lost.iter().filter_map(|number| self.line(*number)) {
            gone[line] = true;
        }
        let mut count = 0;
        for _ in 0..self.rules.removal_passes(gone.len()) {
            self.pass(&mut gone);
            let now = gone.iter().filter(|gone| **gone).count();
            if now == count {
                break;
            }
            count = now;
        }
        let numbers = (self.base + 1..).zip(gone).filter(|(_, gone)| *gone);
        let mut named: Vec<u64> = numbers.map(|(number, _)| number).collect();
        self.rules.order_names(&mut named);
        named
    }

    /// The line with a log number, counted from 0.
    fn line(&self, number: u64) -> Option<usize> {
        let line = number.checked_sub(self.base + 1)? as usize;
        (line < self.lines.len()).then_some(line)
    }

    /// One pass over the transactions and one over the lines.
    fn pass(&self, gone: &mut [bool]) {
        let known = self.pairs.iter().filter_map(|(line, of)| Some((self.line(*line)?, *of)));
        let falling = known.clone().filter(|(line, _)| gone[*line]);
        let transactions: BTreeSet<u64> = falling.map(|(_, of)| of).collect();
        for (line, _) in known.filter(|(_, of)| transactions.contains(of)) {
            gone[line] = true;
        }
        self.fall(gone, (0..self.lines.len()).collect());
        if self.rules.removes_earlier() {
            self.fall(gone, (0..self.lines.len()).rev().collect());
        }
    }

    /// Each line falls that has a history in which one before it, in this order, fell.
    fn fall(&self, gone: &mut [bool], order: Vec<usize>) {
        let (mut written, mut touched) = (BTreeSet::new(), BTreeSet::new());
        for line in order {
            for update in self.lines[line].updates() {
                let both_read = self.rules.is_reader_beside(update.rule);
                let earlier = if both_read { &written } else { &touched };
                gone[line] |= earlier.contains(&update.history);
            }
            if gone[line] {
                for update in self.lines[line].updates() {
                    touched.insert(update.history);
                    if !self.rules.is_reader_beside(update.rule) {
                        written.insert(update.history);
                    }
                }
            }
        }
    }
}
