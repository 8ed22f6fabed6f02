//! The changeover of older logs, compared with all bytes of the buffer.

use std::ops::Range;

use second::program::{Outcome, Program};
use second::site::Site;

use crate::rounds::{sample, seeded};
use crate::trial::{first_difference, lines_of, shown_lines, used_buffer, without, Trial};
use crate::{damage, made_up};

/// The changeover of an older log in the first bytes of a buffer.
#[derive(Clone)]
pub struct UpgradeTrial {
    /// The bytes that are the log.
    pub kept: Vec<u8>,
    /// The bytes of the buffer behind them.
    pub rest: Vec<u8>,
    /// How far the number of bytes that are the log is above those that are.
    pub above: usize,
}

impl UpgradeTrial {
    /// What a program gives, and the buffer after it.
    pub fn outcome(&self, program: &dyn Program) -> (Outcome, Vec<u8>) {
        let mut buffer = [self.kept.as_slice(), &self.rest].concat();
        (program.upgrade(&mut buffer, self.kept.len() + self.above), buffer)
    }
}

impl Trial for UpgradeTrial {
    fn steps(&self) -> usize {
        lines_of(&self.kept).len()
    }

    fn without(&self, steps: Range<usize>) -> UpgradeTrial {
        UpgradeTrial { kept: without(&lines_of(&self.kept), steps).concat(), ..self.clone() }
    }

    fn shown(&self) -> String {
        let lines = shown_lines(lines_of(&self.kept).iter());
        let (rest, above) = (self.rest.len(), self.above);
        format!("changeover, {rest} bytes behind, {above} bytes above:\n{lines}")
    }

    fn calls(&self) -> usize {
        1
    }

    fn replies(&self, program: &dyn Program) -> Vec<String> {
        vec![match self.outcome(program).0 {
            Ok(_) => "upgrade ok".to_string(),
            Err(number) => format!("upgrade refused {number}"),
        }]
    }

    fn difference(&self, left: &dyn Program, right: &dyn Program) -> Option<String> {
        let ((first, buffer), (second, other)) = (self.outcome(left), self.outcome(right));
        if first != second {
            return Some(format!("the outcomes are {first:?} and {second:?}\n"));
        }
        let byte = first_difference(&buffer, &other)?;
        Some(format!("byte {byte} of the buffer differs\n"))
    }
}

/// Changeovers: of made-up logs, older and newer ones, with and without room for the stable line;
/// now and then of a log damaged at every byte and line and cut everywhere.
pub fn upgrades(round: u64) -> Vec<UpgradeTrial> {
    let mut random = seeded(6, round);
    let mut trials = Vec::new();
    for _ in 0..30 {
        let log = match random.below(6) {
            0 => made_up::log(&mut random),
            1 => made_up::without_marks(&made_up::log(&mut random)),
            2 => made_up::older_log(&mut random, true),
            _ => made_up::older_log(&mut random, false),
        };
        let kept = if random.percent(30) { random.between(0, log.len()) } else { log.len() };
        let rest = match random.below(12) {
            0 => Site::LONGEST_LOG + 1 - kept.min(Site::LONGEST_LOG),
            1 => Site::LONGEST_LOG - kept.min(Site::LONGEST_LOG),
            _ => random.between(0, 30),
        };
        let above = if random.percent(5) { rest + random.pick(&[1, 2, 1000]) } else { 0 };
        let (kept, rest) = (log[..kept].to_vec(), used_buffer(rest));
        trials.push(UpgradeTrial { kept, rest, above });
    }
    if round % 16 == 13 {
        let log = made_up::without_marks(&sample(&mut random, 16).1);
        let mut damaged = [damage::every_byte(&log), damage::every_line(&log)].concat();
        damaged.extend((0..=log.len()).map(|kept| log[..kept].to_vec()));
        for kept in damaged {
            trials.push(UpgradeTrial { kept, rest: used_buffer(random.index(20)), above: 0 });
        }
    }
    trials
}
