//! Calls about records, compared after every call with all numbers.

use std::ops::Range;

use second::program::{Outcome, Program};
use second::records::{RecordCall, Records};

use crate::random::{Random, EDGES};
use crate::trial::{without, Trial};

/// Calls about the records in numbers of some length.
#[derive(Clone)]
pub struct RecordTrial {
    /// How many records there are said to be before the calls.
    pub count: usize,
    pub room: usize,
    pub calls: Vec<RecordCall>,
}

/// The records of one program with their numbers.
struct Held<'p> {
    program: &'p dyn Program,
    numbers: Vec<u64>,
    count: usize,
}

impl<'p> Held<'p> {
    /// Numbers that are masks and other things before the calls.
    fn new(program: &'p dyn Program, trial: &RecordTrial) -> Held<'p> {
        let mut random = Random::new(trial.room as u64);
        let number = |_| random.pick(&[0, 1, 3, 7, 128, 255, 256, u64::MAX]);
        Held { program, numbers: (0..trial.room).map(number).collect(), count: trial.count }
    }

    fn call(&mut self, call: RecordCall) -> Outcome {
        let outcome = self.program.records(&mut self.numbers, self.count, call);
        match call {
            RecordCall::Record { .. } | RecordCall::Forget { .. } => {
                self.count = outcome.unwrap_or(self.count)
            }
            RecordCall::Report { .. } | RecordCall::Question { .. } => {}
        }
        outcome
    }
}

impl Trial for RecordTrial {
    fn steps(&self) -> usize {
        self.calls.len()
    }

    fn without(&self, steps: Range<usize>) -> RecordTrial {
        RecordTrial { calls: without(&self.calls, steps), ..*self }
    }

    fn shown(&self) -> String {
        let mut shown = format!("{} records in {} numbers:\n", self.count, self.room);
        self.calls.iter().for_each(|call| shown.push_str(&format!("    {call:?}\n")));
        shown
    }

    fn replies(&self, program: &dyn Program) -> Vec<String> {
        let mut held = Held::new(program, self);
        self.calls.iter().map(|call| said(*call, held.call(*call))).collect()
    }

    fn difference(&self, left: &dyn Program, right: &dyn Program) -> Option<String> {
        let (mut left, mut right) = (Held::new(left, self), Held::new(right, self));
        self.calls.iter().enumerate().find_map(|(at, call)| {
            let (first, second) = (left.call(*call), right.call(*call));
            if first != second {
                return Some(format!("call {} gives {first:?}, or {second:?}\n", at + 1));
            }
            let differ = |at: &usize| left.numbers[*at] != right.numbers[*at];
            let number = (0..self.room).find(differ)?;
            Some(format!("call {} leaves number {number} different\n", at + 1))
        })
    }
}

/// What a call replied, in words.
fn said(call: RecordCall, outcome: Outcome) -> String {
    let (word, is_about_counting) = match call {
        RecordCall::Record { .. } => ("record", false),
        RecordCall::Report { .. } => ("report", true),
        RecordCall::Question { .. } => ("question", true),
        RecordCall::Forget { .. } => ("forget", false),
    };
    match outcome {
        Err(number) => format!("{word} refused {number}"),
        Ok(_) if !is_about_counting => format!("{word} ok"),
        Ok(0) => format!("{word} not persistent"),
        Ok(_) => format!("{word} persistent"),
    }
}

/// Calls in any order: some on few ids, so that most meet a record, some that fill the numbers.
pub fn any(random: &mut Random) -> RecordTrial {
    let full = Records::MOST * Records::WIDTH;
    let room = match random.below(10) {
        0 => random.between(0, full - 1),
        1..=3 => full,
        _ => full + random.between(1, 20),
    };
    let count = match random.below(12) {
        0 => random.between(1, Records::MOST),
        1 => Records::MOST + random.between(0, 2),
        _ => 0,
    };
    let ids = random.pick(&[3, 8, 90]);
    let calls = (0..random.between(5, if ids == 90 { 150 } else { 40 }))
        .map(|_| call(random, ids))
        .collect();
    RecordTrial { count, room, calls }
}

fn call(random: &mut Random, ids: u64) -> RecordCall {
    let id = if random.percent(5) { random.pick(&EDGES) } else { random.below(ids) };
    let weights = if ids == 90 {
        [(90, 0), (5, 1), (3, 2), (2, 3)]
    } else {
        [(3, 0), (6, 1), (2, 2), (1, 3)]
    };
    match random.weighted(&weights) {
        0 => {
            let sent = random.below(256) as u8;
            let full = match random.below(4) {
                0 => random.below(256) as u8,
                _ => sent & random.below(256) as u8,
            };
            let threshold = match random.below(10) {
                0 => random.pick(&EDGES),
                1 => random.below(10),
                _ => random.between(1, full.count_ones().max(1) as usize) as u64,
            };
            RecordCall::Record { id, sent, full, threshold }
        }
        1 if random.percent(4) => RecordCall::Report { id, site: random.pick(&EDGES) },
        1 => RecordCall::Report { id, site: random.below(9) },
        2 => RecordCall::Question { id },
        _ => RecordCall::Forget { id },
    }
}
