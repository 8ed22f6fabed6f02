//! Trials of a keeper.

use std::ops::Range;

use second::keeper::Places;
use second::program::{Outcome, Program};

use crate::trial::{first_difference, lines_of, shown_lines, used_buffer, without, Trial};

/// A call of a keeper.
#[derive(Clone, Debug)]
pub enum KeeperCall {
    Keep(Vec<u8>),
    Drop { history: u64, place: u64 },
    HandOut { kept: Places, room: usize },
}

impl KeeperCall {
    fn word(&self) -> &'static str {
        match self {
            KeeperCall::Keep(_) => "keep",
            KeeperCall::Drop { .. } => "drop",
            KeeperCall::HandOut { .. } => "hand out",
        }
    }
}

/// Calls of one keeper with a buffer of some length.
#[derive(Clone)]
pub struct KeeperTrial {
    /// The bytes that are said to be in use before the calls, perhaps more than the buffer's.
    pub start: Vec<u8>,
    pub calls: Vec<KeeperCall>,
    pub room: usize,
}

impl KeeperTrial {
    /// The keeper of a program before the calls.
    pub fn kept<'p>(&self, program: &'p dyn Program) -> Kept<'p> {
        let mut kept = Kept::new(program, self.room);
        let length = self.start.len().min(self.room);
        kept.buffer[..length].copy_from_slice(&self.start[..length]);
        kept.used = self.start.len();
        kept
    }
}

/// A keeper of one program with its buffer.
pub struct Kept<'p> {
    program: &'p dyn Program,
    pub buffer: Vec<u8>,
    pub used: usize,
}

impl<'p> Kept<'p> {
    pub fn new(program: &'p dyn Program, room: usize) -> Kept<'p> {
        Kept { program, buffer: used_buffer(room), used: 0 }
    }

    /// Makes a call; gives its outcome and the second buffer.
    pub fn call(&mut self, call: &KeeperCall) -> (Outcome, Vec<u8>) {
        let (program, buffer, used) = (self.program, &mut self.buffer, self.used);
        let outcome = match call {
            KeeperCall::Keep(line) => program.keep(buffer, used, line),
            KeeperCall::Drop { history, place } => {
                program.drop_up_to(buffer, used, *history, *place)
            }
            KeeperCall::HandOut { kept, room } => {
                let mut out = used_buffer(*room);
                return (program.hand_out(buffer, used, kept, &mut out), out);
            }
        };
        self.used = outcome.unwrap_or(self.used);
        (outcome, Vec::new())
    }
}

impl Trial for KeeperTrial {
    /// The calls, then the lines that are there before them.
    fn steps(&self) -> usize {
        self.calls.len() + lines_of(&self.start).len()
    }

    fn without(&self, steps: Range<usize>) -> KeeperTrial {
        let calls = self.calls.len();
        let part = |from: usize, to: usize| steps.start.clamp(from, to)..steps.end.clamp(from, to);
        let (from_calls, lines) = (part(0, calls), part(calls, self.steps()));
        let start =
            without(&lines_of(&self.start), lines.start - calls..lines.end - calls).concat();
        KeeperTrial { start, calls: without(&self.calls, from_calls), room: self.room }
    }

    fn shown(&self) -> String {
        let mut shown = format!("keeper with a buffer of {} bytes:\n", self.room);
        shown.push_str(&shown_lines(lines_of(&self.start).iter()));
        for call in &self.calls {
            let line = match call {
                KeeperCall::Keep(line) => format!("    keep {}\n", line.escape_ascii()),
                other => format!("    {other:?}\n"),
            };
            shown.push_str(&line);
        }
        shown
    }

    fn calls(&self) -> usize {
        self.calls.len()
    }

    fn replies(&self, program: &dyn Program) -> Vec<String> {
        let mut kept = self.kept(program);
        let reply = |call| match kept.call(call).0 {
            Ok(_) => format!("{} ok", call.word()),
            Err(number) => format!("{} refused {number}", call.word()),
        };
        self.calls.iter().map(reply).collect()
    }

    fn difference(&self, left: &dyn Program, right: &dyn Program) -> Option<String> {
        let (mut left, mut right) = (self.kept(left), self.kept(right));
        self.calls.iter().enumerate().find_map(|(at, call)| {
            let ((first, out), (second, other_out)) = (left.call(call), right.call(call));
            let what = if first != second {
                format!("gives {first:?}, or {second:?}")
            } else if let Some(byte) = first_difference(&left.buffer, &right.buffer) {
                format!("leaves byte {byte} of the buffer different")
            } else {
                let byte = first_difference(&out, &other_out)?;
                format!("leaves byte {byte} of the second buffer different")
            };
            Some(format!("call {} {what}\n", at + 1))
        })
    }
}
