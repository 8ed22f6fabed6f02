//! Cards of the last W lines, counted afresh and following, compared with all their numbers.

use std::ops::Range;

use second::card::Counts;
use second::program::{Outcome, Program, Second};
use second::site::Site;

use crate::made_up;
use crate::random::{Random, EDGES};
use crate::rounds::{sample, seeded};
use crate::trial::{lines_of, shown_lines, without, Trial};
use crate::watch::is_did;

/// The W at the edges, and one above.
const WINDOWS: [u64; 6] = [1, 2, 1023, 1024, 0, 1025];

/// A card of the first bytes of a log, and then of others: fewer, as after a cut, or more.
#[derive(Clone)]
pub struct CardTrial {
    pub log: Vec<u8>,
    pub begun: usize,
    pub kept: usize,
    pub w: u64,
}

impl CardTrial {
    /// What a program gives, and the numbers after it, which were foreign ones before.
    fn outcome(&self, program: &dyn Program) -> (Outcome, Counts) {
        let mut counts: Counts = std::array::from_fn(|i| (i as u64 + 1) << 57);
        let outcome = program.card(&self.log, self.begun, self.kept, self.w, &mut counts);
        (outcome, counts)
    }

    /// Checks the card by the text of the log; gives whether it was accepted.
    pub fn check(&self) -> usize {
        let (outcome, counts) = self.outcome(&Second::from_paper());
        let Ok(counted) = outcome else { return 0 };
        let text = String::from_utf8_lossy(&self.log[..self.kept]);
        let whole = &text[..text.rfind('\n').map_or(0, |end| end + 1)];
        let lines: Vec<&str> = whole.lines().filter(|line| is_did(line)).collect();
        let last = &lines[lines.len().saturating_sub(self.w as usize)..];
        assert_eq!(counted, last.len(), "{}", self.shown());
        for (at, number) in counts.iter().enumerate() {
            let update = format!("({} {} ", ["inc", "set", "not"][at % 3], at / 3);
            let had: usize = last.iter().map(|line| line.matches(&update).count()).sum();
            let foreign = (at as u64 + 1) << 57;
            assert!(*number == had as u64 || (had == 0 && *number == foreign), "{}", self.shown());
        }
        1
    }
}

impl Trial for CardTrial {
    fn steps(&self) -> usize {
        lines_of(&self.log).len()
    }

    fn without(&self, steps: Range<usize>) -> CardTrial {
        let log = without(&lines_of(&self.log), steps).concat();
        let (begun, kept) = (self.begun.min(log.len()), self.kept.min(log.len()));
        CardTrial { log, begun, kept, w: self.w }
    }

    fn shown(&self) -> String {
        let lines = shown_lines(lines_of(&self.log).iter());
        format!("card of {} lines, from {} bytes to {}:\n{lines}", self.w, self.begun, self.kept)
    }

    fn calls(&self) -> usize {
        1
    }

    fn replies(&self, program: &dyn Program) -> Vec<String> {
        vec![match self.outcome(program).0 {
            Ok(_) => "card ok".to_string(),
            Err(number) => format!("card refused {number}"),
        }]
    }

    fn difference(&self, left: &dyn Program, right: &dyn Program) -> Option<String> {
        let ((first, counts), (second, other)) = (self.outcome(left), self.outcome(right));
        if first != second {
            return Some(format!("the outcomes are {first:?} and {second:?}\n"));
        }
        let at = counts.iter().zip(&other).position(|(a, b)| a != b)?;
        Some(format!("number {at} of the card differs: {} and {}\n", counts[at], other[at]))
    }
}

/// Cards of made-up logs and of those that sessions leave; now and then of one with more lines than
/// any W.
pub fn cards(round: u64) -> Vec<CardTrial> {
    let mut random = seeded(13, round);
    let mut trials = Vec::new();
    for _ in 0..24 {
        let log = match random.below(4) {
            0 => made_up::log(&mut random),
            1 => sample(&mut random, 22).1,
            _ => made_up::log_to_start_from(&mut random),
        };
        trials.push(card(&mut random, log));
    }
    if round % 16 == 9 {
        let log = long_log(&mut random, 1300);
        trials.extend((0..24).map(|_| card(&mut random, log.clone())));
    }
    trials
}

/// A card of some bytes of a log, most often from one line's end to another's.
fn card(random: &mut Random, log: Vec<u8>) -> CardTrial {
    let ends: Vec<usize> = (1..=log.len()).filter(|&end| log[end - 1] == b'\n').collect();
    let stop = |random: &mut Random| match random.below(40) {
        0 => log.len() + random.pick(&[1, 2, 1000]),
        1..=4 => random.between(0, log.len()),
        5..=12 => log.len(),
        _ if ends.is_empty() => log.len(),
        _ => random.pick(&ends),
    };
    let (begun, kept) = (stop(random), stop(random));
    let w = match random.below(8) {
        0 => random.pick(&EDGES),
        1 | 2 => random.between(1, 12) as u64,
        _ => random.pick(&WINDOWS),
    };
    CardTrial { log, begun, kept, w }
}

/// A log of so many did lines in three histories, with stable lines between them.
fn long_log(random: &mut Random, lines: u64) -> Vec<u8> {
    let (mut log, mut at) = ("(site 3)\n".to_string(), [[0u64; 2]; 3]);
    for number in 1..=lines {
        let (first, both) = (random.index(3), random.percent(30));
        log += &format!("(did {number} ");
        for history in [first, (first + 1) % 3].into_iter().take(1 + usize::from(both)) {
            let [version, place] = &mut at[history];
            let rule = random.pick(&["inc", "set", "not"]);
            *version += u64::from(rule != "not") * (1 + u64::from(rule == "set"));
            *place += 1;
            log += &format!("({rule} {history} {version} {place} 0)");
        }
        log += ")\n";
        if number % 40 == 0 {
            log += &format!("(stable {number})\n");
        }
    }
    assert!(log.len() <= Site::LONGEST_LOG);
    log.into_bytes()
}
