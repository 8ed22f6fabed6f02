//! Reports of the lines that fall with lost ones, compared with all numbers of the answer.

use std::ops::Range;

use second::program::{Outcome, Program, Second};
use second::rules::Rules;
use second::site::Site;

use crate::random::{Random, EDGES};
use crate::rounds::{sample, seeded};
use crate::trial::{first_difference, lines_of, shown_lines, without, Trial};
use crate::watch::{base_of, is_did};
use crate::{damage, made_up};

/// A report over a log.
#[derive(Clone)]
pub struct RemovalTrial {
    pub log: Vec<u8>,
    /// Pairs of line and transaction.
    pub pairs: Vec<(u64, u64)>,
    /// A last number without a partner.
    pub odd: Option<u64>,
    pub lost: Vec<u64>,
    /// The numbers of room for the answer.
    pub room: usize,
}

impl RemovalTrial {
    /// What a program gives, and the answer's numbers after it.
    fn outcome(&self, program: &dyn Program) -> (Outcome, Vec<u64>) {
        let mut pairs: Vec<u64> =
            self.pairs.iter().flat_map(|(line, transaction)| [*line, *transaction]).collect();
        pairs.extend(self.odd);
        let mut out: Vec<u64> = (0..self.room as u64).map(|at| u64::MAX - at).collect();
        (program.removals(&self.log, &pairs, &self.lost, &mut out), out)
    }

    /// Checks an accepted report against the least set, worked out pair of lines by pair of lines
    /// from the log's text; gives how many there are.
    pub fn check(&self) -> usize {
        let (outcome, out) = self.outcome(&Second::from_paper());
        let Ok(count) = outcome else { return 0 };
        let text = String::from_utf8_lossy(&self.log);
        let used = Site::restart(&self.log, self.log.len() as u64, Rules::PAPER).expect("a log");
        let whole: Vec<&str> = text[..used.used()].split_inclusive('\n').collect();
        let base = base_of(whole.iter().map(|line| line.trim_end()));
        let histories: Vec<Vec<u64>> =
            whole.iter().filter(|line| is_did(line)).map(|line| histories_of(line)).collect();
        let share = |first: usize, second: usize| {
            histories[first].iter().any(|history| histories[second].contains(history))
        };
        let together = |first: u64, second: u64| {
            self.pairs.iter().any(|(line, transaction)| {
                *line == first && self.pairs.contains(&(second, *transaction))
            })
        };
        let number = |line: usize| base + 1 + line as u64;
        let mut gone: Vec<bool> =
            (0..histories.len()).map(|line| self.lost.contains(&number(line))).collect();
        loop {
            let takes = |from: usize, to: usize| {
                (from < to && share(from, to)) || together(number(from), number(to))
            };
            let falls = |to: &usize| (0..gone.len()).any(|from| gone[from] && takes(from, *to));
            let more = (0..gone.len()).filter(|line| !gone[*line]).find(falls);
            let Some(line) = more else { break };
            gone[line] = true;
        }
        let least: Vec<u64> = (0..gone.len()).filter(|line| gone[*line]).map(number).collect();
        assert_eq!(out[..count], least, "{}", self.shown());
        1
    }
}

/// The histories of a did line.
fn histories_of(line: &str) -> Vec<u64> {
    let updates = line.split('(').skip(2);
    updates.map(|update| update.split(' ').nth(1).expect("a history").parse().unwrap()).collect()
}

impl Trial for RemovalTrial {
    fn steps(&self) -> usize {
        self.pairs.len() + self.lost.len()
    }

    fn without(&self, steps: Range<usize>) -> RemovalTrial {
        let (pairs, lost) = (self.pairs.len(), self.lost.len());
        let part = |from: usize, to: usize| from.min(to)..to;
        RemovalTrial {
            pairs: without(&self.pairs, part(steps.start, steps.end.min(pairs))),
            lost: without(
                &self.lost,
                part(steps.start.saturating_sub(pairs), steps.end.saturating_sub(pairs).min(lost)),
            ),
            ..self.clone()
        }
    }

    fn shown(&self) -> String {
        let lines = shown_lines(lines_of(&self.log).iter());
        let RemovalTrial { pairs, odd, lost, room, .. } = self;
        format!("removals, lost {lost:?}, pairs {pairs:?} {odd:?}, room {room}:\n{lines}")
    }

    fn calls(&self) -> usize {
        1
    }

    fn replies(&self, program: &dyn Program) -> Vec<String> {
        vec![match self.outcome(program).0 {
            Ok(_) => "removals ok".to_string(),
            Err(number) => format!("removals refused {number}"),
        }]
    }

    fn difference(&self, left: &dyn Program, right: &dyn Program) -> Option<String> {
        let ((first, out), (second, other)) = (self.outcome(left), self.outcome(right));
        if first != second {
            return Some(format!("the outcomes are {first:?} and {second:?}\n"));
        }
        let number = first_difference(&out, &other)?;
        Some(format!("number {number} of the answer differs\n"))
    }
}

/// A line's number, mostly one that is there.
fn line(random: &mut Random, base: u64, done: u64, sure: bool) -> u64 {
    if base < done && (sure || random.percent(97)) {
        return base + 1 + random.below(done - base);
    }
    let edge = random.pick(&EDGES);
    random.pick(&[0, base, done, done.wrapping_add(1), edge])
}

/// A report over a log, with room for its answer or a number more or less.
fn over(random: &mut Random, log: Vec<u8>) -> RemovalTrial {
    let site = Site::restart(&log, log.len() as u64, Rules::PAPER);
    let (base, done) = site.map_or((0, 5), |site| (site.base(), site.done()));
    let sure = random.percent(70);
    let kinds = random.pick(&[1, 2, 5, 40]);
    let lines = (done - base).min(300) as usize;
    let most = random.pick(&[0, 3, lines, 2 * lines]);
    let mut pairs = Vec::new();
    for _ in 0..random.between(0, most) {
        let transaction = random.below(kinds) * random.pick(&[1, 1, 4096, 1 << 40]);
        pairs.push((line(random, base, done, sure), transaction));
    }
    let count = random.between(0, 3);
    let lost = (0..count).map(|_| line(random, base, done, sure)).collect();
    let odd = random.percent(10).then(|| line(random, base, done, true));
    let mut trial = RemovalTrial { log, pairs, odd, lost, room: lines };
    let named = trial.outcome(&Second::from_paper()).0.unwrap_or(0);
    let other = random.between(0, 40);
    trial.room = random.pick(&[named, named, named + 1, named.saturating_sub(1), 0, other]);
    trial
}

/// Reports over made-up logs, most of which restart; now and then over a log damaged at every byte
/// and line and cut everywhere, and over a log that is too long.
pub fn removals(round: u64) -> Vec<RemovalTrial> {
    let mut random = seeded(8, round);
    let mut trials = Vec::new();
    for _ in 0..30 {
        let mut log = match random.below(8) {
            0 => made_up::log(&mut random),
            1 => made_up::high_log(&mut random),
            _ => made_up::log_to_start_from(&mut random),
        };
        if random.percent(10) {
            log.truncate(random.between(0, log.len()));
        }
        if random.percent(2) {
            log.resize(random.pick(&[Site::LONGEST_LOG, Site::LONGEST_LOG + 1]), b'(');
        }
        trials.push(over(&mut random, log));
    }
    if round % 16 == 7 {
        let log = sample(&mut random, 16).1;
        let mut damaged = [damage::every_byte(&log), damage::every_line(&log)].concat();
        damaged.extend((0..=log.len()).map(|kept| log[..kept].to_vec()));
        trials.extend(damaged.into_iter().map(|log| over(&mut random, log)));
    }
    trials
}
