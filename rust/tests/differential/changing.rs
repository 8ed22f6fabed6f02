//! The changeover to a shorter log as one call of a list, and the recovery claim of lists with some.
//!
//! `(changeover N ROOM)` stands in a list for a trim from N on into a fresh buffer of so many bytes,
//! and a restart from all of the copy there. No session has this word.

use std::ops::Range;

use second::forms::{Answer, Reply};
use second::program::{Program, Second};
use second::refusal::Refusal;
use second::rules::{Flaw, Rules};
use second::session::Session;
use second::site::Site;
use second::writer;

use crate::as_comparisons;
use crate::book::numbers;
use crate::claim::{ClaimTrial, Player};
use crate::mood::Mood;
use crate::random::Random;
use crate::resending::Resending;
use crate::rounds::{seeded, ROUNDS};
use crate::scribe::Scribe;
use crate::trial::{Mismatch, Played, Trial};
use crate::watch::{Counting, Law, Watch};

/// Answers one line, which may be a changeover.
pub fn answer(session: &mut Session, log: &mut Vec<u8>, line: &[u8], rules: Rules) -> Answer {
    match changeover_of(line) {
        Some((n, room)) => change_over(session, log, n, room, rules),
        None => session.answer(line, log),
    }
}

/// The numbers of a changeover.
pub fn changeover_of(line: &[u8]) -> Option<(u64, usize)> {
    let text = std::str::from_utf8(line).ok().filter(|text| text.starts_with("(changeover "))?;
    match numbers(text)[..] {
        [n, room] => Some((n, room as usize)),
        _ => None,
    }
}

/// A trim into a fresh buffer, and a restart from all that it wrote there.
fn change_over(
    session: &mut Session,
    log: &mut Vec<u8>,
    n: u64,
    room: usize,
    rules: Rules,
) -> Answer {
    let site = session.site().ok_or(Refusal::WrongTime)?;
    let mut fresh = vec![7; room];
    let used = site.trim(n, log, &mut fresh)?;
    let restarted = Site::restart(&fresh, used as u64, rules)?;
    let reply = Reply::Restarted { lines: restarted.lines_kept(), bytes: restarted.used() };
    (*session, *log) = (Session::of(restarted, rules), fresh);
    Ok(reply)
}

/// Whether a list has a changeover before its picked cut that is accepted.
pub fn changes_over(list: &ClaimTrial) -> usize {
    let mut watch = list.watch();
    let before = list.pieces.iter().take(list.picked.unwrap_or(0));
    before.filter(|piece| watch.answer(piece).is_ok() && changeover_of(piece).is_some()).count()
}

/// This program by some rules, step by step, so that lists with changeovers can be run.
pub struct Steps {
    pub rules: Rules,
}

impl Player for Steps {
    fn play(&self, list: &ClaimTrial, pieces: &[Vec<u8>]) -> Played {
        let law = Law { rules: self.rules, ..Law::PAPER };
        let mut watch = match &list.start {
            Some(start) => Watch::after(start, list.room, law),
            None => Watch::new(list.room, law),
        };
        let mut out = Vec::new();
        for piece in pieces {
            let answer = watch.answer(piece);
            writer::answer(&mut out, &answer);
        }
        Played { length: Some(out.len()), out, log: watch.log, polls: Vec::new() }
    }
}

/// The recovery claim of a list with changeovers, asked of this program by some rules.
#[derive(Clone)]
pub struct ChangingTrial {
    pub list: ClaimTrial,
    pub rules: Rules,
}

impl Trial for ChangingTrial {
    fn steps(&self) -> usize {
        self.list.steps()
    }

    fn without(&self, steps: Range<usize>) -> ChangingTrial {
        ChangingTrial { list: self.list.without(steps), rules: self.rules }
    }

    fn shown(&self) -> String {
        self.list.shown()
    }

    fn replies(&self, _: &dyn Program) -> Vec<String> {
        Steps { rules: self.rules }.play(&self.list, &self.list.pieces).replies()
    }

    fn difference(&self, _: &dyn Program, _: &dyn Program) -> Option<String> {
        self.list.fault(&Steps { rules: self.rules })
    }
}

/// Lists with changeovers before the picked cut, under a law.
pub fn lists(round: u64, law: Law) -> Vec<ClaimTrial> {
    let mut random = seeded(9, round);
    [8, 12, 16, 20, 30, 60].repeat(3).into_iter().map(|most| list(&mut random, most, law)).collect()
}

/// A list with some changeovers, then perhaps some work, under a law.
fn list(random: &mut Random, most: usize, law: Law) -> ClaimTrial {
    let mut mood = Mood::settling(random);
    if random.percent(40) {
        mood.histories = random.pick(&[2, 3, 5]);
    }
    let turns = random.between(1, 3);
    let more = random.between(0, 12);
    let mut scribe = Scribe::by(law.rules, random, mood);
    for _ in 0..turns {
        let lines = scribe.random.between(most / 2, most);
        scribe.write(lines);
        scribe.change_over(mood.room);
    }
    let lines = scribe.random.between(0, most / 2);
    scribe.write(lines);
    scribe.work(more);
    let pieces = scribe.pieces;
    Resending::new(random, Watch::new(mood.room, law)).list(pieces)
}

/// Lists with changeovers before the picked cut, each asked of this program by some rules.
fn claims_with_changeovers(law: Law, rules: Rules) -> Vec<ChangingTrial> {
    let lists = (0..ROUNDS).flat_map(|round| lists(round, law));
    lists.map(|list| ChangingTrial { list, rules }).collect()
}

/// The shortest list that a program does not do right.
fn shortest_fault(trials: &[ChangingTrial]) -> Option<Mismatch> {
    let paper = Second::from_paper();
    let faults = as_comparisons(trials).filter_map(|trial| trial.mismatch(&paper, &paper));
    faults.take(4).min_by_key(|mismatch| mismatch.steps)
}

/// The claim holds where the log was changed over before the picked cut, and for every order in
/// which few lost lines come again.
#[test]
fn the_recovery_claim_holds_with_changeovers() {
    let trials = claims_with_changeovers(Law::PAPER, Rules::PAPER);
    let (mut changed, mut twice, mut lost) = (0, 0, 0);
    let mut orders = Vec::new();
    for ChangingTrial { list, rules } in &trials {
        let times = changes_over(list);
        changed += usize::from(times > 0);
        twice += usize::from(times > 1);
        let size = list.size().expect("the claim speaks of the list");
        lost += usize::from(times > 0 && size.0 > 0);
        let all = list.every_order().into_iter();
        orders.extend(all.map(|list| ChangingTrial { list, rules: *rules }));
    }
    println!(
        "{changed} lists change over, {twice} twice, {lost} lose lines, {} orders",
        orders.len()
    );
    assert!(changed >= 1500 && twice >= 500 && lost >= 1000 && orders.len() >= 5000);
    for trials in [trials, orders] {
        if let Some(mismatch) = shortest_fault(&trials) {
            panic!("{}", mismatch.report);
        }
    }
}

/// The claim with changeovers is broken by each of these, and needs all of a copy to count.
#[test]
fn the_recovery_claim_notices_broken_changeovers() {
    let flaws = [Flaw::BaseForgotten, Flaw::TrimsToNow, Flaw::BaseNotCounted, Flaw::CutsInsideBase];
    let broken = flaws.map(|flaw| (Law::PAPER, Rules::broken(flaw)));
    let uncounted = (Law::counting(Counting::NotCopied), Rules::PAPER);
    for (law, rules) in broken.into_iter().chain([uncounted]) {
        let mismatch = shortest_fault(&claims_with_changeovers(law, rules));
        let mismatch = mismatch.unwrap_or_else(|| panic!("nothing shows {law:?}, {rules:?}"));
        println!("{} steps: {}", mismatch.steps, mismatch.report);
    }
}
