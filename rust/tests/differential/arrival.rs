//! Request (n) of document 02 as a trial: two candidates with one paper up to its cut, to whom all
//! lost lines come in two random orders, with repeats, refused calls and further cuts.
//!
//! What may differ in their logs, and what may not, is worked out from the text of the logs alone.

use std::ops::Range;

use second::program::{Program, Second};
use second::rules::{Flaw, Rules};

use crate::book::histories_of;
use crate::changing::{self, Steps};
use crate::claim::{ClaimTrial, Player, Whole};
use crate::resending::Resending;
use crate::rounds::{self, seeded, ROUNDS};
use crate::trial::{shown_lines, without, Mismatch, Trial};
use crate::watch::{is_did, Law};
use crate::{as_comparisons, broken, shortest};

/// A paper up to its picked cut, which is the last line, and what each of two candidates sends.
#[derive(Clone)]
pub struct TwoOrders {
    paper: ClaimTrial,
    sent: [Vec<Vec<u8>>; 2],
    /// The rules by which this program runs it step by step; else it is one session of a program.
    by: Option<Rules>,
}

/// The did lines of a log before its cut, and at the end.
struct Logs {
    before: Vec<String>,
    end: Vec<String>,
}

impl TwoOrders {
    /// Two orders behind the picked cut of a list.
    fn behind(list: &ClaimTrial, seed: u64, by: Option<Rules>) -> Option<TwoOrders> {
        let front = list.pieces[..=list.picked?].to_vec();
        let tail = |candidate: u64| {
            let mut random = seeded(30 + candidate, seed);
            let again = Resending::new(&mut random, list.watch()).all_again(front.clone());
            again.pieces[front.len()..].to_vec()
        };
        let sent = [tail(0), tail(1)];
        Some(TwoOrders { paper: ClaimTrial { pieces: front, ..list.clone() }, sent, by })
    }

    /// The whole list of a candidate.
    fn list(&self, candidate: usize) -> ClaimTrial {
        let pieces = [self.paper.pieces.as_slice(), &self.sent[candidate]].concat();
        ClaimTrial { pieces, ..self.paper.clone() }
    }

    /// What a candidate's log was and is, if the recovery promise speaks of the list.
    fn logs(&self, candidate: usize, player: &dyn Player) -> Option<Result<Logs, String>> {
        let list = self.list(candidate);
        let (before, end) = list.lengths()?;
        let play = |pieces: &[Vec<u8>]| player.play(&list, pieces);
        let with = |bytes: usize| {
            let line = format!("(cut {bytes})\n").into_bytes();
            let reply = play(&[list.pieces.as_slice(), &[line]].concat()).replies().pop();
            reply.unwrap_or_default()
        };
        if with(end + 1) != "(refused 13)" || !with(end).ends_with(&format!(" {end})")) {
            return Some(Err(format!("the final log should have {end} bytes\n")));
        }
        let first = play(&list.pieces[..list.picked?]).log;
        let last = play(&list.pieces).log;
        Some(Ok(Logs { before: did_lines(&first[..before]), end: did_lines(&last[..end]) }))
    }

    /// What is not the same work, in words.
    fn fault(&self, player: &dyn Player) -> Option<String> {
        let (one, other) = match (self.logs(0, player)?, self.logs(1, player)?) {
            (Ok(one), Ok(other)) => (one, other),
            (Err(fault), _) | (_, Err(fault)) => return Some(fault),
        };
        if one.before != other.before {
            return Some("the logs before the cut differ\n".to_string());
        }
        other_work(&one.before, &one.end)
            .or_else(|| other_work(&one.before, &other.end))
            .or_else(|| other_work(&one.end, &other.end))
    }

    /// Whether the candidates' final logs have their did lines in different orders.
    fn differs(&self) -> bool {
        let player = Steps { rules: Rules::PAPER };
        let logs = |candidate| self.logs(candidate, &player).and_then(Result::ok);
        logs(0).zip(logs(1)).is_some_and(|(one, other)| one.end != other.end)
    }

    fn further_cuts(&self) -> usize {
        let cuts = |sent: &[Vec<u8>]| sent.iter().filter(|line| line.starts_with(b"(cut ")).count();
        cuts(&self.sent[0]) + cuts(&self.sent[1])
    }
}

/// The did lines of a log, in their order.
fn did_lines(log: &[u8]) -> Vec<String> {
    let text = String::from_utf8_lossy(log);
    text.split_inclusive('\n').filter(|line| is_did(line)).map(str::to_string).collect()
}

/// What two logs differ in and may not: the same did lines, each as often, and in each history the
/// same ones in the same order.
fn other_work(one: &[String], other: &[String]) -> Option<String> {
    let sorted = |lines: &[String]| {
        let mut lines = lines.to_vec();
        lines.sort();
        lines
    };
    if sorted(one) != sorted(other) {
        return Some(format!("no rearrangements: {one:?} and {other:?}\n"));
    }
    (0..16).find_map(|history| {
        let within = |lines: &[String]| -> Vec<String> {
            lines.iter().filter(|line| histories_of(line).contains(&history)).cloned().collect()
        };
        let (left, right) = (within(one), within(other));
        (left != right).then(|| format!("in history {history}: {left:?} and {right:?}\n"))
    })
}

impl Trial for TwoOrders {
    fn steps(&self) -> usize {
        self.paper.pieces.len() + self.sent[0].len() + self.sent[1].len()
    }

    /// The steps are the paper's, the first candidate's and the second's.
    fn without(&self, steps: Range<usize>) -> TwoOrders {
        let mut at = 0;
        let mut part = |lines: &[Vec<u8>]| {
            let within = |step: usize| step.clamp(at, at + lines.len()) - at;
            let left = within(steps.start)..within(steps.end);
            at += lines.len();
            (without(lines, left.clone()), left)
        };
        let (_, front) = part(&self.paper.pieces);
        let sent = [part(&self.sent[0]).0, part(&self.sent[1]).0];
        TwoOrders { paper: self.paper.without(front), sent, by: self.by }
    }

    fn shown(&self) -> String {
        let sent = |lines: &[Vec<u8>]| shown_lines(lines.iter());
        let (one, other) = (sent(&self.sent[0]), sent(&self.sent[1]));
        format!("{}one candidate:\n{one}the other:\n{other}", self.paper.shown())
    }

    fn replies(&self, program: &dyn Program) -> Vec<String> {
        [self.list(0).replies(program), self.list(1).replies(program)].concat()
    }

    /// The first program is not asked: the promise speaks of one program alone.
    fn difference(&self, _: &dyn Program, program: &dyn Program) -> Option<String> {
        match self.by {
            Some(rules) => self.fault(&Steps { rules }),
            None => self.fault(&Whole { program }),
        }
    }
}

/// Two orders behind each list that loses two lines or more.
fn two_orders(lists: Vec<ClaimTrial>, by: Option<Rules>) -> Vec<TwoOrders> {
    let lists = lists.into_iter().filter(|list| list.size().is_some_and(|(lost, _)| lost > 1));
    let lists = lists.enumerate();
    lists.filter_map(|(seed, list)| TwoOrders::behind(&list, seed as u64, by)).collect()
}

/// Papers that start at a site just opened, for any program.
pub fn papers() -> Vec<TwoOrders> {
    let marks = |round| rounds::claims_with_marks(round, Law::PAPER).into_iter().step_by(2);
    let lists = |round| rounds::claims(round).into_iter().chain(marks(round));
    two_orders((0..ROUNDS).flat_map(lists).collect(), None)
}

/// Papers with a trimmed log: changeovers to shorter copies before the cut, and starts at a restart
/// from a log. They are run by this program alone, by some rules.
fn trimmed_papers(rules: Rules) -> Vec<TwoOrders> {
    let changing = |round| changing::lists(round, Law::PAPER);
    let changed = |list: &ClaimTrial| changing::changes_over(list) > 0;
    let lists = (0..ROUNDS).flat_map(changing).filter(changed);
    let starts = (0..ROUNDS).flat_map(rounds::claims_from_logs);
    two_orders(lists.chain(starts).collect(), Some(rules))
}

/// The first few faults of a program, and of them the one that is shown by the fewest steps.
fn fault_of(papers: &[TwoOrders], program: &dyn Program) -> Option<Mismatch> {
    shortest(as_comparisons(papers).filter_map(|paper| paper.mismatch(program, program)))
}

/// Two orders do the same work, whatever they are.
pub fn assert_same_work(papers: &[TwoOrders], program: &dyn Program) {
    if let Some(mismatch) = fault_of(papers, program) {
        panic!("{}", mismatch.report);
    }
}

#[test]
fn any_order_does_the_same_work() {
    for papers in [papers(), trimmed_papers(Rules::PAPER)] {
        let differ = papers.iter().filter(|paper| paper.differs()).count();
        let cuts: usize = papers.iter().map(TwoOrders::further_cuts).sum();
        println!("{} papers, in {differ} the logs differ, {cuts} further cuts", papers.len());
        assert!(papers.len() >= 1000 && differ >= 200 && cuts >= 2000);
        assert_same_work(&papers, &Second::from_paper());
    }
}

/// Each of these breaks it.
#[test]
fn other_work_is_noticed() {
    let papers = papers();
    for flaw in [
        Flaw::RedoByVersionAlone,
        Flaw::DrainsOnce,
        Flaw::PlaceForStrongOnly,
        Flaw::TornLineCounted,
        Flaw::WaitingHoldsTwice,
        Flaw::StableLeavesAtOnce,
    ] {
        let mismatch = fault_of(&papers, &broken(flaw));
        let mismatch = mismatch.unwrap_or_else(|| panic!("nothing shows {flaw:?}"));
        println!("{} steps: {}", mismatch.steps, mismatch.report);
    }
    for flaw in [Flaw::BaseForgotten, Flaw::TrimsToNow, Flaw::CutsInsideBase] {
        let papers = trimmed_papers(Rules::broken(flaw));
        let mismatch = fault_of(&papers, &Second::from_paper());
        let mismatch = mismatch.unwrap_or_else(|| panic!("nothing shows {flaw:?}"));
        println!("{} steps: {}", mismatch.steps, mismatch.report);
    }
}

/// It does not say which of several lines that can run goes first, nor what `end` names.
#[test]
fn what_may_differ_is_not_noticed() {
    for flaw in [Flaw::DrainsLatestFirst, Flaw::EndNamesById] {
        assert_same_work(&papers(), &broken(flaw));
    }
}

/// The comparison itself: a line twice, a line of another log, two lines of one history that are no
/// neighbours are noticed; two lines that share none are not.
#[test]
fn two_logs_are_compared() {
    let lines = |ids: &[usize]| -> Vec<String> {
        let all = ["(did 5 (inc 0 1 1 7))\n", "(did 6 (inc 1 1 1 9))\n", "(did 7 (not 0 1 2 0))\n"];
        ids.iter().map(|&id| all[id - 5].to_string()).collect()
    };
    assert!(other_work(&lines(&[5, 6, 7]), &lines(&[6, 5, 7])).is_none());
    assert!(other_work(&lines(&[5, 6, 7]), &lines(&[7, 6, 5])).is_some());
    assert!(other_work(&lines(&[5, 6, 7]), &lines(&[5, 7, 6])).is_none());
    assert!(other_work(&lines(&[5, 5, 6]), &lines(&[5, 6, 6])).is_some());
    assert!(other_work(&lines(&[5, 6]), &lines(&[5, 6, 6])).is_some());
    assert!(other_work(&lines(&[5, 6]), &lines(&[5, 7])).is_some());
}
