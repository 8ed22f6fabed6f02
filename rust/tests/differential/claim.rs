//! The recovery claim as a trial: a random list of calls, a picked fair cut, a random choice
//! of lost lines that come again in a random order, and what must hold at the end.
//!
//! What must hold is worked out here from the text of the log alone.

use std::ops::Range;

use second::forms::Command;
use second::program::Program;
use second::site::Site;

use crate::book::{histories_of, id_of, numbers, Book};
use crate::made_up;
use crate::mood::Mood;
use crate::random::Random;
use crate::resending::Resending;
use crate::scribe::Scribe;
use crate::trial::{shown_lines, without, Played, Trial};
use crate::watch::{base_of, command_of, is_did, is_stable, line_of, Law, Watch};

/// A session with a picked cut in it.
#[derive(Clone)]
pub struct ClaimTrial {
    pub pieces: Vec<Vec<u8>>,
    pub room: usize,
    /// Which line is the picked cut, while it is there.
    pub picked: Option<usize>,
    pub law: Law,
    /// The log from which the site is restarted first, if it is not opened.
    pub start: Option<Vec<u8>>,
}

impl ClaimTrial {
    /// A list with at most this many lines, or a few more, before the picked cut.
    pub fn any(random: &mut Random, most: usize) -> ClaimTrial {
        let mut mood = Mood::careful(random);
        if random.percent(30) {
            mood.room = random.between(200, 2000);
        }
        let lines = random.between(most / 2, most);
        let works = random.percent(30);
        let mut scribe = Scribe::new(random, mood);
        if works {
            scribe.write(lines / 8);
            scribe.work(lines);
        } else {
            scribe.write(lines);
        }
        let pieces = scribe.pieces;
        Resending::new(random, Watch::new(mood.room, Law::PAPER)).list(pieces)
    }

    /// A list in which marks come often and ids come again, then some work without them, under a law.
    pub fn with_marks(random: &mut Random, most: usize, law: Law) -> ClaimTrial {
        let mood = Mood::settling(random);
        let (lines, more) = (random.between(most / 2, most), random.between(0, 12));
        let mut scribe = Scribe::by(law.rules, random, mood);
        scribe.write(lines);
        scribe.work(more);
        let pieces = scribe.pieces;
        Resending::new(random, Watch::new(mood.room, law)).list(pieces)
    }

    /// A list that starts at a site restarted from a log, perhaps one that was changed over.
    pub fn from_log(random: &mut Random, most: usize) -> ClaimTrial {
        let start = made_up::log_to_start_from(random);
        let room = start.len() + random.between(40, 2000);
        let watch = || Watch::after(&start, room, Law::PAPER);
        let histories = watch().session.site().map_or(1, Site::count);
        let mood = Mood { room, histories, ..Mood::settling(random) };
        let (lines, more) = (random.between(most / 2, most), random.between(0, 12));
        let mut scribe = Scribe::going_on(random, mood, watch());
        scribe.write(lines);
        scribe.work(more);
        let pieces = scribe.pieces;
        let list = Resending::new(random, watch()).list(pieces);
        ClaimTrial { start: Some(start), ..list }
    }

    /// What the claim says of the list, if it speaks of it, and a player does not do.
    pub fn fault(&self, player: &dyn Player) -> Option<String> {
        Claim::of(self)?.fault(player)
    }

    /// A session by the law that begins as the list does.
    pub fn watch(&self) -> Watch {
        match &self.start {
            Some(start) => Watch::after(start, self.room, self.law),
            None => Watch::new(self.room, self.law),
        }
    }

    /// Whether the picked cut loses a stable line.
    pub fn loses_stable_lines(&self) -> bool {
        Claim::of(self).is_some_and(|claim| claim.lost_marks > 0)
    }

    /// Whether the picked cut keeps a stable line.
    pub fn keeps_stable_lines(&self) -> bool {
        Claim::of(self).is_some_and(|claim| claim.kept.iter().any(|line| is_stable(line)))
    }

    /// Whether the picked cut keeps a did line behind the last stable line and loses another.
    pub fn has_lines_live_again(&self) -> bool {
        Claim::of(self).is_some_and(|claim| {
            let marks = claim.kept.iter().rev().find(|line| is_stable(line));
            let base = base_of(claim.kept.iter().map(String::as_str));
            let stable = marks.map_or(base, |line| numbers(line)[0]);
            let dids = claim.kept.iter().filter(|line| is_did(line)).count() as u64;
            base + dids > stable && !claim.lost.is_empty()
        })
    }

    /// Whether a lost line has the id of a kept one.
    pub fn uses_an_id_again(&self) -> bool {
        Claim::of(self).is_some_and(|claim| {
            let kept: Vec<&String> = claim.kept.iter().filter(|line| is_did(line)).collect();
            claim.lost.iter().any(|lost| kept.iter().any(|kept| id_of(kept) == id_of(lost)))
        })
    }

    /// The same list up to its picked cut, and all that is lost in every order, if it is little.
    pub fn every_order(&self) -> Vec<ClaimTrial> {
        let Some(claim) = Claim::of(self).filter(|claim| claim.lost.len() <= 4) else {
            return Vec::new();
        };
        let start = &self.pieces[..=claim.picked];
        let list = |order: Vec<&String>| {
            let redo = |line: &&String| format!("(redo {})\n", line.trim_end()).into_bytes();
            let pieces = start.iter().cloned().chain(order.iter().map(redo)).collect();
            ClaimTrial { pieces, ..self.clone() }
        };
        orders(&claim.lost.iter().collect::<Vec<_>>()).into_iter().map(list).collect()
    }

    /// The bytes of the log before the picked cut and of the log at the end, if the claim speaks of
    /// this list and every lost line was chosen.
    pub fn lengths(&self) -> Option<(usize, usize)> {
        let claim = Claim::of(self).filter(|claim| claim.chosen.iter().all(|&chosen| chosen))?;
        let kept = claim.kept.concat().len();
        Some((kept + claim.gone, kept + claim.lost.concat().len()))
    }

    /// How many lines were lost, and how many of them were chosen, if the claim speaks of
    /// this list.
    pub fn size(&self) -> Option<(usize, usize)> {
        let claim = Claim::of(self)?;
        Some((claim.lost.len(), claim.chosen.iter().filter(|&&chosen| chosen).count()))
    }
}

impl Trial for ClaimTrial {
    fn steps(&self) -> usize {
        self.pieces.len()
    }

    fn without(&self, steps: Range<usize>) -> ClaimTrial {
        let picked = match self.picked {
            Some(picked) if steps.contains(&picked) => None,
            Some(picked) if picked >= steps.end => Some(picked - steps.len()),
            picked => picked,
        };
        ClaimTrial { pieces: without(&self.pieces, steps), picked, ..self.clone() }
    }

    fn shown(&self) -> String {
        let lines = shown_lines(self.pieces.iter());
        let picked = self.picked.map_or(0, |picked| picked + 1);
        format!("log buffer of {} bytes, cut in line {picked} picked:\n{lines}", self.room)
    }

    fn replies(&self, program: &dyn Program) -> Vec<String> {
        Played::by(program, &self.pieces, self.room).replies()
    }

    /// The first program is not asked: the claim speaks of one program alone.
    fn difference(&self, _: &dyn Program, program: &dyn Program) -> Option<String> {
        self.fault(&Whole { program })
    }
}

/// Whoever can run lines as a list begins.
pub trait Player {
    fn play(&self, list: &ClaimTrial, pieces: &[Vec<u8>]) -> Played;
}

/// A program that runs them as one session.
pub struct Whole<'p> {
    pub program: &'p dyn Program,
}

impl Player for Whole<'_> {
    fn play(&self, list: &ClaimTrial, pieces: &[Vec<u8>]) -> Played {
        Played::by(self.program, pieces, list.room)
    }
}

/// The did line that a redo brings, with its end.
fn brought(piece: &[u8]) -> Option<String> {
    let line = line_of(piece).strip_prefix(b"(redo ")?.strip_suffix(b")")?;
    Some(format!("{}\n", std::str::from_utf8(line).ok()?))
}

/// A list for which everything holds that the claim asks for.
struct Claim<'t> {
    trial: &'t ClaimTrial,
    picked: usize,
    histories: u64,
    /// The lines that the picked cut kept, and the did lines that it lost, in first order.
    kept: Vec<String>,
    lost: Vec<String>,
    /// How many stable lines it lost, and the bytes of all lines that it lost.
    lost_marks: usize,
    gone: usize,
    /// Whether each lost line was chosen.
    chosen: Vec<bool>,
    /// What came after the last accepted cut.
    came: Vec<String>,
}

impl<'t> Claim<'t> {
    /// Looks whether the cuts from the picked one on are fair, whether each accepted redo
    /// brings a lost line that comes after the last accepted cut, and that no end is accepted.
    fn of(trial: &'t ClaimTrial) -> Option<Claim<'t>> {
        let picked = trial.picked?;
        let mut watch = trial.watch();
        for piece in &trial.pieces[..picked] {
            let _ = watch.answer(piece);
        }
        let histories = watch.session.site()?.count();
        let first: Vec<String> = watch.text().split_inclusive('\n').map(str::to_string).collect();
        let (mut came, mut accepted) = (Vec::new(), Vec::new());
        let mut kept = 0;
        for (at, piece) in trial.pieces.iter().enumerate().skip(picked) {
            let fewest = watch.fewest();
            let answer = watch.answer(piece);
            let command = command_of(piece);
            match (command, answer) {
                (Some(Command::Cut(bytes)), Ok(_)) => {
                    if bytes < fewest as u64 {
                        return None;
                    }
                    came.clear();
                }
                _ if at == picked => return None,
                (Some(Command::End), Ok(_)) => return None,
                (None, Ok(_)) => return None,
                (Some(Command::Redo(_)), answer) => {
                    let line = brought(piece)?;
                    if answer.is_ok() {
                        accepted.push(line.clone());
                    }
                    came.push(line);
                }
                _ => {}
            }
            if at == picked {
                kept = watch.text().lines().count();
            }
        }
        let lost: Vec<String> = first[kept..].iter().filter(|line| is_did(line)).cloned().collect();
        let chosen: Vec<bool> = lost.iter().map(|line| came.contains(line)).collect();
        let is_chosen = |line| lost.iter().zip(&chosen).any(|(lost, &yes)| yes && lost == line);
        if !accepted.iter().all(is_chosen) {
            return None;
        }
        let lost_marks = first.len() - kept - lost.len();
        let gone = first[kept..].concat().len();
        let kept = first[..kept].to_vec();
        Some(Claim { trial, picked, histories, kept, lost, lost_marks, gone, chosen, came })
    }

    /// What the claim says and the program does not do.
    fn fault(&self, player: &dyn Player) -> Option<String> {
        let run = self.lines_that_run();
        let book = Book::of(&[self.kept.as_slice(), &run].concat(), self.histories);
        let shown = self.show_all(player, self.trial.pieces.len());
        if shown != book.shown() {
            let book = book.shown();
            return Some(format!(
                "versions, places and profiles: the book has {book:?}, show gives {shown:?}\n"
            ));
        }
        if self.chosen.iter().all(|&chosen| chosen) {
            let before = self.show_all(player, self.picked);
            if shown != before {
                return Some(format!("before the cut {before:?}, at the end {shown:?}\n"));
            }
        }
        self.fault_of_log(player, &run).or_else(|| self.fault_of_end(player, &run))
    }

    /// The chosen lines whose traced lines are all chosen, in first order.
    fn lines_that_run(&self) -> Vec<String> {
        let touched: Vec<Vec<u64>> = self.lost.iter().map(|line| histories_of(line)).collect();
        let mut runs: Vec<bool> = Vec::new();
        for (at, &chosen) in self.chosen.iter().enumerate() {
            let shares = |earlier: usize| touched[earlier].iter().any(|h| touched[at].contains(h));
            runs.push(chosen && (0..at).all(|earlier| !shares(earlier) || runs[earlier]));
        }
        let runs = self.lost.iter().zip(runs).filter(|line| line.1);
        runs.map(|line| line.0.clone()).collect()
    }

    /// The log is the kept lines, then each line that has run, once, and no more.
    fn fault_of_log(&self, player: &dyn Player, run: &[String]) -> Option<String> {
        let (kept, mut run) = (self.kept.concat(), run.to_vec());
        let length = kept.len() + run.concat().len();
        let played = self.play(player, self.trial.pieces.len(), &[]);
        let log = &played.log[..length.min(played.log.len())];
        let log = String::from_utf8_lossy(log).to_string();
        let mut behind: Vec<&str> =
            log.get(kept.len()..).unwrap_or("").split_inclusive('\n').collect();
        run.sort();
        behind.sort();
        if !log.starts_with(&kept) || behind != run {
            return Some(format!("the log should be {kept}{}, and is {log}\n", run.concat()));
        }
        let dids = self.kept.iter().filter(|line| is_did(line)).count() + run.len();
        let lines = base_of(self.kept.iter().map(String::as_str)) + dids as u64;
        for (bytes, expected) in
            [(length, format!("(ok {lines} {length})")), (length + 1, "(refused 13)".to_string())]
        {
            let reply = self.last_reply(player, &format!("(cut {bytes})\n"));
            if reply != expected {
                return Some(format!("cut {bytes} should give {expected}, and gives {reply}\n"));
            }
        }
        None
    }

    /// `end` names the other chosen lines in the order in which each first came.
    fn fault_of_end(&self, player: &dyn Player, run: &[String]) -> Option<String> {
        let mut named: Vec<&String> = Vec::new();
        for line in &self.came {
            if self.lost.contains(line) && !run.contains(line) && !named.contains(&line) {
                named.push(line);
            }
        }
        let ids: String = named.iter().map(|line| format!(" {}", id_of(line))).collect();
        let expected = format!("(ok (waiting{ids}))");
        let reply = self.last_reply(player, "(end)\n");
        (reply != expected).then(|| format!("end should give {expected}, and gives {reply}\n"))
    }

    /// Runs the first lines and some more.
    fn play(&self, player: &dyn Player, lines: usize, more: &[Vec<u8>]) -> Played {
        player.play(self.trial, &[&self.trial.pieces[..lines], more].concat())
    }

    fn last_reply(&self, player: &dyn Player, line: &str) -> String {
        let played = self.play(player, self.trial.pieces.len(), &[line.as_bytes().to_vec()]);
        played.replies().pop().unwrap_or_default()
    }

    /// Version, place and profile of each history after the first lines.
    fn show_all(&self, player: &dyn Player, lines: usize) -> Vec<[u64; 3]> {
        let shows: Vec<Vec<u8>> =
            (0..self.histories).map(|at| format!("(show {at})\n").into_bytes()).collect();
        let replies = self.play(player, lines, &shows).replies();
        let shown = &replies[replies.len().saturating_sub(shows.len())..];
        shown
            .iter()
            .map(|reply| {
                let fields = numbers(reply);
                let field = |at: usize| fields.get(at).copied().unwrap_or(u64::MAX);
                [field(1), field(4), field(5)]
            })
            .collect()
    }
}

/// A list in each of its orders.
fn orders<T: Copy>(list: &[T]) -> Vec<Vec<T>> {
    if list.is_empty() {
        return vec![Vec::new()];
    }
    let first = |at: usize| {
        let behind = orders(&without(list, at..at + 1));
        behind.into_iter().map(move |order| [&[list[at]], order.as_slice()].concat())
    };
    (0..list.len()).flat_map(first).collect()
}
