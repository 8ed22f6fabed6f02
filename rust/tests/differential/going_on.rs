//! Sessions at a site restarted from a log, mostly one with a base line.

use std::ops::Range;

use second::program::{Program, SPARE};
use second::site::Site;

use crate::made_up;
use crate::mood::Mood;
use crate::random::Random;
use crate::rounds::{sample, seeded};
use crate::scribe::Scribe;
use crate::trial::{lines_of, shown_lines, used_buffer, without, Played, Trial};
use crate::trimmed::copy_of;
use crate::watch::{is_did, Law, Watch};

/// A session over a log buffer at whose front a log stands.
#[derive(Clone)]
pub struct GoingOn {
    pub start: Vec<u8>,
    pub pieces: Vec<Vec<u8>>,
    pub room: usize,
}

/// Whether a program can go on from a log.
pub fn can(program: &dyn Program) -> bool {
    program.session_from(b"", &mut b"(site 1)\n".to_vec(), 9, &mut [0; 64]).is_some()
}

/// The sessions from logs of a round.
pub fn sessions(round: u64) -> Vec<GoingOn> {
    let mut random = seeded(10, round);
    let lists = [3, 5, 8, 12, 20, 40, 80];
    let mut sessions: Vec<GoingOn> =
        lists.into_iter().map(|lines| any(&mut random, lines)).collect();
    if round % 16 == 6 {
        let log = sample(&mut random, 16).1;
        let copy = copy_of(&mut random, &log);
        sessions.extend((0..=copy.len() + 1).map(|kept| cut(&mut random, &copy, kept)));
    }
    sessions
}

/// A cut of a copy, all its lines in some order, and a second cut.
fn cut(random: &mut Random, copy: &[u8], kept: usize) -> GoingOn {
    let text = String::from_utf8_lossy(copy);
    let mut dids: Vec<&str> = text.lines().filter(|line| is_did(line)).collect();
    random.shuffle(&mut dids);
    let redos = dids.iter().map(|line| format!("(redo {line})"));
    let again = random.between(0, copy.len() + 1);
    let ends = [format!("(cut {again})"), "(end)".to_string(), "(show 0)".to_string()];
    let lines = [format!("(cut {kept})")].into_iter().chain(redos).chain(ends);
    let pieces = lines.map(|line| format!("{line}\n").into_bytes()).collect();
    GoingOn { start: copy.to_vec(), pieces, room: copy.len() }
}

fn any(random: &mut Random, lines: usize) -> GoingOn {
    let start = made_up::log_to_start_from(random);
    let room = start.len() + random.pick(&[0, 30, 60, 200, 2000]);
    let watch = Watch::after(&start, room, Law::PAPER);
    let histories = watch.session.site().map_or(1, Site::count);
    let mood = Mood { room, histories, ..Mood::any(random) };
    let mut scribe = Scribe::going_on(random, mood, watch);
    if scribe.random.percent(70) {
        scribe.work(0);
    }
    scribe.write(lines);
    GoingOn { start, pieces: scribe.pieces, room }
}

impl GoingOn {
    /// What a program leaves behind, unless it has no such call.
    fn play(&self, program: &dyn Program) -> Option<Played> {
        let mut log = used_buffer(self.room);
        log[..self.start.len()].copy_from_slice(&self.start);
        let mut out = used_buffer(200 * self.pieces.len() + SPARE + 64);
        let input = self.pieces.concat();
        let length = program.session_from(&input, &mut log, self.start.len(), &mut out);
        length?;
        Some(Played { length, out, log, polls: Vec::new() })
    }
}

impl Trial for GoingOn {
    /// The lines of the session, then those of the log.
    fn steps(&self) -> usize {
        self.pieces.len() + lines_of(&self.start).len()
    }

    fn without(&self, steps: Range<usize>) -> GoingOn {
        let (lines, all) = (self.pieces.len(), self.steps());
        let part = |from: usize, to: usize| steps.start.clamp(from, to)..steps.end.clamp(from, to);
        let (session, log) = (part(0, lines), part(lines, all));
        let start = without(&lines_of(&self.start), log.start - lines..log.end - lines).concat();
        GoingOn { start, pieces: without(&self.pieces, session), room: self.room }
    }

    fn shown(&self) -> String {
        let (log, lines) = (lines_of(&self.start), shown_lines(self.pieces.iter()));
        let log = shown_lines(log.iter());
        format!("log at the front of {} bytes:\n{log}session from it:\n{lines}", self.room)
    }

    fn calls(&self) -> usize {
        self.pieces.len() + 1
    }

    fn replies(&self, program: &dyn Program) -> Vec<String> {
        self.play(program).map_or(Vec::new(), |played| played.replies())
    }

    fn difference(&self, left: &dyn Program, right: &dyn Program) -> Option<String> {
        self.play(left)?.difference(&self.play(right)?)
    }
}
