//! What two programs are put through, how they are compared, and how a mismatch is shown by
//! as few steps as possible.

use std::fmt::Write;
use std::ops::Range;
use std::sync::LazyLock;

use second::program::{Program, BUSY, DRY, SPARE};
use second::site::Site;

use crate::random::Random;

/// Sessions up to this many lines are compared after every line.
const SHORT: usize = 100;

/// A list of steps for two programs.
pub trait Trial: Sized + Send + Sync {
    fn steps(&self) -> usize;

    /// The trial with some of its steps left out. What is left is compared at its end only,
    /// if that is a choice.
    fn without(&self, steps: Range<usize>) -> Self;

    /// Its steps as text.
    fn shown(&self) -> String;

    /// How many calls are made of each program.
    fn calls(&self) -> usize {
        self.steps()
    }

    /// What a program answers, call by call.
    fn replies(&self, program: &dyn Program) -> Vec<String>;

    /// Where the programs differ, in words.
    fn difference(&self, left: &dyn Program, right: &dyn Program) -> Option<String>;

    /// The trial up to the step after which the programs differ, compared at its end only.
    fn up_to_difference(&self, left: &dyn Program, right: &dyn Program) -> Option<Self> {
        self.difference(left, right).map(|_| self.without(0..0))
    }
}

/// The shortest trial found that shows a difference.
pub struct Mismatch {
    pub steps: usize,
    pub report: String,
}

/// A trial of any kind.
pub trait Comparison: Send + Sync {
    fn calls(&self) -> usize;

    fn answers(&self, program: &dyn Program) -> Vec<String>;

    fn mismatch(&self, left: &dyn Program, right: &dyn Program) -> Option<Mismatch>;

    /// A mismatch that shows at the trial's end, which is found faster.
    fn mismatch_at_end(&self, left: &dyn Program, right: &dyn Program) -> Option<Mismatch>;
}

impl<T: Trial> Comparison for T {
    fn calls(&self) -> usize {
        Trial::calls(self)
    }

    fn answers(&self, program: &dyn Program) -> Vec<String> {
        self.replies(program)
    }

    fn mismatch(&self, left: &dyn Program, right: &dyn Program) -> Option<Mismatch> {
        let failing = self.up_to_difference(left, right)?;
        let shortest = shrink(failing, |trial| trial.difference(left, right).is_some());
        let difference = shortest.difference(left, right)?;
        let mut report = format!("{} and {} differ\n", left.name(), right.name());
        write!(report, "{}{difference}", shortest.shown()).expect("a string takes all");
        Some(Mismatch { steps: shortest.steps(), report })
    }

    fn mismatch_at_end(&self, left: &dyn Program, right: &dyn Program) -> Option<Mismatch> {
        self.without(0..0).mismatch(left, right)
    }
}

/// Leaves out steps as long as the trial fails: runs of steps, ever shorter, until no single
/// step can be left out.
fn shrink<T: Trial>(trial: T, fails: impl Fn(&T) -> bool) -> T {
    let mut shortest = trial;
    let mut run = shortest.steps().div_ceil(2);
    loop {
        let before = shortest.steps();
        let mut at = before;
        while at > 0 {
            let from = at.saturating_sub(run);
            let tried = shortest.without(from..at);
            if fails(&tried) {
                shortest = tried;
            }
            at = from;
        }
        if shortest.steps() == before {
            if run <= 1 {
                return shortest;
            }
            run /= 2;
        }
    }
}

/// A list without some of its members.
pub fn without<T: Clone>(list: &[T], gone: Range<usize>) -> Vec<T> {
    [&list[..gone.start], &list[gone.end..]].concat()
}

/// A buffer that something was in before: random bytes, and lines of another log.
pub fn used_buffer(length: usize) -> Vec<u8> {
    static BYTES: LazyLock<Vec<u8>> = LazyLock::new(|| {
        let mut random = Random::new(5);
        let mut bytes = Vec::new();
        while bytes.len() < 100_000 {
            let strange = random.between(1, 100);
            bytes.extend((0..strange).map(|_| random.number() as u8));
            bytes.extend(b"\n(did 5 (inc 0 1 1 513)(not 1 0 1 0))\n");
        }
        bytes
    });
    let mut buffer = BYTES.repeat(length / BYTES.len());
    buffer.extend_from_slice(&BYTES[..length % BYTES.len()]);
    buffer
}

/// The lines of some bytes, each with its end but perhaps the last.
pub fn lines_of(bytes: &[u8]) -> Vec<Vec<u8>> {
    bytes.split_inclusive(|&byte| byte == b'\n').map(<[u8]>::to_vec).collect()
}

/// Lines of bytes, each as text behind a margin.
pub fn shown_lines<'l>(lines: impl Iterator<Item = &'l Vec<u8>>) -> String {
    lines.map(|line| format!("    {}\n", line.escape_ascii())).collect()
}

/// A session over a log buffer of some length. All pieces but perhaps the last have their end.
#[derive(Clone)]
pub struct SessionTrial {
    pub pieces: Vec<Vec<u8>>,
    pub room: usize,
    /// How many lines come before it is compared after every line.
    pub unwatched: usize,
}

/// What a session leaves behind.
#[derive(PartialEq, Eq)]
pub struct Played {
    pub length: Option<usize>,
    pub out: Vec<u8>,
    pub log: Vec<u8>,
    /// What polls give at its end, if it was run to poll.
    pub polls: Vec<u64>,
}

/// The histories that are polled: all that a site can have, one more, and numbers far above.
pub fn polled() -> Vec<u64> {
    (0..=Site::MOST_HISTORIES).chain([17, 255, 256, 1 << 32, 1 << 63, u64::MAX]).collect()
}

impl Played {
    /// Runs a session with room enough for its replies.
    pub fn by(program: &dyn Program, pieces: &[Vec<u8>], room: usize) -> Played {
        let mut log = used_buffer(room);
        let mut out = used_buffer(200 * pieces.len() + SPARE);
        let length = program.session(&pieces.concat(), &mut log, &mut out);
        Played { length, out, log, polls: Vec::new() }
    }

    /// The same, with every history polled at its end.
    pub fn polled_by(program: &dyn Program, pieces: &[Vec<u8>], room: usize) -> Played {
        let (mut log, mut polls) = (used_buffer(room), polled());
        let mut out = used_buffer(200 * pieces.len() + SPARE);
        let length = program.session_polls(&pieces.concat(), &mut log, &mut out, &mut polls);
        Played { length, out, log, polls }
    }

    pub fn replies(&self) -> Vec<String> {
        let replies = &self.out[..self.length.unwrap_or(0).min(self.out.len())];
        replies.split_inclusive(|&byte| byte == b'\n').map(as_text).collect()
    }

    /// How this differs from what another program left behind. Replies that do not fit are
    /// a difference too: there is always room for them.
    pub fn difference(&self, other: &Played) -> Option<String> {
        if self == other && self.length.is_some() {
            return None;
        }
        let (left, right) = (self.replies(), other.replies());
        if let Some(at) = first_difference(&left, &right) {
            let reply = |replies: &[String]| replies.get(at).cloned().unwrap_or("none".to_string());
            return Some(format!("reply {} is {}, or {}\n", at + 1, reply(&left), reply(&right)));
        }
        if let Some(at) = first_difference(&self.polls, &other.polls) {
            let (left, right) = (self.polls[at], other.polls[at]);
            return Some(format!("a poll of history {} gives {left}, or {right}\n", polled()[at]));
        }
        Some(match first_difference(&self.log, &other.log) {
            Some(at) => format!("byte {at} of the log buffer differs\n"),
            None if self.length.is_none() => "there is no room for the replies\n".to_string(),
            None => "the reply buffer differs behind the replies\n".to_string(),
        })
    }
}

/// A reply without its end, as text.
fn as_text(reply: &[u8]) -> String {
    reply.strip_suffix(b"\n").unwrap_or(reply).escape_ascii().to_string()
}

/// Where two lists first differ.
pub fn first_difference<T: PartialEq>(left: &[T], right: &[T]) -> Option<usize> {
    if left == right {
        return None;
    }
    let longest = left.len().max(right.len());
    (0..longest).find(|&at| left.get(at) != right.get(at))
}

impl SessionTrial {
    pub fn new(pieces: Vec<Vec<u8>>, room: usize) -> SessionTrial {
        let unwatched = if pieces.len() > SHORT { pieces.len() - 1 } else { 0 };
        SessionTrial { pieces, room, unwatched }
    }

    /// The trial compared at its end only.
    fn at_end(pieces: Vec<Vec<u8>>, room: usize) -> SessionTrial {
        let unwatched = pieces.len().saturating_sub(1);
        SessionTrial { pieces, room, unwatched }
    }

    /// How many lines it is compared after.
    pub fn watched(&self) -> usize {
        self.pieces.len() - self.unwatched
    }

    /// After how many lines the programs differ, and how: with the histories polled after each
    /// of them, and without at the end.
    fn first_difference(&self, left: &dyn Program, right: &dyn Program) -> Option<(usize, String)> {
        let polled = (self.unwatched + 1..=self.pieces.len()).find_map(|length| {
            let played = |program| Played::polled_by(program, &self.pieces[..length], self.room);
            Some((length, played(left).difference(&played(right))?))
        });
        polled.or_else(|| {
            let played = |program| Played::by(program, &self.pieces, self.room);
            Some((self.pieces.len(), played(left).difference(&played(right))?))
        })
    }
}

impl Trial for SessionTrial {
    fn steps(&self) -> usize {
        self.pieces.len()
    }

    fn without(&self, steps: Range<usize>) -> SessionTrial {
        SessionTrial::at_end(without(&self.pieces, steps), self.room)
    }

    fn shown(&self) -> String {
        let lines = shown_lines(self.pieces.iter());
        format!("session over a log buffer of {} bytes:\n{lines}", self.room)
    }

    fn replies(&self, program: &dyn Program) -> Vec<String> {
        let played = Played::polled_by(program, &self.pieces, self.room);
        let polls = played.polls.iter().map(|&poll| match poll {
            DRY => "poll dry".to_string(),
            BUSY => "poll not dry".to_string(),
            number => format!("poll refused {number}"),
        });
        played.replies().into_iter().chain(polls).collect()
    }

    fn difference(&self, left: &dyn Program, right: &dyn Program) -> Option<String> {
        self.first_difference(left, right).map(|found| found.1)
    }

    fn up_to_difference(&self, left: &dyn Program, right: &dyn Program) -> Option<SessionTrial> {
        let length = self.first_difference(left, right)?.0;
        Some(SessionTrial::at_end(self.pieces[..length].to_vec(), self.room))
    }
}

/// A restart from the first bytes of a log.
#[derive(Clone)]
pub struct RestartTrial {
    /// The bytes to restart from.
    pub kept: Vec<u8>,
    /// The bytes of the buffer behind them.
    pub rest: Vec<u8>,
    /// How far the number of bytes to restart from is above the buffer.
    pub above: usize,
}

impl RestartTrial {
    fn reply(&self, program: &dyn Program) -> (Option<usize>, Vec<u8>) {
        let log = [self.kept.as_slice(), &self.rest].concat();
        let mut out = used_buffer(64);
        let length = program.restart(&log, self.kept.len() + self.above, &mut out);
        (length, out)
    }
}

impl Trial for RestartTrial {
    fn steps(&self) -> usize {
        lines_of(&self.kept).len()
    }

    fn without(&self, steps: Range<usize>) -> RestartTrial {
        let kept = without(&lines_of(&self.kept), steps).concat();
        RestartTrial { kept, rest: self.rest.clone(), above: self.above }
    }

    fn shown(&self) -> String {
        let lines = shown_lines(lines_of(&self.kept).iter());
        let (rest, above) = (self.rest.len(), self.above);
        format!("restart, {rest} bytes behind, {above} bytes above:\n{lines}")
    }

    fn calls(&self) -> usize {
        1
    }

    fn replies(&self, program: &dyn Program) -> Vec<String> {
        let (length, out) = self.reply(program);
        vec![format!("restart {}", as_text(&out[..length.unwrap_or(0).min(out.len())]))]
    }

    fn difference(&self, left: &dyn Program, right: &dyn Program) -> Option<String> {
        let reply = self.reply(left);
        let differ = reply != self.reply(right) || reply.0.is_none();
        let replies = (self.replies(left), self.replies(right));
        differ.then(|| format!("the replies are {replies:?}\n"))
    }
}
