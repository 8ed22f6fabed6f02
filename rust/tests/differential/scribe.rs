//! Writes random sessions. A session of this program runs along, so that most lines fit the
//! state they meet; what the programs under comparison answer plays no part.

use second::forms::Rule;
use second::rules::Rules;
use second::session::Session;
use second::site::{History, Site};

use crate::book::id_of;
use crate::made_up::{self, Now};
use crate::mood::{Habit, Mood};
use crate::random::{Random, EDGES};
use crate::watch::{is_did, Watch};
use crate::{changing, damage};

#[derive(Clone, Copy, PartialEq)]
enum Kind {
    Site,
    Add,
    Finish,
    Withdraw,
    Persistent,
    Stable,
    Show,
    Cut,
    Redo,
    End,
    Long,
}

/// How often each kind of line comes while the site works, hoards, settles, restores, or restores
/// in order to settle.
const KINDS: [(Kind, [u64; 5]); 11] = [
    (Kind::Site, [1, 0, 0, 1, 0]),
    (Kind::Add, [36, 110, 34, 2, 2]),
    (Kind::Finish, [34, 80, 34, 1, 1]),
    (Kind::Withdraw, [5, 5, 2, 1, 1]),
    (Kind::Persistent, [7, 2, 24, 5, 5]),
    (Kind::Stable, [5, 1, 14, 3, 5]),
    (Kind::Show, [4, 2, 2, 4, 2]),
    (Kind::Cut, [3, 1, 3, 5, 3]),
    (Kind::Redo, [1, 0, 0, 70, 25]),
    (Kind::End, [1, 0, 0, 5, 20]),
    (Kind::Long, [1, 0, 0, 1, 0]),
];

/// Writes a session line by line.
pub struct Scribe<'r> {
    pub random: &'r mut Random,
    pub session: Session,
    pub log: Vec<u8>,
    /// The lines so far, each with its end.
    pub pieces: Vec<Vec<u8>>,
    mood: Mood,
    rules: Rules,
    /// The ids so far.
    ids: Vec<u64>,
    /// Did lines that cuts have lost.
    lost: Vec<String>,
}

impl<'r> Scribe<'r> {
    pub fn new(random: &'r mut Random, mood: Mood) -> Scribe<'r> {
        Scribe::by(Rules::PAPER, random, mood)
    }

    /// One who goes on from where a session stands.
    pub fn going_on(random: &'r mut Random, mood: Mood, watch: Watch) -> Scribe<'r> {
        let ids = watch.text().lines().filter(|line| is_did(line)).map(id_of).collect();
        let (session, log) = (watch.session.clone(), watch.log.clone());
        Scribe { session, log, ids, ..Scribe::new(random, mood) }
    }

    /// One beside whom a session by these rules runs along.
    pub fn by(rules: Rules, random: &'r mut Random, mood: Mood) -> Scribe<'r> {
        Scribe {
            random,
            session: Session::new(rules),
            log: vec![0; mood.room],
            pieces: Vec::new(),
            mood,
            rules,
            ids: Vec::new(),
            lost: Vec::new(),
        }
    }

    /// Writes the site line, as a rule, and this many lines behind it.
    pub fn write(&mut self, lines: usize) {
        while self.random.percent(8) {
            self.step();
        }
        let open = format!("(site {})", self.mood.histories);
        self.say(open.as_bytes());
        for _ in 0..lines {
            self.step();
        }
    }

    /// Writes this many lines that get work done, without marks and cuts.
    pub fn work(&mut self, lines: usize) {
        self.say(b"(end)");
        for _ in 0..lines {
            let kind = if self.pending_ids(true).is_empty() { Kind::Add } else { Kind::Finish };
            let kind = self.random.weighted(&[(8, kind), (4, Kind::Add), (1, Kind::Withdraw)]);
            let line = self.line_of(kind);
            self.say(&line);
        }
    }

    /// Changes over to a copy, mostly one that is to be had, in a buffer up to the longest so far.
    pub fn change_over(&mut self, longest: usize) {
        let (base, stable) = self.marks(Site::base, Site::stable_mark);
        let n = match self.random.below(20) {
            0 => stable + 1,
            1 => base.wrapping_sub(1),
            2..=4 => base,
            5..=14 => stable,
            _ => base + self.random.below(stable - base + 1),
        };
        let room = match self.random.below(10) {
            0 => self.random.between(0, longest),
            1..=3 => self.random.between(self.used().min(longest), longest),
            _ => longest,
        };
        self.say(format!("(changeover {n} {room})").as_bytes());
    }

    /// Adds a line without its end.
    pub fn leave_rest(&mut self) {
        let rest = self.next_line();
        self.pieces.push(rest);
    }

    /// Writes a line and lets the session answer it.
    fn say(&mut self, line: &[u8]) {
        let used = self.used();
        let before = self.log[..used].to_vec();
        let _ = changing::answer(&mut self.session, &mut self.log, line, self.rules);
        let lost = String::from_utf8_lossy(&before[self.used().min(used)..]);
        for line in lost.lines().filter(|line| is_did(line)) {
            if !self.lost.iter().any(|known| known == line) {
                self.lost.push(line.to_string());
            }
        }
        self.pieces.push([line, b"\n"].concat());
    }

    /// The bytes of the log in use.
    pub fn used(&self) -> usize {
        self.session.site().map_or(0, Site::used)
    }

    fn step(&mut self) {
        let mut line = self.next_line();
        if self.random.percent(self.mood.damage) {
            line = damage::line(self.random, &line);
        }
        self.say(&line);
    }

    fn next_line(&mut self) -> Vec<u8> {
        let restoring = self.session.site().map(Site::is_restoring);
        let column = match (restoring, self.mood.habit) {
            (None, _) | (Some(false), Habit::Plain) => 0,
            (Some(false), Habit::Hoards) => 1,
            (Some(false), Habit::Settles) => 2,
            (Some(true), Habit::Plain | Habit::Hoards) => 3,
            (Some(true), Habit::Settles) => 4,
        };
        let kind = self.random.weighted(&KINDS.map(|(kind, weights)| (weights[column], kind)));
        let in_vain = kind == Kind::Finish && self.pending_ids(true).is_empty();
        let kind = if in_vain && self.random.percent(80) { Kind::Add } else { kind };
        self.line_of(kind)
    }

    fn line_of(&mut self, kind: Kind) -> Vec<u8> {
        let text = match kind {
            Kind::Site => format!("(site {})", self.random.pick(&[0, 1, 2, 16, 17, u64::MAX])),
            Kind::Add => self.add(),
            Kind::Finish => format!("(finish {})", self.pending_id(true)),
            Kind::Withdraw => format!("(withdraw {})", self.pending_id(false)),
            Kind::Persistent => {
                let (reached, done) = self.marks(Site::persistent_mark, Site::done);
                format!("(persistent {})", self.mark(reached, done))
            }
            Kind::Stable => {
                let (reached, persistent) = self.marks(Site::stable_mark, Site::persistent_mark);
                format!("(stable {})", self.mark(reached, persistent))
            }
            Kind::Show => format!("(show {})", self.history()),
            Kind::Cut => format!("(cut {})", self.cut()),
            Kind::Redo => format!("(redo {})", self.did()),
            Kind::End => "(end)".to_string(),
            Kind::Long => {
                let length = self.random.pick(&[1000, 1023, 1024, 1024, 1025, 1026, 5000]);
                return damage::long_line(self.random, length);
            }
        };
        text.into_bytes()
    }

    fn add(&mut self) -> String {
        let id = self.id();
        let updates: String = self.histories().into_iter().map(|at| self.update(at)).collect();
        made_up::form("add", id, &updates)
    }

    fn update(&mut self, history: u64) -> String {
        let last = self.shown(history).version == u64::MAX;
        let rule = self.random.weighted(&[
            (40, Rule::Inc),
            (22, Rule::Set),
            (26, Rule::Not),
            (if last { 90 } else { 12 }, Rule::Unk),
        ]);
        let version = self.version(rule, history);
        let operand = made_up::operand(self.random, rule);
        format!("({} {history} {version} {operand})", rule.word().escape_ascii())
    }

    /// A did line: a lost one, one that the log has, or one made up.
    fn did(&mut self) -> String {
        let from = self.random.below(100);
        if from < 75 && !self.lost.is_empty() {
            let at = self.random.index(self.lost.len());
            return self.lost[at].clone();
        }
        let kept = String::from_utf8_lossy(&self.log[..self.used()]);
        let kept: Vec<&str> = kept.lines().skip(1).collect();
        if from < 80 && !kept.is_empty() {
            return self.random.pick(&kept).to_string();
        }
        let id = self.id();
        let entries: String = self.histories().into_iter().map(|at| self.entry(at)).collect();
        made_up::form("did", id, &entries)
    }

    fn entry(&mut self, history: u64) -> String {
        let shown = self.shown(history);
        let now = Now { version: shown.version, place: shown.place };
        made_up::entry(self.random, self.mood.care, history, now).0
    }

    /// The history, or one at which nothing has happened.
    fn shown(&self, history: u64) -> History {
        self.session.site().and_then(|site| site.show(history).ok()).unwrap_or_default()
    }

    /// The histories of an operation or a did line: mostly one to four different ones.
    fn histories(&mut self) -> Vec<u64> {
        match self.random.below(100) {
            0 => Vec::new(),
            1..=6 => {
                let count = self.random.pick(&[1, 2, 2, 3, 4, 5, 9]);
                (0..count).map(|_| self.history()).collect()
            }
            7 => (0..self.mood.histories).collect(),
            _ => made_up::histories(self.random, self.mood.histories),
        }
    }

    /// A history, perhaps one that does not exist.
    fn history(&mut self) -> u64 {
        let count = self.mood.histories;
        match self.random.below(100) {
            0..=3 => count,
            4..=5 => self.random.pick(&[15, 16, 17, 255, u64::MAX]),
            _ => self.random.below(count),
        }
    }

    /// An id: mostly a new one, above or below those before it.
    fn id(&mut self) -> u64 {
        let id = match self.random.below(100) {
            again if again < self.mood.repeats && !self.ids.is_empty() => self.known_id(),
            95..=96 => self.random.pick(&EDGES),
            71..=94 => 1_000_000 - self.ids.len() as u64,
            _ => self.ids.len() as u64 + 5,
        };
        self.ids.push(id);
        id
    }

    /// An id that came before; where much gets stable, mostly one that has left the table.
    fn known_id(&mut self) -> u64 {
        let left = self.session.site().map_or(0, |site| site.left_mark() - site.base()) as usize;
        let log = String::from_utf8_lossy(&self.log[..self.used()]);
        let gone: Vec<u64> =
            log.lines().filter(|line| is_did(line)).take(left).map(id_of).collect();
        if gone.is_empty() || self.mood.habit != Habit::Settles || self.random.percent(20) {
            return self.random.pick(&self.ids);
        }
        self.random.pick(&gone)
    }

    fn version(&mut self, rule: Rule, history: u64) -> u64 {
        let current = self.shown(history).version;
        if rule == Rule::Unk {
            return u64::from(self.random.percent(3));
        }
        let planned = self.planned(history, current);
        let fitting = match rule {
            Rule::Set => planned.saturating_add(1 + self.random.below(4)),
            Rule::Not if self.random.percent(60) => current,
            Rule::Not => planned,
            _ => planned.wrapping_add(1),
        };
        self.mood.care.number(self.random, fitting, current)
    }

    /// The version that the history will have when all that is pending in it has run.
    fn planned(&self, history: u64, current: u64) -> u64 {
        let pending = self.session.site().into_iter().flat_map(Site::pending);
        pending
            .flat_map(|(operation, _)| operation.updates.iter())
            .filter(|update| update.history == history && update.rule.is_strong())
            .fold(current, |planned, update| match update.rule {
                Rule::Unk => planned.saturating_add(1),
                _ => planned.max(update.version),
            })
    }

    /// The ids in progress, or those that are future.
    fn pending_ids(&self, running: bool) -> Vec<u64> {
        let pending = self.session.site().into_iter().flat_map(Site::pending);
        pending.filter(|found| found.1 == running).map(|found| found.0.id).collect()
    }

    /// An id, mostly of an operation in the state that is asked for.
    fn pending_id(&mut self, running: bool) -> u64 {
        let fit = self.pending_ids(running);
        if !fit.is_empty() && self.random.percent(92) {
            self.random.pick(&fit)
        } else if !self.ids.is_empty() && self.random.percent(80) {
            self.random.pick(&self.ids)
        } else {
            self.random.pick(&EDGES)
        }
    }

    /// Two of the site's log numbers.
    fn marks(&self, first: fn(&Site) -> u64, second: fn(&Site) -> u64) -> (u64, u64) {
        self.session.site().map_or((0, 0), |site| (first(site), second(site)))
    }

    /// A log number for a mark that has reached one and may go up to another.
    fn mark(&mut self, reached: u64, most: u64) -> u64 {
        match self.random.below(20) {
            0 => most + 1,
            1..=4 => reached,
            5 => self.random.pick(&EDGES),
            6..=12 => most,
            _ => reached + self.random.below(most - reached + 1),
        }
    }

    /// A number of bytes to restart from.
    fn cut(&mut self) -> u64 {
        let used = self.used();
        let ends: Vec<usize> =
            (0..used).filter(|&at| self.log[at] == b'\n').map(|at| at + 1).collect();
        let kept = match self.random.below(20) {
            0 => used + 1,
            1 => self.random.between(0, 12),
            2..=3 => used,
            4..=9 if !ends.is_empty() => self.random.pick(&ends) + self.random.between(0, 1),
            10..=13 if !ends.is_empty() => self.random.pick(&ends) - 1,
            14 => return self.random.pick(&EDGES),
            _ => self.random.between(0, used),
        };
        kept as u64
    }
}
