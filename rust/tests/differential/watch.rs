//! A session beside which the bytes are counted that a fair cut keeps.

use second::forms::{Answer, Command};
use second::reader;
use second::rules::{Flaw, Rules};
use second::session::Session;
use second::site::Site;

use crate::book::numbers;
use crate::changing;

/// Which stable lines count as persistent.
#[derive(Clone, Copy, Debug, PartialEq, Eq)]
pub enum Counting {
    /// Those that a report covers, and those that a restart kept.
    All,
    /// Only those that a restart kept.
    NotCovered,
    /// Only those that a report covers.
    NotKept,
    /// All, but of a copy only its head.
    NotCopied,
}

/// What a list is judged by: the rules of its site, and which lines count as persistent.
#[derive(Clone, Copy, Debug)]
pub struct Law {
    pub rules: Rules,
    pub counting: Counting,
}

impl Law {
    /// As the papers have it.
    pub const PAPER: Law = Law { rules: Rules::PAPER, counting: Counting::All };

    /// With a rule of the site broken.
    pub fn broken(flaw: Flaw) -> Law {
        Law { rules: Rules::broken(flaw), ..Law::PAPER }
    }

    /// With fewer lines that count.
    pub fn counting(counting: Counting) -> Law {
        Law { counting, ..Law::PAPER }
    }
}

/// A session, and how many bytes of its log count as persistent: they are its beginning.
pub struct Watch {
    pub session: Session,
    pub log: Vec<u8>,
    pub law: Law,
    counted: usize,
}

impl Watch {
    pub fn new(room: usize, law: Law) -> Watch {
        Watch { session: Session::new(law.rules), log: vec![0; room], law, counted: 0 }
    }

    /// One whose site was restarted from a log.
    pub fn after(start: &[u8], room: usize, law: Law) -> Watch {
        let mut watch = Watch::new(room, law);
        watch.log[..start.len()].copy_from_slice(start);
        let site = Site::restart(&watch.log, start.len() as u64, law.rules).expect("a log");
        watch.session = Session::of(site, law.rules);
        watch.counted = watch.kept();
        watch
    }

    pub fn answer(&mut self, piece: &[u8]) -> Answer {
        let (line, rules) = (line_of(piece), self.law.rules);
        let answer = changing::answer(&mut self.session, &mut self.log, line, rules);
        if answer.is_ok() {
            match command_of(piece) {
                None => self.counted = self.changed_over(),
                Some(Command::Site(_)) => self.counted = self.text().len(),
                Some(Command::Cut(_)) => self.counted = self.kept(),
                Some(Command::Persistent(n)) => {
                    self.counted = self.counted.max(self.reported(n));
                }
                _ => {}
            }
        }
        answer
    }

    /// The log in use.
    pub fn text(&self) -> &str {
        let used = self.session.site().map_or(0, Site::used);
        std::str::from_utf8(&self.log[..used]).expect("a log is plain text")
    }

    /// The bytes up to the end of the base line, if the log has one.
    pub fn head(&self) -> Option<usize> {
        let mut lines = self.text().split_inclusive('\n');
        let first = lines.next()?.len();
        lines.next().filter(|line| is_base(line)).map(|line| first + line.len())
    }

    /// The fewest bytes that a fair cut keeps.
    pub fn fewest(&self) -> usize {
        self.counted
    }

    /// The bytes that count after a restart: all that it kept.
    fn kept(&self) -> usize {
        match self.law.counting {
            Counting::NotKept => self.up_to_did(self.done()),
            _ => self.text().len(),
        }
    }

    /// The bytes that count after a changeover: all of the copy.
    fn changed_over(&self) -> usize {
        match self.law.counting {
            Counting::NotCopied => self.up_to_did(0),
            _ => self.text().len(),
        }
    }

    /// The bytes that a report of the first n did lines makes count: all of them if it is of
    /// every line done, else those up to the last line that it is of.
    fn reported(&self, n: u64) -> usize {
        let covers_all = n == self.done() && self.law.counting != Counting::NotCovered;
        if covers_all {
            self.text().len()
        } else {
            self.up_to_did(n)
        }
    }

    fn done(&self) -> u64 {
        self.session.site().map_or(0, Site::done)
    }

    /// The bytes of the log up to the end of did line n, or of its head.
    fn up_to_did(&self, n: u64) -> usize {
        up_to_did(self.text(), n)
    }
}

/// The bytes of a log up to the end of the did line with log number n, or of its head.
pub fn up_to_did(log: &str, n: u64) -> usize {
    let (mut bytes, mut end, mut seen) = (0, 0, base_of(log.split_inclusive('\n')));
    for line in log.split_inclusive('\n') {
        bytes += line.len();
        seen += u64::from(is_did(line));
        if (seen <= n || !is_did(line)) && !is_stable(line) {
            end = bytes;
        }
    }
    end
}

/// What the base line of a log says that were done before it, or 0.
pub fn base_of<'l>(mut lines: impl Iterator<Item = &'l str>) -> u64 {
    let second = lines.nth(1).filter(|line| is_base(line));
    second.and_then(|line| numbers(line).first().copied()).unwrap_or(0)
}

/// Whether a line of a log is a base line.
pub fn is_base(line: &str) -> bool {
    line.starts_with("(base ")
}

/// Whether a line of a log is a did line.
pub fn is_did(line: &str) -> bool {
    line.starts_with("(did ")
}

/// Whether it is a stable line.
pub fn is_stable(line: &str) -> bool {
    line.starts_with("(stable ")
}

pub fn line_of(piece: &[u8]) -> &[u8] {
    piece.strip_suffix(b"\n").unwrap_or(piece)
}

pub fn command_of(piece: &[u8]) -> Option<Command> {
    reader::command(line_of(piece), Rules::PAPER)
}
