//! A station's shifts: random calls of keepers and records, in buffers of many lengths, that are killed at any byte of what they store and
//! taken up again. Every reply and every byte goes into one sum, so that two programs that differ anywhere show different sums.

use std::collections::BTreeMap;

const SHIFTS: u64 = 600;
const CALLS: u64 = 120;
/// How many numbers records have.
pub const WORDS: usize = 320;

/// A keeper over a buffer. A refusal is its number.
pub trait Keeping {
    /// Keeps a did line, given without its end.
    fn keep(&mut self, line: &[u8]) -> Result<(), u64>;
    /// Drops the lines up to a place.
    fn drop_lines(&mut self, history: u64, place: u64) -> Result<(), u64>;
    /// Hands out the lines above some places; gives the bytes that they are.
    fn hand_out(&self, places: &[u64; 16], out: &mut [u8]) -> Result<usize, u64>;
    /// The bytes in use.
    fn used(&self) -> usize;
}

/// Records. A refusal is its number.
pub trait Recording {
    /// Records an operation.
    fn record(&mut self, id: u64, sent: u8, full: u8, threshold: u64) -> Result<(), u64>;
    /// A site reports it persistent.
    fn report(&mut self, id: u64, site: u64) -> Result<bool, u64>;
    /// Whether it counts as persistent.
    fn question(&self, id: u64) -> Result<bool, u64>;
    /// Forgets it.
    fn forget(&mut self, id: u64) -> Result<(), u64>;
    /// How many there are, and their numbers.
    fn stored(&self) -> (usize, [u64; WORDS]);
}

/// What takes up keepers and records.
pub trait Station {
    /// A keeper over a buffer that is lent to it.
    type Keeper<'b>: Keeping;
    /// Records.
    type Records: Recording;
    /// Takes a keeper up from the whole lines among the first bytes.
    fn keeper<'b>(&self, buffer: &'b mut [u8], kept: usize) -> Option<Self::Keeper<'b>>;
    /// Takes up so many records.
    fn records(&self, words: [u64; WORDS], kept: usize) -> Option<Self::Records>;
}

/// Works all shifts; gives what is to be shown: each answer with how often it came, and the sum.
pub fn work(station: &impl Station) -> String {
    let mut shift = Shift { random: Random(1), answers: BTreeMap::new(), sum: 0 };
    for _ in 0..SHIFTS {
        shift.keep_lines(station);
        shift.keep_records(station);
    }
    let answers = shift.answers.iter().map(|((call, number), count)| match number {
        0 => format!("{call}: {count}\n"),
        number => format!("{call}, {number}: {count}\n"),
    });
    answers.collect::<String>() + &format!("sum {:016x}\n", shift.sum)
}

struct Shift {
    random: Random,
    answers: BTreeMap<(&'static str, u64), u64>,
    sum: u64,
}

impl Shift {
    fn add(&mut self, number: u64) {
        self.sum = (self.sum ^ number).wrapping_mul(0x0000_0100_0000_01b3).rotate_left(17);
    }

    fn note<T>(&mut self, call: &'static str, answer: Result<T, u64>) -> Option<T> {
        let number = answer.as_ref().err().copied().unwrap_or(0);
        *self.answers.entry((call, number)).or_default() += 1;
        self.add(number);
        answer.ok()
    }

    fn add_bytes(&mut self, bytes: &[u8]) {
        bytes.iter().for_each(|&byte| self.add(byte.into()));
    }

    /// A buffer; calls in it; a kill, which leaves the first bytes of its lines; and again, from these.
    fn keep_lines(&mut self, station: &impl Station) {
        let length = match self.random.below(12) {
            0 => 65_536,
            1 => 65_537,
            _ => self.random.below(500) as usize,
        };
        let mut buffer = vec![0xAA; length];
        let mut kept = 0;
        for _ in 0..4 {
            let taken = station.keeper(&mut buffer, kept).ok_or(999);
            if let Some(mut keeper) = self.note("resume", taken) {
                (0..CALLS / 4).for_each(|_| self.call(&mut keeper));
                kept = keeper.used();
            }
            self.add(kept as u64);
            self.add_bytes(&buffer[..length.min(600)]);
            kept = self.random.below(kept as u64 + 1) as usize;
            buffer[kept..].fill(0x55);
            match self.random.below(40) {
                0 if kept > 0 => buffer[self.random.below(kept as u64) as usize] = b'7',
                1 => kept = length + 1,
                _ => {}
            }
        }
    }

    fn call(&mut self, keeper: &mut impl Keeping) {
        match self.random.below(16) {
            0 => {
                let (history, place) = (self.random.below(18), self.random.below(4));
                let answer = keeper.drop_lines(history, place);
                self.note("drop", answer);
            }
            1 | 2 => {
                let mut places = [0; 16];
                places.iter_mut().for_each(|place| *place = self.random.below(6));
                let room = match self.random.below(20) {
                    0 => 65_537,
                    _ => self.random.below(600) as usize,
                };
                let mut out = vec![0xAA; room];
                let answer = keeper.hand_out(&places, &mut out);
                self.note("hand out", answer).into_iter().for_each(|n| self.add(n as u64));
                self.add_bytes(&out[..room.min(600)]);
            }
            _ => {
                let line = self.line();
                let answer = keeper.keep(&line);
                self.note("keep", answer);
            }
        }
        self.add(keeper.used() as u64);
    }

    /// A did line of few ids, histories and places, so that copies and conflicts come; now and then a damaged one.
    fn line(&mut self) -> Vec<u8> {
        let mut line = format!("(did {} ", self.random.below(5));
        let first = self.random.below(14);
        let updates = match self.random.below(30) {
            0 => 5,
            _ => 1 + self.random.below(2),
        };
        for i in 0..updates {
            let rule = ["inc", "set", "not"][self.random.below(3) as usize];
            let apart = [1, 1, 1, 1, 1, 15, 0][self.random.below(7) as usize];
            let history = first % 4 + i * apart;
            let operand = match (rule, self.random.below(30)) {
                ("not", 1..) => 0,
                (_, 0) => 2048,
                _ => self.random.below(2),
            };
            let (version, place) = (1 + self.random.below(2), 1 + self.random.below(4));
            line += &format!("({rule} {history} {version} {place} {operand})");
        }
        let mut line = (line + ")").into_bytes();
        if self.random.below(30) == 0 {
            let at = self.random.below(line.len() as u64) as usize;
            line[at] = b"7 ()\n\0"[self.random.below(6) as usize];
        }
        line
    }

    /// Records, stored in between, and again.
    fn keep_records(&mut self, station: &impl Station) {
        let (mut words, mut kept) = ([0xAAAA; WORDS], 0);
        let ids = [6, 90][self.random.below(2) as usize];
        for _ in 0..3 {
            let taken = station.records(words, kept).ok_or(999);
            if let Some(mut records) = self.note("resume records", taken) {
                (0..CALLS).for_each(|_| self.record(&mut records, ids));
                (kept, words) = records.stored();
            }
            self.add(kept as u64);
            words.iter().for_each(|&word| self.add(word));
            if self.random.below(20) == 0 {
                kept = 65;
            }
        }
    }

    fn record(&mut self, records: &mut impl Recording, ids: u64) {
        let id = self.random.below(ids);
        let kind = self.random.below(if ids > 64 { 40 } else { 10 });
        match kind {
            0 => {
                let answer = records.forget(id);
                self.note("forget", answer);
            }
            1 | 2 => {
                let answer = records.question(id);
                self.note("question", answer).into_iter().for_each(|b| self.add(b.into()));
            }
            3..=5 => {
                let answer = records.report(id, self.random.below(9));
                self.note("report", answer).into_iter().for_each(|b| self.add(b.into()));
            }
            _ => {
                let sent = self.random.below(256) as u8;
                let full = match self.random.below(5) {
                    0 => self.random.below(256) as u8,
                    _ => sent & self.random.below(256) as u8,
                };
                let threshold = self.random.below(u64::from(full.count_ones()) + 2);
                let answer = records.record(id, sent, full, threshold);
                self.note("record", answer);
            }
        }
    }
}

/// Numbers that look random (xorshift).
struct Random(u64);

impl Random {
    fn below(&mut self, bound: u64) -> u64 {
        self.0 ^= self.0 << 13;
        self.0 ^= self.0 >> 7;
        self.0 ^= self.0 << 17;
        (self.0 >> 11) % bound
    }
}
