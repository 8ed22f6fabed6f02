//! Made-up did lines and logs.

use second::forms::Rule;
use second::rules::Rules;
use second::site::Site;

use crate::random::{Random, EDGES};
use crate::watch::is_stable;

/// How numbers are made up.
#[derive(Clone, Copy)]
pub struct Care {
    /// How often, in a hundred, a number is the one that fits; if always, all else fits too.
    pub fits: u64,
    /// How often, in a hundred, another number is an edge number.
    pub edges: u64,
}

impl Care {
    /// A number near another, or an edge number.
    pub fn near(self, random: &mut Random, number: u64) -> u64 {
        if random.percent(self.edges) {
            return random.pick(&EDGES);
        }
        let away = random.below(4);
        if random.percent(70) {
            number.wrapping_add(away)
        } else {
            number.saturating_sub(away)
        }
    }

    /// The number that fits, or one near another.
    pub fn number(self, random: &mut Random, fitting: u64, near: u64) -> u64 {
        if random.percent(self.fits) {
            fitting
        } else {
            self.near(random, near)
        }
    }
}

/// Where a history is.
#[derive(Clone, Copy, Default)]
pub struct Now {
    pub version: u64,
    pub place: u64,
}

/// An operand, mostly in range.
pub fn operand(random: &mut Random, rule: Rule) -> u64 {
    if random.percent(97) {
        return good_operand(random, rule);
    }
    match rule {
        Rule::Inc | Rule::Unk | Rule::Set => {
            random.pick(&[1023, 1024, 2047, 2048, 1 << 32, u64::MAX])
        }
        Rule::Not => 1,
    }
}

/// An operand in range.
fn good_operand(random: &mut Random, rule: Rule) -> u64 {
    match rule {
        Rule::Inc | Rule::Unk => random.below(2048),
        Rule::Set => random.number() >> random.pick(&[0, 32]),
        Rule::Not => 0,
    }
}

/// `(RULE H V P O)` for a history that is there now, and where it is afterwards.
pub fn entry(random: &mut Random, care: Care, history: u64, now: Now) -> (String, Now) {
    let sure = care.fits == 100;
    let unk = (u64::from(!sure), Rule::Unk);
    let rule = random.weighted(&[(40, Rule::Inc), (30, Rule::Set), (29, Rule::Not), unk]);
    let next = match rule {
        Rule::Inc => now.version.wrapping_add(1),
        Rule::Set => match random.below(100) {
            far if far < care.edges => random.pick(&EDGES).max(now.version),
            _ => now.version.saturating_add(1 + random.below(3)),
        },
        Rule::Not => now.version,
        Rule::Unk => 0,
    };
    let version = care.number(random, next, now.version);
    let place = care.number(random, now.place.wrapping_add(1), now.place);
    let operand = if sure { good_operand(random, rule) } else { operand(random, rule) };
    let word = rule.word().escape_ascii();
    (format!("({word} {history} {version} {place} {operand})"), Now { version, place })
}

/// `(WORD ID MEMBERS)`, or `(WORD ID)` without members.
pub fn form(word: &str, id: u64, members: &str) -> String {
    let space = if members.is_empty() { "" } else { " " };
    format!("({word} {id}{space}{members})")
}

/// Some different histories, mostly one or two.
pub fn histories(random: &mut Random, count: u64) -> Vec<u64> {
    let mut all: Vec<u64> = (0..count).collect();
    random.shuffle(&mut all);
    all.truncate(random.weighted(&[(50, 1), (25, 2), (13, 3), (12, 4)]));
    all
}

/// What a made-up log is like.
#[derive(Clone, Copy)]
struct Plan {
    lines: usize,
    /// How often, in a hundred, an id came before.
    repeats: u64,
    /// Behind how many did lines, in a hundred, a stable line stands.
    marks: u64,
    /// How often, in a hundred, it has a base line.
    based: u64,
}

/// A log of made-up lines. Where a line does not fit, those behind it go on from it.
pub fn log(random: &mut Random) -> Vec<u8> {
    let (lines, repeats) = (random.between(1, 20), random.pick(&[0, 5, 30]));
    let marks = random.pick(&[0, 10, 40]);
    lines_of_log(random, Plan { lines, repeats, marks, based: 40 })
}

/// One with 60 to 140 did lines: with few marks, so that about 64 of them are live.
pub fn long_log(random: &mut Random) -> Vec<u8> {
    let lines = random.pick(&[60, 63, 64, 64, 65, 65, 66, 70, 128, 140]);
    let (repeats, marks) = (random.pick(&[0, 0, 0, 1]), random.pick(&[0, 0, 1, 3]));
    lines_of_log(random, Plan { lines, repeats, marks, based: 30 })
}

/// A log as it would be before there were stable lines and base lines.
pub fn older_log(random: &mut Random, long: bool) -> Vec<u8> {
    let lines = if long { random.pick(&[60, 65, 128]) } else { random.between(1, 20) };
    let repeats = if long { 0 } else { random.pick(&[0, 5, 30]) };
    lines_of_log(random, Plan { lines, repeats, marks: 0, based: 0 })
}

/// A log without its stable lines.
pub fn without_marks(log: &[u8]) -> Vec<u8> {
    let text = String::from_utf8_lossy(log);
    let lines = text.split_inclusive('\n').filter(|line| !is_stable(line));
    lines.collect::<String>().into_bytes()
}

/// A log that restart accepts: one that was changed over, or one with marks of its own, perhaps with
/// a base line.
pub fn log_to_start_from(random: &mut Random) -> Vec<u8> {
    loop {
        let long = random.percent(30);
        let mut log = match random.below(10) {
            0..=4 => older_log(random, long),
            _ if long => long_log(random),
            _ => log(random),
        };
        if without_marks(&log) == log && random.percent(80) {
            let kept = log.len();
            log.resize(kept + 30, 0);
            let used = Site::upgrade(&mut log, kept as u64, Rules::PAPER).unwrap_or(kept);
            log.truncate(used);
        }
        if Site::restart(&log, log.len() as u64, Rules::PAPER).is_ok() {
            return log;
        }
    }
}

/// A log whose base line says 2^63 or so and is as long as can be, or shorter, with some operations
/// behind it that are stable.
pub fn high_log(random: &mut Random) -> Vec<u8> {
    let (top, count) = (1u64 << 63, random.pick(&[1, 16]));
    let (n, lines) = (top - 1 + random.below(3), random.below(3));
    let (version, place) = random.pick(&[(0, 0), (top / 2 * 3, top - 9)]);
    let cell = |at| format!("({at} {version} {place} {})", u64::MAX - at);
    let cells: String = (0..count).map(cell).collect();
    let mut log = format!("(site {count})\n(base {n} {cells})\n");
    for at in 1..=lines {
        let (version, place) = (version + at, place + at);
        log += &format!("(did {at} (inc 0 {version} {place} {}))\n", random.below(2048));
    }
    if lines > 0 {
        log += &format!("(stable {})\n", n + 1 + random.below(lines));
    }
    log.into_bytes()
}

/// A log by a plan.
fn lines_of_log(random: &mut Random, plan: Plan) -> Vec<u8> {
    let count = random.pick(&[1, 2, 4, 16]);
    let fits = if plan.lines > 20 { 100 } else { random.pick(&[97, 99, 100]) };
    let care = Care { fits, edges: if fits == 100 { 0 } else { random.pick(&[0, 10, 40]) } };
    let mut now = [Now::default(); 16];
    let mut log = format!("(site {count})\n");
    let mut mark = 0;
    if random.percent(plan.based) {
        mark = random.pick(&[0, 1, 5, 1000, 1 << 40]) + random.below(3);
        log += &base_line(random, care, mark, &mut now[..count as usize]);
    }
    let base = mark;
    for done in 1..=plan.lines as u64 {
        let id = if random.percent(plan.repeats) { random.below(done) } else { done };
        log += &format!("(did {id} ");
        for history in histories(random, count) {
            let (text, after) = entry(random, care, history, now[history as usize]);
            log += &text;
            now[history as usize] = after;
        }
        log += ")\n";
        let last = done == plan.lines as u64 && plan.marks > 0 && random.percent(50);
        if last || random.percent(plan.marks) {
            mark = mark_above(random, mark, base + done);
            log += &format!("(stable {mark})\n");
        }
    }
    if care.fits < 100 && random.percent(5) {
        let other = base_line(random, care, base, &mut now[..count as usize]);
        log += &other;
    }
    log.into_bytes()
}

/// A base line of n operations, mostly one that fits, and where the histories are then.
fn base_line(random: &mut Random, care: Care, n: u64, now: &mut [Now]) -> String {
    let mut cells = Vec::new();
    for (at, now) in now.iter_mut().enumerate() {
        now.place = random.below(n + 1);
        now.version = match random.below(10) {
            0 if care.edges > 0 => random.pick(&EDGES),
            1 => now.place + random.below(100),
            _ => random.below(now.place + 1),
        };
        if care.fits < 100 && random.percent(1) {
            now.place = n + 1;
        }
        cells.push(format!("({at} {} {} {})", now.version, now.place, random.number()));
    }
    if care.fits < 100 {
        let at = random.index(cells.len());
        match random.below(20) {
            0 => cells.swap(0, at),
            1 => drop(cells.remove(at)),
            2 => cells.push(cells[at].clone()),
            _ => {}
        }
    }
    let space = if cells.is_empty() { "" } else { " " };
    format!("(base {n}{space}{})\n", cells.concat())
}

/// What a stable line says behind so many did lines: mostly more than the mark so far.
fn mark_above(random: &mut Random, mark: u64, done: u64) -> u64 {
    if mark < done && random.percent(92) {
        mark + 1 + random.below(done - mark)
    } else {
        random.pick(&[0, mark, mark + 1, done + 1, u64::MAX])
    }
}
