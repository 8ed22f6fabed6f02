//! The trials, in rounds. Each round is made from its own seed.

use second::program::{Program, Second};
use second::site::Site;

use crate::claim::ClaimTrial;
use crate::damage;
use crate::kept::{KeeperCall, KeeperTrial, Kept};
use crate::made_up::{self, Care, Now};
use crate::mood::{Habit, Mood};
use crate::random::Random;
use crate::scribe::Scribe;
use crate::trial::{used_buffer, Comparison, RestartTrial, SessionTrial};
use crate::watch::{is_did, Law};
use crate::{carded, found, going_on, recorded, removed, trimmed, upgraded};

/// All rounds together make well over 200,000 calls.
pub const ROUNDS: u64 = 160;

/// The restarts, changeovers, copies, reports of what falls, cuts that are found, cards, sessions from logs, keepers
/// and records of a round.
pub fn others(round: u64) -> Vec<Box<dyn Comparison>> {
    let restarts = restarts(round).into_iter().map(boxed);
    let upgrades = upgraded::upgrades(round).into_iter().map(boxed);
    let trims = trimmed::trims(round).into_iter().map(boxed);
    let removals = removed::removals(round).into_iter().map(boxed);
    let finds = found::finds(round).into_iter().map(boxed);
    let cards = carded::cards(round).into_iter().map(boxed);
    let sessions = going_on::sessions(round).into_iter().map(boxed);
    let keepers = keepers(round).into_iter().map(boxed);
    let mut random = seeded(5, round);
    let records = (0..12).map(|_| boxed(recorded::any(&mut random)));
    let logs = restarts
        .chain(upgrades)
        .chain(trims)
        .chain(removals)
        .chain(finds)
        .chain(cards)
        .chain(sessions);
    logs.chain(keepers).chain(records).collect()
}

fn boxed<T: Comparison + 'static>(trial: T) -> Box<dyn Comparison> {
    Box::new(trial)
}

pub fn seeded(kind: u64, round: u64) -> Random {
    Random::new(kind << 32 | round)
}

/// Sessions: short ones first, longer ones, now and then one that fills a log, and cuts of one
/// session at every byte.
pub fn sessions(round: u64) -> Vec<SessionTrial> {
    let mut random = seeded(1, round);
    let mut trials = Vec::new();
    for most in 6..30 {
        let (mood, lines) = (Mood::any(&mut random), random.between(3, most + most / 3));
        trials.push(session(&mut random, mood, lines));
    }
    for _ in 0..9 {
        let (mood, lines) = (Mood::any(&mut random), random.between(60, 90));
        trials.push(session(&mut random, mood, lines));
    }
    let (mood, lines) = (Mood::any(&mut random), random.between(150, 450));
    trials.push(session(&mut random, mood, lines));
    let (mood, lines) = (Mood::careful(&mut random), random.between(100, 300));
    trials.push(session(&mut random, mood, lines));
    if round % 16 == 3 {
        trials.push(session(&mut random, full_log_mood(), 6000));
    }
    if round % 16 == 5 {
        trials.extend(cuts_at_every_byte(&mut random));
    }
    trials
}

/// A mood that fills the longest log.
fn full_log_mood() -> Mood {
    Mood {
        histories: 5,
        room: Site::LONGEST_LOG,
        care: Care { fits: 98, edges: 0 },
        damage: 1,
        repeats: 5,
        habit: Habit::Plain,
    }
}

fn session(random: &mut Random, mood: Mood, lines: usize) -> SessionTrial {
    let mut scribe = Scribe::new(random, mood);
    scribe.write(lines);
    if scribe.random.percent(12) {
        scribe.leave_rest();
    }
    SessionTrial::new(scribe.pieces, mood.room)
}

/// A session that logs some lines, stable ones among them, and is not restoring, with its log.
pub fn sample(random: &mut Random, lines: usize) -> (Vec<Vec<u8>>, Vec<u8>, u64) {
    loop {
        let mut mood = Mood::careful(random);
        (mood.habit, mood.care.edges) = (random.pick(&[Habit::Plain, Habit::Settles]), 3);
        let mut scribe = Scribe::new(random, mood);
        scribe.write(lines);
        let log = scribe.log[..scribe.used()].to_vec();
        if let Some(site) = scribe.session.site() {
            if site.done() > 4 && site.stable_mark() > 0 && !site.is_restoring() {
                return (scribe.pieces, log, site.count());
            }
        }
    }
}

/// The same session cut at every byte, each time with all its lines in some order, some of
/// them twice, and a second cut.
fn cuts_at_every_byte(random: &mut Random) -> Vec<SessionTrial> {
    let (pieces, log, histories) = sample(random, 22);
    let text = String::from_utf8_lossy(&log);
    let lines: Vec<&str> = text.lines().filter(|line| is_did(line)).collect();
    let mut trials = Vec::new();
    for kept in 0..=log.len() + 1 {
        let (mut pieces, unwatched) = (pieces.clone(), pieces.len());
        let mut say = |line: String| pieces.push(format!("{line}\n").into_bytes());
        say(format!("(cut {kept})"));
        for again in [false, true] {
            let mut order: Vec<&str> = lines.clone();
            order.push(random.pick(&lines));
            random.shuffle(&mut order);
            order.iter().for_each(|line| say(format!("(redo {line})")));
            if !again {
                say(format!("(cut {})", random.between(kept.min(log.len()), log.len())));
            }
        }
        say("(end)".to_string());
        (0..histories).for_each(|history| say(format!("(show {history})")));
        trials.push(SessionTrial { pieces, room: log.len().max(9), unwatched });
    }
    trials
}

/// Restarts: from made-up logs, some of them with about 64 live lines; now and then from a log, or
/// a copy of it, damaged at every byte and line and cut everywhere, and from long ones.
pub fn restarts(round: u64) -> Vec<RestartTrial> {
    let mut random = seeded(2, round);
    let mut trials = Vec::new();
    for _ in 0..40 {
        let kept = made_up::log(&mut random);
        trials.push(RestartTrial { kept, rest: used_buffer(random.index(30)), above: 0 });
    }
    for at in 0..6 {
        let kept =
            if at < 4 { made_up::long_log(&mut random) } else { made_up::high_log(&mut random) };
        trials.push(RestartTrial { kept, rest: used_buffer(random.index(30)), above: 0 });
    }
    if round % 16 == 1 {
        let (_, mut log, _) = sample(&mut random, 16);
        if round % 32 == 1 {
            log = trimmed::copy_of(&mut random, &log);
        }
        for damaged in [damage::every_byte(&log), damage::every_line(&log)].concat() {
            trials.push(RestartTrial { kept: damaged, rest: Vec::new(), above: 0 });
        }
        for kept in 0..=log.len() {
            let (kept, rest) = (log[..kept].to_vec(), log[kept..].to_vec());
            trials.push(RestartTrial { kept, rest, above: 0 });
        }
        for above in [1, 2, 1000, usize::MAX - log.len()] {
            trials.push(RestartTrial { kept: log.clone(), rest: Vec::new(), above });
        }
    }
    if round % 16 == 9 {
        trials.extend(long_restarts(&mut random));
    }
    trials
}

/// Restarts from a full log, with bytes behind it up to and above the longest buffer.
fn long_restarts(random: &mut Random) -> Vec<RestartTrial> {
    let mut scribe = Scribe::new(random, full_log_mood());
    scribe.write(6000);
    let log = scribe.log[..scribe.used()].to_vec();
    let mut trials = Vec::new();
    for _ in 0..20 {
        let mut kept = log[..random.between(0, log.len())].to_vec();
        if !kept.is_empty() && random.percent(50) {
            let at = random.index(kept.len());
            kept[at] ^= 1 << random.below(8);
        }
        let buffer = random.between(Site::LONGEST_LOG - 1, Site::LONGEST_LOG + 2);
        let rest = used_buffer(buffer.max(kept.len()) - kept.len());
        trials.push(RestartTrial { kept, rest, above: 0 });
    }
    trials
}

/// Keepers with buffers of all lengths.
fn keepers(round: u64) -> Vec<KeeperTrial> {
    let mut random = seeded(3, round);
    let mut trials = Vec::new();
    for _ in 0..6 {
        let room = match random.below(12) {
            0 => random.between(0, 30),
            1..=5 => random.between(30, 300),
            6..=8 => random.between(300, 3000),
            9 => Site::LONGEST_LOG + random.between(0, 1),
            _ => random.between(0, Site::LONGEST_LOG),
        };
        trials.push(keeper(&mut random, Vec::new(), room));
    }
    if round % 16 == 7 {
        let start = kept_lines(&mut random, Site::LONGEST_LOG - 900);
        trials.push(keeper(&mut random, start, Site::LONGEST_LOG));
    }
    if round % 16 == 11 {
        trials.extend(damaged_keepers(&mut random));
    }
    trials
}

/// Keepers whose bytes were damaged at every byte and line and cut everywhere.
fn damaged_keepers(random: &mut Random) -> Vec<KeeperTrial> {
    let (good, lines) = (kept_lines(random, 1), kept_lines(random, 150));
    let mut starts = [damage::every_byte(&lines), damage::every_line(&lines)].concat();
    starts.extend((0..=lines.len()).map(|length| lines[..length].to_vec()));
    starts.push(damage::long_line(random, 1024));
    let damaged = |start: Vec<u8>| {
        let room = match random.below(20) {
            0 => random.between(0, start.len()),
            1 => Site::LONGEST_LOG + random.between(0, 1),
            _ => start.len() + random.between(0, 100),
        };
        let drop = KeeperCall::Drop { history: random.below(17), place: random.below(9) };
        let hand_out = KeeperCall::HandOut { kept: [random.below(3); 16], room: 300 };
        let mut calls = vec![KeeperCall::Keep(good[..good.len() - 1].to_vec()), drop, hand_out];
        random.shuffle(&mut calls);
        KeeperTrial { start, calls, room }
    };
    starts.into_iter().map(damaged).collect()
}

/// Lines that a keeper keeps, each with its end: as few as have this many bytes together.
fn kept_lines(random: &mut Random, bytes: usize) -> Vec<u8> {
    let program = Second::from_paper();
    let mut lines = Vec::new();
    while lines.len() < bytes {
        let line = new_line(random);
        if program.keep(&mut used_buffer(line.len() + 1), 0, &line).is_ok() {
            lines.extend([line, b"\n".to_vec()].concat());
        }
    }
    lines
}

/// Calls of a keeper in any order. One that has lines at the start is full soon.
fn keeper(random: &mut Random, start: Vec<u8>, room: usize) -> KeeperTrial {
    let program = Second::from_paper();
    let mut trial = KeeperTrial { start, calls: Vec::new(), room };
    let mut kept = trial.kept(&program);
    for _ in 0..random.between(10, 60) {
        let call = match random.below(if trial.start.is_empty() { 10 } else { 60 }) {
            0 => KeeperCall::Drop { history: random.below(17), place: random.below(9) },
            1..=2 => hand_out(random, &program, &kept),
            _ => KeeperCall::Keep(kept_line(random, &trial.calls)),
        };
        let _ = kept.call(&call);
        trial.calls.push(call);
    }
    trial
}

/// A hand-out into a buffer that just fits, just does not, or is large.
fn hand_out(random: &mut Random, program: &Second, kept: &Kept) -> KeeperCall {
    let mut places = [0; 16];
    let most = random.pick(&[1, 3, 9]);
    places.iter_mut().for_each(|place| *place = random.below(most));
    let mut out = used_buffer(Site::LONGEST_LOG);
    let needed = program.hand_out(&kept.buffer, kept.used, &places, &mut out).unwrap_or(0);
    let room = match random.below(6) {
        0 => needed.saturating_sub(1),
        1 => random.between(0, needed),
        2 => Site::LONGEST_LOG + random.between(0, 1),
        3 => needed + random.between(0, 50),
        _ => needed,
    };
    KeeperCall::HandOut { kept: places, room }
}

/// A did line for a keeper: a new one, one that came before, one like that, or a damaged one.
fn kept_line(random: &mut Random, made: &[KeeperCall]) -> Vec<u8> {
    let known: Vec<&Vec<u8>> = made
        .iter()
        .filter_map(|call| match call {
            KeeperCall::Keep(line) => Some(line),
            _ => None,
        })
        .collect();
    match random.below(100) {
        0..=11 if !known.is_empty() => random.pick(&known).clone(),
        12..=17 => {
            let line = new_line(random);
            damage::line(random, &line)
        }
        19..=44 if !known.is_empty() => {
            let line = random.pick(&known).clone();
            like(random, &line)
        }
        18 => {
            let length = random.between(1010, 1030);
            let line = damage::long_line(random, length);
            line.strip_prefix(b"(redo ").map_or(line.clone(), |did| did[..did.len() - 1].to_vec())
        }
        _ => new_line(random),
    }
}

/// A line like another: its updates in another order, or one of them with another rule, version,
/// place or operand, or left out; now and then with another id.
fn like(random: &mut Random, line: &[u8]) -> Vec<u8> {
    let text = String::from_utf8_lossy(line).into_owned();
    let Some((head, inside)) = text.strip_suffix("))").and_then(|text| text.split_once(" ("))
    else {
        return line.to_vec();
    };
    let mut updates: Vec<Vec<&str>> =
        inside.split(")(").map(|update| update.split(' ').collect()).collect();
    let one = random.index(updates.len());
    let other = random.pick(&["0", "1", "2", "3", "7"]);
    match random.below(10) {
        0..=3 => random.shuffle(&mut updates),
        4 => updates[one][0] = random.pick(&["inc", "set", "not"]),
        at @ 5..=8 if updates[one].len() == 5 => updates[one][at as usize - 4] = other,
        _ => drop(updates.remove(one)),
    }
    if random.percent(30) {
        random.shuffle(&mut updates);
    }
    let head = if random.percent(5) { "(did 7" } else { head };
    let updates: String = updates.iter().map(|update| format!("({})", update.join(" "))).collect();
    let space = if updates.is_empty() { "" } else { " " };
    format!("{head}{space}{updates})").into_bytes()
}

fn new_line(random: &mut Random) -> Vec<u8> {
    let care = Care { fits: 80, edges: 5 };
    let mut histories = match random.below(100) {
        0 => Vec::new(),
        1 => (0..5).collect(),
        _ => made_up::histories(random, 16),
    };
    if random.percent(4) {
        histories.push(random.pick(&[0, 1, 15, 16]));
    }
    let mut entry = |history| {
        let now = Now { version: random.below(4), place: random.below(8) };
        made_up::entry(random, care, history, now).0
    };
    let entries: String = histories.into_iter().map(&mut entry).collect();
    made_up::form("did", random.below(1000), &entries).into_bytes()
}

/// Lists for the recovery claim, short ones first.
pub fn claims(round: u64) -> Vec<ClaimTrial> {
    let mut random = seeded(4, round);
    let lists = [5, 10, 15, 20, 40, 80, 160, 320];
    lists.into_iter().map(|most| ClaimTrial::any(&mut random, most)).collect()
}

/// Lists for the recovery claim in which marks come often, under a law.
pub fn claims_with_marks(round: u64, law: Law) -> Vec<ClaimTrial> {
    let mut random = seeded(7, round);
    let lists = [8, 12, 16, 20, 30, 60].repeat(6);
    lists.into_iter().map(|most| ClaimTrial::with_marks(&mut random, most, law)).collect()
}

/// Lists for the recovery claim that start at a site restarted from a log.
pub fn claims_from_logs(round: u64) -> Vec<ClaimTrial> {
    let mut random = seeded(8, round);
    let lists = [8, 16, 30, 60, 120];
    lists.into_iter().map(|most| ClaimTrial::from_log(&mut random, most)).collect()
}
