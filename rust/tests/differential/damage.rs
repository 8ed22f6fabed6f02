//! Lines and logs with something wrong in them.

use crate::random::Random;

/// Bytes that stand in for others: strangers to a line, and bytes that belong there.
const BYTES: [u8; 16] = *b"\0\xff\x7f\t\r -+AZaz09()";

const NUMBERS: [&str; 8] = [
    "00",
    "01",
    "0",
    "4294967296",
    "18446744073709551615",
    "18446744073709551616",
    "18446744073709551617",
    "99999999999999999999999",
];

/// A line that differs from the given one in a byte, a number or its length.
pub fn line(random: &mut Random, line: &[u8]) -> Vec<u8> {
    let mut damaged = line.to_vec();
    if damaged.is_empty() {
        return BYTES[..random.between(0, 3)].to_vec();
    }
    let at = random.index(damaged.len());
    match random.below(9) {
        0 | 1 => damaged[at] = random.pick(&BYTES),
        2 => damaged.insert(at, random.pick(&BYTES)),
        3 => drop(damaged.remove(at)),
        4 => damaged.insert(at, damaged[at]),
        5 => damaged.truncate(at),
        6 => damaged.push(random.pick(&BYTES)),
        _ => change_number(random, &mut damaged),
    }
    damaged
}

/// Puts another number where the line has one.
fn change_number(random: &mut Random, line: &mut Vec<u8>) {
    let starts: Vec<usize> = (1..line.len())
        .filter(|&at| line[at].is_ascii_digit() && !line[at - 1].is_ascii_digit())
        .collect();
    if starts.is_empty() {
        return;
    }
    let start = random.pick(&starts);
    let length = line[start..].iter().take_while(|byte| byte.is_ascii_digit()).count();
    let number = if random.percent(25) {
        [b"0", &line[start..start + length]].concat()
    } else {
        random.pick(&NUMBERS).as_bytes().to_vec()
    };
    line.splice(start..start + length, number);
}

/// A readable line of exactly this many bytes, at least 40, with too many updates.
pub fn long_line(random: &mut Random, length: usize) -> Vec<u8> {
    let (before, update, after) =
        random.pick(&[("(add ", "(not 0 0 0)", ")"), ("(redo (did ", "(not 0 0 1 0)", "))")]);
    let inside = length - before.len() - after.len() - 1;
    let digits = (inside - 1) % update.len() + 1;
    let updates = update.repeat((inside - digits) / update.len());
    let id = "1".repeat(digits);
    format!("{before}{id} {updates}{after}").into_bytes()
}

/// Every log that comes from this one by a change at one byte.
pub fn every_byte(log: &[u8]) -> Vec<Vec<u8>> {
    let mut damaged = Vec::new();
    for at in 0..log.len() {
        let mut change = |bytes: &[u8]| damaged.push([&log[..at], bytes, &log[at + 1..]].concat());
        let byte = log[at];
        for bit in 0..8 {
            change(&[byte ^ (1 << bit)]);
        }
        change(&[]);
        change(&[byte, byte]);
        change(&[0]);
        change(&[255]);
        change(b"\n");
    }
    damaged
}

/// Every log that comes from this one by a line left out, doubled or swapped with the next.
pub fn every_line(log: &[u8]) -> Vec<Vec<u8>> {
    let lines: Vec<&[u8]> = log.split_inclusive(|&byte| byte == b'\n').collect();
    let mut damaged = Vec::new();
    for at in 0..lines.len() {
        let (before, after) = (lines[..at].concat(), lines[at + 1..].concat());
        damaged.push([&before, after.as_slice()].concat());
        damaged.push([&before, lines[at], lines[at], &after].concat());
        if let Some(next) = lines.get(at + 1) {
            damaged.push([&before, *next, lines[at], &lines[at + 2..].concat()].concat());
        }
    }
    damaged
}
