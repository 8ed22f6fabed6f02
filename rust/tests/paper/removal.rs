//! Document 02, (a): which fittings must be taken back, on both sides of each edge.

use super::*;

/// Five lines: 1 and 3 in history 0, 2 and 4 in history 1, of which both are `not`, 5 in history 2.
const FIVE: &str =
    "(site 3)\n(did 1 (set 0 1 1 10))\n(did 2 (not 1 0 1 0))\n(did 3 (set 0 2 2 20))\n\
                    (did 4 (not 1 0 2 0))\n(did 5 (set 2 1 1 30))\n";

/// What a report gives, and the numbers of its room after it.
fn removals(log: &str, pairs: &[u64], lost: &[u64], room: usize) -> (Outcome, Vec<u64>) {
    agreed(|program| {
        let mut out = vec![7; room];
        (program.removals(log.as_bytes(), pairs, lost, &mut out), out)
    })
}

/// The lines that a report names.
fn named(log: &str, pairs: &[u64], lost: &[u64]) -> Vec<u64> {
    let (outcome, out) = removals(log, pairs, lost, 9);
    let count = outcome.expect("a report");
    assert!(out[count..].iter().all(|number| *number == 7));
    out[..count].to_vec()
}

fn refused(log: &str, pairs: &[u64], lost: &[u64], room: usize) -> u64 {
    let (outcome, out) = removals(log, pairs, lost, room);
    assert!(out.iter().all(|number| *number == 7));
    outcome.expect_err("a refusal")
}

#[test]
fn a_lost_line_takes_the_later_ones_of_its_histories() {
    assert_eq!(named(FIVE, &[], &[]), []);
    assert_eq!(named(FIVE, &[], &[1]), [1, 3]);
    assert_eq!(named(FIVE, &[], &[3]), [3]);
    assert_eq!(named(FIVE, &[], &[2]), [2, 4]);
    assert_eq!(named(FIVE, &[], &[5, 1, 5]), [1, 3, 5]);
}

#[test]
fn a_removed_line_removes_its_transactions() {
    assert_eq!(named(FIVE, &[3, 70, 2, 70], &[1]), [1, 2, 3, 4]);
    assert_eq!(named(FIVE, &[3, 70, 2, 70], &[2]), [2, 3, 4]);
    assert_eq!(named(FIVE, &[3, 70, 2, 71], &[1]), [1, 3]);
    assert_eq!(named(FIVE, &[5, 8, 3, 9, 5, 9, 2, 8], &[1]), [1, 2, 3, 4, 5]);
    assert_eq!(named(FIVE, &[5, 0, 1], &[5]), [5]);
    assert_eq!(named(FIVE, &[4, u64::MAX, 1, u64::MAX], &[4]), [1, 3, 4]);
}

#[test]
fn numbers_that_are_not_there_are_refused() {
    assert_eq!(refused(FIVE, &[], &[0], 9), 16);
    assert_eq!(refused(FIVE, &[], &[6], 9), 16);
    assert_eq!(refused(FIVE, &[6, 1], &[], 9), 16);
    assert_eq!(named(FIVE, &[6], &[]), []);
    let torn = FIVE.trim_end();
    assert_eq!(refused(torn, &[], &[5], 9), 16);
    assert_eq!(named(torn, &[], &[4]), [4]);
}

#[test]
fn refusals_come_in_their_order() {
    assert_eq!(refused(&" ".repeat(65_537), &[0, 0], &[0], 0), 13);
    assert_eq!(refused("(site 0)\n", &[0, 0], &[0], 0), 15);
    assert_eq!(refused(FIVE, &[], &[1, 6], 0), 16);
    assert_eq!(refused(FIVE, &[], &[1], 1), 12);
    assert_eq!(removals(FIVE, &[], &[1], 2), (Ok(2), vec![1, 3]));
    assert_eq!(removals(FIVE, &[], &[], 0), (Ok(0), vec![]));
}

/// (g), (h): stable lines have no numbers, and the first line behind a base line of N is N + 1.
#[test]
fn numbers_go_on_behind_a_base() {
    let log =
        "(site 1)\n(base 5 (0 2 5 9))\n(did 6 (set 0 3 6 1))\n(stable 6)\n(did 7 (set 0 4 7 2))\n";
    assert_eq!(named(log, &[], &[6]), [6, 7]);
    assert_eq!(named(log, &[], &[7]), [7]);
    assert_eq!(refused(log, &[], &[5], 9), 16);
    assert_eq!(refused(log, &[], &[8], 9), 16);
    assert_eq!(refused(log, &[5, 1], &[6], 9), 16);
}

/// A full log of short lines in one history: all fall with the first, and with the last where one
/// transaction has them all, also by many more pairs than lines.
#[test]
fn a_full_log_falls() {
    let mut log = "(site 1)\n".to_string();
    let mut lines = Vec::new();
    while log.len() <= 65_000 {
        lines.push(lines.len() as u64 + 1);
        log += &format!("(did 0 (not 0 0 {} 0))\n", lines.len());
    }
    log += &format!("(stable {})\n", lines.len());
    let falls = |pairs: &[u64], lost: u64| {
        let (outcome, out) = removals(&log, pairs, &[lost], lines.len());
        assert_eq!((outcome, &out), (Ok(lines.len()), &lines));
    };
    falls(&[], 1);
    let last = lines.len() as u64;
    for count in [last, 12_288, 12_289, 40_000] {
        let pairs: Vec<u64> = (0..count).flat_map(|at| [last - at % last, 9]).collect();
        falls(&pairs, last);
    }
    let ladder: Vec<u64> =
        (1..last).flat_map(|line| [line, 4096 * line, line + 1, 4096 * line]).collect();
    falls(&ladder, last);
}
