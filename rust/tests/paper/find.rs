//! Document 02, (i): cuts that leave given places, on both sides of each of their edges.

use super::*;

/// The paper's session with a stable line behind it.
const HELD: &str = "(site 2)\n(did 5 (inc 0 1 1 513)(not 1 0 1 0))\n(did 6 (set 1 4 2 1000))\n\
                    (stable 1)\n";

/// The number of kept bytes that all programs name.
fn find(log: &str, places: &[u64]) -> Outcome {
    agreed(|program| program.find_cut(log.as_bytes(), log.len(), places))
}

#[test]
fn the_smallest_number_is_named() {
    for log in [LOG, HELD] {
        assert_eq!(find(log, &[0, 0]), Ok(9));
        assert_eq!(find(log, &[1, 1]), Ok(46));
        assert_eq!(find(log, &[1, 2]), Ok(71));
    }
}

#[test]
fn places_that_no_cut_leaves_are_refused() {
    for places in [[0, 1], [1, 0], [1, 3], [2, 2], [u64::MAX, 0]] {
        assert_eq!(find(LOG, &places), Err(21), "{places:?}");
    }
}

#[test]
fn more_or_fewer_places_fit_no_length() {
    for places in [&[][..], &[0], &[1], &[0, 0, 0], &[1, 1, 0], &[0; 16], &[0; 17], &[0; 40]] {
        assert_eq!(find(LOG, places), Err(21), "{places:?}");
    }
}

/// Two live lines of one id are refused up to the stable line behind them.
#[test]
fn the_table_is_asked() {
    let log = "(site 1)\n(did 1 (inc 0 1 1 0))\n(did 1 (inc 0 2 2 0))\n(stable 1)\n\
               (did 2 (inc 0 3 3 0))\n";
    assert_eq!([1, 2, 3].map(|place| find(log, &[place])), [Ok(31), Ok(64), Ok(86)]);
}

/// A changed-over log of 70 did lines.
#[test]
fn more_than_64_live_lines_are_asked_for() {
    let did = |at: u64| format!("(did {at} (inc 0 {at} {at} 0))\n");
    let lines: Vec<String> = (1..=70).map(did).collect();
    let log = format!("(site 1)\n{}(stable 70)\n", lines.concat());
    for place in 0..=64 {
        assert_eq!(find(&log, &[place]), Ok(9 + lines[..place as usize].concat().len()));
    }
    for place in 65..70 {
        assert_eq!(find(&log, &[place]), Err(21));
    }
    assert_eq!(find(&log, &[70]), Ok(log.len()));
    assert_eq!(find(&log, &[71]), Err(21));
}

/// A cut without the whole base line is refused.
#[test]
fn the_base_line_is_kept() {
    let log = "(site 1)\n(base 5 (0 5 5 7))\n(did 6 (inc 0 6 6 0))\n";
    assert_eq!([0, 4, 5, 6].map(|place| find(log, &[place])), [Err(21), Err(21), Ok(28), Ok(50)]);
    let zeros = "(site 1)\n(base 0 (0 0 0 0))\n";
    assert_eq!(find(zeros, &[0]), Ok(28));
}

/// A torn last line is no part of the site's log.
#[test]
fn the_log_is_restarted_from() {
    let torn = "(site 2)\n(did 5 (inc 0 1 1 513)(not 1 0 1 0))\n(did 6 (set";
    assert_eq!(find(torn, &[1, 1]), Ok(46));
    assert_eq!(find("(site 2)", &[0, 0]), Err(15));
    assert_eq!(agreed(|program| program.find_cut(LOG.as_bytes(), 72, &[0, 0])), Err(13));
}
