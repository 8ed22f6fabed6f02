//! Document 02, (j): cards of a site's log behind a redo that runs several lines, and behind a cut.

use super::*;
use second::card::Counts;

/// Three operations of history 0, one of each rule, and one of history 1.
const DONE: &str = "(site 2)\n(add 1 (inc 0 1 7))\n(finish 1)\n(add 2 (set 0 2 9))\n(finish 2)\n\
                    (add 3 (not 0 2 0))\n(finish 3)\n(add 4 (inc 1 1 5))\n(finish 4)\n";

/// All of it lost, and back by four redos: 4 runs, 3 and 2 wait, and the last runs three lines.
const BACK: &str = "(cut 9)\n(redo (did 4 (inc 1 1 1 5)))\n(redo (did 3 (not 0 2 3 0)))\n\
                    (redo (did 2 (set 0 2 2 9)))\n(redo (did 1 (inc 0 1 1 7)))\n";

/// The bytes in use of the log that a session leaves.
fn log_of(input: &str) -> Vec<u8> {
    let (_, log) = run(input, ROOM);
    log.into_iter().take_while(|byte| *byte != 255).collect()
}

/// The first six numbers of a card that was counted at `begun` bytes and is asked for at `kept`: inc, set
/// and not of history 0, then of history 1. The numbers behind them stay.
fn card(log: &[u8], begun: usize, kept: usize, w: u64) -> Result<(usize, [u64; 6]), u64> {
    agreed(|program| {
        let mut counts: Counts = [77; 48];
        let lines = program.card(log, begun, kept, w, &mut counts)?;
        assert!(counts[6..].iter().all(|number| *number == 77), "the numbers behind stay");
        Ok((lines, counts[..6].try_into().expect("six numbers")))
    })
}

#[test]
fn a_redo_that_runs_three_brings_three_lines_in() {
    let replies = run(&format!("{DONE}{BACK}"), ROOM).0;
    assert!(replies.ends_with("(ok 3 6)\n"), "{replies}");
    let log = log_of(&format!("{DONE}{BACK}"));
    let before = "(site 2)\n(did 4 (inc 1 1 1 5))\n".len();
    assert_eq!(card(&log, before, log.len(), 1024), Ok((4, [1, 1, 1, 1, 0, 0])));
    assert_eq!(card(&log, before, log.len(), 3), Ok((3, [1, 1, 1, 0, 0, 0])));
    assert_eq!(card(&log, before, log.len(), 2), Ok((2, [0, 1, 1, 0, 0, 0])));
    assert_eq!(card(&log, before, log.len(), 1), Ok((1, [0, 0, 1, 0, 0, 0])));
}

#[test]
fn a_cut_brings_lines_back_onto_the_card() {
    let log = log_of(DONE);
    let two = "(site 2)\n(did 1 (inc 0 1 1 7))\n(did 2 (set 0 2 2 9))\n".len();
    assert_eq!(card(&log, log.len(), log.len(), 2), Ok((2, [0, 0, 1, 1, 0, 0])));
    assert_eq!(card(&log, log.len(), two, 2), Ok((2, [1, 1, 0, 0, 0, 0])));
    assert_eq!([0, 1025].map(|w| card(&log, log.len(), two, w)), [Err(22), Err(22)]);
}
