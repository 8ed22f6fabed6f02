//! Document 02, (k): which histories a poll calls dry.

use super::*;
pub use second::program::{BUSY, DRY};

/// What polls of some histories give at a session's end, on which all programs agree.
pub fn polls<const N: usize>(input: &str, histories: [u64; N]) -> [u64; N] {
    agreed(|program| {
        let (mut log, mut polls) = (vec![255; ROOM], histories);
        let mut out = vec![0; 100 * input.lines().count() + SPARE];
        let given = program.session_polls(input.as_bytes(), &mut log, &mut out, &mut polls);
        assert!(given.is_some());
        polls
    })
}

#[test]
fn future_in_progress_and_volatile_updates_count() {
    let opened = "(site 2)\n";
    assert_eq!(polls(opened, [0, 1]), [DRY, DRY]);
    let future = format!("{opened}(add 6 (set 1 4 1000)(not 0 9 0))\n");
    assert_eq!(last_reply(&future), "(ok (ready))");
    assert_eq!(polls(&future, [0, 1]), [BUSY, BUSY]);
    assert_eq!(polls(&format!("{future}(withdraw 6)\n"), [0, 1]), [DRY, DRY]);
    let overtaken = format!("{future}(add 7 (set 0 10 0))\n(finish 7)\n");
    assert_eq!(last_reply(&overtaken), "(ok 1 (values 0)(ready)(overtaken 6))");
    assert_eq!(polls(&overtaken, [0, 1]), [BUSY, DRY]);
    let running = format!("{opened}(add 5 (inc 0 1 513))\n");
    assert_eq!(last_reply(&running), "(ok (ready 5))");
    assert_eq!(polls(&running, [0, 1]), [BUSY, DRY]);
    let done = format!("{running}(finish 5)\n");
    assert_eq!(polls(&done, [0, 1]), [BUSY, DRY]);
    assert_eq!(polls(&format!("{done}(persistent 0)\n"), [0, 1]), [BUSY, DRY]);
    assert_eq!(polls(&format!("{done}(persistent 1)\n"), [0, 1]), [DRY, DRY]);
}

#[test]
fn waiting_lines_do_not_count_and_lines_that_ran_do() {
    let cut = format!("{FIRST}(cut 9)\n");
    assert_eq!(polls(&cut, [0, 1]), [DRY, DRY]);
    let waits = format!("{cut}(redo (did 6 (set 1 4 2 1000)))\n");
    assert_eq!(polls(&waits, [0, 1]), [DRY, DRY]);
    let ran = format!("{waits}(redo (did 5 (inc 0 1 1 513)(not 1 0 1 0)))\n");
    assert_eq!(polls(&ran, [0, 1]), [BUSY, BUSY]);
    assert_eq!(polls(&format!("{ran}(persistent 1)\n"), [0, 1]), [DRY, BUSY]);
    assert_eq!(polls(&format!("{ran}(end)\n(persistent 2)\n"), [0, 1]), [DRY, DRY]);
    assert_eq!(polls(&format!("{waits}(end)\n"), [0, 1]), [DRY, DRY]);
}

#[test]
fn a_history_that_is_not_there() {
    let histories = [0, 1, 2, 15, 16, u64::MAX];
    assert_eq!(polls("(site 2)\n", histories), [DRY, DRY, 3, 3, 3, 3]);
    assert_eq!(polls("(site 16)\n", histories), [DRY, DRY, DRY, DRY, 3, 3]);
    assert_eq!(polls(&format!("{FIRST}(cut 71)\n"), histories), [DRY, DRY, 3, 3, 3, 3]);
    assert_eq!(polls("(site 17)\n", histories), [14; 6]);
}

/// The session's language has no word for it.
#[test]
fn no_line_of_a_session_polls() {
    assert_eq!(last_reply("(site 2)\n(poll 0)\n"), "(refused 1)");
}
