//! Document 02, (g): stable lines, on both sides of each of their edges.

use super::*;

/// A site of one history with operation 1 done and persistent: 9 + 22 bytes of log.
const DONE: &str = "(site 1)\n(add 1 (inc 0 1 0))\n(finish 1)\n(persistent 1)\n";

/// The same with operation 2, and with 1 stable: 9 + 22 + 22 + 11 bytes of log.
const TWO: &str = "(site 1)\n(add 1 (inc 0 1 0))\n(finish 1)\n(persistent 1)\n\
                   (add 2 (inc 0 2 0))\n(finish 2)\n(persistent 2)\n(stable 1)\n";

/// Calls, each with its reply, behind a beginning and over a log buffer of so many bytes.
fn check(room: usize, before: &str, calls: &[(&str, &str)]) {
    let input: String = calls.iter().map(|call| format!("{}\n", call.0)).collect();
    let replies = replies_with_room(&format!("{before}{input}"), room);
    let replies: Vec<&str> = replies.lines().skip(before.lines().count()).collect();
    for (at, (call, reply)) in calls.iter().enumerate() {
        assert_eq!(replies[at], *reply, "call {}: {call}", at + 1);
    }
}

/// `(did J (inc 0 J J 0))` for J from 1 to this.
pub fn dids(count: u64) -> String {
    (1..=count).map(|at| format!("(did {at} (inc 0 {at} {at} 0))\n")).collect()
}

/// A session that logs them.
fn done(count: u64) -> String {
    let add = |at| format!("(add {at} (inc 0 {at} 0))\n(finish {at})\n");
    "(site 1)\n".to_string() + &(1..=count).map(add).collect::<String>()
}

/// "if that does not fit, 12 comes before 13"; an N that is reached is accepted.
#[test]
fn twelve_comes_before_thirteen() {
    check(
        41,
        DONE,
        &[
            ("(stable 1)", "(refused 12)"),
            ("(stable 2)", "(refused 12)"),
            ("(stable 0)", "(ok (histories))"),
        ],
    );
    check(
        42,
        DONE,
        &[
            ("(stable 2)", "(refused 13)"),
            ("(stable 1)", "(ok (histories 0))"),
            ("(stable 1)", "(ok (histories))"),
            ("(stable 2)", "(refused 12)"),
            ("(cut 42)", "(ok 1 42)"),
        ],
    );
}

/// "While restoring, any stable call with N above the mark meets 14", before 12 and 13.
#[test]
fn not_while_restoring() {
    check(
        41,
        DONE,
        &[
            ("(cut 31)", "(ok 1 31)"),
            ("(stable 1)", "(refused 14)"),
            ("(stable 2)", "(refused 14)"),
            ("(stable 0)", "(ok (histories))"),
            ("(end)", "(ok (waiting))"),
            ("(stable 1)", "(refused 12)"),
        ],
    );
    check(
        1000,
        TWO,
        &[
            ("(cut 64)", "(ok 2 64)"),
            ("(stable 1)", "(ok (histories))"),
            ("(stable 2)", "(refused 14)"),
            ("(end)", "(ok (waiting))"),
            ("(stable 2)", "(ok (histories 0))"),
        ],
    );
}

/// The line stands behind the bytes in use, and no byte past it changes.
#[test]
fn the_line_in_the_log() {
    let log = |input: &str| run(input, 100).1;
    let text = "(site 1)\n(did 1 (inc 0 1 1 0))\n(did 2 (inc 0 2 2 0))\n(stable 1)\n";
    let with = |text: &str| [text.as_bytes(), &vec![255; 100 - text.len()]].concat();
    assert_eq!(log(TWO), with(text));
    assert_eq!(log(&format!("{TWO}(stable 1)\n(stable 0)\n(stable 3)\n")), with(text));
    assert_eq!(log(&format!("{TWO}(stable 2)\n")), with(&format!("{text}(stable 2)\n")));
}

/// "leaves the table only when a persistent report covers its stable line".
#[test]
fn a_stable_operation_stays_live_until_it_is_covered() {
    let stable = format!("{DONE}(stable 1)\n");
    let again = "(add 1 (inc 0 2 0))";
    check(
        1000,
        &stable,
        &[
            (again, "(refused 8)"),
            ("(persistent 1)", "(ok (histories)(dry))"),
            (again, "(ok (ready 1))"),
        ],
    );
    let after = "(add 1 (inc 0 3 0))";
    check(
        1000,
        &format!("{stable}(add 2 (inc 0 2 0))\n(finish 2)\n"),
        &[
            ("(persistent 1)", "(ok (histories)(dry))"),
            (after, "(refused 8)"),
            ("(persistent 2)", "(ok (histories 0)(dry 0))"),
            (after, "(ok (ready 1))"),
        ],
    );
    let later = "(add 1 (inc 0 4 0))";
    check(
        1000,
        &format!("{stable}(add 2 (inc 0 2 0))\n(finish 2)\n(add 3 (inc 0 3 0))\n(finish 3)\n"),
        &[
            ("(persistent 1)", "(ok (histories)(dry))"),
            (later, "(refused 8)"),
            ("(persistent 2)", "(ok (histories 0)(dry))"),
            (later, "(ok (ready 1))"),
        ],
    );
}

/// Only the operations up to N leave; a report of a line before the stable line covers nothing.
#[test]
fn only_what_is_stable_leaves() {
    check(
        1000,
        TWO,
        &[
            ("(persistent 1)", "(ok (histories)(dry))"),
            ("(add 1 (inc 0 3 0))", "(refused 8)"),
            ("(persistent 2)", "(ok (histories)(dry))"),
            ("(add 2 (inc 0 3 0))", "(refused 8)"),
            ("(add 1 (inc 0 3 0))", "(ok (ready 1))"),
        ],
    );
}

/// "Restart takes the last such line kept, or 0".
#[test]
fn marks_after_a_restart() {
    check(
        1000,
        &format!("{TWO}(add 3 (inc 0 3 0))\n(finish 3)\n"),
        &[
            ("(cut 86)", "(ok 3 86)"),
            ("(show 0)", "(history 0 3 3 1 3 0)"),
            ("(persistent 3)", "(ok (histories)(dry))"),
            ("(cut 85)", "(ok 2 64)"),
            ("(show 0)", "(history 0 2 2 1 2 0)"),
            ("(cut 63)", "(ok 2 53)"),
            ("(show 0)", "(history 0 2 2 0 2 0)"),
        ],
    );
    check(
        1000,
        &format!("{TWO}(stable 2)\n"),
        &[
            ("(cut 75)", "(ok 2 75)"),
            ("(show 0)", "(history 0 2 2 2 2 0)"),
            ("(cut 74)", "(ok 2 64)"),
            ("(show 0)", "(history 0 2 2 1 2 0)"),
        ],
    );
}

/// "kept operations above it are live again", and those up to it are not.
#[test]
fn live_again_after_a_restart() {
    let again = "(add 1 (inc 0 2 0))";
    check(
        1000,
        DONE,
        &[
            ("(cut 31)", "(ok 1 31)"),
            ("(redo (did 1 (inc 0 2 2 0)))", "(refused 8)"),
            ("(end)", "(ok (waiting))"),
            (again, "(refused 8)"),
            ("(stable 1)", "(ok (histories 0))"),
            (again, "(refused 8)"),
            ("(persistent 1)", "(ok (histories)(dry))"),
            (again, "(ok (ready 1))"),
        ],
    );
    check(
        1000,
        &format!("{DONE}(stable 1)\n"),
        &[
            ("(cut 42)", "(ok 1 42)"),
            ("(redo (did 1 (inc 0 2 2 0)))", "(ok 1 1)"),
            ("(show 0)", "(history 0 2 1 1 2 0)"),
        ],
    );
}

/// A stable line that a restart kept is covered; one written after it is covered as others are.
#[test]
fn a_report_after_a_restart() {
    check(
        1000,
        &format!("{TWO}(cut 64)\n(end)\n"),
        &[
            ("(add 1 (inc 0 3 0))", "(ok (ready 1))"),
            ("(add 2 (inc 0 4 0))", "(refused 8)"),
            ("(stable 2)", "(ok (histories 0))"),
            ("(add 2 (inc 0 4 0))", "(refused 8)"),
            ("(finish 1)", "(ok 3 (values 0)(ready)(overtaken))"),
            ("(persistent 2)", "(ok (histories)(dry))"),
            ("(add 2 (inc 0 4 0))", "(refused 8)"),
            ("(persistent 3)", "(ok (histories 0)(dry 0))"),
            ("(add 2 (inc 0 4 0))", "(ok (ready 2))"),
        ],
    );
}

/// The logs that restart refuses with 15, beside those that it takes.
#[test]
fn logs_that_restart_reads() {
    let one = dids(1);
    let two = dids(2);
    for (lines, reply) in [
        ("(stable 0)\n".to_string(), "(refused 15)"),
        (format!("{one}(stable 0)\n"), "(refused 15)"),
        (format!("{one}(stable 1)\n"), "(ok 1 42)"),
        (format!("{one}(stable 2)\n"), "(refused 15)"),
        (format!("(stable 1)\n{one}"), "(refused 15)"),
        (format!("{one}(stable 1)\n(stable 1)\n"), "(refused 15)"),
        (format!("{two}(stable 1)\n(stable 2)\n"), "(ok 2 75)"),
        (format!("{two}(stable 2)\n(stable 1)\n"), "(refused 15)"),
        (format!("{one}(stable 1)"), "(ok 1 31)"),
        (format!("{one}(stable 01)\n"), "(refused 15)"),
        (format!("{one}(stable)\n"), "(refused 15)"),
        (format!("{one}(stable 1 )\n"), "(refused 15)"),
        (format!("{one}(stable 18446744073709551616)\n"), "(refused 15)"),
        (format!("{one}(stable 1)(stable 2)\n"), "(refused 15)"),
        (format!("{one}(did 1 (inc 0 2 2 0))\n"), "(refused 15)"),
        (format!("{one}(stable 1)\n(did 1 (inc 0 2 2 0))\n"), "(ok 2 64)"),
        (format!("{one}(did 1 (inc 0 2 2 0))\n(stable 1)\n"), "(ok 2 64)"),
        (format!("{two}(stable 1)\n(did 2 (inc 0 3 3 0))\n"), "(refused 15)"),
        (dids(64), "(ok 64 1582)"),
        (dids(65), "(refused 15)"),
        (format!("{}(stable 1)\n", dids(65)), "(ok 65 1618)"),
        (format!("{}(stable 1)\n", dids(66)), "(refused 15)"),
        (format!("{}(stable 1)\n(stable 2)\n", dids(66)), "(ok 66 1654)"),
        (format!("{}(stable 2000)\n", dids(2000)), "(ok 2000 58702)"),
        (format!("{}(stable 1935)\n", dids(2000)), "(refused 15)"),
        (format!("{}(stable 1936)\n", dids(2000)), "(ok 2000 58702)"),
    ] {
        let log = format!("(site 1)\n{lines}");
        assert_eq!(restart(log.as_bytes(), log.len()), reply, "{lines}");
    }
}

/// "01's 65th add needs the covering report too", after a restart and without one.
#[test]
fn the_65th_add_needs_the_covering_report() {
    let next = "(add 70 (inc 0 65 0))";
    let calls = [
        (next, "(refused 10)"),
        ("(stable 1)", "(ok (histories 0))"),
        (next, "(refused 10)"),
        ("(persistent 63)", "(ok (histories)(dry))"),
        (next, "(refused 10)"),
        ("(persistent 64)", "(ok (histories)(dry))"),
        (next, "(ok (ready 70))"),
        ("(add 71 (inc 0 66 0))", "(refused 10)"),
    ];
    check(ROOM, &format!("{}(cut 1582)\n(end)\n", done(64)), &calls);
    check(ROOM, &format!("{}(persistent 64)\n", done(64)), &calls);
}

/// Redo meets 10 and 8 by what is live after the restart too.
#[test]
fn redo_beside_lines_that_are_live_again() {
    let line = |id: u64, at: u64| format!("(redo (did {id} (inc 0 {at} {at} 0)))");
    check(
        ROOM,
        &format!("{}(cut 1582)\n", done(64)),
        &[
            (&line(65, 65), "(refused 10)"),
            (&line(64, 65), "(refused 8)"),
            ("(cut 1557)", "(ok 63 1557)"),
            (&line(63, 64), "(refused 8)"),
            (&line(64, 64), "(ok 1 1)"),
            (&line(65, 65), "(refused 10)"),
        ],
    );
}

/// No redo brings a stable line.
#[test]
fn a_stable_line_is_not_redone() {
    check(1000, TWO, &[("(cut 53)", "(ok 2 53)"), ("(redo (stable 1))", "(refused 1)")]);
}

/// (k): stable and leaving make nothing dry or wet, and after a restart all is dry.
#[test]
fn polls_beside_stable_operations() {
    let polls = |input: &str| poll::polls(input, [0]);
    let volatile = format!("{TWO}(add 3 (inc 0 3 0))\n(finish 3)\n");
    assert_eq!(polls(TWO), [poll::DRY]);
    assert_eq!(polls(&format!("{TWO}(stable 2)\n(persistent 2)\n")), [poll::DRY]);
    assert_eq!(polls(&volatile), [poll::BUSY]);
    assert_eq!(polls(&format!("{volatile}(stable 2)\n(persistent 2)\n")), [poll::BUSY]);
    assert_eq!(polls(&format!("{volatile}(persistent 3)\n")), [poll::DRY]);
    assert_eq!(polls(&format!("{volatile}(cut 86)\n")), [poll::DRY]);
}

/// The five lists after which a weakened rule would let no lost line come back.
mod weakened {
    use super::*;

    /// The calls that make an id live, stable, and used again if it has left.
    const STABLE: &str = "(site 1)\n(add 1 (inc 0 1 0))\n(finish 1)\n(persistent 1)\n(stable 1)\n";
    const AGAIN: &str = "(redo (did 1 (inc 0 2 2 0)))";

    #[test]
    fn operations_do_not_leave_at_the_stable_call() {
        check(1000, STABLE, &[("(add 1 (inc 0 2 0))", "(refused 8)")]);
    }

    /// A cut that loses a covered stable line is not fair: the line behind it does not come back.
    #[test]
    fn covered_lines_count() {
        let covered = format!("{STABLE}(persistent 1)\n(add 1 (inc 0 2 0))\n(finish 1)\n");
        check(1000, &covered, &[("(cut 42)", "(ok 1 42)"), (AGAIN, "(ok 1 1)")]);
        check(1000, &covered, &[("(cut 41)", "(ok 1 31)"), (AGAIN, "(refused 8)")]);
    }

    /// Nor is one that loses a stable line which a restart kept.
    #[test]
    fn kept_lines_count() {
        let kept = format!("{STABLE}(cut 42)\n(end)\n(add 1 (inc 0 2 0))\n(finish 1)\n");
        check(1000, &kept, &[("(cut 42)", "(ok 1 42)"), (AGAIN, "(ok 1 1)")]);
        check(1000, &kept, &[("(cut 41)", "(ok 1 31)"), (AGAIN, "(refused 8)")]);
    }

    /// A line written while restoring would take the room of a lost one.
    #[test]
    fn no_stable_line_while_restoring() {
        check(
            53,
            &format!("{DONE}(add 2 (inc 0 2 0))\n(finish 2)\n"),
            &[
                ("(cut 31)", "(ok 1 31)"),
                ("(stable 1)", "(refused 14)"),
                ("(redo (did 2 (inc 0 2 2 0)))", "(ok 1 1)"),
            ],
        );
    }

    #[test]
    fn the_line_before_does_not_cover() {
        let before = format!("{STABLE}(add 2 (inc 0 2 0))\n(finish 2)\n(persistent 1)\n");
        check(1000, &before, &[("(add 1 (inc 0 3 0))", "(refused 8)")]);
    }
}
