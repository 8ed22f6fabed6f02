//! Document 02, (h): base lines, and what is behind them, on both sides of each of their edges.

use super::*;
use second::refusal::Refusal;
use second::rules::Rules;
use second::site::Site;
use stable::dids;
use trim::{check, replies_from, TOP};

/// Restarts from a site line with so many histories and these lines, each with its reply.
fn check_restarts(rows: &[(u64, &str, &str)]) {
    for (histories, lines, reply) in rows {
        let log = format!("(site {histories})\n{lines}");
        assert_eq!(restart(log.as_bytes(), log.len()), *reply, "{lines}");
    }
}

/// 15 and where it is not met.
#[test]
fn base_lines_that_restart_reads() {
    check_restarts(&[
        (1, "(base 0 (0 0 0 0))\n", "(ok 0 28)"),
        (1, "(base 5 (0 5 5 7))\n", "(ok 5 28)"),
        // not the second line
        (1, "(did 1 (inc 0 1 1 0))\n(base 1 (0 1 1 0))\n", "(refused 15)"),
        (1, "(base 1 (0 1 1 0))\n(base 1 (0 1 1 0))\n", "(refused 15)"),
        (1, "(base 0 (0 0 0 0))\n(did 1 (inc 0 1 1 0))\n(base 1 (0 1 1 0))\n", "(refused 15)"),
        // a history is missing, or out of order, or there is one more
        (2, "(base 1 (0 1 1 65536)(1 0 1 0))\n", "(ok 1 41)"),
        (2, "(base 1 (0 1 1 65536))\n", "(refused 15)"),
        (2, "(base 1 (1 0 1 0)(0 1 1 65536))\n", "(refused 15)"),
        (2, "(base 1 (0 1 1 0)(0 1 1 0))\n", "(refused 15)"),
        (2, "(base 1 (0 1 1 0)(1 0 1 0)(2 0 0 0))\n", "(refused 15)"),
        (1, "(base 1 (1 1 1 0))\n", "(refused 15)"),
        (1, "(base 1)\n", "(refused 15)"),
        (1, "(base 1 )\n", "(refused 15)"),
        // N above 2^63, or a place above N; version and profile are free
        (1, "(base 9223372036854775808 (0 0 0 0))\n", "(ok 9223372036854775808 46)"),
        (1, "(base 9223372036854775809 (0 0 0 0))\n", "(refused 15)"),
        (1, "(base 1 (0 1 1 0))\n", "(ok 1 28)"),
        (1, "(base 1 (0 1 2 0))\n", "(refused 15)"),
        (1, "(base 1 (0 18446744073709551615 0 18446744073709551615))\n", "(ok 1 66)"),
        (1, "(base 1 (0 1 1 18446744073709551616))\n", "(refused 15)"),
        (1, "(base 01 (0 1 1 0))\n", "(refused 15)"),
        // bytes alone cannot know that a torn line is a base line
        (1, "(base 1 (0 1 1 0))", "(ok 0 9)"),
        (1, "(base 1", "(ok 0 9)"),
    ]);
}

/// The same of lines behind a base line.
#[test]
fn lines_that_restart_reads_behind_a_base_line() {
    let did = "(did 2 (inc 0 2 2 0))\n";
    check_restarts(&[
        // did lines behind it go on from its versions and places
        (1, &format!("(base 1 (0 1 1 0))\n{did}"), "(ok 2 50)"),
        (1, "(base 1 (0 1 1 0))\n(did 2 (inc 0 2 1 0))\n", "(refused 15)"),
        (1, "(base 1 (0 1 1 0))\n(did 2 (inc 0 1 2 0))\n", "(refused 15)"),
        // a stable line rises above the base
        (1, "(base 5 (0 5 5 0))\n(did 6 (inc 0 6 6 0))\n(stable 5)\n", "(refused 15)"),
        (1, "(base 5 (0 5 5 0))\n(did 6 (inc 0 6 6 0))\n(stable 4)\n", "(refused 15)"),
        (1, "(base 5 (0 5 5 0))\n(did 6 (inc 0 6 6 0))\n(stable 1)\n", "(refused 15)"),
        (1, "(base 5 (0 5 5 0))\n(did 6 (inc 0 6 6 0))\n(stable 6)\n", "(ok 6 61)"),
        (1, "(base 5 (0 5 5 0))\n(did 6 (inc 0 6 6 0))\n(stable 7)\n", "(refused 15)"),
        (1, "(base 5 (0 5 5 0))\n(stable 5)\n", "(refused 15)"),
        // 64 live lines behind the base, and 65
        (1, &format!("(base 5 (0 0 0 0))\n{}", dids(64)), "(ok 69 1601)"),
        (1, &format!("(base 5 (0 0 0 0))\n{}", dids(65)), "(refused 15)"),
        (1, &format!("(base 5 (0 0 0 0))\n{}(stable 6)\n", dids(65)), "(ok 70 1637)"),
        // an id twice behind the base
        (1, &format!("(base 1 (0 1 1 0))\n{did}(did 2 (inc 0 3 3 0))\n"), "(refused 15)"),
    ]);
}

/// "A base line may have 1,074 bytes with its end": 10 + 1,074 bytes.
#[test]
fn the_longest_base_line() {
    let most = u64::MAX;
    let cells: String = (0..16).map(|at| format!("({at} {most} {TOP} {most})")).collect();
    let log = format!("(site 16)\n(base {TOP} {cells})\n");
    assert_eq!(log.len(), 1084);
    assert_eq!(restart(log.as_bytes(), 1084), format!("(ok {TOP} 1084)"));
    assert_eq!(restart(log.as_bytes(), 1083), "(ok 0 10)");
    check(&log, TOP, 1084, Ok(&log));
    check(&log, TOP, 1083, Err(12));
    let padded = log.replace("(15 ", "(15 0");
    assert_eq!(restart(padded.as_bytes(), 1085), "(refused 15)");
}

/// After base 5 the next finish replies 6; a report of 3 is accepted and does nothing.
#[test]
fn numbers_go_on_behind_the_base() {
    let input =
        "(show 0)\n(end)\n(persistent 3)\n(add 9 (inc 0 6 0))\n(finish 9)\n(persistent 7)\n\
                 (persistent 6)\n(stable 5)\n(stable 6)\n(show 0)\n(cut 61)\n(cut 50)\n(cut 49)\n";
    let replies = [
        "(ok 5 28)",
        "(history 0 5 5 5 5 7)",
        "(ok (waiting))",
        "(ok (histories)(dry))",
        "(ok (ready 9))",
        "(ok 6 (values 0)(ready)(overtaken))",
        "(refused 13)",
        "(ok (histories 0)(dry 0))",
        "(ok (histories))",
        "(ok (histories 0))",
        "(history 0 6 6 6 6 0)",
        "(ok 6 61)",
        "(ok 6 50)",
        "(ok 5 28)",
    ];
    assert_eq!(replies_from("(site 1)\n(base 5 (0 5 5 7))\n", input), replies);
}

/// Redo goes on from the base line's places and versions.
#[test]
fn redo_behind_the_base() {
    let input = "(redo (did 7 (not 0 5 5 0)))\n(redo (did 7 (inc 0 7 7 1)))\n\
                 (redo (did 5 (inc 0 6 6 2)))\n(show 0)\n(redo (base 1 (0 1 1 0)))\n";
    let replies = [
        "(ok 5 28)",
        "(refused 8)",
        "(ok 0 1)",
        "(ok 2 3)",
        "(history 0 7 5 5 7 1)",
        "(refused 1)",
    ];
    assert_eq!(replies_from("(site 1)\n(base 5 (0 5 5 7))\n", input), replies);
}

/// The session has no word for a base line or a trim.
#[test]
fn no_word_of_a_session() {
    for line in ["(base 0 (0 0 0 0))", "(trim 0)", "(trim 0 100)", "(changeover 0 100)"] {
        assert_eq!(last_reply(&format!("(site 1)\n{line}\n")), "(refused 1)", "{line}");
    }
}

/// The changeover of an older log reads as before: a base line in it is 15.
#[test]
fn an_older_log_has_no_base_line() {
    let log = format!("(site 1)\n(base 0 (0 0 0 0))\n{}", dids(1));
    let mut buffer = [log.as_bytes(), &[7; 20]].concat();
    let before = buffer.clone();
    assert_eq!(agreed(|program| program.upgrade(&mut before.clone(), log.len())), Err(15));
    assert_eq!(Site::upgrade(&mut buffer, log.len() as u64, Rules::PAPER), Err(Refusal::BadLog));
    assert_eq!(buffer, before);
}
