//! Document 02, (b): steps that are overtaken.

use super::*;

const LAST: u64 = u64::MAX;

/// The reply to the finish of a set to a version, behind these lines.
fn set_to(version: u64, before: &str) -> String {
    let set = format!("(site 3)\n(add 99 (set 0 {version} 0))\n{before}(finish 99)\n");
    last_reply(&set)
}

/// What waits in history 0 when it gets to version 5: now, later or never.
#[test]
fn now_later_and_never() {
    for (update, then) in [
        ("inc 0 6 0", "(ready 1)(overtaken)"),
        ("inc 0 7 0", "(ready)(overtaken)"),
        ("inc 0 5 0", "(ready)(overtaken 1)"),
        ("inc 0 1 0", "(ready)(overtaken 1)"),
        ("set 0 6 0", "(ready 1)(overtaken)"),
        ("set 0 7 0", "(ready 1)(overtaken)"),
        ("set 0 5 0", "(ready)(overtaken 1)"),
        ("set 0 1 0", "(ready)(overtaken 1)"),
        ("not 0 5 0", "(ready 1)(overtaken)"),
        ("not 0 6 0", "(ready)(overtaken)"),
        ("not 0 4 0", "(ready)(overtaken 1)"),
        ("not 0 0 0", "(ready)(overtaken 1)"),
        ("inc 1 1 0)(unk 0 0 0", "(ready 1)(overtaken)"),
    ] {
        let reply = set_to(5, &format!("(add 1 ({update}))\n"));
        assert_eq!(reply, format!("(ok 1 (values 0){then})"), "{update}");
    }
}

/// At the highest version nothing runs that a later one could make run.
#[test]
fn the_highest_version() {
    for (update, then) in [
        (format!("inc 0 {LAST} 0"), "(ready)(overtaken 1)"),
        (format!("set 0 {LAST} 0"), "(ready)(overtaken 1)"),
        (format!("not 0 {LAST} 0"), "(ready 1)(overtaken)"),
        ("inc 1 1 0)(unk 0 0 0".to_string(), "(ready)(overtaken 1)"),
    ] {
        let reply = set_to(LAST, &format!("(add 1 ({update}))\n"));
        assert_eq!(reply, format!("(ok 1 (values 0){then})"), "{update}");
    }
}

/// One never is enough, in the order of arrival, and the others stay as they are.
#[test]
fn named_oldest_arrival_first() {
    let waiting = "(add 7 (inc 1 1 0)(inc 0 4 0))\n(add 8 (inc 1 2 0)(not 0 6 0))\n\
                   (add 3 (set 0 6 0))\n(add 5 (not 0 1 0)(inc 2 1 0))\n(add 6 (inc 1 1 0))\n";
    assert_eq!(set_to(5, waiting), "(ok 1 (values 0)(ready 3)(overtaken 7 5))");
    let before = format!("{waiting}(finish 6)\n");
    assert_eq!(set_to(5, &before), "(ok 2 (values 0)(ready 3)(overtaken 5))");
}

/// What is in progress beside the finished one stays: it holds no never.
#[test]
fn nothing_in_progress_is_dropped() {
    let beside = "(add 1 (inc 1 1 0))\n(add 2 (not 2 0 0))\n";
    assert_eq!(set_to(5, beside), "(ok 1 (values 0)(ready)(overtaken))");
    let more = "(site 3)\n(add 99 (set 0 5 0))\n(add 1 (inc 1 1 0))\n(finish 99)\n(finish 1)\n";
    assert_eq!(last_reply(more), "(ok 2 (values 0)(ready)(overtaken))");
}

/// Id and entry are free at once; withdrawing meets 11.
#[test]
fn what_was_dropped_is_gone() {
    let dropped = "(site 2)\n(add 9 (set 0 5 0))\n(add 1 (inc 0 1 0))\n(finish 9)\n";
    for (line, reply) in [
        ("(withdraw 1)", "(refused 11)"),
        ("(finish 1)", "(refused 11)"),
        ("(add 1 (inc 0 6 0))", "(ok (ready 1))"),
    ] {
        assert_eq!(last_reply(&format!("{dropped}{line}\n")), reply, "{line}");
    }
    let mut full = "(site 2)\n(add 64 (set 0 5 0))\n".to_string();
    for id in 1..64 {
        full += &format!("(add {id} (inc 0 1 0)(not 1 0 0))\n");
    }
    assert_eq!(last_reply(&format!("{full}(add 65 (inc 0 6 0))\n")), "(refused 10)");
    full += "(finish 64)\n";
    for id in 65..128 {
        full += &format!("(add {id} (inc 1 2 0))\n");
    }
    assert_eq!(last_reply(&full), "(ok (ready))", "63 entries are free");
    assert_eq!(last_reply(&format!("{full}(add 128 (inc 1 2 0))\n")), "(refused 10)");
}

/// A finish that is refused drops nothing, whether the log is full or the id is another.
#[test]
fn a_refused_finish_drops_nothing() {
    let added = "(site 1)\n(add 9 (set 0 5 0))\n(add 1 (inc 0 1 0))\n";
    let refused = format!("{added}(finish 9)\n(finish 1)\n(withdraw 1)\n");
    let expected = "(ok)\n(ok (ready 9))\n(ok (ready))\n(refused 12)\n(refused 11)\n(ok (dry))\n";
    assert_eq!(replies_with_room(&refused, 9), expected);
}

/// A history that a drop made dry is named by no call; one with a volatile update later.
#[test]
fn dry_by_a_drop() {
    let dropped = "(site 3)\n(add 9 (set 0 5 0))\n(add 1 (inc 0 1 0)(inc 1 1 0))\n(finish 9)\n";
    assert_eq!(last_reply(dropped), "(ok 1 (values 0)(ready)(overtaken 1))");
    assert_eq!(last_reply(&format!("{dropped}(persistent 1)\n")), "(ok (histories 0)(dry 0))");
}

/// A waiting redo line that can never run waits until the end.
#[test]
fn a_waiting_line_is_not_dropped() {
    let waits = "(site 1)\n(cut 9)\n(redo (did 1 (inc 0 1 2 0)))\n(redo (did 2 (set 0 5 1 7)))\n";
    assert_eq!(last_reply(waits), "(ok 1 3)");
    assert_eq!(last_reply(&format!("{waits}(redo (did 3 (inc 0 1 3 0)))\n")), "(ok 0 2)");
    assert_eq!(last_reply(&format!("{waits}(end)\n")), "(ok (waiting 1))");
}

/// 17 comes after 9 and before 10.
#[test]
fn an_unk_added_at_the_highest_version() {
    let at_last = format!("(site 3)\n(add 9 (set 0 {LAST} 0))\n(finish 9)\n");
    let one_below = format!("(site 3)\n(add 9 (set 0 {} 0))\n(finish 9)\n", LAST - 1);
    let read = format!("{at_last}(add 8 (set 1 4 0))\n(finish 8)\n");
    for (before, updates, reply) in [
        (&at_last, "(unk 0 0 0)(inc 1 1 0)", "(refused 17)"),
        (&at_last, "(inc 1 1 0)(unk 0 0 0)", "(refused 17)"),
        (&at_last, "(inc 1 5 0)(unk 0 0 0)", "(refused 17)"),
        (&at_last, "(unk 1 0 0)(inc 2 1 0)", "(ok (ready 1))"),
        (&one_below, "(unk 0 0 0)(inc 1 1 0)", "(ok (ready 1))"),
        (&at_last, "(unk 0 0 2048)(inc 1 1 0)", "(refused 5)"),
        (&at_last, "(unk 0 0 0)", "(refused 6)"),
        (&at_last, "(unk 0 0 0)(inc 1 0 0)", "(refused 8)"),
        (&read, "(unk 0 0 0)(not 1 3 0)(inc 2 1 0)", "(refused 9)"),
    ] {
        assert_eq!(last_reply(&format!("{before}(add 1 {updates})\n")), reply, "{updates}");
    }
    let mut full = at_last;
    for id in 100..163 {
        full += &format!("(add {id} (inc 1 2 0))\n");
    }
    assert_eq!(last_reply(&format!("{full}(add 1 (inc 1 1 0))\n")), "(refused 10)");
    let both = format!("{full}(add 1 (inc 1 1 0)(unk 0 0 0))\n");
    assert_eq!(last_reply(&both), "(refused 17)");
}
