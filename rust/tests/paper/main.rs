//! The examples and edge cases that the paper gives, one by one.

mod base;
mod card;
mod changeover;
mod find;
mod keeper;
mod overtaken;
mod poll;
mod records;
mod removal;
mod stable;
mod trim;

use second::program::{self, Outcome, Program, NO_KEEPER, SPARE};

const ROOM: usize = 65_536;

/// The 71 bytes of the paper's session.
const LOG: &str = "(site 2)\n(did 5 (inc 0 1 1 513)(not 1 0 1 0))\n(did 6 (set 1 4 2 1000))\n";

/// The part of the paper's session that writes them.
const FIRST: &str =
    "(site 2)\n(add 5 (inc 0 1 513)(not 1 0 0))\n(add 6 (set 1 4 1000))\n(finish 5)\n(finish 6)\n";

/// The replies of a session and its log buffer after it, on which all programs agree.
fn run(input: &str, room: usize) -> (String, Vec<u8>) {
    agreed(|program| {
        let mut log = vec![255; room];
        let mut out = vec![0; 100 * input.lines().count() + SPARE];
        let length = program.session(input.as_bytes(), &mut log, &mut out).expect("room for them");
        (text(&out[..length]), log)
    })
}

/// What all programs give.
fn agreed<T: PartialEq + std::fmt::Debug>(call: impl Fn(&dyn Program) -> T) -> T {
    let mut answers = program::all().into_iter().map(|program| call(program.as_ref()));
    let first = answers.next().expect("a program");
    for other in answers {
        assert_eq!(first, other, "the programs differ");
    }
    first
}

fn text(bytes: &[u8]) -> String {
    String::from_utf8(bytes.to_vec()).expect("plain text")
}

fn replies_with_room(input: &str, room: usize) -> String {
    run(input, room).0
}

fn replies(input: &str) -> String {
    replies_with_room(input, ROOM)
}

fn last_reply(input: &str) -> String {
    replies(input).lines().last().expect("a reply").to_string()
}

fn restart(log: &[u8], kept: usize) -> String {
    agreed(|program| {
        let mut out = [0; 64];
        let length = program.restart(log, kept, &mut out).expect("room for the reply");
        text(&out[..length]).trim_end().to_string()
    })
}

#[test]
fn the_session_of_the_paper() {
    let input = format!(
        "{FIRST}(persistent 1)\n(show 0)\n(cut 60)\n(show 1)\n(redo (did 6 (set 1 4 2 1000)))\n\
         (redo (did 6 (set 1 4 2 1000)))\n(end)\n(show 1)\n"
    );
    let expected =
        "(ok)\n(ok (ready 5))\n(ok (ready))\n(ok 1 (values 65536 0)(ready 6)(overtaken))\n\
                    (ok 2 (values 1000)(ready)(overtaken))\n(ok (histories 0)(dry 0))\n\
                    (history 0 1 1 0 1 65536)\n(ok 1 46)\n(history 1 0 0 0 1 0)\n(ok 1 1)\n\
                    (refused 8)\n(ok (waiting))\n(history 1 4 0 0 2 1000)\n";
    assert_eq!(replies(&input), expected);
}

#[test]
fn the_log_of_the_session() {
    let (_, log) = run(FIRST, ROOM);
    assert_eq!(LOG.len(), 71);
    assert_eq!(&log[..71], LOG.as_bytes());
    assert!(log[71..].iter().all(|&byte| byte == 255), "bytes past those in use are untouched");
}

/// P1 to P6, by a cut of the running site and by a restart from the same bytes.
#[test]
fn cuts_of_the_71_bytes() {
    for (kept, reply) in [
        (8, "(refused 15)"),
        (9, "(ok 0 9)"),
        (45, "(ok 0 9)"),
        (46, "(ok 1 46)"),
        (71, "(ok 2 71)"),
        (72, "(refused 13)"),
    ] {
        assert_eq!(last_reply(&format!("{FIRST}(cut {kept})\n")), reply, "cut {kept}");
        assert_eq!(restart(LOG.as_bytes(), kept), reply, "restart from {kept}");
    }
}

#[test]
fn p7_redo_waits_for_its_place() {
    let cut = format!("{FIRST}(cut 9)\n(redo (did 6 (set 1 4 2 1000)))\n");
    assert_eq!(last_reply(&cut), "(ok 0 1)");
    let redone = format!("{cut}(redo (did 5 (inc 0 1 1 513)(not 1 0 1 0)))\n");
    assert_eq!(last_reply(&redone), "(ok 2 3)");
    assert_eq!(last_reply(&format!("{redone}(cut 71)\n")), "(ok 2 71)");
}

/// Each round looks from the earliest delivered line to the one that runs, the last at all.
#[test]
fn redo_counts_how_often_it_looks() {
    let redo = |lines: &[&str]| {
        let redos: String = lines.iter().map(|line| format!("(redo (did {line}))\n")).collect();
        last_reply(&format!("(site 2)\n(cut 9)\n{redos}"))
    };
    assert_eq!(redo(&["1 (inc 0 2 2 0)", "2 (inc 1 1 1 0)"]), "(ok 1 3)");
    assert_eq!(redo(&["1 (inc 0 3 3 0)", "2 (inc 0 2 2 0)", "3 (inc 0 1 1 0)"]), "(ok 3 6)");
    assert_eq!(redo(&["1 (inc 0 2 2 0)", "2 (inc 0 3 3 0)", "3 (inc 0 1 1 0)"]), "(ok 3 5)");
}

#[test]
fn p8_inc_at_version_0() {
    for (version, reply) in [(1, "(ok (ready 5))"), (2, "(ok (ready))"), (0, "(refused 8)")] {
        let input = format!("(site 1)\n(add 5 (inc 0 {version} 0))\n");
        assert_eq!(last_reply(&input), reply, "inc {version}");
    }
}

#[test]
fn p9_set_and_not_at_version_4() {
    for (update, reply) in [
        ("set 0 5", "(ok (ready 7))"),
        ("set 0 4", "(refused 8)"),
        ("not 0 4", "(ok (ready 7))"),
        ("not 0 3", "(refused 9)"),
        ("not 0 5", "(ok (ready))"),
    ] {
        let input = format!("(site 1)\n(add 6 (set 0 4 1))\n(finish 6)\n(add 7 ({update} 0))\n");
        assert_eq!(last_reply(&input), reply, "{update}");
    }
}

#[test]
fn p10_one_part_of_the_profile() {
    let finish = |updates: &str| {
        let mut input = "(site 1)\n".to_string();
        for (index, update) in updates.split(',').enumerate() {
            input += &format!("(add {index} ({update}))\n(finish {index})\n");
        }
        last_reply(&input)
    };
    assert_eq!(finish("set 0 1 65536,inc 0 2 255"), "(ok 2 (values 65791)(ready)(overtaken))");
    assert_eq!(finish("inc 0 1 1023"), "(ok 1 (values 4278190080)(ready)(overtaken))");
    assert_eq!(finish("inc 0 1 2047"), "(ok 1 (values 18374686479671623680)(ready)(overtaken))");
    let full = "set 0 1 18446744073709551615,inc 0 2 1792";
    assert_eq!(finish(full), "(ok 2 (values 72057594037927935)(ready)(overtaken))");
}

#[test]
fn sixty_four_live_operations() {
    let mut input = "(site 1)\n(add 0 (inc 0 1 0))\n(finish 0)\n".to_string();
    for id in 1..64 {
        input += &format!("(add {id} (not 0 1 0))\n");
    }
    assert_eq!(last_reply(&input), "(ok (ready 63))", "the 64th");
    input += "(add 64 (not 0 1 0))\n";
    assert_eq!(last_reply(&input), "(refused 10)", "the 65th");
    input += "(persistent 1)\n(stable 1)\n(add 64 (not 0 1 0))\n";
    assert_eq!(last_reply(&input), "(refused 10)", "after one stable");
    input += "(persistent 1)\n(add 64 (not 0 1 0))\n";
    assert_eq!(last_reply(&input), "(ok (ready 64))", "after the report that covers it");
}

#[test]
fn the_examples_of_the_refusals() {
    let version_1 = "(site 2)\n(add 4 (inc 0 1 0))\n(finish 4)\n";
    for (before, line, number) in [
        ("(site 2)\n", "(add 5 (inc 0 1)", 1),
        ("", "(site 0)", 2),
        ("", "(site 17)", 2),
        ("(site 2)\n", "(add 5)", 2),
        ("(site 2)\n", "(show 9)", 3),
        ("(site 2)\n", "(add 5 (inc 0 1 0)(not 0 0 0))", 4),
        ("(site 2)\n", "(add 5 (inc 0 1 2048))", 5),
        ("(site 2)\n", "(add 5 (inc 0 1 0)(unk 1 1 0))", 5),
        ("(site 2)\n", "(add 5 (not 0 0 1))", 5),
        ("(site 2)\n", "(add 5 (inc 0 1 0)(unk 1 0 2048))", 5),
        ("(site 2)\n", "(add 5 (set 0 1 18446744073709551616))", 1),
        ("(site 2)\n", "(add 5 (unk 0 0 0))", 6),
        ("(site 2)\n(add 5 (inc 0 1 0))\n", "(add 5 (inc 0 1 0))", 7),
        ("(site 2)\n", "(add 5 (inc 0 0 0))", 8),
        (version_1, "(add 4 (inc 0 2 0))", 8),
        (version_1, "(add 5 (not 0 0 0))", 9),
        ("(site 2)\n", "(finish 9)", 11),
        ("(site 2)\n(add 5 (inc 0 1 0))\n", "(withdraw 5)", 11),
        (version_1, "(persistent 2)", 13),
        (version_1, "(stable 1)", 13),
        (FIRST, "(cut 72)", 13),
        ("(site 2)\n", "(end)", 14),
        ("(site 2)\n", "(site 2)", 14),
        ("(site 2)\n", "(site 0)", 14),
        ("", "(show 0)", 14),
        ("", "(redo (did 5))", 14),
        ("(site 2)\n(cut 9)\n", "(add 5)", 14),
        ("(site 2)\n(cut 9)\n", "(finish 5)", 14),
        ("(site 2)\n(cut 9)\n", "(withdraw 5)", 14),
        ("(site 2)\n(cut 9)\n", "(redo (did 5))", 2),
        (FIRST, "(cut 3)", 15),
    ] {
        let reply = last_reply(&format!("{before}{line}\n"));
        assert_eq!(reply, format!("(refused {number})"), "{line}");
    }
}

#[test]
fn a_log_of_9_bytes_takes_no_operation() {
    let input = "(site 2)\n(add 5 (inc 0 1 0))\n(finish 5)\n";
    assert_eq!(replies_with_room(input, 9), "(ok)\n(ok (ready 5))\n(refused 12)\n");
    assert_eq!(replies_with_room(input, 8), "(refused 12)\n(refused 14)\n(refused 14)\n");
    assert_eq!(replies_with_room("(site 0)\n", 8), "(refused 2)\n");
}

#[test]
fn a_buffer_above_65536_bytes_is_refused() {
    assert_eq!(replies_with_room("(site 2)\n(show 0)\n", ROOM + 1), "(refused 13)\n(refused 14)\n");
    let mut log = LOG.as_bytes().to_vec();
    log.resize(ROOM, 0);
    assert_eq!(restart(&log, 71), "(ok 2 71)");
    log.push(0);
    assert_eq!(restart(&log, 71), "(refused 13)");
}

#[test]
fn the_rest_of_the_input() {
    assert_eq!(replies(""), "");
    assert_eq!(replies("(site 2)\n"), "(ok)\n");
    assert_eq!(replies("(site 2)"), "(refused 1)\n");
    assert_eq!(replies("\n(site 2)\n\n"), "(refused 1)\n(ok)\n(refused 1)\n");
}

/// The line limit is 1,024 bytes without the end, and the session goes on behind it.
#[test]
fn the_longest_line() {
    let updates = "(not 0 0 0)".repeat(92);
    for (id, length, number) in [(12345, 1024, 2), (123456, 1025, 1)] {
        let line = format!("(add {id} {updates})");
        assert_eq!(line.len(), length);
        let expected = format!("(ok)\n(refused {number})\n(history 0 0 0 0 0 0)\n");
        assert_eq!(replies(&format!("(site 1)\n{line}\n(show 0)\n")), expected);
    }
}

/// A did line without updates is readable, but no log has it.
#[test]
fn a_did_line_without_updates() {
    assert_eq!(restart(b"(site 1)\n(did 5)\n", 17), "(refused 15)");
    for (line, number) in [("(did 5)", 2), ("(did 5 )", 1)] {
        let kept = agreed(|program| program.keep(&mut [0; 99], 0, line.as_bytes()));
        assert_eq!(kept, Err(number), "{line}");
    }
}

#[test]
fn logs_that_restart_refuses() {
    for log in [
        "(site 0)\n",
        "(site 17)\n",
        "(site 2",
        "\n",
        "(did 5 (inc 0 1 1 0))\n",
        "(site 1)\n\n",
        "(site 1)\n(site 1)\n",
        "(site 1)\n(did 5 (inc 1 1 1 0))\n",
        "(site 1)\n(did 5 (inc 0 2 1 0))\n",
        "(site 1)\n(did 5 (inc 0 1 2 0))\n",
        "(site 1)\n(did 5 (inc 0 1 1 2048))\n",
        "(site 1)\n(did 5 (not 0 1 1 0))\n",
        "(site 1)\n(did 5 (set 0 0 1 0))\n",
        "(site 1)\n(did 5 (unk 0 0 1 0))\n",
        "(site 1)\n(did 5 (set 0 18446744073709551615 1 0))\n(did 6 (inc 0 0 2 0))\n",
    ] {
        assert_eq!(restart(log.as_bytes(), log.len()), "(refused 15)", "{log:?}");
    }
}

/// A reader that was logged beside a set runs again in its place, however it comes.
#[test]
fn a_set_does_not_overtake_the_reader_before_it() {
    let lines = ["(did 1 (inc 0 1 1 7))", "(did 2 (not 0 1 2 0))", "(did 3 (set 0 9 3 5))"];
    for order in [[0, 1, 2], [0, 2, 1], [1, 0, 2], [1, 2, 0], [2, 0, 1], [2, 1, 0]] {
        let redone: String = order.iter().map(|&at| format!("(redo {})\n", lines[at])).collect();
        let input = format!("(site 1)\n(cut 9)\n{redone}(end)\n(show 0)\n");
        assert!(replies(&input).ends_with("(ok (waiting))\n(history 0 9 0 0 3 5)\n"), "{order:?}");
    }
}
