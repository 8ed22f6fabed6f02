//! The keeper's calls.

use super::*;

const LINES: [&str; 3] =
    ["(did 5 (inc 0 1 1 513)(not 1 0 1 0))", "(did 6 (set 1 4 2 1000))", "(did 7 (inc 15 1 1 0))"];

fn keep(buffer: &[u8], used: usize, line: &str) -> (Outcome, Vec<u8>) {
    agreed(|program| {
        let mut buffer = buffer.to_vec();
        (program.keep(&mut buffer, used, line.as_bytes()), buffer)
    })
}

fn drop_up_to(buffer: &[u8], used: usize, history: u64, place: u64) -> (Outcome, Vec<u8>) {
    agreed(|program| {
        let mut buffer = buffer.to_vec();
        (program.drop_up_to(&mut buffer, used, history, place), buffer)
    })
}

fn hand_out(buffer: &[u8], used: usize, kept: [u64; 16], room: usize) -> (Outcome, Vec<u8>) {
    agreed(|program| {
        let mut out = vec![255; room];
        (program.hand_out(buffer, used, &kept, &mut out), out)
    })
}

/// A buffer with the three lines, which are 85 bytes.
fn filled(room: usize) -> Vec<u8> {
    let (mut used, mut buffer) = (0, vec![255; room]);
    for line in LINES {
        let (kept, after) = keep(&buffer, used, line);
        used = kept.expect("room for the line");
        buffer = after;
    }
    assert_eq!(used, 85);
    buffer
}

#[test]
fn refusals_in_rising_order() {
    let full = filled(85);
    for (line, number) in [
        ("(did 5 (inc 0 1 1))", 1),
        ("(did 5)", 2),
        ("(did 5 (inc 16 1 1 0))", 3),
        ("(did 5 (inc 0 1 1 0)(not 0 1 2 1))", 4),
        ("(did 5 (not 0 1 1 1))", 5),
        (LINES[1], 8),
        ("(did 6 (set 1 4 2 1001))", 20),
        ("(did 8 (inc 0 2 2 0))", 12),
    ] {
        assert_eq!(keep(&full, 85, line), (Err(number), full.clone()), "{line}");
    }
    let large = vec![0; ROOM + 1];
    assert_eq!(keep(&large, 0, LINES[0]).0, Err(13));
    assert_eq!(drop_up_to(&large, 0, 0, 1).0, Err(13));
    assert_eq!(drop_up_to(&large, 0, 16, 1).0, Err(3));
    assert_eq!(hand_out(&large, 0, [0; 16], 0).0, Err(13));
    assert_eq!(hand_out(&full, 85, [0; 16], ROOM + 1).0, Err(13));
}

/// Document 02, (f): another rule, version, operand or order is a conflict; another id, place
/// or history, and a part of the histories, is none.
#[test]
fn lines_in_conflict() {
    let buffer = filled(200);
    for line in [
        "(did 5 (set 0 1 1 513)(not 1 0 1 0))",
        "(did 5 (inc 0 2 1 513)(not 1 0 1 0))",
        "(did 5 (inc 0 1 1 514)(not 1 0 1 0))",
        "(did 5 (not 1 0 1 0)(inc 0 1 1 513))",
        "(did 7 (set 15 1 1 0))",
    ] {
        assert_eq!(keep(&buffer, 85, line), (Err(20), buffer.clone()), "{line}");
    }
    for line in [
        "(did 9 (inc 0 1 1 513)(not 1 0 1 0))",
        "(did 5 (inc 0 1 2 513)(not 1 0 1 0))",
        "(did 5 (inc 0 1 1 513)(not 2 0 1 0))",
        "(did 5 (inc 0 1 1 513))",
        "(did 5 (inc 0 1 1 513)(not 1 0 1 0)(not 2 0 1 0))",
    ] {
        assert_eq!(keep(&buffer, 85, line).0, Ok(85 + line.len() + 1), "{line}");
    }
}

/// Only held lines count: after a drop the other line is kept, and the first is in conflict.
#[test]
fn a_conflict_ends_with_a_drop() {
    let other = "(did 5 (not 1 0 1 0)(inc 0 1 1 513))";
    let buffer = filled(100);
    assert_eq!(keep(&buffer, 85, LINES[0]).0, Err(8));
    assert_eq!(keep(&buffer, 85, other).0, Err(20));
    let (dropped, buffer) = drop_up_to(&buffer, 85, 0, 1);
    assert_eq!(dropped, Ok(48));
    let (kept, buffer) = keep(&buffer, 48, other);
    assert_eq!(kept, Ok(85));
    assert_eq!(keep(&buffer, 85, LINES[0]).0, Err(20));
    assert_eq!(keep(&buffer, 85, other).0, Err(8));
}

/// Stable lines are the site's own: none is kept, and none is among kept bytes.
#[test]
fn no_stable_line_is_kept() {
    let buffer = filled(100);
    assert_eq!(keep(&buffer, 85, "(stable 1)"), (Err(1), buffer.clone()));
    let mixed = format!("{}\n(stable 1)\n", LINES[0]);
    let mixed = mixed.as_bytes();
    assert_eq!(keep(mixed, mixed.len(), LINES[1]), (Err(NO_KEEPER), mixed.to_vec()));
    assert_eq!(hand_out(mixed, mixed.len(), [0; 16], 60), (Err(NO_KEEPER), vec![255; 60]));
}

#[test]
fn dropped_bytes_are_used_again() {
    let before = filled(100);
    let (dropped, after) = drop_up_to(&before, 85, 1, 1);
    assert_eq!(dropped, Ok(48));
    assert_eq!(&after[..48], format!("{}\n{}\n", LINES[1], LINES[2]).as_bytes());
    assert_eq!(&after[48..], &before[48..], "bytes past those in use are untouched");
    assert_eq!(keep(&after, 48, LINES[0]).0, Ok(85));
}

#[test]
fn lines_above_the_kept_places_are_handed_out() {
    let buffer = filled(100);
    let mut kept = [0; 16];
    kept[0] = 1;
    kept[1] = 1;
    let (handed, out) = hand_out(&buffer, 85, kept, 60);
    assert_eq!(handed, Ok(48));
    assert_eq!(&out[..48], format!("{}\n{}\n", LINES[1], LINES[2]).as_bytes());
    assert!(out[48..].iter().all(|&byte| byte == 255));
    assert_eq!(hand_out(&buffer, 85, kept, 48).0, Ok(48));
    assert_eq!(hand_out(&buffer, 85, kept, 47), (Err(12), vec![255; 47]));
}
