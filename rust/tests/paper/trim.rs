//! Document 02, (h): copies of logs and changeovers to them, on both sides of each of their edges.

use super::*;
use second::forms::{Operation, Rule, Update};
use second::program::Second;
use second::refusal::Refusal;
use second::rules::Rules;
use second::session;
use second::site::Site;

pub const TOP: u64 = 1 << 63;

/// The paper's session with a report of 2 and a stable line, which no report covers.
const HELD: &str = "(site 2)\n(did 5 (inc 0 1 1 513)(not 1 0 1 0))\n(did 6 (set 1 4 2 1000))\n\
                    (stable 1)\n";

/// Its copies from 1 and from 0 on.
const FROM_1: &str = "(site 2)\n(base 1 (0 1 1 65536)(1 0 1 0))\n(did 6 (set 1 4 2 1000))\n";
const FROM_0: &str = "(site 2)\n(base 0 (0 0 0 0)(1 0 0 0))\n\
                      (did 5 (inc 0 1 1 513)(not 1 0 1 0))\n(did 6 (set 1 4 2 1000))\n(stable 1)\n";

/// The outcome of a trim of a log into a fresh buffer of so many bytes.
fn trim(log: &str, n: u64, room: usize) -> Outcome {
    trimmed(log, n, room).0
}

/// The same, and the fresh buffer after it.
fn trimmed(log: &str, n: u64, room: usize) -> (Outcome, Vec<u8>) {
    agreed(|program| {
        let mut fresh = vec![7; room];
        (program.trim(log.as_bytes(), log.len(), n, &mut fresh), fresh)
    })
}

/// A log, copied from n on with this much room, and the copy or the refusal.
pub fn check(log: &str, n: u64, room: usize, expected: Result<&str, u64>) {
    let (outcome, fresh) = trimmed(log, n, room);
    assert_eq!(outcome, expected.map(str::len), "{log} from {n}");
    let mut wanted = vec![7; room];
    if let Ok(text) = expected {
        wanted[..text.len()].copy_from_slice(text.as_bytes());
    }
    assert_eq!(fresh, wanted, "{log} from {n}");
}

/// The site that a log gives, and a buffer with some room behind it.
fn site(log: &str) -> (Site, Vec<u8>) {
    let mut buffer = log.as_bytes().to_vec();
    let site = Site::restart(&buffer, log.len() as u64, Rules::PAPER).expect("a log");
    buffer.resize(log.len() + 500, 7);
    (site, buffer)
}

/// Replies of a session at the site that a log gives, that of the restart first.
pub fn replies_from(log: &str, input: &str) -> Vec<String> {
    let (mut buffer, mut out) = (site(log).1, vec![0; 10_000]);
    let second = Second::from_paper();
    let length = second.session_from(input.as_bytes(), &mut buffer, log.len(), &mut out);
    text(&out[..length.expect("room for them")]).lines().map(str::to_string).collect()
}

/// Logs of the paper's session: 71 bytes, and 82 with the stable line.
#[test]
fn the_log_that_is_copied() {
    let (replies, log) = run(&format!("{FIRST}(persistent 2)\n(stable 1)\n"), 100);
    assert!(replies.ends_with("(ok (histories 0 1)(dry 0 1))\n(ok (histories 0))\n"), "{replies}");
    assert_eq!((HELD.len(), FROM_1.len(), FROM_0.len()), (82, 66, 110));
    assert_eq!(&log[..82], HELD.as_bytes());
    assert!(log[82..].iter().all(|&byte| byte == 255));
}

/// 66 bytes, and 65 are too few; the bytes past the copy stay; a copy may be longer than its log.
#[test]
fn copies_of_the_82_bytes() {
    check(HELD, 1, 66, Ok(FROM_1));
    check(HELD, 1, 70, Ok(FROM_1));
    check(HELD, 1, 65, Err(12));
    check(HELD, 0, 112, Ok(FROM_0));
    check(HELD, 0, 110, Ok(FROM_0));
    check(HELD, 0, 109, Err(12));
    check(HELD, 2, 1000, Err(13));
    check(HELD, 2, 10, Err(13));
    check(HELD, 2, 0, Err(13));
    check(HELD, 1, 0, Err(12));
    check(HELD, u64::MAX, 1000, Err(13));
}

/// A site that never restarted copies the same, whether or not the stable line is covered.
#[test]
fn a_site_copies_its_own_log() {
    for more in ["", "(persistent 2)\n", "(cut 82)\n", "(cut 82)\n(end)\n", "(add 9 (inc 0 2 0))\n"]
    {
        let input = format!("{FIRST}(persistent 2)\n(stable 1)\n{more}");
        let mut log = vec![255; 100];
        let session = session::run(input.as_bytes(), &mut log, Rules::PAPER).1;
        let site = session.site().expect("a site");
        let before = (site.clone(), log.clone());
        for (n, room, copy) in [(1, 66, Ok(FROM_1)), (0, 110, Ok(FROM_0)), (2, 66, Err(13))] {
            let mut fresh = vec![7; room];
            let given = site.trim(n, &log, &mut fresh).map_err(Refusal::number);
            assert_eq!(given, copy.map(str::len));
            assert_eq!(text(&fresh), copy.map_or("\u{7}".repeat(room), str::to_string));
        }
        assert_eq!((site, &log), (&before.0, &before.1), "the site and its log stay");
    }
}

/// A fresh buffer of 65,536 bytes, and of one more: 13, after that 12.
#[test]
fn the_length_of_the_fresh_buffer() {
    assert_eq!(trim(HELD, 1, ROOM), Ok(66));
    assert_eq!(trim(HELD, 1, ROOM + 1), Err(13));
}

/// "or below the log's own base"; at the base the copy is the log.
#[test]
fn copies_of_a_copy() {
    check(FROM_1, 0, 200, Err(13));
    check(FROM_1, 0, 10, Err(13));
    check(FROM_1, 1, 66, Ok(FROM_1));
    check(FROM_1, 2, 66, Err(13));
    let stable = format!("{FROM_1}(stable 2)\n");
    check(&stable, 1, 100, Ok(&stable));
    check(&stable, 2, 100, Ok("(site 2)\n(base 2 (0 1 1 65536)(1 4 2 1000))\n"));
    check(FROM_0, 0, 110, Ok(FROM_0));
    check(FROM_0, 1, 110, Ok(FROM_1));
}

/// "above 2^63": 13, though the stable mark is there.
#[test]
fn copies_at_the_top() {
    let log = format!("(site 1)\n(base {TOP} (0 0 0 0))\n(did 1 (inc 0 1 1 0))\n");
    let high = format!("{log}(stable {})\n", TOP + 1);
    check(&high, TOP, 1000, Ok(&high));
    check(&high, TOP + 1, 1000, Err(13));
    check(&high, TOP - 1, 1000, Err(13));
    assert_eq!(
        replies_from(&log, "(persistent 9223372036854775809)\n")[1],
        "(ok (histories)(dry))"
    );
}

/// Older stable lines are not copied; one of the mark closes the copy if it is above N.
#[test]
fn stable_lines_are_not_copied() {
    let lines = |from: u64, to: u64| {
        let line = |at| format!("(did {at} (inc 0 {at} {at} 0))\n");
        (from..=to).map(line).collect::<String>()
    };
    let log = format!(
        "(site 1)\n{}(stable 1)\n(stable 2)\n{}(stable 4)\n{}",
        lines(1, 3),
        lines(4, 5),
        lines(6, 6)
    );
    let base = |n: u64| format!("(site 1)\n(base {n} (0 {n} {n} 0))\n");
    for n in 0..4 {
        check(&log, n, 1000, Ok(&format!("{}{}(stable 4)\n", base(n), lines(n + 1, 6))));
    }
    check(&log, 4, 1000, Ok(&format!("{}{}", base(4), lines(5, 6))));
    check(&log, 5, 1000, Err(13));
}

/// 13 and 15 of the restart come first, and a torn last line is not copied.
#[test]
fn what_is_no_log_is_not_copied() {
    for (log, kept, outcome) in [
        (HELD, 83, Err(13)),
        (HELD, 8, Err(15)),
        (HELD, 81, Err(13)),
        (HELD, 71, Err(13)),
        (FROM_1, 65, Ok(41)),
        (FROM_1, 41, Ok(41)),
        (FROM_1, 40, Err(13)),
    ] {
        let given = agreed(|program| program.trim(log.as_bytes(), kept, 1, &mut [7; 200]));
        assert_eq!(given, outcome, "{kept} bytes");
    }
    let bad = "(site 1)\n(stable 1)\n";
    assert_eq!(trim(bad, 0, 0), Err(15));
    assert_eq!(agreed(|program| program.trim(&[b' '; ROOM + 1], 9, 0, &mut [])), Err(13));
}

/// After the changeover to the 66 bytes 2 are done and persistent, 1 is stable, 6 is live.
#[test]
fn after_the_changeover() {
    let (site, _) = site(FROM_1);
    assert_eq!((site.done(), site.persistent_mark(), site.stable_mark()), (2, 2, 1));
    assert_eq!((site.live(), site.left_mark(), site.base()), (1, 1, 1));
    let input = "(show 0)\n(show 1)\n(persistent 0)\n(stable 0)\n(stable 1)\n(stable 2)\n(end)\n\
                 (add 6 (inc 0 2 0))\n(add 5 (inc 0 2 0))\n(finish 5)\n(persistent 4)\n(persistent 3)\n\
                 (stable 2)\n(show 1)\n";
    let replies = [
        "(ok 2 66)",
        "(history 0 1 1 1 1 65536)",
        "(history 1 4 4 0 2 1000)",
        "(ok (histories)(dry))",
        "(ok (histories))",
        "(ok (histories))",
        "(refused 14)",
        "(ok (waiting))",
        "(refused 8)",
        "(ok (ready 5))",
        "(ok 3 (values 65536)(ready)(overtaken))",
        "(refused 13)",
        "(ok (histories 0)(dry 0))",
        "(ok (histories 1))",
        "(history 1 4 4 4 2 1000)",
    ];
    assert_eq!(replies_from(FROM_1, input), replies);
}

/// "A cut without the whole base line is refused 15, since the site knows that its log has one."
#[test]
fn cuts_of_the_66_bytes() {
    for (kept, by_site, by_bytes) in [
        (0, "(refused 15)", "(refused 15)"),
        (8, "(refused 15)", "(refused 15)"),
        (9, "(refused 15)", "(ok 0 9)"),
        (10, "(refused 15)", "(ok 0 9)"),
        (40, "(refused 15)", "(ok 0 9)"),
        (41, "(ok 1 41)", "(ok 1 41)"),
        (65, "(ok 1 41)", "(ok 1 41)"),
        (66, "(ok 2 66)", "(ok 2 66)"),
        (67, "(refused 13)", "(refused 13)"),
    ] {
        let cut = format!("(cut {kept})\n(cut 41)\n(cut 40)\n");
        let replies = replies_from(FROM_1, &cut);
        assert_eq!(replies[1], by_site, "cut {kept}");
        assert_eq!(replies[2..], ["(ok 1 41)", "(refused 15)"], "the base is still known");
        assert_eq!(restart(FROM_1.as_bytes(), kept), by_bytes, "restart from {kept}");
    }
}

/// A changed-over site fills its new log to the last byte, and no byte past it.
#[test]
fn the_fresh_buffer_is_the_log() {
    let mut fresh = [HELD.as_bytes(), &[7; 10]].concat();
    let mut log = HELD.as_bytes().to_vec();
    let used = site(HELD).0.trim(1, &log, &mut fresh).expect("it fits");
    std::mem::swap(&mut log, &mut fresh);
    let mut site = Site::restart(&log, used as u64, Rules::PAPER).expect("a copy");
    site.end().expect("it restores");
    let update = Update { rule: Rule::Inc, history: 0, version: 2, operand: 0 };
    let operation = |id| Operation { id, updates: [update].into_iter().collect() };
    site.add(operation(5)).expect("it is free again");
    assert_eq!(site.finish(5, &mut log).map(|finished| finished.number), Ok(3));
    assert_eq!(text(&log[..88]), format!("{FROM_1}(did 5 (inc 0 2 2 0))\n"));
    assert_eq!(log[88..], [7; 4]);
}

/// None may stand after the picked cut: in a fresh buffer a lost line may have no room.
#[test]
fn a_changeover_after_the_cut_would_lose_a_line() {
    let lost = "(redo (did 6 (set 1 4 2 1000)))\n";
    assert_eq!(
        replies_with_room(&format!("{FIRST}(cut 46)\n{lost}"), 71).lines().last(),
        Some("(ok 1 1)")
    );
    let mut fresh = vec![7; 74];
    let log = LOG.as_bytes();
    let site = Site::restart(log, 46, Rules::PAPER).expect("a log");
    assert_eq!(site.trim(0, log, &mut fresh), Ok(74));
    let mut out = [0; 99];
    let length = Second::from_paper().session_from(lost.as_bytes(), &mut fresh, 74, &mut out);
    assert_eq!(text(&out[..length.unwrap_or(0)]), "(ok 1 74)\n(refused 12)\n");
}
