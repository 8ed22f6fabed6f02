//! Document 02, (g): the changeover of an older log.

use super::*;
use stable::dids;

const ONE: &str = "(site 1)\n(did 1 (inc 0 1 1 0))\n";

/// The outcome for a buffer and the number of its bytes that are the log, and the buffer after.
fn upgrade(buffer: &[u8], kept: usize) -> (Outcome, Vec<u8>) {
    agreed(|program| {
        let mut buffer = buffer.to_vec();
        (program.upgrade(&mut buffer, kept), buffer)
    })
}

/// A log, changed over with this many more bytes behind it.
fn check(log: &str, room: usize, expected: Result<&str, u64>) {
    let buffer = [log.as_bytes(), &vec![7; room]].concat();
    let (outcome, after) = upgrade(&buffer, log.len());
    assert_eq!(outcome, expected.map(str::len), "{log}");
    let mut wanted = buffer.clone();
    if let Ok(text) = expected {
        wanted[..text.len()].copy_from_slice(text.as_bytes());
    }
    assert_eq!(after, wanted, "{log}");
}

#[test]
fn did_lines_get_a_stable_line() {
    let over = format!("{ONE}(stable 1)\n");
    check(ONE, 11, Ok(&over));
    check(ONE, 10, Err(12));
    check(ONE, 100, Ok(&over));
    check("(site 1)\n", 0, Ok("(site 1)\n"));
    check("(site 1)\n(di", 20, Ok("(site 1)\n"));
}

/// Behind the whole lines, over a torn rest; the bytes past it stay.
#[test]
fn over_a_torn_rest() {
    let torn = format!("{ONE}(did 2 (inc 0 2");
    let over = format!("{ONE}(stable 1)\n");
    check(&torn, 3, Ok(&over));
    let after = upgrade(torn.as_bytes(), 40).1;
    assert_eq!(after, format!("{over} 0 2").as_bytes());
}

/// "read and refused as before": 13, then 15, then 12.
#[test]
fn refused_as_before() {
    check(&format!("{ONE}(stable 1)\n"), 20, Err(15));
    check(&format!("{ONE}(stable 1)\n"), 0, Err(15));
    check("(site 1)", 20, Err(15));
    check(&format!("{ONE}(did 2 (inc 0 3 2 0))\n"), 20, Err(15));
    assert_eq!(upgrade(ONE.as_bytes(), 32), (Err(13), ONE.as_bytes().to_vec()));
    assert_eq!(upgrade(b"(site 1)", 9).0, Err(13));
    let mut long = ONE.as_bytes().to_vec();
    long.resize(ROOM, 0);
    assert_eq!(upgrade(&long, 31).0, Ok(42));
    long.push(0);
    assert_eq!(upgrade(&long, 31), (Err(13), long.clone()));
}

/// Before stable lines an id could stand twice, and more than 64 lines could be kept.
#[test]
fn what_restart_refuses_now() {
    let twice = format!("{ONE}(did 1 (inc 0 2 2 0))\n");
    assert_eq!(restart(twice.as_bytes(), twice.len()), "(refused 15)");
    check(&twice, 11, Ok(&format!("{twice}(stable 2)\n")));
    let many = format!("(site 1)\n{}", dids(70));
    assert_eq!(restart(many.as_bytes(), many.len()), "(refused 15)");
    let over = format!("{many}(stable 70)\n");
    check(&many, 12, Ok(&over));
    check(&many, 11, Err(12));
    assert_eq!(restart(over.as_bytes(), over.len()), format!("(ok 70 {})", over.len()));
    assert_eq!(restart(over.as_bytes(), over.len() - 1), "(refused 15)");
}
