//! The session of document 01 on numbers, and the records of examples/c/modules.c: each call of the safe types at least once, held to the
//! replies that 01 and 02 print.
//!
//! usage: numbers

use fitting_ledger::{removals, upgrade, Keeper, Records, Refusal, Rule, Site, Update, LOG_BYTES};

fn update(rule: Rule, history: u64, version: u64, operand: u64) -> Update {
    Update { rule, history, version, operand }
}

/// 01's session, with a finish that overtakes, a withdrawal, a stable line and a copy behind it.
fn session() -> Result<(), Refusal> {
    let mut log = vec![0; LOG_BYTES];
    let mut fresh = vec![0; LOG_BYTES];
    let mut site = Site::start(&mut log, 2)?;
    let five = [update(Rule::Inc, 0, 1, 513), update(Rule::Not, 1, 0, 0)];
    assert_eq!(site.add(5, &five)?.first(), [5]);
    assert!(site.add(6, &[update(Rule::Set, 1, 4, 1000)])?.first().is_empty());
    let reply = site.finish(5)?;
    assert_eq!((reply.single()[0], reply.first(), reply.second()), (1, &[65536, 0][..], &[6][..]));
    assert_eq!(site.finish(6)?.first(), [1000]);
    let reply = site.persistent(1)?;
    assert_eq!((reply.first(), reply.second()), (&[0][..], &[0][..]));
    assert_eq!((site.dry(0), site.dry(1), site.dry(2)), (Ok(true), Ok(false), Err(Refusal(3))));
    assert_eq!(site.show(0)?.single(), [0, 1, 1, 0, 1, 65536]);
    assert_eq!(site.find_cut(&[1, 1]), Ok(46));
    assert_eq!(site.find_cut(&[1]), Err(Refusal(21)));
    assert_eq!(
        (site.card(0).err(), site.card(1_025).err()),
        (Some(Refusal(22)), Some(Refusal(22)))
    );
    let card = site.card(1)?;
    assert_eq!((card.lines(), card.row(0), card.count(1, Rule::Set)), (1, Some(&[0, 0, 0][..]), 1));
    assert_eq!((site.card(2)?.lines(), site.card(2)?.count(0, Rule::Inc)), (2, 1));
    assert_eq!(site.cut(72).err(), Some(Refusal(13)));
    assert_eq!(site.cut(60)?.single()[..2], [1, 46]);
    assert_eq!((site.card(2)?.lines(), site.card(2)?.row(1)), (1, Some(&[0, 0, 1][..])));
    assert_eq!(site.show(1)?.single(), [1, 0, 0, 0, 1, 0]);
    assert_eq!(site.redo(b"(did 6 (set 1 4 2 1000))")?.single()[..2], [1, 1]);
    assert_eq!(site.redo(b"(did 6 (set 1 4 2 1000))").err(), Some(Refusal(8)));
    assert!(site.end()?.first().is_empty());
    assert_eq!((site.card(2)?.lines(), site.card(2)?.row(1)), (2, Some(&[0, 1, 1][..])));
    assert_eq!(site.show(1)?.single(), [1, 4, 0, 0, 2, 1000]);
    assert!(site.add(8, &[update(Rule::Inc, 1, 6, 0)])?.first().is_empty());
    assert_eq!(site.persistent(2)?.second(), []);
    assert_eq!(site.withdraw(8)?.first(), [1]);
    assert_eq!(site.withdraw(8).err(), Some(Refusal(11)));
    assert_eq!(site.stable(2)?.first(), [0, 1]);
    assert_eq!(site.trim(3, &mut fresh), Err(Refusal(13)));
    assert_eq!(site.trim(2, &mut fresh[..20]), Err(Refusal(12)));
    let used = site.trim(2, &mut fresh)?;
    assert_eq!(&fresh[..used], b"(site 2)\n(base 2 (0 1 1 65536)(1 4 2 1000))\n");
    let mut site = Site::restart(&mut fresh, used)?;
    assert_eq!(site.show(1)?.single(), [1, 4, 4, 4, 2, 1000]);
    let mut older = *b"(site 1)\n(did 5 (inc 0 1 1 513))\n.............";
    let used = upgrade(&mut older, 33)?;
    assert_eq!(&older[..used], b"(site 1)\n(did 5 (inc 0 1 1 513))\n(stable 1)\n");
    Ok(())
}

/// The lines that fall with the first of three, by a history and by a transaction.
fn falling() -> Result<(), Refusal> {
    let log = b"(site 3)\n(did 5 (inc 0 1 1 7))\n(did 6 (inc 1 1 1 7))\n(did 7 (inc 0 2 2 7))\n(did 8 (inc 2";
    let mut out = [9; 4];
    assert_eq!((removals(log, &[], &[1], &mut out)?, out), (2, [1, 3, 9, 9]));
    assert_eq!((removals(log, &[[3, 40], [2, 40]], &[1], &mut out)?, out), (3, [1, 2, 3, 9]));
    assert_eq!(removals(log, &[], &[4], &mut out), Err(Refusal(16)));
    assert_eq!(removals(log, &[], &[1], &mut out[..1]), Err(Refusal(12)));
    assert_eq!(removals(&log[1..], &[], &[1], &mut out), Err(Refusal(15)));
    assert_eq!(removals(&[0; LOG_BYTES + 1], &[], &[], &mut out), Err(Refusal(13)));
    Ok(())
}

/// A keeper that is stored in the middle of a line and taken up again.
fn keeping() -> Result<(), Refusal> {
    let mut lines = [0xAA; 80];
    let mut out = [0xAA; 80];
    let five = b"(did 5 (inc 0 1 1 513)(not 1 0 1 0))\n";
    let six = b"(did 6 (set 1 4 2 1000))\n";
    let mut keeper = Keeper::start(&mut lines);
    keeper.keep(&five[..36])?;
    assert_eq!(keeper.keep(&five[..36]), Err(Refusal(8)));
    assert_eq!(keeper.keep(b"(did 5 (inc 0 1 1 514)(not 1 0 1 0))"), Err(Refusal(20)));
    assert_eq!(keeper.keep(b"(did 5)"), Err(Refusal(2)));
    keeper.keep(&six[..24])?;
    assert_eq!(keeper.keep(b"(did 7 (set 1 5 3 1000))"), Err(Refusal(12)));
    assert_eq!(keeper.lines(), [&five[..], &six[..]].concat());
    assert!(Keeper::resume(&mut lines, 81).is_err());
    assert!(Keeper::resume(&mut b"(did 5)\n".clone(), 8).is_err());
    let mut keeper = Keeper::resume(&mut lines, 61)?;
    assert_eq!(keeper.lines(), five);
    keeper.keep(&six[..24])?;
    let places: [u64; 16] = [1, 1, 0, 0, 0, 0, 0, 0, 0, 0, 0, 0, 0, 0, 0, 0];
    assert_eq!(keeper.hand_out(&places, &mut out[..24]), Err(Refusal(12)));
    let handed = keeper.hand_out(&places, &mut out)?;
    assert_eq!((&out[..handed], out[handed]), (&six[..], 0xAA));
    assert_eq!(keeper.drop_lines(16, 1), Err(Refusal(3)));
    keeper.drop_lines(0, 1)?;
    assert_eq!(keeper.lines(), six);
    Ok(())
}

/// A fitting split over two modules, and a mirrored one; the records are stored in between.
fn recording() -> Result<(), Refusal> {
    let mut records = Records::start();
    records.record(5, 0b111, 0b011, 2)?;
    records.record(6, 0b011, 0b011, 1)?;
    assert_eq!(records.record(6, 1, 1, 1), Err(Refusal(7)));
    assert_eq!(records.record(7, 3, 1, 2), Err(Refusal(18)));
    assert_eq!(records.record(7, 1, 3, 1), Err(Refusal(19)));
    assert_eq!((records.report(5, 0), records.report(5, 2)), (Ok(false), Ok(false)));
    assert_eq!((records.report(6, 1), records.report(6, 2)), (Ok(true), Err(Refusal(19))));
    let (count, words) = records.stored();
    assert!(Records::resume(*words, 65).is_err());
    let mut records = Records::resume(*words, count)?;
    assert_eq!((records.question(5), records.question(6)), (Ok(false), Ok(true)));
    assert_eq!((records.report(5, 1), records.question(5)), (Ok(true), Ok(true)));
    records.forget(5)?;
    assert_eq!((records.forget(5), records.question(5)), (Err(Refusal(19)), Err(Refusal(19))));
    assert_eq!(records.stored().0, 1);
    Ok(())
}

fn main() {
    assert!(
        Site::fits() && Keeper::fits(),
        "the libraries are the ones that this program speaks of"
    );
    for (name, part) in [
        ("session", session as fn() -> _),
        ("falling", falling),
        ("keeping", keeping),
        ("recording", recording),
    ] {
        match part() {
            Ok(()) => println!("{name}: as printed"),
            Err(Refusal(number)) => panic!("{name}: refused {number}"),
        }
    }
}
