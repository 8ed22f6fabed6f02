//! The compact module: its laws on random lists of calls, its edges, a full table from which
//! everything comes back, that each broken rule of it is noticed, and the same lists over the library.

mod calls;
mod compared;
#[path = "../differential/random.rs"]
#[allow(dead_code)]
mod random;

use second::forms::{Answer, Reply};
use second::module::Module;
use second::refusal::Refusal;
use second::rules::{Flaw, Rules};
use second::site::Site;

use calls::{buffers, make, Call, Scribe};
use random::Random;

/// Lists of calls, the same in each run.
fn lists() -> Vec<Vec<Call>> {
    let list = |seed: u64| {
        let mut random = Random::new(1000 + seed);
        Scribe::new(&mut random).write(if seed % 4 == 0 { 1200 } else { 400 })
    };
    (0..120).map(list).collect()
}

fn line(slot: usize, text: &str) -> Call {
    Call::Line(slot, text.to_string())
}

/// What a slot claims of the table.
fn claim(module: &Module, slot: usize) -> usize {
    module.site(slot).map_or(0, Site::live).max(module.promise(slot))
}

/// What the slots claim fits the table after every call, and a site below its promise meets no 10
/// but where it is restarted.
#[test]
fn what_is_promised_is_kept() {
    let (mut tens, mut full) = (0, 0);
    for list in lists() {
        let (mut module, mut logs) = (Module::new(Rules::PAPER), buffers());
        for call in &list {
            let before = module.clone();
            let answer = make(&mut module, call, &mut logs);
            let all: usize = (0..Module::SLOTS).map(|slot| claim(&module, slot)).sum();
            assert!(all <= 128, "{call:?} leaves {all} claimed");
            full += usize::from(module.free() == 0);
            if answer.is_err() {
                assert_eq!(before, module, "{call:?} is refused");
            }
            let Call::Line(slot, text) = call else { continue };
            if answer == Err(Refusal::TableFull) && !text.starts_with("(cut") {
                let site = before.site(*slot).expect("10 of a site");
                assert!(site.live() >= before.promise(*slot), "{call:?} is refused 10");
                tens += 1;
            }
        }
    }
    println!("{tens} refusals 10 of adds and redos, {full} calls on a full table");
    assert!(tens >= 1000 && full >= 20);
}

/// "A neighbour's calls can alter this site's replies only through refusal 10": a slot's own calls,
/// without those that were refused 10, have the same replies from a module where it is alone.
#[test]
fn neighbours_alter_nothing_but_ten() {
    let mut compared = 0;
    for list in lists() {
        for own in 0..Module::SLOTS {
            let (mut module, mut logs) = (Module::new(Rules::PAPER), buffers());
            let (mut alone, mut own_logs) = (Module::new(Rules::PAPER), buffers());
            for call in &list {
                let answer = make(&mut module, call, &mut logs);
                if call.slot() != own || answer == Err(Refusal::TableFull) {
                    continue;
                }
                assert_eq!(answer, make(&mut alone, call, &mut own_logs), "{call:?}");
                compared += 1;
            }
            assert_eq!(logs[own], own_logs[own]);
        }
    }
    println!("{compared} replies compared");
    assert!(compared >= 20_000);
}

/// Fills a slot with operations that are done and not stable, and gives how many went in.
fn fill(module: &mut Module, logs: &mut [Vec<u8>], slot: usize) -> usize {
    let mut version = 0;
    loop {
        version += 1;
        let add = line(slot, &format!("(add {version} (set 0 {version} {version}))"));
        if make(module, &add, logs).is_err() {
            return version - 1;
        }
        make(module, &line(slot, &format!("(finish {version})")), logs).expect("it runs at once");
    }
}

#[test]
fn the_edges_of_the_table() {
    let (mut module, mut logs) = (Module::new(Rules::PAPER), buffers());
    assert_eq!(make(&mut module, &line(4, "(site 1)"), &mut logs), Err(Refusal::WrongTime));
    assert_eq!(make(&mut module, &line(4, "(site 1"), &mut logs), Err(Refusal::Unreadable));
    assert_eq!(make(&mut module, &line(0, "(show 0)"), &mut logs), Err(Refusal::WrongTime));
    for slot in 0..Module::SLOTS {
        assert_eq!(make(&mut module, &line(slot, "(site 1)"), &mut logs), Ok(Reply::Opened));
        assert_eq!(make(&mut module, &line(slot, "(site 1)"), &mut logs), Err(Refusal::WrongTime));
    }
    let filled: Vec<usize> = (0..4).map(|slot| fill(&mut module, &mut logs, slot)).collect();
    assert_eq!(filled, [64, 32, 16, 16]);
    assert_eq!(module.free(), 0);
}

/// Two sites of a full table are cut; the neighbours take what they can, and still all lines come
/// back and show the same.
#[test]
fn everything_comes_back() {
    let (mut module, mut logs) = (Module::new(Rules::PAPER), buffers());
    for slot in 0..Module::SLOTS {
        make(&mut module, &line(slot, "(site 1)"), &mut logs).expect("opened");
        fill(&mut module, &mut logs, slot);
    }
    let (shown, before) = (show_all(&mut module, &mut logs), logs.clone());
    for slot in [0, 1] {
        make(&mut module, &line(slot, "(cut 9)"), &mut logs).expect("cut");
    }
    for slot in [2, 3] {
        let add = line(slot, "(add 999 (inc 0 900 1))");
        assert_eq!(make(&mut module, &add, &mut logs), Err(Refusal::TableFull));
    }
    for slot in [0, 1] {
        let text = String::from_utf8_lossy(&before[slot]).into_owned();
        for did in
            text.lines().filter(|line| line.starts_with("(did ")).collect::<Vec<_>>().iter().rev()
        {
            make(&mut module, &line(slot, &format!("(redo {did})")), &mut logs)
                .expect("no refusal");
        }
        make(&mut module, &line(slot, "(end)"), &mut logs).expect("it was restoring");
    }
    assert_eq!(shown, show_all(&mut module, &mut logs));
    assert_eq!(before, logs);
}

/// Version, place and profile of each slot's history.
fn show_all(module: &mut Module, logs: &mut [Vec<u8>]) -> Vec<(u64, u64, u64)> {
    let show = |slot: usize| match make(module, &line(slot, "(show 0)"), logs) {
        Ok(Reply::Shown { history, .. }) => (history.version, history.place, history.profile),
        other => panic!("{other:?}"),
    };
    (0..Module::SLOTS).map(show).collect()
}

/// The answers of a module with these rules to a list of calls, and its logs.
fn run(list: &[Call], rules: Rules) -> (Vec<Answer>, Vec<Vec<u8>>) {
    let (mut module, mut logs) = (Module::new(rules), buffers());
    (list.iter().map(|call| make(&mut module, call, &mut logs)).collect(), logs)
}

/// Each broken rule of sites that share a table is noticed on the random lists.
#[test]
fn each_broken_rule_is_noticed() {
    let lists = lists();
    for &flaw in Flaw::OF_SHARED_TABLES {
        let seen =
            lists.iter().filter(|list| run(list, Rules::PAPER) != run(list, Rules::broken(flaw)));
        let seen = seen.count();
        println!("{flaw:?}: {seen} of {} lists", lists.len());
        assert!(seen > 0, "nothing shows {flaw:?}");
    }
}
