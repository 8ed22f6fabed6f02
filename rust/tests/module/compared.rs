//! The same lists of calls over every program that has a module: all replies are compared, and all
//! logs after every call.

use std::sync::atomic::{AtomicUsize, Ordering};

use second::module::Module;
use second::program::{all, Outcome, Program, Second};
use second::rules::{Flaw, Rules};
use second::slots::Slots;

use crate::calls::{buffers, Call, ROOM};
use crate::lists;

/// What a call gives: a reply's text, or 0 or a refusal's number of a restart.
#[derive(Debug, PartialEq, Eq)]
enum Given {
    Text(Vec<u8>),
    Number(u64),
}

/// Makes a call; `logs` are the buffers of the slots, and one more for slots that are not there.
fn make(module: &mut dyn Slots, call: &Call, logs: &mut [Vec<u8>]) -> Given {
    let own = call.slot().min(Module::SLOTS);
    match call {
        Call::Line(slot, line) => Given::Text(module.line(*slot, line.as_bytes(), &mut logs[own])),
        Call::Restart(slot, kept) => {
            Given::Number(module.restart(*slot, &logs[own], *kept as usize))
        }
        Call::RestartFrom(slot, bytes) => {
            let mut buffer = bytes.clone();
            buffer.resize(ROOM, b'x');
            let number = module.restart(*slot, &buffer, bytes.len());
            if number == 0 {
                logs[own] = buffer;
            }
            Given::Number(number)
        }
    }
}

/// Makes a module.
type Maker = Box<dyn Fn() -> Box<dyn Slots>>;

/// The first call of a list after which two modules differ, if any.
fn first_difference(list: &[Call], one: &Maker, other: &Maker) -> Option<usize> {
    let (mut a, mut b) = (one(), other());
    let (mut logs, mut other_logs) = (buffers(), buffers());
    let mut i = 0;
    list.iter().position(|call| {
        i += 1;
        let given = make(a.as_mut(), call, &mut logs);
        let same = given == make(b.as_mut(), call, &mut other_logs);
        !same
            || logs != other_logs
            || told(a.as_ref(), &logs) != told(b.as_ref(), &other_logs)
            || i % 8 == 0
                && trims(a.as_ref(), &logs, i / 8) != trims(b.as_ref(), &other_logs, i / 8)
    })
}

/// The bytes of each slot's log, and what polls of its first four histories give.
fn told(module: &dyn Slots, logs: &[Vec<u8>]) -> Vec<(usize, Vec<u64>)> {
    let of_slot = |slot: usize| {
        let log = &logs[slot];
        (module.used(slot, log), (0..4).map(|h| module.poll(slot, log, h)).collect())
    };
    (0..=Module::SLOTS).map(of_slot).collect()
}

/// How many copies had a base line in place of some operations.
static SHORTER: AtomicUsize = AtomicUsize::new(0);

/// What copies of a slot's log give, of as many operations as are stable or not, with room or without,
/// and the bytes of the fresh buffer.
fn trims(module: &dyn Slots, logs: &[Vec<u8>], turn: usize) -> Vec<(Outcome, Vec<u8>)> {
    let slot = turn % (Module::SLOTS + 1);
    let copy = |(n, room): (u64, usize)| {
        let mut fresh = vec![b'y'; room];
        let outcome = module.trim(slot, &logs[slot], n, &mut fresh);
        if n > 0 && outcome.is_ok() {
            SHORTER.fetch_add(1, Ordering::Relaxed);
        }
        (outcome, fresh)
    };
    [(0, ROOM), (1, ROOM), (turn as u64 % 40, ROOM), (0, 40), (0, 70_000)].map(copy).into()
}

/// The modules, that of this program first, with names.
fn modules() -> Vec<(String, Maker)> {
    let programs = all().into_iter().filter(|program| program.module().is_some());
    let named = |program: Box<dyn Program>| -> (String, Maker) {
        let name = program.name().to_string();
        (name, Box::new(move || program.module().expect("it has one")))
    };
    #[allow(unused_mut)]
    let mut modules: Vec<(String, Maker)> = programs.map(named).collect();
    #[cfg(feature = "module")]
    modules.push((
        "library on numbers".to_string(),
        Box::new(|| Box::new(second::linked_module::OnNumbers::default())),
    ));
    modules
}

#[test]
fn all_modules_agree() {
    let (lists, modules) = (lists(), modules());
    assert_eq!(modules.len(), if cfg!(feature = "module") { 3 } else { 1 });
    let mut compared = 0;
    for (name, other) in &modules[1..] {
        for list in &lists {
            if let Some(at) = first_difference(list, &modules[0].1, other) {
                panic!("{name} differs at {:?}, after {:?}", list[at], &list[..at]);
            }
            compared += list.len();
        }
    }
    let shorter = SHORTER.load(Ordering::Relaxed);
    println!("{compared} calls compared, {shorter} copies without their first operations");
    assert!(modules.len() == 1 || shorter >= 100);
}

/// Each broken rule of sites that share a table is noticed beside every module.
#[test]
fn each_broken_rule_differs() {
    let lists = lists();
    for (name, module) in &modules() {
        for &flaw in Flaw::OF_SHARED_TABLES {
            let broken: Maker = Box::new(move || {
                Second::new("broken", Rules::broken(flaw)).module().expect("it has one")
            });
            let seen = |list: &&Vec<Call>| first_difference(list, &broken, module).is_some();
            let seen = lists.iter().filter(seen).count();
            println!("{flaw:?} beside {name}: {seen} of {} lists", lists.len());
            assert!(seen > 0, "nothing shows {flaw:?} beside {name}");
        }
    }
}

/// What the library's state promises beyond its replies.
#[cfg(feature = "module")]
mod linked {
    use second::linked_module::{LinkedModule, OnNumbers, REPLY_BYTES};

    use super::*;

    /// A refused line changes no number of the state. A line whose reply might not fit is answered
    /// before anything has happened.
    #[test]
    fn what_is_refused_changes_nothing() {
        let (mut refused, mut lacked) = (0, 0);
        for list in lists().iter().step_by(8) {
            let (mut module, mut logs) = (LinkedModule::new(), buffers());
            for (i, call) in list.iter().enumerate() {
                let before = module.clone();
                if let (Call::Line(slot, line), 0) = (call, i % 16) {
                    let mut out = vec![b'x'; REPLY_BYTES - 1];
                    let log = &mut logs[(*slot).min(Module::SLOTS)];
                    let kept = log.clone();
                    let length = module.line_into(*slot, line.as_bytes(), log, &mut out);
                    assert_eq!(length, REPLY_BYTES);
                    assert!(module == before && *log == kept && out.iter().all(|&b| b == b'x'));
                    lacked += 1;
                }
                let given = make(&mut module, call, &mut logs);
                let is_refused = match given {
                    Given::Text(reply) => reply.starts_with(b"(refused"),
                    Given::Number(number) => number != 0,
                };
                if is_refused {
                    assert!(module == before, "{call:?} is refused and changes the state");
                    refused += 1;
                }
            }
        }
        println!("{refused} refused calls, {lacked} without room for a reply");
        assert!(refused >= 1000 && lacked >= 300);
    }

    /// .. nor does a call on numbers that is refused; that it leaves its reply is asserted as it is made.
    #[test]
    fn what_is_refused_on_numbers_changes_nothing() {
        let mut refused = 0;
        for list in lists().iter().step_by(8) {
            let (mut module, mut logs) = (OnNumbers::default(), buffers());
            for call in list {
                let before = (module.clone(), logs.clone());
                let given = make(&mut module, call, &mut logs);
                if matches!(given, Given::Text(reply) if reply.starts_with(b"(refused")) {
                    assert!((&module, &logs) == (&before.0, &before.1), "{call:?} is refused");
                    refused += 1;
                }
            }
        }
        println!("{refused} refused calls on numbers");
        assert!(refused >= 1000);
    }
}
