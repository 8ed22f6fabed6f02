//! Measures the programs on the same input: this one, the proved library where it is linked,
//! and, for one figure, SQLite where it is installed.
//!
//! Without arguments it prints a table. With a figure's number, a program's number and a number
//! of runs it only runs, for a profiler to watch.

use std::env;
use std::fs;
use std::hint::black_box;
use std::io::{self, Write};
use std::process::{Command, Stdio};
use std::time::{Duration, Instant};

use second::forms::{Operation, Rule, Update};
use second::program::{self, Program, SPARE};
use second::rules::Rules;
use second::site::Site;

/// How long a figure is measured, in each of several turns of which the best counts.
const TURN: Duration = Duration::from_millis(200);
const TURNS: usize = 7;

/// How many operations a session adds and finishes.
const OPERATIONS: usize = 2000;

/// How many transactions SQLite is given.
const TRANSACTIONS: usize = 20_000;

/// Something to measure: each run of it does some units of work.
struct Figure {
    name: &'static str,
    unit: &'static str,
    work: f64,
    /// How each program runs it.
    runs: Vec<Run>,
}

type Run = Box<dyn FnMut()>;

fn main() {
    let arguments: Vec<usize> = env::args().skip(1).filter_map(|word| word.parse().ok()).collect();
    match arguments[..] {
        [] => table(),
        [figure, program, runs] => {
            let run = &mut figures()[figure].runs[program];
            (0..runs).for_each(|_| run());
        }
        _ => println!("bench, or bench FIGURE PROGRAM RUNS"),
    }
}

/// Prints all figures.
fn table() {
    println!("{}, {} build\n", machine(), if cfg!(debug_assertions) { "debug" } else { "release" });
    print!("{:46}", "");
    program::all().iter().for_each(|program| print!("{:>18}", program.name()));
    println!("{:>10}", "times");
    let mut figures = figures();
    let best: Vec<Vec<f64>> = figures.iter_mut().map(best_rates).collect();
    for (number, (figure, best)) in figures.iter().zip(&best).enumerate() {
        print_row(&format!("{number}  {}", figure.name), figure.unit, best);
    }
    let share = OPERATIONS as f64 / figures[0].work;
    let operations: Vec<f64> = best[0].iter().map(|rate| rate * share).collect();
    print_row("   operations of figure 0", "operations/s", &operations);
    match (0..TURNS).map(|_| transactions_per_second()).reduce(faster) {
        Some(Ok(rate)) => print_row("   SQLite", "operations/s", &[rate]),
        Some(Err(error)) => println!("SQLite is left out: sqlite3 does not run ({error})."),
        None => {}
    }
}

/// The processor's name, where the system tells it.
fn machine() -> String {
    let told = fs::read_to_string("/proc/cpuinfo").unwrap_or_default();
    let name = told.lines().find_map(|line| line.strip_prefix("model name")?.split(": ").nth(1));
    name.unwrap_or("unknown processor").to_string()
}

/// The best rate of each program. They take turns, so that what else the machine does meets
/// all of them.
fn best_rates(figure: &mut Figure) -> Vec<f64> {
    let mut best = vec![0.0; figure.runs.len()];
    for _ in 0..TURNS {
        for (run, best) in figure.runs.iter_mut().zip(&mut best) {
            *best = rate(figure.work, run).max(*best);
        }
    }
    best
}

/// Prints a rate for each program, and how many times as long the last takes as the first.
fn print_row(name: &str, unit: &str, rates: &[f64]) {
    print!("{name:29}{unit:>17}");
    rates.iter().for_each(|rate| print!("{rate:>18.0}"));
    match rates {
        [first, .., last] => println!("{:>10.2}", first / last),
        _ => println!(),
    }
}

/// The units a second in one turn.
fn rate(work: f64, run: &mut Run) -> f64 {
    let (start, before) = (Instant::now(), processor_time());
    let mut runs = 0.0;
    while start.elapsed() < TURN {
        run();
        runs += 1.0;
    }
    let taken = match (before, processor_time()) {
        (Some(before), Some(after)) => after - before,
        _ => start.elapsed(),
    };
    runs * work / taken.as_secs_f64()
}

/// How long this thread was at work, where the system tells it: what others did meanwhile does
/// not count.
fn processor_time() -> Option<Duration> {
    let told = fs::read_to_string("/proc/thread-self/schedstat").ok()?;
    Some(Duration::from_nanos(told.split(' ').next()?.parse().ok()?))
}

fn figures() -> Vec<Figure> {
    let log = full_log();
    let wide = full_log_of_four();
    vec![
        session("add and finish", added_and_finished(OPERATIONS)),
        session("redo of 64 lines in order", redone(line_of_one, false)),
        session("redo of 64 in reverse", redone(line_of_one, true)),
        session("mixed session", mixed()),
        restart("restart from a full log", log.clone()),
        hand_out("keeper hands out all lines", log.clone()),
        site_calls(),
        trim(log.clone()),
        restart("restart, four updates a line", wide.clone()),
        session("redo of 64, four updates", redone(line_of_four, false)),
        hand_out("keeper, four updates a line", wide),
        removals(),
        find_cut(log),
        slot_calls(),
    ]
}

/// The figure, run by each program as the function says.
fn figure<R: FnMut() + 'static>(
    name: &'static str,
    unit: &'static str,
    work: f64,
    run_by: impl Fn(Box<dyn Program>) -> R,
) -> Figure {
    let runs = program::all().into_iter().map(|program| Box::new(run_by(program)) as Run);
    Figure { name, unit, work, runs: runs.collect() }
}

/// A session measured from text to text, in calls.
fn session(name: &'static str, input: String) -> Figure {
    let lines = input.lines().count();
    figure(name, "calls/s", lines as f64, |program| {
        let input = input.clone();
        let (mut log, mut out) = (vec![0; Site::LONGEST_LOG], vec![0; 200 * lines + SPARE]);
        move || {
            let length = program.session(black_box(input.as_bytes()), &mut log, &mut out);
            assert!(black_box(length).is_some(), "the replies fit");
        }
    })
}

fn restart(name: &'static str, log: Vec<u8>) -> Figure {
    figure(name, "MB/s", log.len() as f64 / 1e6, |program| {
        let (log, mut out) = (log.clone(), [0; 64]);
        move || {
            let length = program.restart(black_box(&log), log.len(), &mut out);
            assert!(length.is_some() && black_box(&out).starts_with(b"(ok "), "the log restarts");
        }
    })
}

/// A restart from a full log and a copy of it from its middle on, in bytes of the log.
fn trim(log: Vec<u8>) -> Figure {
    let site = Site::restart(&log, log.len() as u64, Rules::PAPER).expect("the log restarts");
    let n = site.stable_mark() / 2;
    figure("restart and trim to half", "MB/s", log.len() as f64 / 1e6, |program| {
        let (log, mut fresh) = (log.clone(), vec![0; Site::LONGEST_LOG]);
        move || {
            let used = program.trim(black_box(&log), log.len(), n, &mut fresh);
            assert!(black_box(used).is_ok(), "the copy fits");
        }
    })
}

/// A report over as many lines as a log can have in ten histories, with as many pairs, three lines
/// to a transaction and in no order: all but a few of the lines fall with one of them.
fn removals() -> Figure {
    let (log, lines) = short_lines();
    let scattered = (1..=lines).map(|at| 1 + at * 7919 % lines);
    let pairs: Vec<u64> = scattered.flat_map(|line| [line, line * 31 % 911]).collect();
    figure("removals of a full log", "lines/s", lines as f64, |program| {
        let (log, pairs, mut out) = (log.clone(), pairs.clone(), vec![0; lines as usize]);
        move || {
            let named = program.removals(black_box(&log), &pairs, &[lines / 2], &mut out);
            assert!(black_box(named).is_ok_and(|named| named as u64 > lines / 2), "lines fall");
        }
    })
}

/// A log of the shortest lines in ten histories, and how many there are.
fn short_lines() -> (Vec<u8>, u64) {
    let (mut log, mut lines) = ("(site 10)\n".to_string(), 0);
    while log.len() + 24 + "(stable 2730)\n".len() <= Site::LONGEST_LOG {
        log += &format!("(did 0 (not {} 0 {} 0))\n", lines % 10, lines / 10 + 1);
        lines += 1;
    }
    (format!("{log}(stable {lines})\n").into_bytes(), lines)
}

/// The library beside itself: a restart from a full log, and one with the cut found that leaves the
/// places of all its lines. This program tries each number of bytes, so there is nothing to compare.
fn find_cut(log: Vec<u8>) -> Figure {
    let (work, runs) = (log.len() as f64 / 1e6, library_finds(log));
    Figure { name: "restart, and find a cut", unit: "MB/s", work, runs }
}

#[cfg(feature = "library")]
fn library_finds(log: Vec<u8>) -> Vec<Run> {
    use second::library::Library;
    let site = Site::restart(&log, log.len() as u64, Rules::PAPER).expect("the log restarts");
    let place = |history| site.show(history).expect("a history").place;
    let places: Vec<u64> = (0..site.count()).map(place).collect();
    let (again, mut out) = (log.clone(), [0; 64]);
    vec![
        Box::new(move || {
            let length = Library.restart(black_box(&again), again.len(), &mut out);
            assert!(black_box(length).is_some(), "the log restarts");
        }),
        Box::new(move || {
            let found = Library.find_cut(black_box(&log), log.len(), &places);
            assert!(black_box(found).is_ok(), "all of the log leaves its places");
        }),
    ]
}

#[cfg(not(feature = "library"))]
fn library_finds(_: Vec<u8>) -> Vec<Run> {
    Vec::new()
}

/// A full keeper that hands out all it has.
fn hand_out(name: &'static str, log: Vec<u8>) -> Figure {
    let lines = log.split_inclusive(|&byte| byte == b'\n');
    let lines = lines.filter(|line| line.starts_with(b"(did ")).collect::<Vec<_>>().concat();
    figure(name, "MB/s", lines.len() as f64 / 1e6, |program| {
        let (lines, mut out) = (lines.clone(), vec![0; lines.len()]);
        move || {
            let handed = program.hand_out(black_box(&lines), lines.len(), &[0; 16], &mut out);
            assert_eq!(black_box(handed), Ok(lines.len()));
        }
    })
}

/// The site's own calls, without text.
fn site_calls() -> Figure {
    let mut log = vec![0; Site::LONGEST_LOG];
    let runs: Vec<Run> = vec![
        Box::new(move || finish_in_place(&mut log)),
        #[cfg(feature = "library")]
        {
            let mut log = vec![0; Site::LONGEST_LOG];
            Box::new(move || {
                let used = second::library::Library.add_and_finish(&mut log, OPERATIONS as u64);
                assert!(black_box(used) <= log.len());
            })
        },
    ];
    Figure { name: "the same without text", unit: "calls/s", work: 2.0 * OPERATIONS as f64, runs }
}

/// The library beside itself: what figure 6 does by a site's own calls, and by those of a
/// slot of a module. The slot is the last, which holds no entry at first.
fn slot_calls() -> Figure {
    Figure {
        name: "in a slot of a module",
        unit: "calls/s",
        work: 2.0 * OPERATIONS as f64,
        runs: library_serves(),
    }
}

#[cfg(feature = "library")]
fn library_serves() -> Vec<Run> {
    use second::library::Library;
    let (mut log, mut own) = (vec![0; Site::LONGEST_LOG], vec![0; Site::LONGEST_LOG]);
    vec![
        Box::new(move || {
            let used = Library.add_and_finish(&mut log, OPERATIONS as u64);
            assert!(black_box(used) <= log.len());
        }),
        Box::new(move || {
            let used = Library.add_and_finish_in(&mut own, black_box(3), OPERATIONS as u64);
            assert!(black_box(used) <= own.len());
        }),
    ]
}

#[cfg(not(feature = "library"))]
fn library_serves() -> Vec<Run> {
    Vec::new()
}

/// `(add ..)` of the operation with this number, in one of four histories.
fn add_line(number: usize) -> String {
    let (history, version) = (number % 4, number / 4 + 1);
    format!("(add {number} (inc {history} {version} 7))\n")
}

/// Operations added and finished one by one, with marks; each report covers the stable line before
/// it, so that no add finds the table full.
fn added_and_finished(operations: usize) -> String {
    let mut input = "(site 4)\n".to_string();
    for number in 0..operations {
        input += &format!("{}(finish {number})\n", add_line(number));
        if number % 32 == 31 {
            input += &format!("(persistent {0})\n(stable {0})\n", number + 1);
        }
    }
    input
}

/// The log that they leave, which nearly fills the buffer.
fn full_log() -> Vec<u8> {
    let mut log = vec![0; Site::LONGEST_LOG];
    second::session::run(added_and_finished(3000).as_bytes(), &mut log, Rules::PAPER);
    let used = log.iter().rposition(|&byte| byte == b'\n').map_or(0, |end| end + 1);
    log.truncate(used);
    log
}

/// The did line of the operation with this number: one update, in one of four histories.
fn line_of_one(number: usize) -> String {
    let (history, next) = (number % 4, number / 4 + 1);
    format!("(did {number} (inc {history} {next} {next} 7))")
}

/// The did line of the operation with this number: an update in each of four histories.
fn line_of_four(number: usize) -> String {
    let next = number + 1;
    format!(
        "(did {number} (inc 0 {next} {next} 7)(set 1 {next} {next} 1000)(not 2 0 {next} 0)\
         (inc 3 {next} {next} 513))"
    )
}

/// A log of such lines that nearly fills the buffer, with a stable line behind every 32nd.
fn full_log_of_four() -> Vec<u8> {
    let mut log = "(site 4)\n".to_string();
    for number in 0.. {
        let mut line = line_of_four(number) + "\n";
        if number % 32 == 31 {
            line += &format!("(stable {})\n", number + 1);
        }
        if Site::LONGEST_LOG < log.len() + line.len() {
            break;
        }
        log += &line;
    }
    log.into_bytes()
}

/// 64 lines redone again and again from an empty log.
fn redone(line: fn(usize) -> String, reverse: bool) -> String {
    let mut lines: Vec<String> =
        (0..64).map(|number| format!("(redo {})\n", line(number))).collect();
    if reverse {
        lines.reverse();
    }
    format!("(site 4)\n{}", format!("(cut 9)\n{}", lines.concat()).repeat(50))
}

/// A session with waiting operations, readers, refusals and marks.
fn mixed() -> String {
    let mut input = "(site 2)\n".to_string();
    for round in 0..200 {
        let (id, version) = (round * 3, round * 2);
        let (next, last) = (version + 1, version + 2);
        input += &format!("(add {id} (inc 0 {next} 513)(not 1 {version} 0))\n");
        input += &format!("(add {} (inc 0 {last} 7)(set 1 {last} 1000))\n", id + 1);
        input += &format!("(add {} (not 0 {last} 0))\n", id + 2);
        for ready in id..id + 3 {
            input += &format!("(finish {ready})\n");
        }
        input += "(add 5 (inc 0 0 0)\n(add 5 (inc 0 0 0))\n(show 0)\n(show 1)\n";
        input += &format!("(persistent {0})\n(stable {0})\n", id + 3);
    }
    input
}

/// Adds and finishes operations by the site's own calls, without text.
fn finish_in_place(log: &mut [u8]) {
    let mut site = Site::open(4, log, Rules::PAPER).expect("a site");
    for id in 0..OPERATIONS as u64 {
        let update = Update { rule: Rule::Inc, history: id % 4, version: id / 4 + 1, operand: 7 };
        let operation = Operation { id, updates: [update].into_iter().collect() };
        site.add(black_box(operation)).expect("it fits");
        site.finish(black_box(id), log).expect("it is in progress");
        if id % 32 == 31 {
            site.make_persistent(id + 1).expect("it is done");
            site.make_stable(id + 1, log).expect("it is persistent");
        }
    }
    black_box(site);
}

/// The faster of two rates, or what went wrong.
fn faster(one: io::Result<f64>, other: io::Result<f64>) -> io::Result<f64> {
    Ok(one?.max(other?))
}

/// SQLite in memory, by its command line program: one transaction an operation.
fn transactions_per_second() -> io::Result<f64> {
    let tables = "CREATE TABLE history(number INTEGER PRIMARY KEY, profile, version, place);\n\
                  CREATE TABLE log(number INTEGER PRIMARY KEY, id, rule, history, version, operand);\n\
                  INSERT INTO history VALUES (0,0,0,0),(1,0,0,0),(2,0,0,0),(3,0,0,0);\n";
    let mut script = tables.to_string();
    for number in 0..TRANSACTIONS {
        let (history, version) = (number % 4, number / 4 + 1);
        script += &format!(
            "BEGIN; UPDATE history SET profile = (profile & ~255) | 7, version = {version}, \
             place = place + 1 WHERE number = {history} AND version = {version} - 1; \
             INSERT INTO log VALUES ({number}, {number}, 'inc', {history}, {version}, 7); \
             COMMIT;\n"
        );
    }
    let empty = sqlite_seconds(tables)?;
    let whole = sqlite_seconds(&script)?;
    Ok(TRANSACTIONS as f64 / (whole - empty))
}

/// How long the command line program takes for a script.
fn sqlite_seconds(script: &str) -> io::Result<f64> {
    let start = Instant::now();
    let mut child = Command::new("sqlite3").arg(":memory:").stdin(Stdio::piped()).spawn()?;
    let mut input = child.stdin.take().expect("its input is a pipe");
    input.write_all(script.as_bytes())?;
    drop(input);
    let status = child.wait()?;
    if status.success() {
        Ok(start.elapsed().as_secs_f64())
    } else {
        Err(io::Error::other(format!("it ended with {status}")))
    }
}
