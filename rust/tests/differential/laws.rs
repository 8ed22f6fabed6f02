//! What holds of every session of this program after every line, whatever it was.

use std::collections::BTreeSet;

use second::forms::{Answer, Operation, Reply, Update};
use second::program::{Program, Second};
use second::rules::{Rules, Timing};
use second::session::Session;
use second::site::Site;

use crate::book::{histories_of as touched, id_of, numbers, Book};
use crate::going_on::GoingOn;
use crate::trial::{RestartTrial, SessionTrial};
use crate::upgraded::UpgradeTrial;
use crate::watch::{base_of, is_base, is_did, up_to_did, Law, Watch};

/// Runs a session and checks it after every line.
pub fn check(trial: &SessionTrial) {
    check_lines(Watch::new(trial.room, Law::PAPER), &trial.pieces);
}

/// The same of a session at a site restarted from a log.
pub fn check_going_on(trial: &GoingOn) {
    check_lines(Watch::after(&trial.start, trial.room, Law::PAPER), &trial.pieces);
}

fn check_lines(mut watch: Watch, pieces: &[Vec<u8>]) {
    for piece in pieces {
        let before = (watch.session.clone(), watch.log.clone());
        let answer = watch.answer(piece);
        check_change(&before, (&watch.session, &watch.log), &answer);
        if let Some(site) = watch.session.site() {
            check_site(site, &watch.log);
            check_fewest(site, &watch);
        }
    }
}

/// A restart from the fewest bytes of a fair cut, or from all, calls as much stable as has left the
/// table, or more; what it keeps and what it loses behind that were live before.
fn check_fewest(site: &Site, watch: &Watch) {
    for kept in [watch.fewest(), site.used()] {
        let restarted = Site::restart(&watch.log, kept as u64, Rules::PAPER).expect("a fair cut");
        assert!(restarted.done() >= site.persistent_mark());
        assert!(restarted.left_mark() >= site.left_mark());
        assert_eq!(restarted.left_mark(), restarted.stable_mark());
        assert_eq!(restarted.live() as u64, restarted.done() - restarted.stable_mark());
    }
}

/// A restart is accepted if each line is one that a log has there, and what is live after it fits
/// the table; and it shows what the log's text says.
pub fn check_restart(trial: &RestartTrial) {
    let log = [trial.kept.as_slice(), &trial.rest].concat();
    if trial.above > 0 || log.len() > Site::LONGEST_LOG {
        return;
    }
    let whole = trial.kept.iter().rposition(|&byte| byte == b'\n').map_or(0, |end| end + 1);
    let text = String::from_utf8_lossy(&log[..whole]);
    let restarted = Site::restart(&log, trial.kept.len() as u64, Rules::PAPER);
    let lines: Vec<String> = text.split_inclusive('\n').map(str::to_string).collect();
    let mark = histories_of(&lines).and_then(|count| mark_of(&lines, count));
    let base = base_of(lines.iter().map(String::as_str));
    let dids: Vec<&String> = lines.iter().filter(|line| is_did(line)).collect();
    let live = mark.map(|mark| dids.iter().skip((mark - base) as usize).map(|line| id_of(line)));
    let live: Option<Vec<u64>> = live.map(Iterator::collect);
    let fits =
        |ids: &Vec<u64>| ids.len() <= 64 && ids.iter().collect::<BTreeSet<_>>().len() == ids.len();
    assert_eq!(restarted.is_ok(), live.as_ref().is_some_and(fits), "{text}");
    let (Ok(site), Some(mark)) = (restarted, mark) else { return };
    let done = base + dids.len() as u64;
    assert_eq!((site.used(), site.done(), site.persistent_mark()), (whole, done, done));
    assert_eq!((site.stable_mark(), site.left_mark(), site.base()), (mark, mark, base));
    assert_eq!(site.live() as u64, done - mark);
    let now = Book::of(&lines, site.count()).shown();
    let stable = text[..up_to_did(&text, mark)].split_inclusive('\n');
    let then = Book::of(&stable.map(str::to_string).collect::<Vec<_>>(), site.count()).shown();
    for number in 0..site.count() {
        let shown = site.show(number).expect("the history exists");
        let (now, then) = (now[number as usize], then[number as usize]);
        assert_eq!([shown.version, shown.place, shown.profile], now);
        assert_eq!([shown.persistent, shown.stable], [now[0], then[0]]);
    }
}

/// How many histories the first line of a log says, if it is a site line.
fn histories_of(lines: &[String]) -> Option<u64> {
    let count = *numbers(lines.first()?).first()?;
    (lines[0] == format!("(site {count})\n") && (1..=16).contains(&count)).then_some(count)
}

/// What the last stable line of a log says, or its base line, or 0; nothing if a line behind the first
/// is none that a log has there.
fn mark_of(lines: &[String], count: u64) -> Option<u64> {
    let base = lines.get(1).filter(|line| is_base(line));
    if !base.is_none_or(|line| is_base_of(line, count)) {
        return None;
    }
    let mut book = Book::at_head(lines, count);
    let head = 1 + usize::from(base.is_some());
    let (mut mark, mut done) = match base {
        Some(line) => (numbers(line)[0], numbers(line)[0]),
        None => (0, 0),
    };
    for line in &lines[head..] {
        let n = *numbers(line).first().unwrap_or(&0);
        if is_did(line) && is_did_of(line, count) && book.can_take(line) {
            book.take_line(line);
            done += 1;
        } else if *line == format!("(stable {n})\n") && n > mark && n <= done {
            mark = n;
        } else {
            return None;
        }
    }
    Some(mark)
}

/// Whether a line with its end is a base line of a site with so many histories.
fn is_base_of(line: &str, count: u64) -> bool {
    let all = numbers(line);
    let Some((&n, cells)) = all.split_first().filter(|all| all.1.len() as u64 == 4 * count) else {
        return false;
    };
    let text: String = cells
        .chunks(4)
        .map(|cell| format!("({} {} {} {})", cell[0], cell[1], cell[2], cell[3]))
        .collect();
    let in_order = cells.chunks(4).map(|cell| cell[0]).eq(0..count);
    let places = cells.chunks(4).all(|cell| cell[2] <= n);
    line == format!("(base {n} {text})\n") && in_order && places && n <= 1 << 63
}

/// Whether a line with its end passes 1 to 5 at a site with so many histories.
fn is_did_of(line: &str, count: u64) -> bool {
    let text = line.trim_end_matches('\n').as_bytes();
    let kept = Second::from_paper().keep(&mut vec![0; text.len() + 1], 0, text);
    kept.is_ok() && touched(line).iter().all(|&history| history < count)
}

/// A log that was changed over restarts with the same did lines, all of them stable, none live.
pub fn check_changeover(trial: &UpgradeTrial) {
    let (outcome, buffer) = trial.outcome(&Second::from_paper());
    let Ok(used) = outcome else { return };
    let text = std::str::from_utf8(&buffer[..used]).expect("a log is plain text");
    let lines: Vec<String> = text.lines().map(str::to_string).collect();
    let site = Site::restart(&buffer, used as u64, Rules::PAPER).expect("a log restarts");
    let dids = lines.iter().filter(|line| is_did(line)).count() as u64;
    assert_eq!((site.used(), site.done(), site.stable_mark()), (used, dids, dids));
    assert_eq!((site.live(), site.left_mark()), (0, dids));
    for (number, told) in Book::of(&lines, site.count()).shown().into_iter().enumerate() {
        let shown = site.show(number as u64).expect("the history exists");
        assert_eq!([shown.version, shown.place, shown.profile], told);
        assert_eq!([shown.persistent, shown.stable], [shown.version; 2]);
    }
}

/// A refused call changes nothing; an accepted one no byte past those in use. With w lines
/// waiting, the new one included, a redo that runs R of them examines at most (R + 1) × w. The
/// histories named dry are those whose polls say so after the call and not before it. Overtaken
/// are the operations that were future and can never run now, in the order of arrival.
fn check_change(before: &(Session, Vec<u8>), after: (&Session, &Vec<u8>), answer: &Answer) {
    if answer.is_err() {
        assert_eq!((&before.0, &before.1), after, "a refused call changed something");
    }
    if let Ok(Reply::Redone { lines, examined }) = answer {
        let waiting = 1 + before.0.site().map_or(0, Site::waiting) as u64;
        assert!((1..=(lines + 1) * waiting).contains(examined), "{examined} of {waiting}");
    }
    if let Ok(Reply::Persistent { dry, .. } | Reply::Withdrawn { dry }) = answer {
        for history in 0..Site::MOST_HISTORIES {
            let (then, now) = (before.0.poll(history), after.0.poll(history));
            assert_eq!(dry.contains(history), (then, now) == (Ok(false), Ok(true)));
        }
    }
    if let (Ok(Reply::Finished(finished)), Some(before), Some(site)) =
        (answer, before.0.site(), after.0.site())
    {
        let future = before.pending().filter(|found| !found.1).map(|found| found.0);
        let overtaken = future.filter(|operation| has_never(site, operation));
        assert!(overtaken.map(|operation| operation.id).eq(finished.overtaken.iter().copied()));
        let gone = |id: &u64| site.pending().all(|found| found.0.id != *id);
        assert!(finished.overtaken.iter().all(gone), "an overtaken operation is still there");
    }
    let used = after.0.site().map_or(0, Site::used);
    assert_eq!(before.1[used..], after.1[used..], "a byte past those in use changed");
}

/// The log says all that the site shows, and the limits hold.
fn check_site(site: &Site, log: &[u8]) {
    let (done, persistent, stable) = (site.done(), site.persistent_mark(), site.stable_mark());
    assert!(site.left_mark() <= stable && stable <= persistent && persistent <= done);
    assert!(site.live() <= 64);
    let all = Site::restart(log, site.used() as u64, Rules::PAPER).expect("a log restarts");
    assert_eq!((all.done(), all.stable_mark(), all.used()), (done, stable, site.used()));
    let [whole, at_persistent, at_stable] =
        [done, persistent, stable].map(|operations| after_lines(site, log, operations));
    for (number, told) in whole.into_iter().enumerate() {
        let shown = site.show(number as u64).expect("the history exists");
        assert_eq!([shown.version, shown.place, shown.profile], told);
        let versions = [at_persistent[number][0], at_stable[number][0]];
        assert_eq!([shown.persistent, shown.stable], versions);
    }
    check_running(site);
}

/// What the text of the log says of each history after this many operations.
fn after_lines(site: &Site, log: &[u8], operations: u64) -> Vec<[u64; 3]> {
    let text = std::str::from_utf8(&log[..site.used()]).expect("a log is plain text");
    let kept = text[..up_to_did(text, operations)].split_inclusive('\n').map(str::to_string);
    Book::of(&kept.collect::<Vec<_>>(), site.count()).shown()
}

/// Whether an update of the operation can never run.
fn has_never(site: &Site, operation: &Operation) -> bool {
    operation.updates.iter().any(|update| {
        let version = site.show(update.history).expect("the history exists").version;
        Rules::PAPER.timing(update, version) == Timing::Never
    })
}

/// No operation holds a never between calls; updates in progress may still run, and a strong one
/// is alone in its history.
fn check_running(site: &Site) {
    assert!(site.pending().all(|found| !has_never(site, found.0)), "a never waits");
    let running: Vec<&Update> =
        site.pending().filter(|found| found.1).flat_map(|found| found.0.updates.iter()).collect();
    for (at, update) in running.iter().enumerate() {
        let version = site.show(update.history).expect("the history exists").version;
        assert!(Rules::PAPER.may_run(update, version));
        let together = running[..at].iter().filter(|other| other.history == update.history);
        for other in together {
            assert!(!update.rule.is_strong() && !other.rule.is_strong());
        }
    }
}
