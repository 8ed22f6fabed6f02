//! Random trials: this program beside the proved library where that is linked, and beside
//! itself with a rule broken on purpose, so that the comparison is known to notice.

mod arrival;
mod book;
mod carded;
mod changing;
mod claim;
mod damage;
mod found;
mod going_on;
mod kept;
mod kinds;
mod laws;
#[cfg(feature = "library")]
mod library;
mod made_up;
mod mood;
mod random;
mod recorded;
mod removed;
mod resending;
mod rounds;
mod scribe;
mod trial;
mod trimmed;
mod upgraded;
mod watch;

use std::collections::BTreeMap;
use std::sync::LazyLock;

use second::forms::Reply;
use second::program::{Program, Second, NO_KEEPER, NO_RECORDS};
use second::rules::{Flaw, Rules};

use claim::ClaimTrial;
use kinds::{kind_of, KINDS};
use rounds::ROUNDS;
use trial::{Comparison, Mismatch, SessionTrial};
use watch::{Counting, Law, Watch};

static SESSIONS: LazyLock<Vec<Vec<SessionTrial>>> = LazyLock::new(|| every(rounds::sessions));
static CLAIMS: LazyLock<Vec<Vec<ClaimTrial>>> = LazyLock::new(|| every(rounds::claims));
static OTHERS: LazyLock<Vec<Vec<Box<dyn Comparison>>>> = LazyLock::new(|| every(rounds::others));

/// What a function gives, round by round.
fn every<T>(of_round: fn(u64) -> Vec<T>) -> Vec<Vec<T>> {
    (0..ROUNDS).map(of_round).collect()
}

fn as_comparisons<T: Comparison>(trials: &[T]) -> impl Iterator<Item = &dyn Comparison> {
    trials.iter().map(|trial| trial as &dyn Comparison)
}

fn sessions() -> impl Iterator<Item = &'static dyn Comparison> {
    SESSIONS.iter().flat_map(|trials| as_comparisons(trials))
}

fn claims() -> impl Iterator<Item = &'static dyn Comparison> {
    CLAIMS.iter().flat_map(|trials| as_comparisons(trials))
}

/// Restarts, changeovers, keepers, records and sessions, round by round.
fn trials() -> impl Iterator<Item = &'static dyn Comparison> {
    let rounds = OTHERS.iter().zip(SESSIONS.iter());
    rounds.flat_map(|(others, sessions)| {
        others.iter().map(Box::as_ref).chain(as_comparisons(sessions))
    })
}

/// The shortest of the first few mismatches.
fn shortest(mismatches: impl Iterator<Item = Mismatch>) -> Option<Mismatch> {
    mismatches.take(4).min_by_key(|mismatch| mismatch.steps)
}

/// Fails with the report of a mismatch between this program and another.
fn assert_agrees(trials: impl Iterator<Item = &'static dyn Comparison>, program: &dyn Program) {
    let paper = Second::from_paper();
    if let Some(mismatch) = shortest(trials.filter_map(|trial| trial.mismatch(&paper, program))) {
        panic!("{}", mismatch.report);
    }
}

/// This program with a flaw.
fn broken(flaw: Flaw) -> Second {
    Second::new(&format!("{flaw:?}"), Rules::broken(flaw))
}

/// The mismatch that a flaw of this program makes beside another.
fn mismatch_by(
    flaw: Flaw,
    trials: impl Iterator<Item = &'static dyn Comparison>,
    program: &dyn Program,
) -> Mismatch {
    let broken = broken(flaw);
    let found = shortest(trials.filter_map(|trial| trial.mismatch_at_end(program, &broken)));
    let mismatch = found.unwrap_or_else(|| panic!("nothing shows {flaw:?}"));
    println!("{} steps: {}", mismatch.steps, mismatch.report);
    mismatch
}

/// The rules that only a session from a log asks for.
const OF_SESSIONS_FROM_LOGS: [Flaw; 2] = [Flaw::CutsInsideBase, Flaw::ReportsBelowBaseRefused];

/// The comparison notices every broken rule, and shows it by few steps. Those of sites that share a
/// table have trials of their own, in `tests/module`.
fn assert_notices_every_flaw(program: &dyn Program) {
    let goes_on = going_on::can(program);
    let asked = |flaw: &&Flaw| {
        !Flaw::OF_SHARED_TABLES.contains(flaw) && (goes_on || !OF_SESSIONS_FROM_LOGS.contains(flaw))
    };
    for &flaw in Flaw::ALL.iter().filter(asked) {
        let steps = mismatch_by(flaw, trials(), program).steps;
        assert!(steps <= 66, "{flaw:?} is shown by {steps} steps");
    }
}

#[test]
fn each_broken_rule_is_reported() {
    assert!(going_on::can(&Second::from_paper()));
    assert_notices_every_flaw(&Second::from_paper());
}

#[test]
fn a_mismatch_is_shown_by_two_lines() {
    let mismatch = mismatch_by(Flaw::EqualVersionIsNew, sessions(), &Second::from_paper());
    assert_eq!(mismatch.steps, 2, "{}", mismatch.report);
    assert!(mismatch.report.contains("(refused 8)"), "{}", mismatch.report);
}

/// A byte that is wrong after one line and right after the next is noticed too.
#[test]
fn a_mismatch_that_later_lines_hide_is_reported() {
    let lines = ["(site 1)\n", "(add 5 (inc 0 1 0))\n", "(finish 5)\n"];
    let room = "(site 1)\n(did 5 (inc 0 1 1 0))\n".len();
    let trial = SessionTrial::new(lines.map(|line| line.as_bytes().to_vec()).to_vec(), room);
    let (paper, broken) = (Second::from_paper(), broken(Flaw::WritesPastTheLine));
    assert!(trial.mismatch_at_end(&paper, &broken).is_none());
    let mismatch = trial.mismatch(&paper, &broken).expect("the first line shows it");
    assert_eq!(mismatch.steps, 1, "{}", mismatch.report);
    assert!(mismatch.report.contains("byte 9 of the log buffer"), "{}", mismatch.report);
}

/// The recovery claim holds of this program, for lists with many lost lines too.
#[test]
fn the_recovery_claim_holds() {
    let (mut most_lost, mut some_chosen, mut all_chosen) = (0, 0, 0);
    for trial in CLAIMS.iter().flatten() {
        let (lost, chosen) = trial.size().expect("the claim speaks of the list");
        most_lost = most_lost.max(lost);
        some_chosen += usize::from(0 < chosen && chosen < lost);
        all_chosen += usize::from(2 < chosen && chosen == lost);
    }
    println!("most lost {most_lost}, some chosen {some_chosen}, all chosen {all_chosen}");
    assert!(most_lost >= 60 && some_chosen >= 200 && all_chosen >= 300);
    assert_agrees(claims(), &Second::from_paper());
}

/// The claim is broken by each of these.
#[test]
fn the_recovery_claim_notices_broken_rules() {
    for flaw in [
        Flaw::PlaceForStrongOnly,
        Flaw::PartsFromTheTop,
        Flaw::SetKeepsUpperParts,
        Flaw::TornLineCounted,
        Flaw::RedoByVersionAlone,
        Flaw::DrainsOnce,
        Flaw::WaitingHoldsTwice,
        Flaw::EndNamesById,
    ] {
        mismatch_by(flaw, claims(), &Second::from_paper());
    }
}

/// Lists in which marks come often, under a law.
fn claims_with_marks(law: Law) -> Vec<ClaimTrial> {
    (0..ROUNDS).flat_map(|round| rounds::claims_with_marks(round, law)).collect()
}

/// The claim holds where stable lines are lost and kept, lines are live again and ids come again.
#[test]
fn the_recovery_claim_holds_with_stable_lines() {
    let lists = claims_with_marks(Law::PAPER);
    let count = |met: fn(&ClaimTrial) -> bool| lists.iter().filter(|list| met(list)).count();
    let (lost, kept) =
        (count(ClaimTrial::loses_stable_lines), count(ClaimTrial::keeps_stable_lines));
    let (live, again) =
        (count(ClaimTrial::has_lines_live_again), count(ClaimTrial::uses_an_id_again));
    println!("stable lines lost {lost}, kept {kept}, live again {live}, ids again {again}");
    assert!(lost >= 200 && kept >= 500 && live >= 500 && again >= 200);
    assert_recovers_with_marks(&Second::from_paper());
}

/// The claim holds of a program for lists in which marks come often, and for every order in which
/// few lost lines come again.
fn assert_recovers_with_marks(program: &dyn Program) {
    let lists = claims_with_marks(Law::PAPER);
    let orders: Vec<ClaimTrial> = lists.iter().flat_map(ClaimTrial::every_order).collect();
    println!("{} lists, {} orders", lists.len(), orders.len());
    assert!(orders.len() >= 10_000);
    for trial in as_comparisons(&lists).chain(as_comparisons(&orders)) {
        if let Some(mismatch) = trial.mismatch(program, program) {
            panic!("{}", mismatch.report);
        }
    }
}

/// The claim holds where the list starts at a site restarted from a log, also one with more than 64
/// did lines that was changed over.
#[test]
fn the_recovery_claim_holds_from_any_log() {
    let (mut lost, mut long) = (0, 0);
    for trial in (0..ROUNDS).flat_map(rounds::claims_from_logs) {
        let start = trial.start.as_deref().unwrap_or_default();
        lost += trial.size().expect("the claim speaks of the list").0;
        long += usize::from(start.iter().filter(|&&byte| byte == b'\n').count() > 66);
        let program = Second::from_paper().starting_from(start);
        if let Some(mismatch) = trial.mismatch(&program, &program) {
            panic!("{}", mismatch.report);
        }
    }
    println!("{lost} lines lost, {long} lists from long logs");
    assert!(lost >= 1000 && long >= 100);
}

/// None of these rules can be spared: where one is weakened, there is a list, fair by what is left,
/// after which the claim does not hold.
#[test]
fn the_recovery_claim_needs_the_rules_of_stable_lines() {
    for law in [
        Law::broken(Flaw::StableLeavesAtOnce),
        Law::broken(Flaw::CoveredByTheLineBefore),
        Law::broken(Flaw::StableWhileRestoring),
        Law::counting(Counting::NotCovered),
        Law::counting(Counting::NotKept),
    ] {
        let program = Second::new(&format!("{law:?}"), law.rules);
        let lists = claims_with_marks(law);
        let broken = as_comparisons(&lists).filter_map(|list| list.mismatch(&program, &program));
        let shortest = broken.min_by_key(|mismatch| mismatch.steps);
        let mismatch = shortest.unwrap_or_else(|| panic!("nothing shows {law:?}"));
        println!("{} steps: {}", mismatch.steps, mismatch.report);
        assert!(mismatch.steps <= 20, "{law:?} is shown by {} steps", mismatch.steps);
    }
}

#[test]
fn the_laws_hold_after_every_line() {
    SESSIONS.iter().flatten().step_by(4).for_each(laws::check);
}

#[test]
fn restarts_show_what_the_log_says() {
    (0..ROUNDS).flat_map(rounds::restarts).for_each(|trial| laws::check_restart(&trial));
}

#[test]
fn changed_over_logs_restart() {
    (0..ROUNDS).flat_map(upgraded::upgrades).for_each(|trial| laws::check_changeover(&trial));
}

/// A copy is what the text of its log says, and a restart from it shows what one from the log does.
#[test]
fn copies_show_the_same() {
    let copies: usize = (0..ROUNDS).flat_map(trimmed::trims).map(|trial| trial.check()).sum();
    println!("{copies} copies");
    assert!(copies >= 2000);
}

/// A report names the least set that the paper's rules give, line by line.
#[test]
fn removals_are_least() {
    let reports: usize = (0..ROUNDS).flat_map(removed::removals).map(|trial| trial.check()).sum();
    println!("{reports} reports");
    assert!(reports >= 2000);
}

/// The number that is named is the smallest whose cut call leaves the places, and 21 comes where none
/// does; also behind a stable line, since restart refuses the did line's end.
#[test]
fn found_cuts_are_the_smallest() {
    let (mut named, mut behind, mut trials) = (0, 0, 0);
    for met in (0..ROUNDS).flat_map(found::finds).map(|trial| trial.check()) {
        trials += 1;
        named += usize::from(met.0);
        behind += usize::from(met.1);
    }
    println!("{trials} questions, {named} cuts named, {behind} behind a stable line");
    assert!(trials >= 4000 && named >= 1500 && behind >= 20);
}

/// A card has the updates that the text of the last lines says.
#[test]
fn cards_are_those_of_the_text() {
    let cards: usize = (0..ROUNDS).flat_map(carded::cards).map(|trial| trial.check()).sum();
    println!("{cards} cards");
    assert!(cards >= 1500);
}

#[test]
fn the_laws_hold_behind_a_base() {
    (0..ROUNDS).flat_map(going_on::sessions).for_each(|trial| laws::check_going_on(&trial));
}

/// The trials are many, and they meet every refusal and every kind of reply.
#[test]
fn the_trials_reach_everything() {
    let calls: usize = sessions().map(Comparison::calls).sum();
    let watched: usize = SESSIONS.iter().flatten().map(SessionTrial::watched).sum();
    let all: usize = trials().map(Comparison::calls).sum();
    assert!(watched >= 200_000, "{watched} calls are compared one by one");
    let mut met: BTreeMap<String, usize> = BTreeMap::new();
    for reply in trials().flat_map(|trial| trial.answers(&Second::from_paper())) {
        *met.entry(kind_of(&reply)).or_default() += 1;
    }
    println!("{all} calls, {calls} of sessions, {watched} compared one by one: {met:#?}");
    let refusals = |call: &'static str, numbers: &'static [u64]| {
        numbers.iter().map(move |number| format!("{call}refused {number}"))
    };
    let expected = KINDS.iter().map(|kind| kind.to_string()).chain(
        (1..=15)
            .chain([17])
            .map(|number| format!("(refused {number})"))
            .chain(refusals("poll ", &[3, 14]))
            .chain(refusals("upgrade ", &[12, 13, 15]))
            .chain(refusals("trim ", &[12, 13, 15]))
            .chain(refusals("removals ", &[12, 13, 15, 16]))
            .chain(refusals("find ", &[13, 15, 21]))
            .chain(refusals("card ", &[13, 15, 22]))
            .chain(refusals("keep ", &[1, 2, 3, 4, 5, 8, 12, 13, 20, NO_KEEPER]))
            .chain(refusals("drop ", &[3, 13, NO_KEEPER]))
            .chain(refusals("hand out ", &[12, 13, NO_KEEPER]))
            .chain(refusals("record ", &[7, 10, 18, 19, NO_RECORDS]))
            .chain(refusals("report ", &[19, NO_RECORDS]))
            .chain(refusals("question ", &[19, NO_RECORDS]))
            .chain(refusals("forget ", &[19, NO_RECORDS])),
    );
    for kind in expected {
        let times = met.get(&kind).copied().unwrap_or(0);
        assert!(times >= 10, "{kind} is met {times} times");
    }
}

/// Stable lines are written often, reports cover them, and cuts keep them with live lines behind.
#[test]
fn the_trials_make_stable() {
    let (mut written, mut covered, mut kept) = (0, 0, 0);
    for trial in SESSIONS.iter().flatten() {
        let mut watch = Watch::new(trial.room, Law::PAPER);
        let mut marks = (0, 0);
        for piece in &trial.pieces {
            let answer = watch.answer(piece);
            let Some(site) = watch.session.site() else { continue };
            let now = (site.stable_mark(), site.left_mark());
            if let Ok(Reply::Restarted { .. }) = answer {
                kept += usize::from(now.0 > 0 && site.live() > 0);
            } else {
                written += usize::from(now.0 > marks.0);
                covered += usize::from(now.1 > marks.1);
            }
            marks = now;
        }
    }
    println!("{written} stable lines, {covered} reports that cover, {kept} cuts that keep some");
    assert!(written >= 5000 && covered >= 2000 && kept >= 2000);
}

/// Operations are overtaken often: one, several, and several whose ids do not rise.
#[test]
fn the_trials_overtake() {
    let (mut finishes, mut some, mut several, mut falling) = (0, 0, 0, 0);
    for reply in sessions().flat_map(|trial| trial.answers(&Second::from_paper())) {
        let Some((_, named)) = reply.split_once("(overtaken") else { continue };
        let ids: Vec<u64> = named.split([' ', ')']).filter_map(|id| id.parse().ok()).collect();
        finishes += 1;
        some += usize::from(!ids.is_empty());
        several += usize::from(ids.len() > 1);
        falling += usize::from(!ids.is_sorted());
    }
    println!("{finishes} finishes, {some} overtake, {several} several, {falling} not rising");
    assert!(some >= 5000 && several >= 1000 && falling >= 500);
}
