//! Cuts that leave given places, compared, and what the number that is named must be.

use std::ops::Range;

use second::program::{Outcome, Program, Second};
use second::rules::Rules;
use second::site::Site;

use crate::random::{Random, EDGES};
use crate::rounds::{sample, seeded};
use crate::trial::{lines_of, shown_lines, used_buffer, without, Trial};
use crate::trimmed::copy_of;
use crate::{damage, made_up};

/// A question about the log in the first bytes of a buffer.
#[derive(Clone)]
pub struct FindTrial {
    /// The bytes that are the log.
    pub kept: Vec<u8>,
    /// The bytes of the buffer behind them.
    pub rest: Vec<u8>,
    /// How far the number of bytes that are the log is above those that are.
    pub above: usize,
    /// The places that the cut must leave.
    pub places: Vec<u64>,
}

impl FindTrial {
    fn outcome(&self, program: &dyn Program) -> Outcome {
        let log = [self.kept.as_slice(), &self.rest].concat();
        program.find_cut(&log, self.kept.len() + self.above, &self.places)
    }

    /// Checks the answer against the site's own cut call with every number, of a long log with those
    /// about line ends; gives what is met: whether a number is named, and whether it is not the end
    /// of a did line.
    pub fn check(&self) -> (bool, bool) {
        let outcome = self.outcome(&Second::from_paper());
        let log = [self.kept.as_slice(), &self.rest].concat();
        let Ok(site) = Site::restart(&log, (self.kept.len() + self.above) as u64, Rules::PAPER)
        else {
            assert!(matches!(outcome, Err(13 | 15)));
            return (false, false);
        };
        let long = site.used() > 500;
        let asked = |kept: &usize| {
            !long || log[kept.saturating_sub(2)..(*kept + 1).min(log.len())].contains(&b'\n')
        };
        let fits = |kept: &usize| {
            let mut cut = site.clone();
            let accepted = cut.cut(*kept as u64, &log).is_ok();
            accepted && self.places == places_of(&cut)
        };
        let most = (site.used() + 2).min(log.len().saturating_sub(1));
        let expected = (0..=most).chain([site.used()]).filter(asked).find(fits).ok_or(21);
        assert_eq!(outcome, expected, "{}", self.shown());
        let stable = |kept: usize| lines_of(&log[..kept]).pop().is_some_and(|line| line[1] == b's');
        (outcome.is_ok(), outcome.is_ok_and(|kept| kept > 20 && stable(kept)))
    }
}

/// The places that a site shows.
fn places_of(site: &Site) -> Vec<u64> {
    (0..site.count()).map(|number| site.show(number).expect("a history").place).collect()
}

impl Trial for FindTrial {
    fn steps(&self) -> usize {
        lines_of(&self.kept).len()
    }

    fn without(&self, steps: Range<usize>) -> FindTrial {
        FindTrial { kept: without(&lines_of(&self.kept), steps).concat(), ..self.clone() }
    }

    fn shown(&self) -> String {
        let lines = shown_lines(lines_of(&self.kept).iter());
        let (rest, above, places) = (self.rest.len(), self.above, &self.places);
        format!("the cut that leaves {places:?}, {rest} bytes behind, {above} above:\n{lines}")
    }

    fn calls(&self) -> usize {
        1
    }

    fn replies(&self, program: &dyn Program) -> Vec<String> {
        vec![match self.outcome(program) {
            Ok(_) => "find ok".to_string(),
            Err(number) => format!("find refused {number}"),
        }]
    }

    fn difference(&self, left: &dyn Program, right: &dyn Program) -> Option<String> {
        let (first, second) = (self.outcome(left), self.outcome(right));
        (first != second).then(|| format!("the outcomes are {first:?} and {second:?}\n"))
    }
}

/// Questions about made-up logs, most of which restart, some changed over with more than 64 did
/// lines; now and then for every cut of a log and of its copy, and about one damaged at every byte
/// and line and cut everywhere.
pub fn finds(round: u64) -> Vec<FindTrial> {
    let mut random = seeded(13, round);
    let mut trials = Vec::new();
    for _ in 0..16 {
        let log = match random.below(5) {
            0 => made_up::log(&mut random),
            1 => made_up::high_log(&mut random),
            2 => {
                let log = made_up::log_to_start_from(&mut random);
                copy_of(&mut random, &log)
            }
            _ => made_up::log_to_start_from(&mut random),
        };
        trials.push(find(&mut random, log));
    }
    if round % 16 == 7 {
        let mut log = sample(&mut random, 16).1;
        trials.extend(every_cut(&log));
        if round % 32 == 7 {
            log = copy_of(&mut random, &log);
            trials.extend(every_cut(&log));
        }
        let mut damaged = [damage::every_byte(&log), damage::every_line(&log)].concat();
        damaged.extend((0..=log.len()).map(|kept| log[..kept].to_vec()));
        trials.extend(damaged.into_iter().map(|log| find(&mut random, log)));
    }
    trials
}

/// The places that each accepted restart from a beginning of the log leaves.
fn every_cut(log: &[u8]) -> Vec<FindTrial> {
    let left = (0..=log.len()).filter_map(|kept| left_by(log, kept));
    left.map(|places| FindTrial { kept: log.to_vec(), rest: Vec::new(), above: 0, places })
        .collect()
}

/// The places that a restart from the first bytes of a log leaves, or would leave if nothing were
/// asked of the table.
fn left_by(log: &[u8], kept: usize) -> Option<Vec<u64>> {
    let mut log = made_up::without_marks(&log[..kept]);
    let kept = log.len();
    log.resize(kept + 30, 0);
    let used = Site::upgrade(&mut log, kept as u64, Rules::PAPER).unwrap_or(kept);
    Some(places_of(&Site::restart(&log, used as u64, Rules::PAPER).ok()?))
}

/// A question about places that some beginning of the log has, or nearly has.
fn find(random: &mut Random, kept: Vec<u8>) -> FindTrial {
    let all = Site::restart(&kept, kept.len() as u64, Rules::PAPER).map(|site| places_of(&site));
    let cut = if random.percent(30) { kept.len() } else { random.between(0, kept.len()) };
    let some = left_by(&kept, cut).or(all.ok()).unwrap_or_else(|| vec![0]);
    let mut places = some;
    let at = random.index(places.len());
    match random.below(16) {
        0 => places.truncate(at),
        1 => places.push(random.pick(&[0, 1])),
        2 => places = vec![0; places.len() + 1],
        3 => places = vec![0; places.len()],
        4 => places[at] = places[at].wrapping_add(1),
        5 => places[at] = places[at].wrapping_sub(1),
        6 => places[at] = random.pick(&EDGES),
        7 => places = vec![0; random.index(20)],
        _ => {}
    }
    let mut trial = FindTrial { kept, rest: used_buffer(random.index(30)), above: 0, places };
    if random.percent(3) {
        trial.above = trial.rest.len() + random.pick(&[1, 2, 1000]);
    }
    trial
}
