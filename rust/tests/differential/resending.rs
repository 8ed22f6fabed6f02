//! Writes the second half of a list: the picked cut and what comes after it.

use crate::claim::ClaimTrial;
use crate::random::Random;
use crate::watch::{is_did, Watch};

/// Writes the second half of a list: the picked cut and what comes after it.
pub struct Resending<'r> {
    random: &'r mut Random,
    watch: Watch,
    /// The bytes of the log buffer at first.
    room: usize,
    pieces: Vec<Vec<u8>>,
    /// The lost lines that come again.
    chosen: Vec<String>,
}

impl<'r> Resending<'r> {
    pub fn new(random: &'r mut Random, watch: Watch) -> Resending<'r> {
        let room = watch.log.len();
        Resending { random, watch, room, pieces: Vec::new(), chosen: Vec::new() }
    }

    /// The list that begins with these lines, which the session has not yet answered.
    pub fn list(mut self, pieces: Vec<Vec<u8>>) -> ClaimTrial {
        for piece in &pieces {
            let _ = self.watch.answer(piece);
        }
        let picked = Some(pieces.len());
        self.pieces = pieces;
        self.pick();
        self.bring_back(picked)
    }

    /// A list that goes on behind a picked cut, the last of these lines: all that it loses comes
    /// again, in an order of its own.
    pub fn all_again(mut self, pieces: Vec<Vec<u8>>) -> ClaimTrial {
        let picked = pieces.len() - 1;
        for piece in &pieces[..picked] {
            let _ = self.watch.answer(piece);
        }
        let first = self.watch.text().to_string();
        let _ = self.watch.answer(&pieces[picked]);
        self.chosen = self.lost_of(&first);
        self.pieces = pieces;
        self.bring_back(Some(picked))
    }

    /// The chosen lines come, with further cuts between, and after the last of them all.
    fn bring_back(mut self, picked: Option<usize>) -> ClaimTrial {
        for _ in 0..self.random.below(3) {
            self.report_perhaps();
            let deliveries = self.random.between(0, 2 * self.chosen.len());
            self.deliver_some(deliveries);
            self.cut_fairly();
        }
        self.report_perhaps();
        self.deliver_all();
        let (room, law) = (self.room, self.watch.law);
        ClaimTrial { pieces: self.pieces, room, picked, law, start: None }
    }

    fn say(&mut self, line: &str) {
        let piece = format!("{line}\n").into_bytes();
        let _ = self.watch.answer(&piece);
        self.pieces.push(piece);
    }

    /// Makes the picked cut and chooses from the lines that it loses.
    fn pick(&mut self) {
        let first = self.watch.text().to_string();
        self.cut_fairly();
        let chance = self.random.pick(&[100, 100, 90, 50]);
        self.chosen = self.lost_of(&first);
        self.chosen.retain(|_| self.random.percent(chance));
    }

    /// The did lines of the log before a cut that are not in the log now.
    fn lost_of(&self, first: &str) -> Vec<String> {
        let lost = first[self.watch.text().len()..].lines().filter(|line| is_did(line));
        lost.map(str::to_string).collect()
    }

    fn cut_fairly(&mut self) {
        let (fewest, used) = (self.watch.fewest(), self.watch.text().len());
        let kept = if self.random.percent(35) { fewest } else { self.random.between(fewest, used) };
        self.say(&format!("(cut {kept})"));
    }

    fn report_perhaps(&mut self) {
        if self.random.percent(15) {
            self.report();
        }
    }

    /// Reports a log number as persistent or stable, or one above what there is.
    fn report(&mut self) {
        let Some(site) = self.watch.session.site() else { return };
        let (done, persistent) = (site.done(), site.persistent_mark());
        let line = match self.random.below(2) {
            0 => format!("(persistent {})", self.random.below(done + 2)),
            _ => format!("(stable {})", self.random.below(persistent + 2)),
        };
        self.say(&line);
    }

    fn deliver_some(&mut self, deliveries: usize) {
        for _ in 0..deliveries {
            let at = self.random.index(self.chosen.len());
            self.deliver(at);
        }
    }

    /// Delivers each chosen line at least once, in any order.
    fn deliver_all(&mut self) {
        let mut order: Vec<usize> = (0..self.chosen.len()).collect();
        self.random.shuffle(&mut order);
        for at in order {
            self.deliver(at);
            if self.random.percent(15) {
                self.deliver_some(1);
            }
        }
    }

    fn deliver(&mut self, at: usize) {
        self.say(&format!("(redo {})", self.chosen[at]));
        if self.random.percent(12) {
            self.aside(at);
        }
    }

    /// Makes a call that the claim allows beside the redo lines.
    fn aside(&mut self, at: usize) {
        let used = self.watch.text().len();
        let line = match self.random.below(10) {
            0 | 1 => return self.report(),
            2 => "(show 0)".to_string(),
            3 => format!("(cut {})", used + 1),
            4 => match self.watch.head() {
                Some(head) => format!("(cut {})", self.random.between(9, head - 1)),
                None => "(cut 3)".to_string(),
            },
            5 => "(add 5 (inc 0 1 0))".to_string(),
            6 => "(finish 5)".to_string(),
            7 => "(withdraw 5)".to_string(),
            8 => format!("(redo {}", self.chosen[at]),
            _ => {
                let lines: Vec<&str> = self.watch.text().lines().collect();
                format!("(redo {})", self.random.pick(&lines))
            }
        };
        self.say(&line);
    }
}
