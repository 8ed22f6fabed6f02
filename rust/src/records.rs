//! Records beside a keeper's lines: the sites that an operation was sent to, those that hold
//! full details, and those that reported it persistent.

use std::collections::BTreeSet;

use crate::refusal::{refuse_if, Refusal};
use crate::rules::Rules;

/// Some of the sites 0 to 7.
type Sites = BTreeSet<u64>;

/// A call about records. A mask has one bit a site.
#[derive(Clone, Copy, Debug, PartialEq, Eq)]
pub enum RecordCall {
    Record { id: u64, sent: u8, full: u8, threshold: u64 },
    Report { id: u64, site: u64 },
    Question { id: u64 },
    Forget { id: u64 },
}

/// What is recorded of one operation.
struct Record {
    id: u64,
    sent: Sites,
    full: Sites,
    reported: Sites,
    threshold: u64,
}

/// Records in lent numbers, of which each has five: its id, the masks of the sites that it was
/// sent to, of its full copies and of the reports, and its threshold.
pub struct Records<'n> {
    numbers: &'n mut [u64],
    count: usize,
    rules: Rules,
}

impl<'n> Records<'n> {
    pub const WIDTH: usize = 5;
    pub const MOST: usize = 64;

    /// The records that the first numbers are, if they are few enough and all would have room.
    pub fn resume(numbers: &'n mut [u64], count: usize, rules: Rules) -> Option<Records<'n>> {
        let fits = count <= Records::MOST && numbers.len() >= Records::MOST * Records::WIDTH;
        fits.then_some(Records { numbers, count, rules })
    }

    /// Makes a call. Gives the number of records after it; of a report or a question, 1 if the
    /// operation counts as persistent, else 0.
    pub fn call(&mut self, call: RecordCall) -> Result<usize, Refusal> {
        match call {
            RecordCall::Record { id, sent, full, threshold } => {
                self.record(id, sites(sent.into()), sites(full.into()), threshold)
            }
            RecordCall::Report { id, site } => self.report(id, site),
            RecordCall::Question { id } => {
                let at = self.find(id)?;
                Ok(self.counts(&self.at(at)))
            }
            RecordCall::Forget { id } => {
                let at = self.find(id)?;
                let (from, end) = ((at + 1) * Records::WIDTH, self.count * Records::WIDTH);
                self.numbers.copy_within(from..end, at * Records::WIDTH);
                self.count -= 1;
                Ok(self.count)
            }
        }
    }

    fn record(
        &mut self,
        id: u64,
        sent: Sites,
        full: Sites,
        threshold: u64,
    ) -> Result<usize, Refusal> {
        let beyond = threshold == 0 || threshold > full.len() as u64;
        let elsewhere = !full.is_subset(&sent);
        let [first, second] = self
            .rules
            .order_threshold((beyond, Refusal::BadThreshold), (elsewhere, Refusal::NotSent));
        self.rules.refuse_first([
            (self.find(id).is_ok(), Refusal::Underway),
            (self.count >= self.rules.most_records(Records::MOST), Refusal::TableFull),
            first,
            second,
        ])?;
        let reported = match self.rules.forgets_reports() {
            true => Sites::new(),
            false => self.at(self.count).reported,
        };
        if self.count < Records::MOST {
            self.put(self.count, &Record { id, sent, full, reported, threshold });
        }
        self.count += 1;
        Ok(self.count)
    }

    fn report(&mut self, id: u64, site: u64) -> Result<usize, Refusal> {
        let at = self.find(id)?;
        let mut record = self.at(at);
        refuse_if(!record.sent.contains(&site), Refusal::NotSent)?;
        if !record.reported.insert(site) && self.rules.takes_reports_back() {
            record.reported.remove(&site);
        }
        self.put(at, &record);
        Ok(self.counts(&record))
    }

    /// 1 if as many full copies as the threshold says have reported, else 0.
    fn counts(&self, record: &Record) -> usize {
        let copies = match self.rules.counts_bare_copies() {
            true => record.reported.len(),
            false => record.full.intersection(&record.reported).count(),
        };
        self.rules.reaches(copies as u64, record.threshold).into()
    }

    fn find(&self, id: u64) -> Result<usize, Refusal> {
        (0..self.count).find(|at| self.at(*at).id == id).ok_or(Refusal::NotSent)
    }

    fn at(&self, at: usize) -> Record {
        let numbers = &self.numbers[at * Records::WIDTH..][..Records::WIDTH];
        Record {
            id: numbers[0],
            sent: sites(numbers[1]),
            full: sites(numbers[2]),
            reported: sites(numbers[3]),
            threshold: numbers[4],
        }
    }

    fn put(&mut self, at: usize, record: &Record) {
        self.numbers[at * Records::WIDTH..][..Records::WIDTH].copy_from_slice(&[
            record.id,
            mask(&record.sent),
            mask(&record.full),
            mask(&record.reported),
            record.threshold,
        ]);
    }
}

/// The sites of a mask. A number that is no mask of 8 bits has none.
fn sites(mask: u64) -> Sites {
    (0..8).filter(|site| mask < 256 && mask >> site & 1 == 1).collect()
}

fn mask(sites: &Sites) -> u64 {
    sites.iter().map(|site| 1 << site).sum()
}
