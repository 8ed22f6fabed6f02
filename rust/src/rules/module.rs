//! Sites that share one table.

use super::{Flaw, Rules};

impl Rules {
    /// The entries of the table that four sites share.
    const ENTRIES: usize = 128;
    /// What every site is promised.
    const PROMISE: usize = 16;

    pub fn shared_entries(self) -> usize {
        Rules::ENTRIES + usize::from(self.has(Flaw::EntriesOneMore))
    }

    /// What a site is promised that is not restoring.
    pub fn plain_promise(self) -> usize {
        Rules::PROMISE
    }

    /// What a slot is promised whose site is not opened yet.
    pub fn promise_before_opening(self) -> usize {
        if self.has(Flaw::UnopenedNotPromised) {
            0
        } else {
            Rules::PROMISE
        }
    }

    /// What a site is promised after a cut or restart that found so many live; it was promised so
    /// many before, for good or until its restoring ends.
    pub fn promise_after_cut(self, live: usize, promised: usize, restoring: bool) -> usize {
        if self.has(Flaw::PromiseNotRaised) {
            return promised;
        }
        let fresh = live.max(Rules::PROMISE);
        if restoring && !self.has(Flaw::PromiseOfTheLastCut) {
            fresh.max(promised)
        } else {
            fresh
        }
    }

    pub fn asks_ten_before_fifteen(self) -> bool {
        self.has(Flaw::TenBeforeFifteen)
    }

    pub fn looks_up_in_all_sites(self) -> bool {
        self.has(Flaw::IdsOverAllSites)
    }
}
