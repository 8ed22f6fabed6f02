//! Full service (examples/rust) over this program: the same chair, held to the same stored output as over the library.

#[path = "../../examples/rust/src/account.rs"]
mod account;
#[path = "../../examples/rust/src/service.rs"]
mod service;

use second::card::card;
use second::refusal::Refusal;
use second::rules::{Flaw, Rules};
use second::session::Session;
use second::site::Site;
use second::writer;
use service::{Calls, Ledger};

/// This program, by the papers' rules or with one broken.
struct Second {
    rules: Rules,
}

/// A session with its site over a log buffer.
struct Chair<'log> {
    session: Session,
    log: &'log mut [u8],
    rules: Rules,
}

impl Chair<'_> {
    fn site(&self) -> &Site {
        self.session.site().expect("a site")
    }
}

impl Second {
    fn chair<'log>(
        &self,
        site: Result<Site, Refusal>,
        log: &'log mut [u8],
    ) -> Result<Chair<'log>, u64> {
        let session = Session::of(site.map_err(Refusal::number)?, self.rules);
        Ok(Chair { session, log, rules: self.rules })
    }
}

impl Ledger for Second {
    type Site<'log> = Chair<'log>;

    fn start<'log>(&self, log: &'log mut [u8], histories: u64) -> Result<Chair<'log>, u64> {
        self.chair(Site::open(histories, log, self.rules), log)
    }

    fn restart<'log>(&self, log: &'log mut [u8], kept: usize) -> Result<Chair<'log>, u64> {
        self.chair(Site::restart(log, kept as u64, self.rules), log)
    }
}

impl Calls for Chair<'_> {
    fn line(&mut self, line: &str) -> String {
        let mut reply = Vec::new();
        writer::answer(&mut reply, &self.session.answer(line.as_bytes(), self.log));
        String::from_utf8_lossy(&reply).trim_end().to_string()
    }

    fn log(&self) -> &[u8] {
        &self.log[..self.site().used()]
    }

    fn trim(&self, n: u64, fresh: &mut [u8]) -> Result<usize, u64> {
        self.site().trim(n, self.log, fresh).map_err(Refusal::number)
    }

    fn card(&self, window: u64) -> Result<Vec<u64>, u64> {
        let (site, mut counts) = (self.site(), [0; 48]);
        card(site, site, self.log, window, &mut counts, self.rules).map_err(Refusal::number)?;
        Ok(counts[..3 * account::HISTORIES as usize].to_vec())
    }
}

#[test]
fn a_chair_in_daily_use() {
    let shown = service::serve(&Second { rules: Rules::PAPER });
    println!("{shown}");
    assert_eq!(shown, include_str!("../../examples/rust/service.out"));
}

/// Lost lines that come back in any order do the same work as before the cut, or it is noticed.
#[test]
fn other_work_is_noticed() {
    for flaw in [Flaw::RedoByVersionAlone, Flaw::DrainsOnce, Flaw::PlaceForStrongOnly] {
        let chair = Second { rules: Rules::broken(flaw) };
        let served = std::panic::catch_unwind(|| service::serve(&chair));
        assert!(served.is_err(), "{flaw:?}");
    }
}

/// The account disagrees with a chair that has one of these rules broken.
#[test]
fn a_broken_rule_is_noticed() {
    for flaw in [
        Flaw::BaseForgotten,
        Flaw::BaseNotStable,
        Flaw::BaseNotCounted,
        Flaw::CutsInsideBase,
        Flaw::ReportsBelowBaseRefused,
        Flaw::TrimsAboveStable,
        Flaw::TrimsBelowBase,
        Flaw::TrimRoomBeforeLimit,
        Flaw::TrimsToNow,
        Flaw::TrimCopiesStableLines,
        Flaw::TrimAlwaysCloses,
        Flaw::TrimNeverCloses,
        Flaw::TrimWritesWhenRefused,
        Flaw::TrimWritesPastTheCopy,
    ] {
        let chair = Second { rules: Rules::broken(flaw) };
        let served = std::panic::catch_unwind(|| service::serve(&chair));
        assert!(served.is_err(), "{flaw:?}");
    }
}
