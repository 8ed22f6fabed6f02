//! Full service over the library: see `service.rs`. It prints what the chair shows at its end.

mod account;
mod service;

use account::HISTORIES;
use fitting_ledger::{Refusal, Site, REPLY_BYTES};
use service::{Calls, Ledger};

/// The library.
struct Library;

impl Ledger for Library {
    type Site<'log> = Site<'log>;

    fn start<'log>(&self, log: &'log mut [u8], histories: u64) -> Result<Site<'log>, u64> {
        Site::start(log, histories).map_err(number)
    }

    fn restart<'log>(&self, log: &'log mut [u8], kept: usize) -> Result<Site<'log>, u64> {
        Site::restart(log, kept).map_err(number)
    }
}

impl Calls for Site<'_> {
    fn line(&mut self, line: &str) -> String {
        let mut reply = [0; REPLY_BYTES];
        let reply = Site::line(self, line.as_bytes(), &mut reply);
        String::from_utf8_lossy(reply).trim_end().to_string()
    }

    fn log(&self) -> &[u8] {
        Site::log(self)
    }

    fn trim(&self, n: u64, fresh: &mut [u8]) -> Result<usize, u64> {
        Site::trim(self, n, fresh).map_err(number)
    }

    fn card(&self, window: u64) -> Result<Vec<u64>, u64> {
        let card = Site::card(self, window).map_err(number)?;
        Ok((0..HISTORIES).filter_map(|history| card.row(history)).flatten().copied().collect())
    }
}

fn number(Refusal(number): Refusal) -> u64 {
    number
}

fn main() {
    assert!(Site::fits(), "the library is the one that this program speaks of");
    print!("{}", service::serve(&Library));
}
