//! A station's shifts over the library: see `shift.rs`. It prints how often each answer came, and the sum of all that was replied and left.

mod shift;

use fitting_ledger::{Keeper, Records, Refusal};
use shift::{Keeping, Recording, Station, WORDS};

/// The library.
struct Library;

impl Station for Library {
    type Keeper<'b> = Keeper<'b>;
    type Records = Records;

    fn keeper<'b>(&self, buffer: &'b mut [u8], kept: usize) -> Option<Keeper<'b>> {
        match kept {
            0 => Some(Keeper::start(buffer)),
            _ => Keeper::resume(buffer, kept).ok(),
        }
    }

    fn records(&self, words: [u64; WORDS], kept: usize) -> Option<Records> {
        Records::resume(words, kept).ok()
    }
}

impl Keeping for Keeper<'_> {
    fn keep(&mut self, line: &[u8]) -> Result<(), u64> {
        Keeper::keep(self, line).map_err(number)
    }

    fn drop_lines(&mut self, history: u64, place: u64) -> Result<(), u64> {
        Keeper::drop_lines(self, history, place).map_err(number)
    }

    fn hand_out(&self, places: &[u64; 16], out: &mut [u8]) -> Result<usize, u64> {
        Keeper::hand_out(self, places, out).map_err(number)
    }

    fn used(&self) -> usize {
        self.lines().len()
    }
}

impl Recording for Records {
    fn record(&mut self, id: u64, sent: u8, full: u8, threshold: u64) -> Result<(), u64> {
        Records::record(self, id, sent, full, threshold).map_err(number)
    }

    fn report(&mut self, id: u64, site: u64) -> Result<bool, u64> {
        Records::report(self, id, site).map_err(number)
    }

    fn question(&self, id: u64) -> Result<bool, u64> {
        Records::question(self, id).map_err(number)
    }

    fn forget(&mut self, id: u64) -> Result<(), u64> {
        Records::forget(self, id).map_err(number)
    }

    fn stored(&self) -> (usize, [u64; WORDS]) {
        let (count, words) = Records::stored(self);
        (count, *words)
    }
}

fn number(Refusal(number): Refusal) -> u64 {
    number
}

fn main() {
    assert!(Keeper::fits(), "the library is the one that this program speaks of");
    print!("{}", shift::work(&Library));
}
