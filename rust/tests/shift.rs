//! A station's shifts (examples/rust) over this program: the same calls, held to the same stored output as over the library.

#[path = "../../examples/rust/src/shift.rs"]
mod shift;

use second::keeper::Keeper;
use second::records::{RecordCall, Records};
use second::refusal::Refusal;
use second::rules::{Flaw, Rules};
use shift::{Keeping, Recording, Station, WORDS};
use std::cell::RefCell;

/// This program, by the papers' rules or with one broken.
struct Second {
    rules: Rules,
}

struct Lines<'b> {
    keeper: Keeper,
    buffer: &'b mut [u8],
}

struct Words {
    numbers: RefCell<[u64; WORDS]>,
    count: usize,
    rules: Rules,
}

impl Station for Second {
    type Keeper<'b> = Lines<'b>;
    type Records = Words;

    /// A last line without its end is ignored, unless that is the broken rule.
    fn keeper<'b>(&self, buffer: &'b mut [u8], kept: usize) -> Option<Lines<'b>> {
        let stored = buffer.get(..kept)?;
        let whole = match self.rules.keeps_torn_line() {
            true => kept,
            false => stored.iter().rposition(|&byte| byte == b'\n').map_or(0, |end| end + 1),
        };
        let keeper = Keeper::resume(buffer, whole, self.rules)?;
        Some(Lines { keeper, buffer })
    }

    fn records(&self, mut words: [u64; WORDS], kept: usize) -> Option<Words> {
        Records::resume(&mut words, kept, self.rules)?;
        Some(Words { numbers: RefCell::new(words), count: kept, rules: self.rules })
    }
}

impl Keeping for Lines<'_> {
    fn keep(&mut self, line: &[u8]) -> Result<(), u64> {
        self.keeper.keep(line, self.buffer).map_err(Refusal::number)
    }

    fn drop_lines(&mut self, history: u64, place: u64) -> Result<(), u64> {
        self.keeper.drop_up_to(history, place, self.buffer).map_err(Refusal::number)
    }

    fn hand_out(&self, places: &[u64; 16], out: &mut [u8]) -> Result<usize, u64> {
        self.keeper.hand_out(places, self.buffer, out).map_err(Refusal::number)
    }

    fn used(&self) -> usize {
        self.keeper.used()
    }
}

impl Words {
    fn call(&self, call: RecordCall) -> Result<usize, u64> {
        let mut numbers = self.numbers.borrow_mut();
        let mut records =
            Records::resume(&mut *numbers, self.count, self.rules).expect("they are records");
        records.call(call).map_err(Refusal::number)
    }
}

impl Recording for Words {
    fn record(&mut self, id: u64, sent: u8, full: u8, threshold: u64) -> Result<(), u64> {
        self.count = self.call(RecordCall::Record { id, sent, full, threshold })?;
        Ok(())
    }

    fn report(&mut self, id: u64, site: u64) -> Result<bool, u64> {
        Ok(self.call(RecordCall::Report { id, site })? == 1)
    }

    fn question(&self, id: u64) -> Result<bool, u64> {
        Ok(self.call(RecordCall::Question { id })? == 1)
    }

    fn forget(&mut self, id: u64) -> Result<(), u64> {
        self.count = self.call(RecordCall::Forget { id })?;
        Ok(())
    }

    fn stored(&self) -> (usize, [u64; WORDS]) {
        (self.count, *self.numbers.borrow())
    }
}

const SHOWN: &str = include_str!("../../examples/rust/shift.out");

#[test]
fn the_shifts_of_a_station() {
    let shown = shift::work(&Second { rules: Rules::PAPER });
    println!("{shown}");
    assert_eq!(shown, SHOWN);
}

/// A station with one of these rules broken does not show the same.
#[test]
fn a_broken_rule_is_noticed() {
    for flaw in [
        Flaw::KeeperTakesCopies,
        Flaw::KeeperTakesConflicts,
        Flaw::KeeperFullOneByteEarly,
        Flaw::KeeperDropsBelowOnly,
        Flaw::KeeperClearsDropped,
        Flaw::KeeperHandsOutKept,
        Flaw::KeeperHandsOutBackwards,
        Flaw::KeeperKeepsTornLine,
        Flaw::ReportsTakenBack,
        Flaw::RecordsOneMore,
        Flaw::ReportsOutliveRecords,
    ] {
        let station = Second { rules: Rules::broken(flaw) };
        let worked = std::panic::catch_unwind(|| shift::work(&station));
        assert_ne!(worked.ok().as_deref(), Some(SHOWN), "{flaw:?}");
    }
}
