//! The card of the last lines of a site's log.

use super::{accepted, linked, Refusal, Rule, Site};

const RULES: usize = 3;
/// How many counts a card has: three for each of sixteen histories.
pub const COUNTS: usize = 16 * RULES;

/// Over the last lines of a log, how many updates of each rule each history had.
#[derive(Clone, Debug, PartialEq, Eq)]
pub struct Card {
    lines: usize,
    counts: [u64; COUNTS],
}

impl Card {
    /// How many lines count: W, or all where the log has fewer.
    pub fn lines(&self) -> usize {
        self.lines
    }

    /// How many updates of a rule a history had; an unk is logged as an inc.
    pub fn count(&self, history: u64, rule: Rule) -> u64 {
        self.row(history).map_or(0, |row| row.get(rule as usize).copied().unwrap_or(0))
    }

    /// How many updates inc, set and not a history had.
    pub fn row(&self, history: u64) -> Option<&[u64]> {
        self.counts.chunks_exact(RULES).nth(usize::try_from(history).ok()?)
    }
}

// The call lends the parts of a site, which `start` or `restart` has filled.
impl Site<'_> {
    /// The card of the last `window` did lines, counted afresh from the log.
    pub fn card(&self, window: u64) -> Result<Card, Refusal> {
        let mut card = Card { lines: 0, counts: [0; COUNTS] };
        // SAFETY: see above.
        let code = unsafe {
            linked::fl_card_parts(
                &self.counters,
                self.log.as_ptr(),
                self.log.len(),
                &self.rows,
                &self.order,
                &self.histories,
                window,
                &mut card.counts,
                &mut card.lines,
            )
        };
        accepted(code, card)
    }
}
