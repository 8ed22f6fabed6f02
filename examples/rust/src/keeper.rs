//! A keeper of did lines, at a station.

use super::records::WORDS;
use super::{accepted, linked, Refusal, LOG_LINES, VERSION};

/// One place for each history that a keeper knows.
pub const PLACES: usize = 16;

/// A keeper over a buffer that is lent to it.
pub struct Keeper<'lines> {
    used: usize,
    lines: &'lines mut [u8],
}

// Each call lends the library parts of a keeper, which `start` or `resume` has filled and only the library has changed since. They are
// borrowed by nobody else until it returns, and it keeps none of them.
impl<'lines> Keeper<'lines> {
    /// Whether the library for stations that was linked is the one that this type, [`Records`](super::Records) and
    /// [`removals`](super::removals) speak of.
    pub fn fits() -> bool {
        // SAFETY: these are lent nothing.
        let (version, words, places, lines) = unsafe {
            (
                linked::fl_station_version(),
                linked::fl_record_words(),
                linked::fl_place_words(),
                linked::fl_log_lines(),
            )
        };
        (version, words, places, lines) == (VERSION, WORDS, PLACES, LOG_LINES)
    }

    /// Begins a keeper that keeps nothing.
    pub fn start(lines: &'lines mut [u8]) -> Self {
        let mut keeper = Keeper { used: 0, lines };
        // SAFETY: see above.
        unsafe {
            linked::fl_keeper_start_parts(
                &mut keeper.used,
                keeper.lines.as_ptr(),
                keeper.lines.len(),
            )
        };
        keeper
    }

    /// Takes a keeper up again, once, from the first bytes of its stored lines; a last line without its end does not count. The number of
    /// the refusal is 999 where they are not what a keeper keeps.
    pub fn resume(lines: &'lines mut [u8], kept: usize) -> Result<Self, Refusal> {
        let mut keeper = Keeper { used: 0, lines };
        // SAFETY: see above.
        let code = unsafe {
            linked::fl_keeper_resume_parts(
                &mut keeper.used,
                keeper.lines.as_ptr(),
                keeper.lines.len(),
                kept,
            )
        };
        accepted(code, keeper)
    }

    /// The kept lines, each with its end: what is to be stored.
    pub fn lines(&self) -> &[u8] {
        &self.lines[..self.used]
    }

    /// Keeps a copy of a did line, given without its end.
    pub fn keep(&mut self, line: &[u8]) -> Result<(), Refusal> {
        // SAFETY: see above.
        let code = unsafe {
            linked::fl_keeper_keep_parts(
                &mut self.used,
                self.lines.as_mut_ptr(),
                self.lines.len(),
                line.as_ptr(),
                line.len(),
            )
        };
        accepted(code, ())
    }

    /// Drops every line with that place or a lower one in that history.
    pub fn drop_lines(&mut self, history: u64, place: u64) -> Result<(), Refusal> {
        // SAFETY: see above.
        let code = unsafe {
            linked::fl_keeper_drop_parts(
                &mut self.used,
                self.lines.as_mut_ptr(),
                self.lines.len(),
                history,
                place,
            )
        };
        accepted(code, ())
    }

    /// Hands out the lines with a place above its entry, in the order of their arrival; gives the bytes that they are.
    pub fn hand_out(&self, places: &[u64; PLACES], out: &mut [u8]) -> Result<usize, Refusal> {
        let mut handed = 0;
        // SAFETY: see above.
        let code = unsafe {
            linked::fl_keeper_hand_out_parts(
                &self.used,
                self.lines.as_ptr(),
                self.lines.len(),
                places,
                out.as_mut_ptr(),
                out.len(),
                &mut handed,
            )
        };
        accepted(code, handed)
    }
}
