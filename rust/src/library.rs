//! The proved library, linked as a static library, behind safe functions.

use crate::card::Counts;
use crate::keeper::Places;
use crate::program::{Outcome, Program};
use crate::records::RecordCall;

/// The library's functions. A slice passes as its address and its length.
mod linked {
    extern "C" {
        pub fn session_whole(
            input: *const u8,
            input_length: usize,
            log: *mut u8,
            log_length: usize,
            out: *mut u8,
            out_length: usize,
        ) -> usize;

        pub fn session_polls(
            input: *const u8,
            input_length: usize,
            log: *mut u8,
            log_length: usize,
            out: *mut u8,
            out_length: usize,
            histories: *mut u64,
            histories_length: usize,
        ) -> usize;

        pub fn site_restart(
            log: *const u8,
            log_length: usize,
            kept: usize,
            out: *mut u8,
            out_length: usize,
        ) -> usize;

        pub fn log_trim(
            log: *const u8,
            log_length: usize,
            kept: usize,
            n: u64,
            fresh: *mut u8,
            fresh_length: usize,
        ) -> u64;

        pub fn log_removals(
            log: *const u8,
            log_length: usize,
            pairs: *const u64,
            pairs_length: usize,
            lost: *const u64,
            lost_length: usize,
            out: *mut u64,
            out_length: usize,
        ) -> u64;

        pub fn log_find_cut(
            log: *const u8,
            log_length: usize,
            kept: usize,
            places: *const u64,
            places_length: usize,
        ) -> u64;

        pub fn log_card(
            log: *const u8,
            log_length: usize,
            begun: usize,
            kept: usize,
            w: u64,
            counts: *mut u64,
        ) -> u64;

        pub fn log_upgrade(log: *mut u8, log_length: usize, kept: usize) -> u64;

        pub fn keeper_keep(
            buffer: *mut u8,
            buffer_length: usize,
            used: usize,
            line: *const u8,
            line_length: usize,
        ) -> u64;

        pub fn keeper_drop(
            buffer: *mut u8,
            buffer_length: usize,
            used: usize,
            history: u64,
            place: u64,
        ) -> u64;

        pub fn keeper_hand_out(
            buffer: *const u8,
            buffer_length: usize,
            used: usize,
            places: *const u64,
            places_length: usize,
            out: *mut u8,
            out_length: usize,
        ) -> u64;

        pub fn records_record(
            numbers: *mut u64,
            numbers_length: usize,
            count: usize,
            id: u64,
            sent: u8,
            full: u8,
            threshold: u64,
        ) -> u64;

        pub fn records_report(
            numbers: *mut u64,
            numbers_length: usize,
            count: usize,
            id: u64,
            site: u64,
        ) -> u64;

        pub fn records_question(
            numbers: *const u64,
            numbers_length: usize,
            count: usize,
            id: u64,
        ) -> u64;

        pub fn records_forget(
            numbers: *mut u64,
            numbers_length: usize,
            count: usize,
            id: u64,
        ) -> u64;

        pub fn site_add_and_finish(log: *mut u8, log_length: usize, operations: u64) -> usize;

        pub fn slot_add_and_finish(
            log: *mut u8,
            log_length: usize,
            slot: usize,
            operations: u64,
        ) -> usize;
    }
}

/// The library as a program.
pub struct Library;

// Each call lends the library slices that are valid and, where it writes, borrowed by nobody
// else until it returns. It keeps none of them.
impl Library {
    /// The number in place of a refusal's where the places are not sixteen.
    pub const NOT_SIXTEEN: u64 = 998;

    /// Hands out the lines above the kept places, however many these are.
    pub fn hand_out_above(
        &self,
        buffer: &[u8],
        used: usize,
        places: &[u64],
        out: &mut [u8],
    ) -> Outcome {
        // SAFETY: see above.
        outcome(unsafe {
            linked::keeper_hand_out(
                buffer.as_ptr(),
                buffer.len(),
                used,
                places.as_ptr(),
                places.len(),
                out.as_mut_ptr(),
                out.len(),
            )
        })
    }

    /// Opens a site of 4 histories and adds and finishes this many operations, without text.
    /// Gives the bytes of the log in use.
    pub fn add_and_finish(&self, log: &mut [u8], operations: u64) -> usize {
        // SAFETY: see above.
        unsafe { linked::site_add_and_finish(log.as_mut_ptr(), log.len(), operations) }
    }

    /// The same in a slot of a module whose other slots are not opened.
    pub fn add_and_finish_in(&self, log: &mut [u8], slot: usize, operations: u64) -> usize {
        // SAFETY: see above.
        unsafe { linked::slot_add_and_finish(log.as_mut_ptr(), log.len(), slot, operations) }
    }
}

impl Program for Library {
    fn name(&self) -> &str {
        "library"
    }

    fn session(&self, input: &[u8], log: &mut [u8], out: &mut [u8]) -> Option<usize> {
        // SAFETY: see above.
        fitting(unsafe {
            linked::session_whole(
                input.as_ptr(),
                input.len(),
                log.as_mut_ptr(),
                log.len(),
                out.as_mut_ptr(),
                out.len(),
            )
        })
    }

    fn session_polls(
        &self,
        input: &[u8],
        log: &mut [u8],
        out: &mut [u8],
        histories: &mut [u64],
    ) -> Option<usize> {
        // SAFETY: see above.
        fitting(unsafe {
            linked::session_polls(
                input.as_ptr(),
                input.len(),
                log.as_mut_ptr(),
                log.len(),
                out.as_mut_ptr(),
                out.len(),
                histories.as_mut_ptr(),
                histories.len(),
            )
        })
    }

    fn restart(&self, log: &[u8], kept: usize, out: &mut [u8]) -> Option<usize> {
        // SAFETY: see above.
        fitting(unsafe {
            linked::site_restart(log.as_ptr(), log.len(), kept, out.as_mut_ptr(), out.len())
        })
    }

    fn trim(&self, log: &[u8], kept: usize, n: u64, fresh: &mut [u8]) -> Outcome {
        // SAFETY: see above.
        outcome(unsafe {
            let (address, length) = (fresh.as_mut_ptr(), fresh.len());
            linked::log_trim(log.as_ptr(), log.len(), kept, n, address, length)
        })
    }

    fn find_cut(&self, log: &[u8], kept: usize, places: &[u64]) -> Outcome {
        // SAFETY: see above.
        outcome(unsafe {
            let (address, length) = (places.as_ptr(), places.len());
            linked::log_find_cut(log.as_ptr(), log.len(), kept, address, length)
        })
    }

    fn card(&self, log: &[u8], begun: usize, kept: usize, w: u64, counts: &mut Counts) -> Outcome {
        // SAFETY: see above.
        outcome(unsafe {
            linked::log_card(log.as_ptr(), log.len(), begun, kept, w, counts.as_mut_ptr())
        })
    }

    fn upgrade(&self, log: &mut [u8], kept: usize) -> Outcome {
        // SAFETY: see above.
        outcome(unsafe { linked::log_upgrade(log.as_mut_ptr(), log.len(), kept) })
    }

    fn removals(&self, log: &[u8], pairs: &[u64], lost: &[u64], out: &mut [u64]) -> Outcome {
        // SAFETY: see above.
        outcome(unsafe {
            linked::log_removals(
                log.as_ptr(),
                log.len(),
                pairs.as_ptr(),
                pairs.len(),
                lost.as_ptr(),
                lost.len(),
                out.as_mut_ptr(),
                out.len(),
            )
        })
    }

    fn keep(&self, buffer: &mut [u8], used: usize, line: &[u8]) -> Outcome {
        // SAFETY: see above.
        outcome(unsafe {
            let (address, length) = (buffer.as_mut_ptr(), buffer.len());
            linked::keeper_keep(address, length, used, line.as_ptr(), line.len())
        })
    }

    fn drop_up_to(&self, buffer: &mut [u8], used: usize, history: u64, place: u64) -> Outcome {
        // SAFETY: see above.
        outcome(unsafe {
            linked::keeper_drop(buffer.as_mut_ptr(), buffer.len(), used, history, place)
        })
    }

    fn hand_out(&self, buffer: &[u8], used: usize, kept: &Places, out: &mut [u8]) -> Outcome {
        self.hand_out_above(buffer, used, kept, out)
    }

    fn records(&self, numbers: &mut [u64], count: usize, call: RecordCall) -> Outcome {
        let (address, length) = (numbers.as_mut_ptr(), numbers.len());
        // SAFETY: see above.
        outcome(unsafe {
            match call {
                RecordCall::Record { id, sent, full, threshold } => {
                    linked::records_record(address, length, count, id, sent, full, threshold)
                }
                RecordCall::Report { id, site } => {
                    linked::records_report(address, length, count, id, site)
                }
                RecordCall::Question { id } => linked::records_question(address, length, count, id),
                RecordCall::Forget { id } => linked::records_forget(address, length, count, id),
            }
        })
    }

    #[cfg(feature = "module")]
    fn module(&self) -> Option<Box<dyn crate::slots::Slots>> {
        Some(Box::new(crate::linked_module::LinkedModule::new()))
    }
}

/// The length of a text, unless it is 2^64 - 1, which says that the text does not fit.
fn fitting(length: usize) -> Option<usize> {
    (length != usize::MAX).then_some(length)
}

/// Below 1,000 it is a refusal's number, 998 or 999, else 1,000 more than a number of bytes.
fn outcome(code: u64) -> Outcome {
    match code.checked_sub(1000) {
        Some(bytes) => Ok(bytes as usize),
        None => Err(code),
    }
}
