//! The face of a compact module that a comparison sees: each call names a slot, and a reply is text.

use crate::module::Module;
use crate::program::{Outcome, BUSY, DRY};
use crate::refusal::Refusal;
use crate::site::Site;
use crate::writer;

/// A module that lives on from call to call. The log buffer of the slot that is called is lent.
pub trait Slots {
    /// Obeys a line for a slot, without its end. Gives the reply, with its end.
    fn line(&mut self, slot: usize, line: &[u8], log: &mut [u8]) -> Vec<u8>;

    /// Restarts a slot from the first bytes of a log buffer. Gives 0, or the refusal's number.
    fn restart(&mut self, slot: usize, log: &[u8], kept: usize) -> u64;

    /// The bytes of a slot's log, 0 without a site.
    fn used(&self, slot: usize, log: &[u8]) -> usize;

    /// What a poll of a history of a slot gives: [`DRY`], [`BUSY`] or a refusal's number.
    fn poll(&self, slot: usize, log: &[u8], history: u64) -> u64;

    /// Copies a slot's log from `n` on into a fresh buffer. Gives the bytes used there.
    fn trim(&self, slot: usize, log: &[u8], n: u64, fresh: &mut [u8]) -> Outcome;
}

impl Slots for Module {
    fn line(&mut self, slot: usize, line: &[u8], log: &mut [u8]) -> Vec<u8> {
        let mut reply = Vec::new();
        writer::answer(&mut reply, &self.answer(slot, line, log));
        reply
    }

    fn restart(&mut self, slot: usize, log: &[u8], kept: usize) -> u64 {
        Module::restart(self, slot, log, kept as u64).map_or_else(|refusal| refusal.number(), |_| 0)
    }

    fn used(&self, slot: usize, _log: &[u8]) -> usize {
        self.site(slot).map_or(0, Site::used)
    }

    fn poll(&self, slot: usize, _log: &[u8], history: u64) -> u64 {
        let site = self.site(slot).ok_or(Refusal::WrongTime);
        match site.and_then(|site| site.poll(history)) {
            Ok(true) => DRY,
            Ok(false) => BUSY,
            Err(refusal) => refusal.number(),
        }
    }

    fn trim(&self, slot: usize, log: &[u8], n: u64, fresh: &mut [u8]) -> Outcome {
        let site = self.site(slot).ok_or(Refusal::WrongTime);
        site.and_then(|site| site.trim(n, log, fresh)).map_err(Refusal::number)
    }
}
