//! A site's calls on numbers.

use super::{accepted, blank_reply, linked, Refusal, Reply, Site, Update, UPDATES};

const BUSY: u64 = 1_000;
const DRY: u64 = 1_001;

// Each call lends the library parts of a site, as in the calls beside it.
impl Site<'_> {
    /// Adds an operation.
    pub fn add(&mut self, id: u64, updates: &[Update]) -> Result<Reply, Refusal> {
        let mut words = [0; UPDATES * 4];
        for (four, update) in words.chunks_exact_mut(4).zip(updates) {
            let Update { rule, history, version, operand } = *update;
            four.copy_from_slice(&[rule as u64, history, version, operand]);
        }
        let mut reply = blank_reply();
        // SAFETY: see above.
        let code = unsafe {
            linked::fl_add_parts(
                &mut self.counters,
                self.log.as_ptr(),
                self.log.len(),
                &mut self.rows,
                &self.order,
                &mut self.histories,
                &mut reply.numbers,
                &mut reply.answer,
                id,
                &words,
                updates.len(),
            )
        };
        accepted(code, reply)
    }

    /// Finishes an operation that is in progress.
    pub fn finish(&mut self, id: u64) -> Result<Reply, Refusal> {
        let mut reply = blank_reply();
        // SAFETY: see above.
        let code = unsafe {
            linked::fl_finish_parts(
                &mut self.counters,
                self.log.as_mut_ptr(),
                self.log.len(),
                &mut self.rows,
                &mut self.order,
                &mut self.histories,
                &mut reply.numbers,
                &mut reply.answer,
                id,
            )
        };
        accepted(code, reply)
    }

    /// Withdraws a future operation.
    pub fn withdraw(&mut self, id: u64) -> Result<Reply, Refusal> {
        let mut reply = blank_reply();
        // SAFETY: see above.
        let code = unsafe {
            linked::fl_withdraw_parts(
                &mut self.counters,
                self.log.as_ptr(),
                self.log.len(),
                &self.rows,
                &mut self.order,
                &mut self.histories,
                &mut reply.numbers,
                &mut reply.answer,
                id,
            )
        };
        accepted(code, reply)
    }

    /// Makes log numbers up to n persistent: operations leave the table that a stable line before did line n, or before the report of
    /// all that is done, made stable.
    pub fn persistent(&mut self, n: u64) -> Result<Reply, Refusal> {
        let mut reply = blank_reply();
        // SAFETY: see above.
        let code = unsafe {
            linked::fl_persistent_parts(
                &mut self.counters,
                self.log.as_ptr(),
                self.log.len(),
                &self.rows,
                &mut self.order,
                &mut self.histories,
                &mut reply.numbers,
                &mut reply.answer,
                n,
            )
        };
        accepted(code, reply)
    }

    /// Makes log numbers up to n stable: a line of the log says so, which is to be stored too.
    pub fn stable(&mut self, n: u64) -> Result<Reply, Refusal> {
        let mut reply = blank_reply();
        // SAFETY: see above.
        let code = unsafe {
            linked::fl_stable_parts(
                &mut self.counters,
                self.log.as_mut_ptr(),
                self.log.len(),
                &self.rows,
                &self.order,
                &mut self.histories,
                &mut reply.numbers,
                &mut reply.answer,
                n,
            )
        };
        accepted(code, reply)
    }

    /// Ends restoring.
    pub fn end(&mut self) -> Result<Reply, Refusal> {
        let mut reply = blank_reply();
        // SAFETY: see above.
        let code = unsafe {
            linked::fl_end_parts(
                &mut self.counters,
                self.log.as_ptr(),
                self.log.len(),
                &self.rows,
                &self.order,
                &self.histories,
                &mut reply.numbers,
                &mut reply.answer,
            )
        };
        accepted(code, reply)
    }

    /// Shows a history: its number, version, persistent and stable version, place and profile.
    pub fn show(&mut self, history: u64) -> Result<Reply, Refusal> {
        let mut reply = blank_reply();
        // SAFETY: see above.
        let code = unsafe {
            linked::fl_show_parts(
                &mut self.counters,
                self.log.as_ptr(),
                self.log.len(),
                &self.rows,
                &self.order,
                &self.histories,
                &mut reply.answer,
                history,
            )
        };
        accepted(code, reply)
    }

    /// A supply cut that leaves the first `kept` bytes of the log, and a restart from them: the operations done after it, and the bytes of
    /// the log.
    pub fn cut(&mut self, kept: u64) -> Result<Reply, Refusal> {
        let mut reply = blank_reply();
        // SAFETY: see above.
        let code = unsafe {
            linked::fl_cut_parts(
                &mut self.counters,
                self.log.as_ptr(),
                self.log.len(),
                &mut self.rows,
                &self.order,
                &mut self.histories,
                &mut reply.answer,
                kept,
            )
        };
        accepted(code, reply)
    }

    /// Takes back a did line, given without its end: the lines that ran, and the examinations that it made.
    pub fn redo(&mut self, line: &[u8]) -> Result<Reply, Refusal> {
        let mut reply = blank_reply();
        // SAFETY: see above.
        let code = unsafe {
            linked::fl_redo_parts(
                &mut self.counters,
                self.log.as_mut_ptr(),
                self.log.len(),
                &mut self.rows,
                &mut self.order,
                &mut self.histories,
                &mut reply.answer,
                line.as_ptr(),
                line.len(),
            )
        };
        accepted(code, reply)
    }

    /// Polls a history: whether it is dry.
    pub fn dry(&self, history: u64) -> Result<bool, Refusal> {
        // SAFETY: see above.
        let code = unsafe {
            linked::fl_poll_parts(
                &self.counters,
                self.log.as_ptr(),
                self.log.len(),
                &self.rows,
                &self.order,
                &self.histories,
                history,
            )
        };
        match code {
            DRY => Ok(true),
            BUSY => Ok(false),
            refusal => Err(Refusal(refusal)),
        }
    }

    /// Copies the log into a fresh buffer, with a base line in place of its first n operations; gives the bytes used there. Once they are
    /// stored, a restart from all of them is the changeover.
    pub fn trim(&self, n: u64, fresh: &mut [u8]) -> Result<usize, Refusal> {
        let mut used = 0;
        // SAFETY: see above.
        let code = unsafe {
            linked::fl_trim_parts(
                &self.counters,
                self.log.as_ptr(),
                self.log.len(),
                &self.rows,
                &self.order,
                &self.histories,
                n,
                fresh.as_mut_ptr(),
                fresh.len(),
                &mut used,
            )
        };
        accepted(code, used)
    }

    /// The smallest number of bytes of the log that a cut can keep so that the histories have these places, one for each of them.
    pub fn find_cut(&self, places: &[u64]) -> Result<usize, Refusal> {
        let mut kept = 0;
        // SAFETY: see above.
        let code = unsafe {
            linked::fl_find_cut_parts(
                &self.counters,
                self.log.as_ptr(),
                self.log.len(),
                &self.rows,
                &self.order,
                &self.histories,
                places.as_ptr(),
                places.len(),
                &mut kept,
            )
        };
        accepted(code, kept)
    }
}
