//! Records of operations that live on several modules.

use super::{accepted, linked, Refusal};

/// How many numbers the records have: five for each of 64.
pub const WORDS: usize = 320;
const NOT_PERSISTENT: u64 = 1_000;
const PERSISTENT: u64 = 1_001;

/// Which sites an operation was sent to, which of these hold full details, which reported it persistent: a bit for each of eight sites.
pub struct Records {
    count: usize,
    words: [u64; WORDS],
}

// Each call lends the library the records, which `start` or `resume` has filled and only the library has changed since.
impl Records {
    /// Begins without records.
    pub fn start() -> Self {
        let mut records = Records { count: 0, words: [0; WORDS] };
        // SAFETY: see above.
        unsafe { linked::fl_records_start_parts(&mut records.count, &records.words) };
        records
    }

    /// Takes up the first records of stored words. The number of the refusal is 999 where they would be more than 64.
    pub fn resume(words: [u64; WORDS], kept: usize) -> Result<Self, Refusal> {
        let mut records = Records { count: 0, words };
        // SAFETY: see above.
        let code =
            unsafe { linked::fl_records_resume_parts(&mut records.count, &records.words, kept) };
        accepted(code, records)
    }

    /// How many there are, and their words, five each: what is to be stored.
    pub fn stored(&self) -> (usize, &[u64; WORDS]) {
        (self.count, &self.words)
    }

    /// Records an operation with the masks of the sites that it was sent to and of those with full details, and its threshold.
    pub fn record(&mut self, id: u64, sent: u8, full: u8, threshold: u64) -> Result<(), Refusal> {
        // SAFETY: see above.
        let code = unsafe {
            linked::fl_records_record_parts(
                &mut self.count,
                &mut self.words,
                id,
                sent,
                full,
                threshold,
            )
        };
        accepted(code, ())
    }

    /// A site reports an operation persistent: whether it then counts as persistent.
    pub fn report(&mut self, id: u64, site: u64) -> Result<bool, Refusal> {
        // SAFETY: see above.
        counted(unsafe {
            linked::fl_records_report_parts(&mut self.count, &mut self.words, id, site)
        })
    }

    /// Whether an operation counts as persistent.
    pub fn question(&self, id: u64) -> Result<bool, Refusal> {
        // SAFETY: see above.
        counted(unsafe { linked::fl_records_question_parts(&self.count, &self.words, id) })
    }

    /// Forgets the record of an operation.
    pub fn forget(&mut self, id: u64) -> Result<(), Refusal> {
        // SAFETY: see above.
        let code = unsafe { linked::fl_records_forget_parts(&mut self.count, &mut self.words, id) };
        accepted(code, ())
    }
}

fn counted(code: u64) -> Result<bool, Refusal> {
    match code {
        PERSISTENT => Ok(true),
        NOT_PERSISTENT => Ok(false),
        refusal => Err(Refusal(refusal)),
    }
}
