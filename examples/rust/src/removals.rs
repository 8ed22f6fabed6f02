//! What falls with lines of a log that are lost for good.

use super::{accepted, linked, Refusal};

/// No log has more did lines: room for so many numbers is always enough.
pub const LOG_LINES: usize = 2_978;

/// Names the lines that fall with those lost, by their log numbers, rising, at the front of `out`; gives how many they are. A pair is the log
/// number of a line and the number of a transaction that it is of. It needs a megabyte of stack.
pub fn removals(
    log: &[u8],
    pairs: &[[u64; 2]],
    lost: &[u64],
    out: &mut [u64],
) -> Result<usize, Refusal> {
    let (pairs, mut count) = (pairs.as_flattened(), 0);
    // SAFETY: what is lent is borrowed by nobody else until it returns, and it keeps none of it.
    let code = unsafe {
        linked::fl_removals(
            log.as_ptr(),
            log.len(),
            pairs.as_ptr(),
            pairs.len(),
            lost.as_ptr(),
            lost.len(),
            out.as_mut_ptr(),
            out.len(),
            &mut count,
        )
    };
    accepted(code, count)
}
