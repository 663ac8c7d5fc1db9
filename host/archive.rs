//! The library as the C table browser sees it: four functions on numbers and slices, the answer
//! in one 64-bit word.
//!
//! The top byte (bits 56 to 63) is the refusal number, 0 for accepted. Refused: bits 0 to 31 are
//! the place and the rest is 0. An accepted judge request has the transition count in bits 0 to
//! 15, S in 16 to 28, N in 29 to 41 and V in 42 to 52. The other requests answer with the number
//! of words or bytes filled.

use crate::peer::{Counts, Refusal};

mod c {
    extern "C" {
        pub fn nocturenc_judge(words: *const u16, words_len: usize) -> u64;
        pub fn nocturenc_order(
            words: *const u16,
            words_len: usize,
            out: *mut u16,
            out_len: usize,
        ) -> u64;
        pub fn nocturenc_transition(
            words: *const u16,
            words_len: usize,
            k: usize,
            out: *mut u8,
            out_len: usize,
        ) -> u64;
        pub fn nocturenc_assignments(
            words: *const u16,
            words_len: usize,
            k: usize,
            out: *mut u16,
            out_len: usize,
        ) -> u64;
    }
}

pub fn judge(words: &[u16]) -> u64 {
    // SAFETY: pointer and length are those of one slice, which is only read.
    unsafe { c::nocturenc_judge(words.as_ptr(), words.len()) }
}

pub fn order(words: &[u16], out: &mut [u16]) -> u64 {
    // SAFETY: both pairs are those of slices, and a lent slice never overlaps the table.
    unsafe { c::nocturenc_order(words.as_ptr(), words.len(), out.as_mut_ptr(), out.len()) }
}

pub fn transition(words: &[u16], k: usize, out: &mut [u8]) -> u64 {
    let (out, out_len) = (out.as_mut_ptr(), out.len());
    // SAFETY: both pairs are those of slices, and a lent slice never overlaps the table.
    unsafe { c::nocturenc_transition(words.as_ptr(), words.len(), k, out, out_len) }
}

pub fn assignments(words: &[u16], k: usize, out: &mut [u16]) -> u64 {
    let (out, out_len) = (out.as_mut_ptr(), out.len());
    // SAFETY: both pairs are those of slices, and a lent slice never overlaps the table.
    unsafe { c::nocturenc_assignments(words.as_ptr(), words.len(), k, out, out_len) }
}

/// The word that the judge request gives for this outcome.
pub fn judge_word(outcome: Result<Counts, Refusal>) -> u64 {
    match outcome {
        Ok(counts) => {
            counts.transitions as u64
                | (counts.chosen as u64) << 16
                | (counts.rows as u64) << 29
                | (counts.variables as u64) << 42
        }
        Err(refusal) => refusal_word(refusal),
    }
}

/// The word that the other requests give for this outcome.
pub fn filled_word(outcome: Result<usize, Refusal>) -> u64 {
    match outcome {
        Ok(filled) => filled as u64,
        Err(refusal) => refusal_word(refusal),
    }
}

fn refusal_word(refusal: Refusal) -> u64 {
    (refusal.number as u64) << 56 | refusal.place as u64
}
