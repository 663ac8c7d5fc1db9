//! The peer: document 01 worked out a second time, apart from the library, in two ways.
//!
//! `definition` follows the definitions word for word and lists every branch, so it is for small
//! tables only. `composed` gets the same answers from the structure of the formula and serves
//! tables of full size. The two share nothing but the few names below.

pub mod composed;
pub mod definition;

pub const MOST_VARIABLES: usize = 1_024;
pub const MOST_READS: usize = 8_192;
pub const MOST_ROWS: usize = 4_096;
pub const MOST_CHOSEN: usize = 4_096;
pub const MOST_DEPTH: usize = 64;
pub const MOST_TRANSITIONS: usize = 65_535;

/// The number of a refusal and its place, as in document 01's table of refusals.
#[derive(Clone, Copy, Debug, PartialEq, Eq)]
pub struct Refusal {
    pub number: u8,
    pub place: usize,
}

/// What the judge request gives for an accepted table: V, N, S and the transition count.
#[derive(Clone, Copy, Debug, PartialEq, Eq)]
pub struct Counts {
    pub variables: usize,
    pub rows: usize,
    pub chosen: usize,
    pub transitions: usize,
}

/// The refused outcome, written short because it is needed at every check.
pub fn refuse<T>(number: u8, place: usize) -> Result<T, Refusal> {
    Err(Refusal { number, place })
}
