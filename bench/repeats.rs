//! The library's test for a place that stands twice, without the rest of a push: what the crate `measures` exports of its passes over
//! the records. The set has been validated, and has so many leaves.
use crate::sets::Set;
use crate::trees::{places, rise, FEW};

#[link(name = "measures", kind = "static")]
extern "C" {
    fn measured_first_pass(set: &Set, numbers: *const u64, numbers_count: usize, places: u64, repeats: u64) -> u64;
    fn measured_search(set: &Set, numbers: *const u64, numbers_count: usize, places: u64) -> u64;
}

/// What both return where nothing is refused.
const FINE: u64 = 1;

/// The first pass, which tests the places and leaves of the records: with its part of the test for a place that stands twice, or
/// without it.
pub fn first_pass(set: &Set, records: &[u64], leaves: usize, with_repeats: bool) -> bool {
    let (numbers, count) = (records.as_ptr(), records.len());
    unsafe { measured_first_pass(set, numbers, count, leaves as u64, with_repeats.into()) == FINE }
}

/// The passes that note every place in a map, a window of places after another.
pub fn search(set: &Set, records: &[u64], leaves: usize) -> bool {
    unsafe { measured_search(set, records.as_ptr(), records.len(), leaves as u64) == FINE }
}

/// Whether a push makes these passes: where the first pass leaves the test open.
pub fn is_searched(records: &[u64]) -> bool {
    places(records).len() > FEW && !rise(records)
}
