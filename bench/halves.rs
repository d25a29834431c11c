//! The halves of the library's external layer M_E, without the rest of a permutation: what the crate `measures` exports. The layer makes
//! each of them twice, of the high parts of its numbers and of the low parts, which are small.

/// The numbers of which the sums are taken are below this, and those in whose blocks M4 is applied below the other.
pub const SUMMED: u64 = 1 << 32;
pub const MULTIPLIED: u64 = 4 * (SUMMED - 1) + 1;

#[link(name = "measures", kind = "static")]
extern "C" {
    fn measured_sums(width: usize, list: *const u64, list_count: usize, state: *mut u64, state_count: usize);
    fn measured_m4_blocks(width: usize, list: *const u64, list_count: usize, state: *mut u64, state_count: usize);
}

/// To each block the sum of all. A block alone stays.
pub fn sums<const T: usize>(list: &[u64; T], state: &mut [u64; T]) {
    unsafe { measured_sums(T, list.as_ptr(), T, state.as_mut_ptr(), T) }
}

/// M4 in each block.
pub fn m4_blocks<const T: usize>(list: &[u64; T], state: &mut [u64; T]) {
    unsafe { measured_m4_blocks(T, list.as_ptr(), T, state.as_mut_ptr(), T) }
}
