//! The proved functions: the library's own (include/opening_tree.h), and a permutation and a compression without validation.
use crate::sets::{Numbers, Set};

#[link(name = "opening_tree_c", kind = "static")]
extern "C" {
    fn opening_tree_inverse(x: u64, result: &mut u64) -> u8;
    fn opening_tree_validate(
        width: u64,
        node_size: u64,
        height: u64,
        full_rounds: u64,
        partial_rounds: u64,
        diagonal: *const u64,
        diagonal_count: usize,
        constants: *const u64,
        constants_count: usize,
        set: &mut Set,
    ) -> u8;
    fn opening_tree_unpermute(set: &Set, state: *mut u64, state_count: usize) -> u8;
    fn opening_tree_compress(set: &Set, state: *const u64, state_count: usize, node: *mut u64, node_count: usize) -> u8;
    fn opening_tree_sizes(set: &Set, leaves: &mut u64, store: &mut u64, opening: &mut u64) -> u8;
    fn opening_tree_build(set: &Set, leaves: *const u64, leaves_count: usize, store: *mut u64, store_count: usize) -> u8;
    fn opening_tree_storeless_root(set: &Set, leaves: *const u64, leaves_count: usize, node: *mut u64, node_count: usize) -> u8;
    fn opening_tree_open(
        set: &Set,
        store: *const u64,
        store_count: usize,
        place: u64,
        siblings: *mut u64,
        siblings_count: usize,
    ) -> u8;
    fn opening_tree_verify(
        set: &Set,
        root: *const u64,
        root_count: usize,
        place: u64,
        leaf: *const u64,
        leaf_count: usize,
        siblings: *const u64,
        siblings_count: usize,
    ) -> u8;
    fn opening_tree_replace(
        set: &Set,
        store: *mut u64,
        store_count: usize,
        place: u64,
        leaf: *const u64,
        leaf_count: usize,
        made: &mut u64,
    ) -> u8;
    fn opening_tree_push_numbers(
        set: &Set,
        store: *mut u64,
        store_count: usize,
        numbers: *const u64,
        numbers_count: usize,
        made: &mut u64,
    ) -> u8;
    fn opening_tree_leaf_of_file(set: &Set, contents: *const u8, contents_count: usize, leaf: *mut u64, leaf_count: usize) -> u8;
}

#[link(name = "measures", kind = "static")]
extern "C" {
    fn measured_permute(
        width: usize,
        half: usize,
        partial_rounds: usize,
        diagonal: &[u64; 12],
        constants: &[u64; 208],
        state: *mut u64,
        state_count: usize,
    );
    fn measured_compress(
        width: usize,
        node_size: usize,
        half: usize,
        partial_rounds: usize,
        diagonal: &[u64; 12],
        constants: &[u64; 208],
        row: *const u64,
        row_count: usize,
        node: *mut u64,
        node_count: usize,
    );
}

/// The inverse of a word, and 0 for 0, which the library refuses.
pub fn inverse(x: u64) -> u64 {
    let mut result = 0;
    unsafe { opening_tree_inverse(x, &mut result) };
    result
}

pub fn validate(numbers: &Numbers, set: &mut Set) -> u8 {
    let (d, c) = (numbers.diagonal, numbers.constants);
    unsafe {
        opening_tree_validate(
            numbers.width,
            numbers.node_size,
            numbers.height,
            numbers.full_rounds,
            numbers.partial_rounds,
            d.as_ptr(),
            d.len(),
            c.as_ptr(),
            c.len(),
            set,
        )
    }
}

pub fn unpermute(set: &Set, state: &mut [u64]) -> u8 {
    unsafe { opening_tree_unpermute(set, state.as_mut_ptr(), state.len()) }
}

pub fn compress(set: &Set, state: &[u64], node: &mut [u64]) -> u8 {
    unsafe { opening_tree_compress(set, state.as_ptr(), state.len(), node.as_mut_ptr(), node.len()) }
}

pub fn sizes(set: &Set, [leaves, store, opening]: &mut [u64; 3]) -> u8 {
    unsafe { opening_tree_sizes(set, leaves, store, opening) }
}

pub fn build(set: &Set, leaves: &[u64], store: &mut [u64]) -> u8 {
    unsafe { opening_tree_build(set, leaves.as_ptr(), leaves.len(), store.as_mut_ptr(), store.len()) }
}

pub fn storeless_root(set: &Set, leaves: &[u64], node: &mut [u64]) -> u8 {
    unsafe { opening_tree_storeless_root(set, leaves.as_ptr(), leaves.len(), node.as_mut_ptr(), node.len()) }
}

pub fn open(set: &Set, store: &[u64], place: u64, siblings: &mut [u64]) -> u8 {
    let (part, count) = (siblings.as_mut_ptr(), siblings.len());
    unsafe { opening_tree_open(set, store.as_ptr(), store.len(), place, part, count) }
}

pub fn verify(set: &Set, root: &[u64], place: u64, leaf: &[u64], siblings: &[u64]) -> u8 {
    let (r, x, s) = (root.as_ptr(), leaf.as_ptr(), siblings.as_ptr());
    unsafe { opening_tree_verify(set, r, root.len(), place, x, leaf.len(), s, siblings.len()) }
}

pub fn replace(set: &Set, store: &mut [u64], place: u64, leaf: &[u64], made: &mut u64) -> u8 {
    let (words, count) = (store.as_mut_ptr(), store.len());
    unsafe { opening_tree_replace(set, words, count, place, leaf.as_ptr(), leaf.len(), made) }
}

pub fn push(set: &Set, store: &mut [u64], records: &[u64], made: &mut u64) -> u8 {
    let (words, count) = (store.as_mut_ptr(), store.len());
    unsafe { opening_tree_push_numbers(set, words, count, records.as_ptr(), records.len(), made) }
}

pub fn leaf_of_file(set: &Set, contents: &[u8], leaf: &mut [u64]) -> u8 {
    unsafe { opening_tree_leaf_of_file(set, contents.as_ptr(), contents.len(), leaf.as_mut_ptr(), leaf.len()) }
}

/// One permutation. The set has been validated.
pub fn bare_permute<const T: usize>(set: &Set, state: &mut [u64; T]) {
    let (half, partial) = (set.full_rounds as usize / 2, set.partial_rounds as usize);
    unsafe { measured_permute(T, half, partial, &set.diagonal, &set.constants, state.as_mut_ptr(), T) }
}

/// One compression. The set has been validated, and the node is at most a row.
pub fn bare_compress<const T: usize>(set: &Set, row: &[u64; T], node: &mut [u64]) {
    assert!(node.len() <= T);
    let (half, partial) = (set.full_rounds as usize / 2, set.partial_rounds as usize);
    let (d, c, n) = (&set.diagonal, &set.constants, node.len());
    unsafe { measured_compress(T, n, half, partial, d, c, row.as_ptr(), T, node.as_mut_ptr(), n) }
}
