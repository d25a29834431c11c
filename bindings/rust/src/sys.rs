//! The C functions, as `include/opening_tree.h` declares them.

extern "C" {
    pub fn opening_tree_sum(a: u64, b: u64, result: *mut u64) -> u8;
    pub fn opening_tree_difference(a: u64, b: u64, result: *mut u64) -> u8;
    pub fn opening_tree_product(a: u64, b: u64, result: *mut u64) -> u8;
    pub fn opening_tree_power(base: u64, exponent: u64, result: *mut u64) -> u8;
    pub fn opening_tree_inverse(x: u64, result: *mut u64) -> u8;
    pub fn opening_tree_seventh_root(y: u64, result: *mut u64) -> u8;

    pub fn opening_tree_validate(
        width: u64,
        node_size: u64,
        height: u64,
        full_rounds: u64,
        partial_rounds: u64,
        diagonal: *const u64,
        diagonal_count: usize,
        constants: *const u64,
        constants_count: usize,
        set: *mut u64,
    ) -> u8;
    pub fn opening_tree_exchange_diagonal(
        set: *const u64,
        diagonal: *const u64,
        diagonal_count: usize,
        exchanged: *mut u64,
    ) -> u8;
    pub fn opening_tree_exchange_height(set: *const u64, height: u64, exchanged: *mut u64) -> u8;

    pub fn opening_tree_permute(set: *const u64, state: *mut u64, state_count: usize) -> u8;
    pub fn opening_tree_unpermute(set: *const u64, state: *mut u64, state_count: usize) -> u8;
    pub fn opening_tree_compress(set: *const u64, state: *const u64, state_count: usize, node: *mut u64, node_count: usize)
        -> u8;

    pub fn opening_tree_sizes(set: *const u64, leaves: *mut u64, store: *mut u64, opening: *mut u64) -> u8;
    pub fn opening_tree_build(
        set: *const u64,
        leaves: *const u64,
        leaves_count: usize,
        store: *mut u64,
        store_count: usize,
    ) -> u8;
    pub fn opening_tree_root(set: *const u64, store: *const u64, store_count: usize, node: *mut u64, node_count: usize) -> u8;
    pub fn opening_tree_storeless_root(
        set: *const u64,
        leaves: *const u64,
        leaves_count: usize,
        node: *mut u64,
        node_count: usize,
    ) -> u8;
    pub fn opening_tree_open(
        set: *const u64,
        store: *const u64,
        store_count: usize,
        place: u64,
        siblings: *mut u64,
        siblings_count: usize,
    ) -> u8;
    pub fn opening_tree_verify(
        set: *const u64,
        root: *const u64,
        root_count: usize,
        place: u64,
        leaf: *const u64,
        leaf_count: usize,
        siblings: *const u64,
        siblings_count: usize,
    ) -> u8;
    pub fn opening_tree_read_level(
        set: *const u64,
        siblings: *const u64,
        siblings_count: usize,
        level: u64,
        part: *mut u64,
        part_count: usize,
    ) -> u8;

    pub fn opening_tree_replace(
        set: *const u64,
        store: *mut u64,
        store_count: usize,
        place: u64,
        leaf: *const u64,
        leaf_count: usize,
        made: *mut u64,
    ) -> u8;
    pub fn opening_tree_push_numbers(
        set: *const u64,
        store: *mut u64,
        store_count: usize,
        numbers: *const u64,
        numbers_count: usize,
        made: *mut u64,
    ) -> u8;
    pub fn opening_tree_extract(
        set: *const u64,
        root: *const u64,
        root_count: usize,
        place: u64,
        first: *const u64,
        first_count: usize,
        first_siblings: *const u64,
        first_siblings_count: usize,
        second: *const u64,
        second_count: usize,
        second_siblings: *const u64,
        second_siblings_count: usize,
        first_row: *mut u64,
        first_row_count: usize,
        second_row: *mut u64,
        second_row_count: usize,
        level: *mut u64,
    ) -> u8;
    pub fn opening_tree_leaf_of_file(
        set: *const u64,
        contents: *const u8,
        contents_count: usize,
        leaf: *mut u64,
        leaf_count: usize,
    ) -> u8;
}
