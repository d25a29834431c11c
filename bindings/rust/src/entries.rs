//! The twenty-three functions of the library, over any numbers and slices. Nothing is presumed: what doesn't fit is refused by a number of
//! the table, and after a refusal every buffer holds what it held.
//!
//! Below t is the width, l the node size, h the height and k = t / l. A store is its levels one after another, leaves first,
//! l numbers a node. The lengths that leaves, stores and siblings must have are those of [`sizes`].
//!
//! A set is an array of [`SET_SIZE`] numbers, which [`validate`] gives:
//!
//! | places | |
//! |---|---|
//! | 0 to 4 | t, l, h, R_F and R_P |
//! | 5 to 16 | D, t words in 12 places |
//! | 17 to 224 | C, t × R_F + R_P words in 208 places |
//! | 225 to 236 | the kept inverse of each word of D, 0 for a 0, in 12 places |
//! | 237 | the kept inverse of 1 plus the sum of these, 0 where D has a 0 |
//!
//! The places after a list's last word are 0 in what is given, and are not read in what is handed in. The inverses are kept so that
//! [`unpermute`] inverts nothing. Any array may be handed in: every function that takes a set first judges it anew, its kept values too, by
//! refusals 1 to 5, 7 to 9 and 18, in this order. "The set's" below are these.
//!
//! ```
//! use opening_tree::entries::{self, SetNumbers};
//! use opening_tree::{published, Refusal};
//!
//! let mut set = entries::validate(&SetNumbers {
//!     width: 8,
//!     node_size: 4,
//!     height: 1,
//!     full_rounds: published::FULL_ROUNDS,
//!     partial_rounds: published::PARTIAL_ROUNDS,
//!     diagonal: &published::DIAGONAL_8,
//!     constants: &published::CONSTANTS_8,
//! })?;
//! let mut state = [0, 1, 2, 3, 4, 5, 6, 7];
//! entries::permute(&set, &mut state)?;
//! assert_eq!(state[0], 14266028122062624699); // as published
//! entries::unpermute(&set, &mut state)?;
//! assert_eq!(state, [0, 1, 2, 3, 4, 5, 6, 7]);
//! assert_eq!(entries::permute(&set, &mut [1, 0, 0]), Err(Refusal::BadLength));
//!
//! set[225] += 1; // a kept inverse
//! assert_eq!(entries::unpermute(&set, &mut state), Err(Refusal::BadKeptValues));
//! # Ok::<(), Refusal>(())
//! ```

use crate::record::Record;
use crate::refusal::Refusal;
use crate::sys;
use crate::verdict::Verdict;

/// How many numbers the array of a set has.
pub const SET_SIZE: usize = 238;

/// The numbers and lists that a parameter set is made of.
#[derive(Clone, Copy, Debug, PartialEq, Eq, Hash)]
pub struct SetNumbers<'a> {
    /// t
    pub width: u64,
    /// l
    pub node_size: u64,
    /// h
    pub height: u64,
    /// R_F
    pub full_rounds: u64,
    /// R_P
    pub partial_rounds: u64,
    /// D: t words, the diagonal of the internal matrix less one. The matrix has to have an inverse: refusals 8 and 9. So one word of D may
    /// be 0, and no two.
    pub diagonal: &'a [u64],
    /// C: t × R_F + R_P words in order of use.
    pub constants: &'a [u64],
}

/// How many numbers the buffers of a set's tree have.
#[derive(Clone, Copy, Debug, PartialEq, Eq, Hash)]
pub struct Sizes {
    /// All leaves: k^h × l.
    pub leaves: u64,
    /// A store, which is every node of every level: (1 + k + … + k^h) × l.
    pub store: u64,
    /// An opening, which is the siblings of every level: h × (k - 1) × l.
    pub opening: u64,
}

/// What `opening_tree_verify` alone returns besides 0 and the refusals' numbers.
const REJECTED: u8 = 255;

/// The refusal of a returned number that is not 0.
fn refusal(number: u8) -> Refusal {
    match Refusal::from_number(number) {
        Some(refusal) => refusal,
        None => panic!("the opening_tree library returned {number}, which is no answer of this function"),
    }
}

/// What the returned number of every function but `opening_tree_verify` says.
fn done(number: u8) -> Result<(), Refusal> {
    match number {
        0 => Ok(()),
        _ => Err(refusal(number)),
    }
}

/// What the returned number of `opening_tree_verify` says.
fn verdict(number: u8) -> Verdict {
    match number {
        0 => Verdict::Accepted,
        REJECTED => Verdict::Rejected,
        _ => Verdict::Refused(refusal(number)),
    }
}

/// The number that a function writes beside its buffers: a word, a count or a level.
fn written(call: impl FnOnce(&mut u64) -> u8) -> Result<u64, Refusal> {
    let mut number = 0;
    done(call(&mut number))?;
    Ok(number)
}

/// The set that a function writes.
fn written_set(call: impl FnOnce(&mut [u64; SET_SIZE]) -> u8) -> Result<[u64; SET_SIZE], Refusal> {
    let mut set = [0; SET_SIZE];
    done(call(&mut set))?;
    Ok(set)
}

/// a + b. Refusal 12.
pub fn sum(a: u64, b: u64) -> Result<u64, Refusal> {
    // SAFETY: the result is one number that nothing else refers to.
    written(|result| unsafe { sys::opening_tree_sum(a, b, result) })
}

/// a - b. Refusal 12.
pub fn difference(a: u64, b: u64) -> Result<u64, Refusal> {
    // SAFETY: the result is one number that nothing else refers to.
    written(|result| unsafe { sys::opening_tree_difference(a, b, result) })
}

/// a × b modulo p, for any two numbers, words or not. It refuses nothing: the answer is always `Ok`.
pub fn product(a: u64, b: u64) -> Result<u64, Refusal> {
    // SAFETY: the result is one number that nothing else refers to.
    written(|result| unsafe { sys::opening_tree_product(a, b, result) })
}

/// The base to the power of the exponent modulo p, for any two numbers, words or not; 1 for the exponent 0. It refuses nothing: the answer
/// is always `Ok`.
pub fn power(base: u64, exponent: u64) -> Result<u64, Refusal> {
    // SAFETY: the result is one number that nothing else refers to.
    written(|result| unsafe { sys::opening_tree_power(base, exponent, result) })
}

/// The word whose product with x is 1. Refusals 12 and 13.
pub fn inverse(x: u64) -> Result<u64, Refusal> {
    // SAFETY: the result is one number that nothing else refers to.
    written(|result| unsafe { sys::opening_tree_inverse(x, result) })
}

/// The word whose seventh power is y. Refusal 12.
pub fn seventh_root(y: u64) -> Result<u64, Refusal> {
    // SAFETY: the result is one number that nothing else refers to.
    written(|result| unsafe { sys::opening_tree_seventh_root(y, result) })
}

/// The set of these numbers and lists, with its kept values. Refusals 1 to 9.
pub fn validate(numbers: &SetNumbers) -> Result<[u64; SET_SIZE], Refusal> {
    let SetNumbers { width, node_size, height, full_rounds, partial_rounds, diagonal, constants } = *numbers;
    // SAFETY: each pointer comes with its slice's length, and the set that is written is borrowed alone.
    written_set(|set| unsafe {
        sys::opening_tree_validate(
            width,
            node_size,
            height,
            full_rounds,
            partial_rounds,
            diagonal.as_ptr(),
            diagonal.len(),
            constants.as_ptr(),
            constants.len(),
            set.as_mut_ptr(),
        )
    })
}

/// The set with another D: the one that [`validate`] gives for the set's five numbers, this D and the set's C. Refusals: the set's; then 6
/// for a D that is not of t numbers, and 7 to 9 for its words.
///
/// ```
/// use opening_tree::entries;
/// use opening_tree::{published, Refusal};
///
/// let set = published::width_8(4, 1)?;
/// let with_zero = entries::exchange_diagonal(set.array(), &[0, 1, 2, 3, 4, 5, 6, 7])?;
/// assert_eq!(with_zero[225..228], [0, 1, 9223372034707292161]); // the inverses of 0, 1 and 2
/// assert_eq!(entries::exchange_diagonal(&with_zero, &[1, 2, 3]), Err(Refusal::BadListLength));
/// assert_eq!(entries::exchange_diagonal(&with_zero, &published::DIAGONAL_8)?, *set.array());
/// # Ok::<(), Refusal>(())
/// ```
pub fn exchange_diagonal(set: &[u64; SET_SIZE], diagonal: &[u64]) -> Result<[u64; SET_SIZE], Refusal> {
    // SAFETY: the set is whole, each other pointer comes with its slice's length, and the set that is written is borrowed alone.
    written_set(|exchanged| unsafe {
        sys::opening_tree_exchange_diagonal(set.as_ptr(), diagonal.as_ptr(), diagonal.len(), exchanged.as_mut_ptr())
    })
}

/// The set with another h: the one that [`validate`] gives for the set's numbers and lists with this h. Refusals: the set's; then 5.
///
/// ```
/// use opening_tree::entries;
/// use opening_tree::{published, Refusal};
///
/// let set = published::width_12(4, 2)?;
/// let taller = entries::exchange_height(set.array(), 20)?;
/// assert_eq!(taller, *published::width_12(4, 20)?.array());
/// assert_eq!(entries::exchange_height(&taller, 21), Err(Refusal::BadHeight));
/// # Ok::<(), Refusal>(())
/// ```
pub fn exchange_height(set: &[u64; SET_SIZE], height: u64) -> Result<[u64; SET_SIZE], Refusal> {
    // SAFETY: the set is whole, and the set that is written is borrowed alone.
    written_set(|exchanged| unsafe { sys::opening_tree_exchange_height(set.as_ptr(), height, exchanged.as_mut_ptr()) })
}

/// The permutation of t words, in place. Refusals: the set's, 10 and 12.
pub fn permute(set: &[u64; SET_SIZE], state: &mut [u64]) -> Result<(), Refusal> {
    // SAFETY: the set is whole, each other pointer comes with its slice's length, and the slice that is written is borrowed alone.
    done(unsafe { sys::opening_tree_permute(set.as_ptr(), state.as_mut_ptr(), state.len()) })
}

/// The words whose permutation is given, in place. Refusals: the set's, 10 and 12.
pub fn unpermute(set: &[u64; SET_SIZE], state: &mut [u64]) -> Result<(), Refusal> {
    // SAFETY: the set is whole, each other pointer comes with its slice's length, and the slice that is written is borrowed alone.
    done(unsafe { sys::opening_tree_unpermute(set.as_ptr(), state.as_mut_ptr(), state.len()) })
}

/// The compression of t words, written to a node of l. Refusals: the set's, 10 and 12.
pub fn compress(set: &[u64; SET_SIZE], state: &[u64], node: &mut [u64]) -> Result<(), Refusal> {
    // SAFETY: the set is whole, each other pointer comes with its slice's length, and the slice that is written is borrowed alone.
    done(unsafe { sys::opening_tree_compress(set.as_ptr(), state.as_ptr(), state.len(), node.as_mut_ptr(), node.len()) })
}

/// How many numbers the buffers of a set's tree have. Refusals: the set's.
///
/// ```
/// use opening_tree::entries::{self, Sizes};
/// use opening_tree::{published, Refusal};
///
/// let set = published::width_12(4, 2)?; // nodes of four words, three to a row, and nine leaves
/// let sizes = entries::sizes(set.array())?;
/// assert_eq!(sizes, Sizes { leaves: 9 * 4, store: (9 + 3 + 1) * 4, opening: 2 * 2 * 4 });
///
/// let mut taller = *set.array();
/// taller[2] = 21; // h
/// assert_eq!(entries::sizes(&taller), Err(Refusal::BadHeight));
/// # Ok::<(), Refusal>(())
/// ```
pub fn sizes(set: &[u64; SET_SIZE]) -> Result<Sizes, Refusal> {
    let mut sizes = Sizes { leaves: 0, store: 0, opening: 0 };
    // SAFETY: the set is whole, and the three numbers that are written are borrowed alone.
    done(unsafe { sys::opening_tree_sizes(set.as_ptr(), &mut sizes.leaves, &mut sizes.store, &mut sizes.opening) })?;
    Ok(sizes)
}

/// The whole store of k^h leaves. Refusals: the set's, 10 and 12.
pub fn build(set: &[u64; SET_SIZE], leaves: &[u64], store: &mut [u64]) -> Result<(), Refusal> {
    // SAFETY: the set is whole, each other pointer comes with its slice's length, and the slice that is written is borrowed alone.
    done(unsafe { sys::opening_tree_build(set.as_ptr(), leaves.as_ptr(), leaves.len(), store.as_mut_ptr(), store.len()) })
}

/// The root of a store, its last l numbers, copied to the node. Refusals: the set's, 10, and 12 for these l.
pub fn root(set: &[u64; SET_SIZE], store: &[u64], node: &mut [u64]) -> Result<(), Refusal> {
    // SAFETY: the set is whole, each other pointer comes with its slice's length, and the slice that is written is borrowed alone.
    done(unsafe { sys::opening_tree_root(set.as_ptr(), store.as_ptr(), store.len(), node.as_mut_ptr(), node.len()) })
}

/// The root of k^h leaves, written to the node, without a store. Refusals: the set's, 10 and 12.
pub fn storeless_root(set: &[u64; SET_SIZE], leaves: &[u64], node: &mut [u64]) -> Result<(), Refusal> {
    // SAFETY: the set is whole, each other pointer comes with its slice's length, and the slice that is written is borrowed alone.
    done(unsafe { sys::opening_tree_storeless_root(set.as_ptr(), leaves.as_ptr(), leaves.len(), node.as_mut_ptr(), node.len()) })
}

/// The opening of a place, h × (k - 1) × l numbers: its siblings at each level from the leaves up. Refusals: the set's, 10, 11, and 12 for
/// the numbers copied.
pub fn open(set: &[u64; SET_SIZE], store: &[u64], place: u64, siblings: &mut [u64]) -> Result<(), Refusal> {
    // SAFETY: the set is whole, each other pointer comes with its slice's length, and the slice that is written is borrowed alone.
    done(unsafe {
        sys::opening_tree_open(set.as_ptr(), store.as_ptr(), store.len(), place, siblings.as_mut_ptr(), siblings.len())
    })
}

/// Whether the leaf stood at the place under the root: `Verdict::Accepted` and nothing else is a yes. Refusals: the set's, 10 to 12.
pub fn verify(set: &[u64; SET_SIZE], root: &[u64], place: u64, leaf: &[u64], siblings: &[u64]) -> Verdict {
    // SAFETY: the set is whole, each other pointer comes with its slice's length, and nothing is written.
    verdict(unsafe {
        sys::opening_tree_verify(
            set.as_ptr(),
            root.as_ptr(),
            root.len(),
            place,
            leaf.as_ptr(),
            leaf.len(),
            siblings.as_ptr(),
            siblings.len(),
        )
    })
}

/// The siblings of one level, (k - 1) × l numbers, copied to the part. Refusals: the set's, 10, 11 for a level not below h, and 12 for the
/// numbers copied.
pub fn read_level(set: &[u64; SET_SIZE], siblings: &[u64], level: u64, part: &mut [u64]) -> Result<(), Refusal> {
    // SAFETY: the set is whole, each other pointer comes with its slice's length, and the slice that is written is borrowed alone.
    done(unsafe {
        sys::opening_tree_read_level(set.as_ptr(), siblings.as_ptr(), siblings.len(), level, part.as_mut_ptr(), part.len())
    })
}

/// Puts a leaf at its place in the store, and writes the h nodes above it. Answers the compressions made, h. Refusals: the set's, 10,
/// 11, and 12 for the leaf and the stored siblings that are read.
pub fn replace(set: &[u64; SET_SIZE], store: &mut [u64], place: u64, leaf: &[u64]) -> Result<u64, Refusal> {
    // SAFETY: the set is whole, each other pointer comes with its slice's length, and what is written is borrowed alone.
    written(|made| unsafe {
        sys::opening_tree_replace(set.as_ptr(), store.as_mut_ptr(), store.len(), place, leaf.as_ptr(), leaf.len(), made)
    })
}

/// Puts the leaves of records at their places in the store, all or none, and writes the nodes above them, each once. The store is then
/// the one that the records leave if each is a [`replace`] of its own, in order. Answers the compressions made, which is the number of
/// different nodes above the places, on all levels together: at most h for each record, fewer where places have a node above them in
/// common, and h for one record. Refusals: the set's, 10, 11, 12 for the leaves of the records and the whole store, and 17.
///
/// A list that has a place twice is refused with 17, whatever the leaves, and nothing is written. Equal leaves may go to different places.
///
/// ```
/// use opening_tree::entries;
/// use opening_tree::{published, Record, Refusal};
///
/// let set = published::width_8(4, 1)?; // two leaves of four words
/// let mut store = [0; 12];
/// let [first, second] = [0, 1].map(|place| Record { place, words: [7; 6] });
/// assert_eq!(entries::push(set.array(), &mut store, &[first, second, first]), Err(Refusal::RepeatedPlace));
/// assert_eq!(store, [0; 12]);
/// assert_eq!(entries::push(set.array(), &mut store, &[second, first]), Ok(1)); // the root is above both
/// assert_eq!(store[..8], [7; 8]);
/// # Ok::<(), Refusal>(())
/// ```
pub fn push(set: &[u64; SET_SIZE], store: &mut [u64], records: &[Record]) -> Result<u64, Refusal> {
    push_numbers(set, store, record_numbers(records))
}

/// [`push`] of records that are handed in as a flat list, seven numbers each: a place, then the words of a [`Record`].
/// Refusal 10 also for a list that is not a multiple of seven. A list that has a place twice is refused here too, and nothing is written.
///
/// [`record_numbers`] makes the flat list of [`Record`]s.
pub fn push_numbers(set: &[u64; SET_SIZE], store: &mut [u64], numbers: &[u64]) -> Result<u64, Refusal> {
    // SAFETY: the set is whole, each other pointer comes with its slice's length, and what is written is borrowed alone.
    written(|made| unsafe {
        sys::opening_tree_push_numbers(set.as_ptr(), store.as_mut_ptr(), store.len(), numbers.as_ptr(), numbers.len(), made)
    })
}

/// Of two leaves with their openings, both accepted at the place under the root: answers the lowest level at which their rows differ
/// and compress alike, and writes the first leaf's row to `first_row` and the second's to `second_row`, t numbers each. Refusals: the
/// set's, 10 to 12, 15 and 14, in this order: a leaf beside itself is 15, whatever the openings are.
#[allow(clippy::too_many_arguments)] // The C function's own.
pub fn extract(
    set: &[u64; SET_SIZE],
    root: &[u64],
    place: u64,
    first: &[u64],
    first_siblings: &[u64],
    second: &[u64],
    second_siblings: &[u64],
    first_row: &mut [u64],
    second_row: &mut [u64],
) -> Result<u64, Refusal> {
    // SAFETY: the set is whole, each other pointer comes with its slice's length, and what is written is borrowed alone.
    written(|level| unsafe {
        sys::opening_tree_extract(
            set.as_ptr(),
            root.as_ptr(),
            root.len(),
            place,
            first.as_ptr(),
            first.len(),
            first_siblings.as_ptr(),
            first_siblings.len(),
            second.as_ptr(),
            second.len(),
            second_siblings.as_ptr(),
            second_siblings.len(),
            first_row.as_mut_ptr(),
            first_row.len(),
            second_row.as_mut_ptr(),
            second_row.len(),
            level,
        )
    })
}

/// The leaf of a file, l numbers, from its contents (see [`ParameterSet::leaf_of_file`]). Refusals: the set's, 10, and 16 for contents
/// of over 4294967295 bytes. A call that is refused reads nothing of the contents.
///
/// [`ParameterSet::leaf_of_file`]: crate::ParameterSet::leaf_of_file
pub fn leaf_of_file(set: &[u64; SET_SIZE], contents: &[u8], leaf: &mut [u64]) -> Result<(), Refusal> {
    // SAFETY: the set is whole, each other pointer comes with its slice's length, and the slice that is written is borrowed alone.
    done(unsafe {
        sys::opening_tree_leaf_of_file(set.as_ptr(), contents.as_ptr(), contents.len(), leaf.as_mut_ptr(), leaf.len())
    })
}

/// The flat list of records, seven numbers each.
///
/// ```
/// use opening_tree::entries::record_numbers;
/// use opening_tree::Record;
///
/// let record = Record { place: 9, words: [1, 2, 3, 4, 5, 6] };
/// assert_eq!(record_numbers(&[record]), [9, 1, 2, 3, 4, 5, 6]);
/// ```
pub fn record_numbers(records: &[Record]) -> &[u64] {
    const {
        assert!(size_of::<Record>() == Record::NUMBERS * size_of::<u64>());
        assert!(align_of::<Record>() == align_of::<u64>());
    }
    // SAFETY: a record is laid out in C's order and has the size and alignment of seven numbers, so that it is these and nothing
    // else. The memory is that of the records, whose bytes are at most isize::MAX, and is borrowed as long as they are.
    unsafe { std::slice::from_raw_parts(records.as_ptr().cast(), records.len() * Record::NUMBERS) }
}

#[cfg(test)]
mod tests {
    use super::*;

    #[test]
    fn returned_numbers_are_read() {
        assert_eq!(done(0), Ok(()));
        assert_eq!(verdict(0), Verdict::Accepted);
        assert_eq!(verdict(255), Verdict::Rejected);
        for refusal in Refusal::ALL {
            assert_eq!(done(refusal.number()), Err(refusal));
            assert_eq!(verdict(refusal.number()), Verdict::Refused(refusal));
        }
    }

    #[test]
    fn numbers_without_a_meaning_are_taken_for_nothing() {
        for number in 19..=u8::MAX {
            assert!(std::panic::catch_unwind(|| done(number)).is_err(), "{number}");
            if number != REJECTED {
                assert!(std::panic::catch_unwind(|| verdict(number)).is_err(), "{number}");
            }
        }
    }

    const KEPT: u64 = 0x1234_5678;
    const P: u64 = crate::field::P;

    /// Small numbers, and not safe.
    const SMALL: SetNumbers = SetNumbers {
        width: 4,
        node_size: 2,
        height: 1,
        full_rounds: 2,
        partial_rounds: 0,
        diagonal: &[1, 2, 3, 4],
        constants: &[0; 8],
    };

    fn small() -> [u64; SET_SIZE] {
        validate(&SMALL).expect("accepted")
    }

    /// The numbers beside the slices are left alone too by a call that is refused.
    #[test]
    fn a_refusal_leaves_the_numbers_that_are_written() {
        let set = small();
        let mut kept = KEPT;
        let number = &mut kept as *mut u64;
        let mut store = [0; 6];
        let (mut first_row, mut second_row) = ([0; 4], [0; 4]);
        // SAFETY: the set is whole, every count is that of the array before it, and what is written overlaps nothing.
        let returned = unsafe {
            [
                sys::opening_tree_sum(P, 0, number),
                sys::opening_tree_difference(0, P, number),
                sys::opening_tree_inverse(0, number),
                sys::opening_tree_seventh_root(P, number),
                sys::opening_tree_replace(set.as_ptr(), store.as_mut_ptr(), 6, 2, [1, 1].as_ptr(), 2, number),
                sys::opening_tree_push_numbers(set.as_ptr(), store.as_mut_ptr(), 6, [2, 0, 0, 0, 0, 0, 0].as_ptr(), 7, number),
                sys::opening_tree_push_numbers(set.as_ptr(), store.as_mut_ptr(), 6, [1; 14].as_ptr(), 14, number),
                sys::opening_tree_extract(
                    set.as_ptr(),
                    [1, 1].as_ptr(),
                    2,
                    0,
                    [0, 0].as_ptr(),
                    2,
                    [0, 0].as_ptr(),
                    2,
                    [1, 0].as_ptr(),
                    2,
                    [0, 0].as_ptr(),
                    2,
                    first_row.as_mut_ptr(),
                    4,
                    second_row.as_mut_ptr(),
                    4,
                    number,
                ),
            ]
        };
        assert_eq!(returned, [12, 12, 13, 12, 11, 11, 17, 14]);
        assert_eq!(kept, KEPT);
    }

    /// A product and a power are written whatever is handed in.
    #[test]
    fn products_and_powers_refuse_nothing() {
        for (a, b, of_both, raised) in [
            (P, 1, 0, 0),
            (1, P, 0, 1),
            (P, P, 0, 0),
            (P, 0, 0, 1),
            (P + 2, 7, 14, 128),
            (u64::MAX, 2, 8589934588, P - 12884901885),
        ] {
            let (mut product, mut power) = (KEPT, KEPT);
            // SAFETY: each result is one number that nothing else refers to.
            let returned = unsafe { [sys::opening_tree_product(a, b, &mut product), sys::opening_tree_power(a, b, &mut power)] };
            assert_eq!((returned, product, power), ([0, 0], of_both, raised), "{a}, {b}");
        }
    }

    /// The small set with one number another.
    fn altered(place: usize, number: u64) -> [u64; SET_SIZE] {
        let mut set = small();
        set[place] = number;
        set
    }

    /// A set for each number that a set is refused with, in order.
    fn refused_sets() -> [([u64; SET_SIZE], u8); 10] {
        let mut two_zeros = altered(5, 0);
        two_zeros[6] = 0;
        let mut singular = small();
        singular[5..9].fill(P - 4);
        [
            (altered(0, 5), 1),
            (altered(1, 4), 2),
            (altered(3, 3), 3),
            (altered(4, 65), 4),
            (altered(2, 33), 5),
            (altered(17, P), 7),
            (two_zeros, 8),
            (singular, 9),
            (altered(225, 2), 18),
            (altered(237, 0), 18),
        ]
    }

    #[test]
    fn a_refusal_leaves_the_sizes() {
        for (set, refusal) in refused_sets() {
            let mut kept = [KEPT, KEPT + 1, KEPT + 2];
            let [leaves, store, opening] = &mut kept;
            // SAFETY: the set is whole, and the three numbers that are written are borrowed alone.
            let number = unsafe { sys::opening_tree_sizes(set.as_ptr(), leaves, store, opening) };
            assert_eq!((number, kept), (refusal, [KEPT, KEPT + 1, KEPT + 2]));
        }
    }

    /// The number that is returned, after which the array for the set is as it was.
    fn number_of_no_set(call: impl FnOnce(*mut u64) -> u8) -> u8 {
        let mut kept = [KEPT; SET_SIZE];
        let number = call(kept.as_mut_ptr());
        assert_eq!(kept, [KEPT; SET_SIZE]);
        number
    }

    #[test]
    fn a_refusal_leaves_the_set_of_a_validation() {
        let sets = [
            SetNumbers { width: 5, ..SMALL },
            SetNumbers { node_size: 4, ..SMALL },
            SetNumbers { full_rounds: 3, ..SMALL },
            SetNumbers { partial_rounds: 65, ..SMALL },
            SetNumbers { height: 33, ..SMALL },
            SetNumbers { constants: &[0; 7], ..SMALL },
            SetNumbers { constants: &[P; 8], ..SMALL },
            SetNumbers { diagonal: &[0, 2, 0, 4], ..SMALL },
            SetNumbers { diagonal: &[P - 4; 4], ..SMALL },
        ];
        for (SetNumbers { width, node_size, height, full_rounds, partial_rounds, diagonal, constants }, refusal) in
            sets.into_iter().zip(1..)
        {
            // SAFETY: each pointer comes with its slice's length, and the array for the set is whole and borrowed alone.
            let number = number_of_no_set(|set| unsafe {
                sys::opening_tree_validate(
                    width,
                    node_size,
                    height,
                    full_rounds,
                    partial_rounds,
                    diagonal.as_ptr(),
                    diagonal.len(),
                    constants.as_ptr(),
                    constants.len(),
                    set,
                )
            });
            assert_eq!(number, refusal);
        }
    }

    #[test]
    fn a_refusal_leaves_the_set_of_an_exchange() {
        // SAFETY: the set is whole, the diagonal's pointer comes with its slice's length, and the array for the exchanged set is whole and
        // borrowed alone.
        let diagonal = |set: &[u64; SET_SIZE], diagonal: &[u64]| {
            number_of_no_set(|exchanged| unsafe {
                sys::opening_tree_exchange_diagonal(set.as_ptr(), diagonal.as_ptr(), diagonal.len(), exchanged)
            })
        };
        // SAFETY: the same, without a diagonal.
        let height = |set: &[u64; SET_SIZE], height: u64| {
            number_of_no_set(|exchanged| unsafe { sys::opening_tree_exchange_height(set.as_ptr(), height, exchanged) })
        };
        for (set, refusal) in refused_sets() {
            assert_eq!([diagonal(&set, SMALL.diagonal), diagonal(&set, &[])], [refusal; 2]);
            assert_eq!([height(&set, 1), height(&set, 33)], [refusal; 2]);
        }
        for (words, refusal) in [(&[P; 3][..], 6), (&[1, 2, P, 4], 7), (&[0, 2, 0, 4], 8), (&[P - 4; 4], 9)] {
            assert_eq!(diagonal(&small(), words), refusal);
        }
        assert_eq!(height(&small(), 33), 5);
    }
}
