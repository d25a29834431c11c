//! Every function of the library: the first refusal that applies, or the work.

use std::collections::HashSet;

use super::field;
use super::files;
use super::permutation;
use super::set::{check_set, refuse, validated, Numbers, Set};
use super::tree;

const RECORD_NUMBERS: usize = 7;
const MOST_BYTES: u128 = 4294967295;

/// Refusal 10: each slice has its exact length.
fn lengths(slices: &[(&[u64], u128)]) -> Result<(), u8> {
    refuse(10, slices.iter().any(|(slice, length)| slice.len() as u128 != *length))
}

/// Refusal 11: a place or level is below its bound.
fn below(number: u64, bound: u128) -> Result<(), u8> {
    refuse(11, number as u128 >= bound)
}

/// Refusal 12: every number is a word.
fn words(numbers: &[u64]) -> Result<(), u8> {
    refuse(12, !numbers.iter().all(|&n| field::is_word(n)))
}

pub fn sum(a: u64, b: u64) -> Result<u64, u8> {
    words(&[a, b])?;
    Ok(field::add(a, b))
}

pub fn difference(a: u64, b: u64) -> Result<u64, u8> {
    words(&[a, b])?;
    Ok(field::subtract(a, b))
}

/// Of any numbers.
pub fn product(a: u64, b: u64) -> Result<u64, u8> {
    Ok(field::multiply(a, b))
}

/// Of any numbers.
pub fn power(base: u64, exponent: u64) -> Result<u64, u8> {
    Ok(field::power(base, exponent))
}

pub fn inverse(x: u64) -> Result<u64, u8> {
    words(&[x])?;
    refuse(13, x == 0)?;
    Ok(field::inverse(x))
}

pub fn seventh_root(y: u64) -> Result<u64, u8> {
    words(&[y])?;
    Ok(field::seventh_root(y))
}

pub fn validate(numbers: &Numbers) -> Result<Set, u8> {
    validated(numbers)
}

/// The set that is handed in is judged first, and then the outcome.
pub fn exchange_diagonal(set: &Set, diagonal: &[u64]) -> Result<Set, u8> {
    check_set(set)?;
    validated(&Numbers { diagonal: diagonal.to_vec(), ..set.numbers() })
}

/// The same.
pub fn exchange_height(set: &Set, height: u64) -> Result<Set, u8> {
    check_set(set)?;
    validated(&Numbers { height, ..set.numbers() })
}

pub fn permute(set: &Set, state: &mut [u64]) -> Result<(), u8> {
    check_set(set)?;
    lengths(&[(state, set.width as u128)])?;
    words(state)?;
    state.copy_from_slice(&permutation::permute(set, state));
    Ok(())
}

pub fn unpermute(set: &Set, state: &mut [u64]) -> Result<(), u8> {
    check_set(set)?;
    lengths(&[(state, set.width as u128)])?;
    words(state)?;
    state.copy_from_slice(&permutation::unpermute(set, state));
    Ok(())
}

pub fn compress(set: &Set, state: &[u64], node: &mut [u64]) -> Result<(), u8> {
    check_set(set)?;
    lengths(&[(state, set.width as u128), (node, set.node_size as u128)])?;
    words(state)?;
    node.copy_from_slice(&permutation::compress(set, state));
    Ok(())
}

/// The numbers of all leaves, of a store and of an opening.
pub fn sizes(set: &Set) -> Result<[u64; 3], u8> {
    check_set(set)?;
    Ok([set.leaf_words(), set.store_words(), set.opening_words()].map(|words| words.try_into().expect("refusal 5")))
}

pub fn build(set: &Set, leaves: &[u64], store: &mut [u64]) -> Result<(), u8> {
    check_set(set)?;
    lengths(&[(leaves, set.leaf_words()), (store, set.store_words())])?;
    words(leaves)?;
    store.copy_from_slice(&tree::store(set, leaves));
    Ok(())
}

pub fn root(set: &Set, store: &[u64], node: &mut [u64]) -> Result<(), u8> {
    check_set(set)?;
    lengths(&[(store, set.store_words()), (node, set.node_size as u128)])?;
    let last = &store[store.len() - node.len()..];
    words(last)?;
    node.copy_from_slice(last);
    Ok(())
}

pub fn storeless_root(set: &Set, leaves: &[u64], node: &mut [u64]) -> Result<(), u8> {
    check_set(set)?;
    lengths(&[(leaves, set.leaf_words()), (node, set.node_size as u128)])?;
    words(leaves)?;
    node.copy_from_slice(&tree::node(set, leaves, set.height, 0));
    Ok(())
}

pub fn open(set: &Set, store: &[u64], place: u64, siblings: &mut [u64]) -> Result<(), u8> {
    check_set(set)?;
    lengths(&[(store, set.store_words()), (siblings, set.opening_words())])?;
    below(place, set.places())?;
    let opening = tree::opening(set, store, place);
    words(&opening)?;
    siblings.copy_from_slice(&opening);
    Ok(())
}

/// Whether the opening is accepted.
pub fn verify(set: &Set, root: &[u64], place: u64, leaf: &[u64], siblings: &[u64]) -> Result<bool, u8> {
    check_set(set)?;
    let l = set.node_size as u128;
    lengths(&[(root, l), (leaf, l), (siblings, set.opening_words())])?;
    below(place, set.places())?;
    words(&[root, leaf, siblings].concat())?;
    Ok(tree::climb(set, place, leaf, siblings).1 == root)
}

pub fn read_level(set: &Set, siblings: &[u64], level: u64, part: &mut [u64]) -> Result<(), u8> {
    check_set(set)?;
    lengths(&[(siblings, set.opening_words()), (part, set.part_words())])?;
    below(level, set.height as u128)?;
    let start = level as usize * part.len();
    let read = &siblings[start..start + part.len()];
    words(read)?;
    part.copy_from_slice(read);
    Ok(())
}

pub fn replace(set: &Set, store: &mut [u64], place: u64, leaf: &[u64]) -> Result<u64, u8> {
    check_set(set)?;
    lengths(&[(store, set.store_words()), (leaf, set.node_size as u128)])?;
    below(place, set.places())?;
    words(leaf)?;
    words(&tree::opening(set, store, place))?;
    Ok(tree::replace(set, store, place, leaf))
}

pub fn push(set: &Set, store: &mut [u64], records: &[u64]) -> Result<u64, u8> {
    check_set(set)?;
    let l = set.node_size as usize;
    lengths(&[(store, set.store_words())])?;
    refuse(10, !records.len().is_multiple_of(RECORD_NUMBERS) || (records.len() / RECORD_NUMBERS) as u128 > 1 << 32)?;
    let records: Vec<(u64, &[u64])> = records.chunks(RECORD_NUMBERS).map(|record| (record[0], &record[1..1 + l])).collect();
    for (place, _) in &records {
        below(*place, set.places())?;
    }
    for (_, leaf) in &records {
        words(leaf)?;
    }
    words(store)?;
    let places: HashSet<u64> = records.iter().map(|(place, _)| *place).collect();
    refuse(17, places.len() < records.len())?;
    Ok(tree::push(set, store, &records))
}

#[allow(clippy::too_many_arguments)]
pub fn extract(
    set: &Set,
    root: &[u64],
    place: u64,
    first: &[u64],
    first_siblings: &[u64],
    second: &[u64],
    second_siblings: &[u64],
    first_row: &mut [u64],
    second_row: &mut [u64],
) -> Result<u64, u8> {
    check_set(set)?;
    let (t, l, opening) = (set.width as u128, set.node_size as u128, set.opening_words());
    lengths(&[(root, l), (first, l), (first_siblings, opening), (second, l), (second_siblings, opening)])?;
    lengths(&[(first_row, t), (second_row, t)])?;
    below(place, set.places())?;
    words(&[root, first, first_siblings, second, second_siblings].concat())?;
    refuse(15, first == second)?;
    let (first_rows, first_end) = tree::climb(set, place, first, first_siblings);
    let (second_rows, second_end) = tree::climb(set, place, second, second_siblings);
    refuse(14, first_end != root || second_end != root)?;
    let collide = |&level: &usize| {
        let (a, b) = (&first_rows[level], &second_rows[level]);
        a != b && permutation::compress(set, a) == permutation::compress(set, b)
    };
    let level = (0..set.height as usize).find(collide).expect("two leaves that are accepted have such a level");
    first_row.copy_from_slice(&first_rows[level]);
    second_row.copy_from_slice(&second_rows[level]);
    Ok(level as u64)
}

pub fn leaf_of_file(set: &Set, contents: &[u8], leaf: &mut [u64]) -> Result<(), u8> {
    check_set(set)?;
    lengths(&[(leaf, set.node_size as u128)])?;
    refuse(16, contents.len() as u128 > MOST_BYTES)?;
    leaf.copy_from_slice(&files::leaf(set, contents));
    Ok(())
}
