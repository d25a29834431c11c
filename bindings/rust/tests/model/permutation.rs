//! The permutation, its inverse and the compression, of an accepted set and words.

use super::field::{add, add_lists, multiply, seventh_power, seventh_root, subtract, sum_of};
use super::linear::{inverse_matrix, matrix_of, times};
use super::set::Set;

const M4: [[u64; 4]; 4] = [[5, 7, 1, 3], [4, 6, 1, 1], [1, 3, 5, 7], [1, 1, 4, 6]];

fn m4(block: &[u64]) -> Vec<u64> {
    times(&M4.map(Vec::from).to_vec(), block)
}

/// M_E
pub fn external_layer(state: &[u64]) -> Vec<u64> {
    let blocks: Vec<Vec<u64>> = state.chunks(4).map(m4).collect();
    if blocks.len() == 1 {
        return blocks.concat();
    }
    let sum = blocks.iter().fold(vec![0; 4], |sum, block| add_lists(&sum, block));
    blocks.iter().flat_map(|block| add_lists(block, &sum)).collect()
}

/// M_I
pub fn internal_layer(diagonal: &[u64], state: &[u64]) -> Vec<u64> {
    let sum = sum_of(state);
    state.iter().zip(diagonal).map(|(&word, &d)| add(sum, multiply(d, word))).collect()
}

fn full_round(constants: &[u64], state: &[u64]) -> Vec<u64> {
    let raised: Vec<u64> = add_lists(state, constants).into_iter().map(seventh_power).collect();
    external_layer(&raised)
}

fn partial_round(diagonal: &[u64], constant: u64, state: &[u64]) -> Vec<u64> {
    let mut raised = state.to_vec();
    raised[0] = seventh_power(add(raised[0], constant));
    internal_layer(diagonal, &raised)
}

/// The partial rounds, one after the other.
pub fn partial_rounds(diagonal: &[u64], constants: &[u64], state: &[u64]) -> Vec<u64> {
    constants.iter().fold(state.to_vec(), |state, &constant| partial_round(diagonal, constant, &state))
}

/// The constants of the first half of the full rounds, of the partial rounds, and of the second half.
fn parts(set: &Set) -> (&[u64], &[u64], &[u64]) {
    let half = (set.width * set.full_rounds / 2) as usize;
    let (first, rest) = set.used_constants().split_at(half);
    let (partial, second) = rest.split_at(set.partial_rounds as usize);
    (first, partial, second)
}

pub fn permute(set: &Set, state: &[u64]) -> Vec<u64> {
    let (first, partial, second) = parts(set);
    let mut state = external_layer(state);
    for constants in first.chunks(set.width as usize) {
        state = full_round(constants, &state);
    }
    state = partial_rounds(set.used_diagonal(), partial, &state);
    for constants in second.chunks(set.width as usize) {
        state = full_round(constants, &state);
    }
    state
}

/// The partial rounds undone.
pub fn undo_partial_rounds(diagonal: &[u64], constants: &[u64], state: &[u64]) -> Vec<u64> {
    let layer = matrix_of(diagonal.len(), |state| internal_layer(diagonal, state));
    let unlayer = inverse_matrix(&layer).expect("refusals 8 and 9");
    let mut state = state.to_vec();
    for &constant in constants.iter().rev() {
        state = times(&unlayer, &state);
        state[0] = subtract(seventh_root(state[0]), constant);
    }
    state
}

pub fn unpermute(set: &Set, state: &[u64]) -> Vec<u64> {
    let t = set.width as usize;
    let (first, partial, second) = parts(set);
    let unlayer = inverse_matrix(&matrix_of(t, external_layer)).expect("M_E has an inverse");
    let undo_full_round = |constants: &[u64], state: &[u64]| -> Vec<u64> {
        let raised = times(&unlayer, state);
        raised.iter().zip(constants).map(|(&word, &constant)| subtract(seventh_root(word), constant)).collect()
    };
    let mut state = state.to_vec();
    for constants in second.chunks(t).rev() {
        state = undo_full_round(constants, &state);
    }
    state = undo_partial_rounds(set.used_diagonal(), partial, &state);
    for constants in first.chunks(t).rev() {
        state = undo_full_round(constants, &state);
    }
    times(&unlayer, &state)
}

pub fn compress(set: &Set, row: &[u64]) -> Vec<u64> {
    let mut node = add_lists(&permute(set, row), row);
    node.truncate(set.node_size as usize);
    node
}
