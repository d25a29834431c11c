//! Trees of an accepted set and words.

use std::collections::HashSet;

use super::permutation::compress;
use super::set::Set;

/// A node, worked out from its row above the leaves.
pub fn node(set: &Set, leaves: &[u64], level: u64, index: u64) -> Vec<u64> {
    if level == 0 {
        let start = (index * set.node_size) as usize;
        return leaves[start..start + set.node_size as usize].to_vec();
    }
    compress(set, &row(set, leaves, level - 1, index))
}

/// A row, worked out from its nodes.
fn row(set: &Set, leaves: &[u64], level: u64, index: u64) -> Vec<u64> {
    let k = set.arity();
    (0..k).flat_map(|i| node(set, leaves, level, k * index + i)).collect()
}

/// The store of the leaves.
pub fn store(set: &Set, leaves: &[u64]) -> Vec<u64> {
    let mut store = Vec::new();
    let mut level = leaves.to_vec();
    for _ in 0..set.height {
        let above: Vec<u64> = level.chunks(set.width as usize).flat_map(|row| compress(set, row)).collect();
        store.extend(level);
        level = above;
    }
    store.extend(level);
    store
}

/// The row of a level that holds the node above a place, and which of its k nodes that is.
fn row_at(set: &Set, store: &[u64], place: u64, level: u64) -> (Vec<u64>, u64) {
    let k = set.arity();
    let index = place / k.pow(level as u32);
    let start = set.level_start(level) as usize + (index / k * set.width) as usize;
    (store[start..start + set.width as usize].to_vec(), index % k)
}

/// The opening of a place.
pub fn opening(set: &Set, store: &[u64], place: u64) -> Vec<u64> {
    let l = set.node_size as usize;
    let mut siblings = Vec::new();
    for level in 0..set.height {
        let (row, own) = row_at(set, store, place, level);
        for (i, node) in row.chunks(l).enumerate() {
            if i as u64 != own {
                siblings.extend(node);
            }
        }
    }
    siblings
}

/// The rows that a leaf's verdict compresses, level by level, and the node that it ends in.
pub fn climb(set: &Set, place: u64, leaf: &[u64], siblings: &[u64]) -> (Vec<Vec<u64>>, Vec<u64>) {
    let l = set.node_size as usize;
    let mut node = leaf.to_vec();
    let mut index = place;
    let mut rows = Vec::new();
    for part in siblings.chunks(set.part_words() as usize) {
        let own = (index % set.arity()) as usize;
        let (before, after) = part.split_at(own * l);
        let row = [before, &node, after].concat();
        node = compress(set, &row);
        index /= set.arity();
        rows.push(row);
    }
    (rows, node)
}

/// Writes a node of a level.
fn write(set: &Set, store: &mut [u64], level: u64, index: u64, node: &[u64]) {
    let start = set.level_start(level) as usize + (index * set.node_size) as usize;
    store[start..start + node.len()].copy_from_slice(node);
}

/// Writes the compression of a level's row to the level above, where it belongs.
fn write_above(set: &Set, store: &mut [u64], level: u64, row: u64) {
    let start = set.level_start(level) as usize + (row * set.width) as usize;
    let node = compress(set, &store[start..start + set.width as usize]);
    write(set, store, level + 1, row, &node);
}

/// Puts a leaf at its place and writes the nodes above it. Answers the compressions made.
pub fn replace(set: &Set, store: &mut [u64], place: u64, leaf: &[u64]) -> u64 {
    write(set, store, 0, place, leaf);
    let mut index = place;
    for level in 0..set.height {
        index /= set.arity();
        write_above(set, store, level, index);
    }
    set.height
}

/// Puts each leaf at its place, and then writes the nodes above the places, each once: first those of level 1, then those above them,
/// and so on. Answers how many nodes that are.
pub fn push(set: &Set, store: &mut [u64], records: &[(u64, &[u64])]) -> u64 {
    for &(place, leaf) in records {
        write(set, store, 0, place, leaf);
    }
    let mut nodes: HashSet<u64> = records.iter().map(|&(place, _)| place).collect();
    let mut made = 0;
    for level in 0..set.height {
        nodes = nodes.into_iter().map(|node| node / set.arity()).collect();
        for &node in &nodes {
            write_above(set, store, level, node);
            made += 1;
        }
    }
    made
}
