//! The library's entries in Rust, over either version of the arithmetic. Each does what the proved entry does: it judges the set,
//! tests lengths, places and words, and that no place of a push stands twice, and leaves every buffer as it was where it refuses. A push
//! compresses every node above its places once. T is the width, known to the compiler.
use crate::inverses::{kept_singly, Inverting};
use crate::poseidon2::{add, Plain, Tuned, Version};
use crate::sets::{all_words, former_validate, Numbers, Set, DONE, SINGULAR};

pub const REJECTED: u8 = 255;
pub const BAD_LENGTH: u8 = 10;
pub const BAD_PLACE: u8 = 11;
pub const NOT_A_WORD: u8 = 12;
pub const REPEATED: u8 = 17;
/// The numbers of a record: a place and six words.
pub const RECORD: usize = 7;
/// The most records whose places are compared with each other.
pub const FEW: usize = 128;
/// The places that a map has a bit for.
const WINDOW: u64 = 1 << 20;
/// The first word of a node that is to be rewritten: no word.
const MARK: u64 = u64::MAX;
/// On a level that has more nodes for each record than this, a push goes over its records, and on the others over the nodes.
const SPARSE: usize = 8;

/// The sizes of the tree of a set.
#[derive(Clone, Copy)]
pub struct Sizes {
    pub arity: usize,
    pub node: usize,
    pub height: usize,
    pub leaves: usize,
    pub inner: usize,
}

impl Sizes {
    pub fn new(arity: usize, node: usize, height: usize) -> Sizes {
        let leaves = arity.pow(height as u32);
        Sizes {
            arity,
            node,
            height,
            leaves,
            inner: (leaves - 1) / (arity - 1),
        }
    }

    fn of(set: &Set) -> Sizes {
        Sizes::new(
            (set.width / set.node_size) as usize,
            set.node_size as usize,
            set.height as usize,
        )
    }

    pub fn leaf_words(&self) -> usize {
        self.leaves * self.node
    }

    pub fn store_words(&self) -> usize {
        (self.leaves + self.inner) * self.node
    }

    /// The siblings of one level.
    fn beside(&self) -> usize {
        (self.arity - 1) * self.node
    }

    pub fn opening_words(&self) -> usize {
        self.height * self.beside()
    }

    /// How many numbers the leaves, a store and an opening have.
    fn counts(&self) -> [u64; 3] {
        [self.leaf_words(), self.store_words(), self.opening_words()].map(|count| count as u64)
    }

    /// Where the words of node `leaves` + n begin, which row n is compressed to.
    fn above(&self, n: usize) -> usize {
        (self.leaves + n) * self.node
    }

    /// A record's leaf, written to its place.
    fn put(&self, store: &mut [u64], record: &[u64]) {
        let at = record[0] as usize * self.node;
        store[at..at + self.node].copy_from_slice(&record[1..1 + self.node]);
    }

    /// The nodes above a place are marked, from below, up to one that is marked already.
    fn mark_above(&self, store: &mut [u64], place: usize) {
        for (n, _) in self.path(place) {
            let first = &mut store[self.above(n)];
            if *first == MARK {
                break;
            }
            *first = MARK;
        }
    }

    /// Row and child of a node, by its number in the store; the node above it has the number `leaves` + row.
    fn path(&self, place: usize) -> impl Iterator<Item = (usize, usize)> + '_ {
        let mut number = place;
        (0..self.height).map(move |_| {
            let (row, child) = (number / self.arity, number % self.arity);
            number = self.leaves + row;
            (row, child)
        })
    }

    /// The two parts of row n that are beside its child.
    fn siblings<'a, const T: usize>(&self, store: &'a [u64], n: usize, child: usize) -> (&'a [u64], &'a [u64]) {
        let row = &store[n * T..n * T + T];
        (&row[..child * self.node], &row[(child + 1) * self.node..])
    }

    fn siblings_are_words<const T: usize>(&self, store: &[u64], place: usize) -> bool {
        self.path(place).all(|(n, child)| {
            let (before, behind) = self.siblings::<T>(store, n, child);
            all_words(before) && all_words(behind)
        })
    }
}

impl Set {
    /// One permutation, without any test.
    #[inline(always)]
    pub fn permute<V: Version, const T: usize>(&self, state: &mut [u64; T]) {
        let (full, partial) = (self.full_rounds as usize, self.partial_rounds as usize);
        V::permute(state, &self.diagonal, &self.constants, full, partial);
    }

    /// The permutation of a row with the row added. A node is its first l words.
    #[inline(always)]
    fn compressed<V: Version, const T: usize>(&self, row: &[u64; T]) -> [u64; T] {
        let mut state = *row;
        self.permute::<V, T>(&mut state);
        std::array::from_fn(|i| add(state[i], row[i]))
    }

    /// Row n of the store, compressed to the node of number `leaves` + n.
    #[inline(always)]
    fn rewrite<V: Version, const T: usize>(&self, sizes: &Sizes, store: &mut [u64], n: usize) {
        let node = self.compressed::<V, T>(store[n * T..n * T + T].try_into().unwrap());
        let at = sizes.above(n);
        store[at..at + sizes.node].copy_from_slice(&node[..sizes.node]);
    }

    /// The same where that node is marked; how many compressions it takes.
    #[inline(always)]
    fn rewrite_marked<V: Version, const T: usize>(&self, sizes: &Sizes, store: &mut [u64], n: usize) -> u64 {
        if store[sizes.above(n)] != MARK {
            return 0;
        }
        self.rewrite::<V, T>(sizes, store, n);
        1
    }

    /// A leaf and the nodes above it; how many these are.
    fn replace<V: Version, const T: usize>(&self, sizes: &Sizes, store: &mut [u64], place: usize, leaf: &[u64]) -> u64 {
        store[place * sizes.node..(place + 1) * sizes.node].copy_from_slice(leaf);
        let mut made = 0;
        for (n, _) in sizes.path(place) {
            self.rewrite::<V, T>(sizes, store, n);
            made += 1;
        }
        made
    }

    /// Node i of a level, from the leaves alone.
    fn node<V: Version, const T: usize>(&self, sizes: &Sizes, leaves: &[u64], level: usize, i: usize) -> [u64; 6] {
        let mut node = [0; 6];
        if level == 0 {
            node[..sizes.node].copy_from_slice(&leaves[i * sizes.node..(i + 1) * sizes.node]);
            return node;
        }
        let mut row = [0; T];
        for (child, part) in row.chunks_exact_mut(sizes.node).enumerate() {
            part.copy_from_slice(&self.node::<V, T>(sizes, leaves, level - 1, sizes.arity * i + child)[..sizes.node]);
        }
        node[..sizes.node].copy_from_slice(&self.compressed::<V, T>(&row)[..sizes.node]);
        node
    }
}

/// One compression, without any test.
#[inline(never)]
pub fn bare_compress<V: Version, const T: usize>(set: &Set, row: &[u64; T], node: &mut [u64]) {
    let words = set.compressed::<V, T>(row);
    node.copy_from_slice(&words[..node.len()]);
}

#[inline(never)]
pub fn compress<V: Version, const T: usize>(set: &Set, state: &[u64], node: &mut [u64]) -> u8 {
    let number = set.judge::<V>();
    if number != DONE {
        return number;
    }
    let Ok(words) = state.try_into() else { return BAD_LENGTH };
    if node.len() as u64 != set.node_size {
        return BAD_LENGTH;
    }
    if !all_words(state) {
        return NOT_A_WORD;
    }
    bare_compress::<V, T>(set, words, node);
    DONE
}

/// The state whose permutation is given, in its place.
#[inline(never)]
pub fn unpermute<V: Inverting, const T: usize>(set: &Set, state: &mut [u64]) -> u8 {
    let number = set.judge::<V>();
    if number != DONE {
        return number;
    }
    let Ok(words) = <&mut [u64; T]>::try_from(state) else {
        return BAD_LENGTH;
    };
    if !all_words(words) {
        return NOT_A_WORD;
    }
    let (full, partial) = (set.full_rounds as usize, set.partial_rounds as usize);
    V::unpermute(words, &set.kept, set.used_constants(), full, partial);
    DONE
}

/// The same as it was before a set kept anything: D is inverted in every call, word by word.
#[inline(never)]
pub fn former_unpermute<V: Inverting, const T: usize>(numbers: &Numbers, state: &mut [u64]) -> u8 {
    let number = former_validate::<V>(numbers);
    if number != DONE {
        return number;
    }
    let Ok(words) = <&mut [u64; T]>::try_from(state) else {
        return BAD_LENGTH;
    };
    if !all_words(words) {
        return NOT_A_WORD;
    }
    let Some(kept) = kept_singly::<V>(numbers.diagonal) else {
        return SINGULAR;
    };
    let (full, partial) = (numbers.full_rounds as usize, numbers.partial_rounds as usize);
    V::unpermute(words, &kept, numbers.constants, full, partial);
    DONE
}

#[inline(never)]
pub fn sizes<V: Version>(set: &Set, counts: &mut [u64; 3]) -> u8 {
    let number = set.judge::<V>();
    if number == DONE {
        *counts = Sizes::of(set).counts();
    }
    number
}

#[inline(never)]
pub fn build<V: Version, const T: usize>(set: &Set, leaves: &[u64], store: &mut [u64]) -> u8 {
    let number = set.judge::<V>();
    if number != DONE {
        return number;
    }
    let sizes = Sizes::of(set);
    if leaves.len() != sizes.leaf_words() || store.len() != sizes.store_words() {
        return BAD_LENGTH;
    }
    if !all_words(leaves) {
        return NOT_A_WORD;
    }
    store[..leaves.len()].copy_from_slice(leaves);
    (0..sizes.inner).for_each(|n| set.rewrite::<V, T>(&sizes, store, n));
    DONE
}

#[inline(never)]
pub fn storeless_root<V: Version, const T: usize>(set: &Set, leaves: &[u64], node: &mut [u64]) -> u8 {
    let number = set.judge::<V>();
    if number != DONE {
        return number;
    }
    let sizes = Sizes::of(set);
    if leaves.len() != sizes.leaf_words() || node.len() != sizes.node {
        return BAD_LENGTH;
    }
    if !all_words(leaves) {
        return NOT_A_WORD;
    }
    let root = set.node::<V, T>(&sizes, leaves, sizes.height, 0);
    node.copy_from_slice(&root[..sizes.node]);
    DONE
}

#[inline(never)]
pub fn open<V: Version, const T: usize>(set: &Set, store: &[u64], place: u64, siblings: &mut [u64]) -> u8 {
    let number = set.judge::<V>();
    if number != DONE {
        return number;
    }
    let sizes = Sizes::of(set);
    if store.len() != sizes.store_words() || siblings.len() != sizes.opening_words() {
        return BAD_LENGTH;
    }
    if place >= sizes.leaves as u64 {
        return BAD_PLACE;
    }
    if !sizes.siblings_are_words::<T>(store, place as usize) {
        return NOT_A_WORD;
    }
    for ((n, child), part) in sizes.path(place as usize).zip(siblings.chunks_exact_mut(sizes.beside())) {
        let (before, behind) = sizes.siblings::<T>(store, n, child);
        part[..before.len()].copy_from_slice(before);
        part[before.len()..].copy_from_slice(behind);
    }
    DONE
}

#[inline(never)]
pub fn verify<V: Version, const T: usize>(set: &Set, root: &[u64], place: u64, leaf: &[u64], siblings: &[u64]) -> u8 {
    let number = set.judge::<V>();
    if number != DONE {
        return number;
    }
    let sizes = Sizes::of(set);
    if root.len() != sizes.node || leaf.len() != sizes.node || siblings.len() != sizes.opening_words() {
        return BAD_LENGTH;
    }
    if place >= sizes.leaves as u64 {
        return BAD_PLACE;
    }
    if !all_words(root) || !all_words(leaf) || !all_words(siblings) {
        return NOT_A_WORD;
    }
    let (mut own, mut row) = ([0; T], [0; T]);
    own[..sizes.node].copy_from_slice(leaf);
    for ((_, child), part) in sizes.path(place as usize).zip(siblings.chunks_exact(sizes.beside())) {
        let (at, behind) = (child * sizes.node, (child + 1) * sizes.node);
        row[..at].copy_from_slice(&part[..at]);
        row[at..behind].copy_from_slice(&own[..sizes.node]);
        row[behind..].copy_from_slice(&part[at..]);
        own = set.compressed::<V, T>(&row);
    }
    if &own[..sizes.node] == root {
        DONE
    } else {
        REJECTED
    }
}

#[inline(never)]
pub fn replace<V: Version, const T: usize>(set: &Set, store: &mut [u64], place: u64, leaf: &[u64], made: &mut u64) -> u8 {
    let number = set.judge::<V>();
    if number != DONE {
        return number;
    }
    let sizes = Sizes::of(set);
    if store.len() != sizes.store_words() || leaf.len() != sizes.node {
        return BAD_LENGTH;
    }
    if place >= sizes.leaves as u64 {
        return BAD_PLACE;
    }
    if !all_words(leaf) || !sizes.siblings_are_words::<T>(store, place as usize) {
        return NOT_A_WORD;
    }
    *made = set.replace::<V, T>(&sizes, store, place as usize, leaf);
    DONE
}

/// The places of records.
pub fn places(records: &[u64]) -> impl ExactSizeIterator<Item = u64> + '_ {
    records.chunks_exact(RECORD).map(|record| record[0])
}

/// Whether each place is above the one before it.
pub fn rise(records: &[u64]) -> bool {
    places(records).is_sorted_by(|a, b| a < b)
}

/// Four numbers a turn, as the library does it, and then the last few.
fn is_among(numbers: &[u64], number: u64) -> bool {
    let mut fours = numbers.chunks_exact(4);
    fours.any(|four| four.contains(&number)) || fours.remainder().contains(&number)
}

/// Whether one of at most `FEW` places stands twice: each is compared with those before it.
fn few_repeat(records: &[u64]) -> bool {
    let mut kept = [0; FEW];
    places(records).enumerate().any(|(n, place)| {
        kept[n] = place;
        is_among(&kept[..n], place)
    })
}

/// Whether a place from `base` on stands twice, of those that a map has a bit for.
fn window_repeats(records: &[u64], base: u64) -> bool {
    let mut map = [0u64; WINDOW as usize / 64];
    places(records).any(|place| {
        let at = place.wrapping_sub(base);
        if at >= WINDOW {
            return false;
        }
        let (word, bit) = (&mut map[at as usize / 64], 1 << (at % 64));
        let again = *word & bit != 0;
        *word |= bit;
        again
    })
}

/// Whether a place stands twice, by one of the library's three ways: places that rise are different; few are compared; and of many
/// there is a map, a window of places after another.
#[inline(never)]
fn repeats(records: &[u64], leaves: u64) -> bool {
    if rise(records) {
        return false;
    }
    if places(records).len() <= FEW {
        return few_repeat(records);
    }
    (0..leaves.div_ceil(WINDOW)).any(|window| window_repeats(records, window * WINDOW))
}

/// How a version writes the records of a push, which have been tested: every leaf, and every node above them once, from below. How many
/// nodes these are.
pub trait Writing: Version {
    fn write<const T: usize>(set: &Set, sizes: &Sizes, store: &mut [u64], records: &[u64]) -> u64;
}

impl Writing for Tuned {
    /// In the library's way, which takes no memory: the nodes are marked in the store, and then from below the marked ones are rewritten.
    #[inline(never)]
    fn write<const T: usize>(set: &Set, sizes: &Sizes, store: &mut [u64], records: &[u64]) -> u64 {
        for record in records.chunks_exact(RECORD) {
            sizes.put(store, record);
            sizes.mark_above(store, record[0] as usize);
        }
        let many = SPARSE * places(records).len();
        let (mut made, mut before, mut under) = (0, 0, sizes.arity);
        while sizes.leaves / under > many {
            for place in places(records) {
                made += set.rewrite_marked::<Self, T>(sizes, store, before + place as usize / under);
            }
            before += sizes.leaves / under;
            under *= sizes.arity;
        }
        for n in before..sizes.inner {
            made += set.rewrite_marked::<Self, T>(sizes, store, n);
        }
        made
    }
}

impl Writing for Plain {
    /// With a list of the nodes of each level, which rises.
    #[inline(never)]
    fn write<const T: usize>(set: &Set, sizes: &Sizes, store: &mut [u64], records: &[u64]) -> u64 {
        records.chunks_exact(RECORD).for_each(|record| sizes.put(store, record));
        let mut nodes: Vec<usize> = places(records).map(|place| place as usize).collect();
        nodes.sort();
        let mut made = 0;
        for _ in 0..sizes.height {
            nodes.iter_mut().for_each(|node| *node = sizes.leaves + *node / sizes.arity);
            nodes.dedup();
            for &node in &nodes {
                set.rewrite::<Self, T>(sizes, store, node - sizes.leaves);
                made += 1;
            }
        }
        made
    }
}

/// A push that asks whether a place stands twice, or one that does not.
#[inline(never)]
pub fn push<V: Writing, const T: usize, const TESTED: bool>(set: &Set, store: &mut [u64], records: &[u64], made: &mut u64) -> u8 {
    let number = set.judge::<V>();
    if number != DONE {
        return number;
    }
    let sizes = Sizes::of(set);
    if store.len() != sizes.store_words() || records.len() % RECORD != 0 || records.len() / RECORD > 1 << 32 {
        return BAD_LENGTH;
    }
    if places(records).any(|place| place >= sizes.leaves as u64) {
        return BAD_PLACE;
    }
    if !records
        .chunks_exact(RECORD)
        .all(|record| all_words(&record[1..1 + sizes.node]))
        || !all_words(store)
    {
        return NOT_A_WORD;
    }
    if TESTED && repeats(records, sizes.leaves as u64) {
        return REPEATED;
    }
    *made = V::write::<T>(set, &sizes, store, records);
    DONE
}
