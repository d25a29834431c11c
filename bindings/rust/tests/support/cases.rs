//! Calls that are done, but for what the store or an opening may hold, and for a place that a push may have twice. What a function only
//! writes, or does not look at, is junk.

use opening_tree::Record;

use super::calls::{Call, Entry};
use super::generator::Generator;
use crate::model::field::{self, P};
use crate::model::set::{validated, Numbers, Set, CONSTANT_PLACES};
use crate::model::tree;

/// Every width with every node size.
pub const SHAPES: [(u64, u64); 10] = [(4, 1), (4, 2), (8, 1), (8, 2), (8, 4), (12, 1), (12, 2), (12, 3), (12, 4), (12, 6)];

/// The greatest height that refusal 5 lets pass.
pub fn greatest_height(width: u64, node_size: u64) -> u64 {
    let arity = (width / node_size) as u128;
    (0..=32).take_while(|&h| arity.pow(h) <= 1 << 32).last().expect("0 passes").into()
}

/// An accepted set of this shape, with drawn words. Now and then one word of the diagonal is 0, and at times the places that the set does
/// not use hold anything.
pub fn set_of(generator: &mut Generator, shape: (u64, u64), height: u64, full_rounds: u64, partial_rounds: u64) -> Set {
    let (width, node_size) = shape;
    loop {
        let diagonal = diagonal_of(generator, width as usize);
        let constants = generator.words((width * full_rounds + partial_rounds) as usize);
        match validated(&Numbers { width, node_size, height, full_rounds, partial_rounds, diagonal, constants }) {
            Ok(mut set) => {
                if generator.once_in(2) {
                    fill_beyond(generator, &mut set);
                }
                return set;
            }
            Err(number) => assert_eq!(number, 9, "only the diagonal's words are left to chance"),
        }
    }
}

/// The set with these words in D, whose values it keeps.
pub fn with_diagonal(mut set: Set, diagonal: &[u64]) -> Set {
    set.diagonal[..diagonal.len()].copy_from_slice(diagonal);
    set.keep();
    set
}

/// The places that a set does not use: of D, of C, and of the inverses that are kept.
pub fn beyond(set: &mut Set) -> [&mut [u64]; 3] {
    let (words, constants) = (set.used_diagonal().len(), set.used_constants().len());
    [&mut set.diagonal[words..], &mut set.constants[constants..], &mut set.inverses[words..]]
}

/// Puts junk there.
pub fn fill_beyond(generator: &mut Generator, set: &mut Set) {
    for places in beyond(set) {
        places.copy_from_slice(&generator.junk(places.len()));
    }
}

/// Drawn words for a diagonal, now and then with one zero.
pub fn diagonal_of(generator: &mut Generator, width: usize) -> Vec<u64> {
    let mut diagonal: Vec<u64> = (0..width).map(|_| generator.word().max(1)).collect();
    if generator.once_in(4) {
        diagonal[generator.below(width)] = 0;
    }
    diagonal
}

/// An accepted set of small numbers, under which a tree has two leaves of two words.
pub fn small() -> Set {
    let (diagonal, constants) = (vec![1, 2, 3, 4], vec![0; 8]);
    validated(&Numbers { width: 4, node_size: 2, height: 1, full_rounds: 2, partial_rounds: 0, diagonal, constants })
        .expect("accepted")
}

/// A set for each of the numbers that a set is refused with.
pub fn refused_sets() -> [(Set, u8); 9] {
    let [mut two_zeros, mut singular] = [small(), small()];
    two_zeros.diagonal[1..3].fill(0);
    singular.diagonal[..4].fill(P - 4);
    [
        (Set { width: 5, ..small() }, 1),
        (Set { node_size: 4, ..small() }, 2),
        (Set { full_rounds: 3, ..small() }, 3),
        (Set { partial_rounds: 65, ..small() }, 4),
        (Set { height: 33, ..small() }, 5),
        (Set { constants: [P; CONSTANT_PLACES], ..small() }, 7),
        (two_zeros, 8),
        (singular, 9),
        (Set { total_inverse: 0, ..small() }, 18),
    ]
}

/// A set for a function: a small tree where the function needs one, else of any height.
pub fn set_for(generator: &mut Generator, entry: Entry) -> Set {
    let shape = generator.pick(&SHAPES);
    let arity = shape.0 / shape.1;
    let small = match arity {
        2 => 5,
        3 | 4 => 3,
        _ => 2,
    };
    let needs_tree = matches!(
        entry,
        Entry::Build | Entry::Root | Entry::StorelessRoot | Entry::Open | Entry::Replace | Entry::Push | Entry::Extract
    );
    let greatest = if needs_tree || !generator.once_in(8) { small } else { greatest_height(shape.0, shape.1) };
    let height = generator.below(greatest as usize + 1) as u64;
    // Few rounds mostly, since they cost time.
    let (full, partial) = if generator.once_in(4) { (6, 64) } else { (2, 4) };
    let full_rounds = 2 + 2 * generator.below(full) as u64;
    let partial_rounds = generator.below(partial + 1) as u64;
    set_of(generator, shape, height, full_rounds, partial_rounds)
}

/// A place of the tree, at times the last.
fn place(generator: &mut Generator, set: &Set) -> u64 {
    let places = set.places() as u64;
    if generator.once_in(8) {
        places - 1
    } else {
        generator.number() % places
    }
}

/// A store of words: that of drawn leaves, or any words. At times a few numbers of it are not words.
fn store(generator: &mut Generator, set: &Set) -> Vec<u64> {
    let mut store = if generator.once_in(2) {
        let leaves = generator.words(set.leaf_words() as usize);
        tree::store(set, &leaves)
    } else {
        generator.words(set.store_words() as usize)
    };
    if generator.once_in(4) {
        for _ in 0..=generator.below(3) {
            let at = generator.below(store.len());
            store[at] = generator.no_word();
        }
    }
    store
}

/// The places under a drawn node of a level that the tree has, in any order.
pub fn places_under(generator: &mut Generator, set: &Set, level: u64) -> Vec<u64> {
    let under = set.arity().pow(level as u32) as usize;
    let first = generator.below(set.places() as usize / under) * under;
    generator.some_below(under, under).into_iter().map(|place| (first + place) as u64).collect()
}

/// How many nodes are above some places: on each level those that differ, once they are sorted.
pub fn nodes_above(arity: u64, height: u64, places: &[u64]) -> u64 {
    let mut nodes = places.to_vec();
    nodes.sort();
    let mut count = 0;
    for _ in 0..height {
        nodes.iter_mut().for_each(|node| *node /= arity);
        nodes.dedup();
        count += nodes.len() as u64;
    }
    count
}

/// Different places of the tree, so many or all of them, in any order. At times they are side by side, at times the last is among them,
/// and at times they rise.
fn places(generator: &mut Generator, set: &Set, count: usize) -> Vec<u64> {
    let all = set.places() as usize;
    let count = count.min(all);
    let (first, among) = if generator.once_in(3) { (generator.below(all - count + 1), count) } else { (0, all) };
    let mut places: Vec<u64> = generator.some_below(count, among).into_iter().map(|place| (first + place) as u64).collect();
    let last = all as u64 - 1;
    if generator.once_in(8) && !places.is_empty() && !places.contains(&last) {
        places[0] = last;
    }
    if generator.once_in(4) {
        places.sort();
    }
    places
}

/// Flat records: for each place it, a leaf, and junk.
pub fn records(generator: &mut Generator, set: &Set, places: &[u64]) -> Vec<u64> {
    let l = set.node_size as usize;
    let mut record = |&place: &u64| [vec![place], generator.words(l), generator.junk(6 - l)].concat();
    places.iter().flat_map(&mut record).collect()
}

/// Gives a record the place of another: the last that of the first, one that of the record before it, or any that of any. At times it
/// gets the leaf too. Where there is one record alone, it is there twice.
pub fn repeat_place(generator: &mut Generator, records: &mut Vec<u64>) {
    let count = records.len() / Record::NUMBERS;
    let (from, to) = match (count, generator.below(3)) {
        (0, _) => return,
        (1, _) => return records.extend_from_within(..Record::NUMBERS),
        (_, 0) => (0, count - 1),
        (_, 1) => {
            let at = generator.below(count - 1);
            (at, at + 1)
        }
        _ => {
            let two = generator.some_below(2, count);
            (two[0], two[1])
        }
    };
    let start = from * Record::NUMBERS;
    let end = start + generator.pick(&[1, Record::NUMBERS]);
    records.copy_within(start..end, to * Record::NUMBERS);
}

/// A place, and a leaf and siblings with the root that they end in.
pub fn offer(generator: &mut Generator, set: &Set) -> (u64, Vec<u64>, Vec<u64>, Vec<u64>) {
    let place = place(generator, set);
    let leaf = generator.words(set.node_size as usize);
    let siblings = generator.words(set.opening_words() as usize);
    let (_, root) = tree::climb(set, place, &leaf, &siblings);
    (place, leaf, siblings, root)
}

/// The contents of a file: mostly of few message blocks, at times of many, and at times with an end like that of padding.
fn contents(generator: &mut Generator, set: &Set) -> Vec<u8> {
    let block = 7 * (set.width - set.node_size) as usize;
    let blocks = if generator.once_in(16) { 40 } else { 3 };
    let length = generator.below(blocks * block);
    let mut contents = generator.bytes(length);
    if generator.once_in(4) {
        contents.push(1);
        contents.resize(contents.len() + generator.below(2 * block), 0);
    }
    contents
}

/// A call of the function under the set.
pub fn call(generator: &mut Generator, entry: Entry, set: Set) -> Call {
    let (t, l) = (set.width as usize, set.node_size as usize);
    let (numbers, buffers) = match entry {
        Entry::Sum | Entry::Difference => (generator.words(2), vec![]),
        Entry::Product => (generator.junk(2), vec![]),
        Entry::Power => {
            let edges = [0, 1, 2, 7, 1 << 63, P - 2, P - 1, P, P + 1, u64::MAX];
            let exponent = if generator.once_in(4) { generator.pick(&edges) } else { generator.number() };
            (vec![generator.junk(1)[0], exponent], vec![])
        }
        Entry::Inverse => (vec![generator.non_zero_word()], vec![]),
        Entry::SeventhRoot => {
            let word = generator.word();
            (vec![if generator.once_in(2) { field::power(word, 7) } else { word }], vec![])
        }
        Entry::Validate => {
            let Numbers { width, node_size, height, full_rounds, partial_rounds, diagonal, constants } = set.numbers();
            (vec![width, node_size, height, full_rounds, partial_rounds], vec![diagonal, constants])
        }
        Entry::ExchangeDiagonal => (vec![], vec![diagonal_of(generator, t)]),
        Entry::ExchangeHeight => {
            let greatest = greatest_height(set.width, set.node_size);
            (vec![generator.below(greatest as usize + 1) as u64], vec![])
        }
        Entry::Sizes => (vec![], vec![]),
        Entry::Permute | Entry::Unpermute => (vec![], vec![generator.words(t)]),
        Entry::Compress => (vec![], vec![generator.words(t), generator.junk(l)]),
        Entry::Build => {
            let leaves = generator.words(set.leaf_words() as usize);
            (vec![], vec![leaves, generator.junk(set.store_words() as usize)])
        }
        Entry::Root => (vec![], vec![store(generator, &set), generator.junk(l)]),
        Entry::StorelessRoot => (vec![], vec![generator.words(set.leaf_words() as usize), generator.junk(l)]),
        Entry::Open => {
            let opening = generator.junk(set.opening_words() as usize);
            (vec![place(generator, &set)], vec![store(generator, &set), opening])
        }
        Entry::Verify => {
            let (place, leaf, siblings, root) = offer(generator, &set);
            (vec![place], vec![root, leaf, siblings])
        }
        Entry::ReadLevel => {
            let level = generator.below(set.height.max(1) as usize);
            let words = set.part_words() as usize;
            let mut siblings = generator.junk(set.opening_words() as usize);
            if set.height > 0 {
                siblings[level * words..(level + 1) * words].copy_from_slice(&generator.words(words));
            }
            (vec![level as u64], vec![siblings, generator.junk(words)])
        }
        Entry::Replace => (vec![place(generator, &set)], vec![store(generator, &set), generator.words(l)]),
        Entry::Push => {
            // At times over sixteen.
            let most = if generator.once_in(16) { 40 } else { 5 };
            let count = generator.below(most);
            let places = places(generator, &set, count);
            let mut records = records(generator, &set, &places);
            if generator.once_in(8) {
                repeat_place(generator, &mut records);
            }
            (vec![], vec![store(generator, &set), records])
        }
        Entry::Extract => {
            // Without a collision: the same leaf twice, or another that is not accepted.
            let (place, leaf, siblings, root) = offer(generator, &set);
            let other = if generator.once_in(2) { leaf.clone() } else { generator.words(l) };
            let rows = (generator.junk(t), generator.junk(t));
            (vec![place], vec![root, leaf, siblings.clone(), other, siblings, rows.0, rows.1])
        }
        Entry::LeafOfFile => (vec![], vec![generator.junk(l)]),
    };
    let contents = if entry == Entry::LeafOfFile { contents(generator, &set) } else { vec![] };
    Call { entry, set, numbers, buffers, contents }
}
