//! Lists of changes to a tree, against a book of its leaves alone.

mod model;
mod support;

use std::collections::BTreeMap;

use model::field::is_word;
use opening_tree::{NotAccepted, Record, Refusal, Tree};
use support::calls::kept;
use support::cases::{nodes_above, set_of, SHAPES};
use support::generator::Generator;

const SEED: u64 = 7;
const LISTS: usize = 30;
const CHANGES: usize = 12;

/// What a change must answer, and whether the leaf goes in the book, from the change and the set alone.
struct Book {
    leaves: Vec<Vec<u64>>,
    l: usize,
    arity: u64,
    height: u64,
}

impl Book {
    fn replace(&mut self, place: u64, leaf: &[u64]) -> Result<u64, Refusal> {
        if leaf.len() != self.l {
            return Err(Refusal::BadLength);
        }
        self.push(&[(place, leaf)])
    }

    fn push(&mut self, records: &[(u64, &[u64])]) -> Result<u64, Refusal> {
        if records.iter().any(|&(place, _)| place >= self.leaves.len() as u64) {
            return Err(Refusal::BadPlace);
        }
        if records.iter().any(|(_, leaf)| !leaf.iter().all(|&n| is_word(n))) {
            return Err(Refusal::NotAWord);
        }
        let mut places: Vec<u64> = records.iter().map(|&(place, _)| place).collect();
        places.sort();
        if places.windows(2).any(|two| two[0] == two[1]) {
            return Err(Refusal::RepeatedPlace);
        }
        for &(place, leaf) in records {
            self.leaves[place as usize] = leaf.to_vec();
        }
        Ok(nodes_above(self.arity, self.height, &places))
    }
}

/// One of the numbers becomes one that is not a word.
fn damage_leaf(generator: &mut Generator, leaf: &mut [u64]) {
    leaf[generator.below(leaf.len())] = generator.no_word();
}

/// A place that the tree doesn't have.
fn place_beyond(generator: &mut Generator, places: u64) -> u64 {
    generator.pick(&[places, places + 1, u64::MAX])
}

/// A place and a leaf, either at times refused.
fn replacement(generator: &mut Generator, places: u64, l: usize) -> (u64, Vec<u64>) {
    let place = if generator.once_in(12) { place_beyond(generator, places) } else { generator.number() % places };
    let mut leaf = generator.words(l);
    if generator.once_in(12) {
        damage_leaf(generator, &mut leaf);
    }
    if generator.once_in(12) {
        leaf.push(0);
    }
    (place, leaf)
}

/// Leaves for different places. At times one of the places is none of the tree, one of the leaves is not of words, or a place stands
/// twice; then its leaf is at times the same.
fn records(generator: &mut Generator, places: u64, l: usize) -> Vec<(u64, Vec<u64>)> {
    let count = generator.pick(&[0, 1, 2, 3, 20]).min(places as usize);
    let chosen = generator.some_below(count, places as usize);
    let mut records: Vec<(u64, Vec<u64>)> = chosen.into_iter().map(|place| (place as u64, generator.words(l))).collect();
    if count == 0 {
        return records;
    }
    if generator.once_in(8) {
        records[generator.below(count)].0 = place_beyond(generator, places);
    }
    if generator.once_in(8) {
        let at = generator.below(count);
        damage_leaf(generator, &mut records[at].1);
    }
    if generator.once_in(4) {
        let (place, leaf) = generator.pick(&records);
        let leaf = if generator.once_in(2) { leaf } else { generator.words(l) };
        records.insert(generator.below(count + 1), (place, leaf));
    }
    records
}

/// How many records were pushed, none by a replacement, and the answer.
fn change(generator: &mut Generator, tree: &mut Tree, book: &mut Book) -> (usize, Result<u64, Refusal>) {
    let places = tree.set().places();
    if generator.once_in(2) {
        let (place, leaf) = replacement(generator, places, book.l);
        let answer = tree.replace(place, &leaf);
        assert_eq!(answer, book.replace(place, &leaf));
        return (0, answer);
    }
    let drawn = records(generator, places, book.l);
    let records: Vec<Record> = drawn.iter().map(|(place, leaf)| Record::new(*place, leaf).expect("at most six words")).collect();
    let noted: Vec<(u64, &[u64])> = drawn.iter().map(|(place, leaf)| (*place, &leaf[..])).collect();
    let answer = tree.push(&records);
    assert_eq!(answer, book.push(&noted));
    (records.len(), answer)
}

/// The tree is the one of the book's leaves, and each place opens to its leaf and to no other.
fn compare(tree: &Tree, book: &Book) {
    let set = tree.set();
    let leaves = book.leaves.concat();
    assert_eq!(tree.store(), Tree::build(set, &leaves).expect("words").store());
    assert_eq!(tree.root(), set.storeless_root(&leaves).expect("words"));
    for (place, leaf) in (0..).zip(&book.leaves) {
        assert_eq!(tree.leaf(place), Ok(&leaf[..]));
        let opening = tree.open(place).expect("a place of the tree");
        assert_eq!(set.verify(&tree.root(), leaf, &opening), Ok(()));
        let mut other = leaf.clone();
        other[0] = model::field::add(other[0], 1);
        assert_eq!(set.verify(&tree.root(), &other, &opening), Err(NotAccepted::Rejected));
    }
}

#[test]
fn a_tree_is_that_of_its_leaves_after_any_changes() {
    let generator = &mut Generator(SEED);
    let (mut done, mut several, mut refused) = (0, 0, BTreeMap::new());
    for shape in SHAPES {
        for _ in 0..LISTS {
            let height = generator.below(if shape.0 / shape.1 <= 4 { 4 } else { 2 }) as u64;
            let set = kept(&set_of(generator, shape, height, 4, 3));
            let leaves = generator.words(set.leaf_words());
            let mut tree = Tree::build(&set, &leaves).expect("words");
            let l = set.node_size();
            let leaves = leaves.chunks(l).map(<[u64]>::to_vec).collect();
            let mut book = Book { leaves, l, arity: shape.0 / shape.1, height };
            for _ in 0..CHANGES {
                match change(generator, &mut tree, &mut book) {
                    (records, Ok(_)) => {
                        done += 1;
                        several += u64::from(records > 1);
                    }
                    (_, Err(refusal)) => *refused.entry(refusal.number()).or_insert(0) += 1,
                }
            }
            compare(&tree, &book);
        }
    }
    println!("{done} done, of which {several} were pushes of several records; refused, by number: {refused:?}");
    assert!(done > 1000 && several > 300);
    assert_eq!(refused.keys().collect::<Vec<_>>(), [&10, &11, &12, &17]);
    assert!(refused.values().all(|&count| count > 50));
}
