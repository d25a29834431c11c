//! Changes to a call, most of which some row refuses or a verdict rejects.

use super::calls::{Call, Entry};
use super::cases::{fill_beyond, repeat_place};
use super::generator::Generator;
use crate::model::field::{add, inverse, is_word, subtract, P};
use crate::model::set::Set;

/// What is put in the place of any number.
pub const EDGES: [u64; 4] = [P - 1, P, P + 1, u64::MAX];

/// What is put in the place of a height.
const HEIGHTS: [u64; 23] =
    [0, 8, 9, 10, 11, 12, 13, 14, 16, 17, 20, 21, 31, 32, 33, 34, 63, 64, 65, 128, 1 << 32, (1 << 32) + 1, u64::MAX];

/// One change.
pub fn damage(generator: &mut Generator, call: &mut Call) {
    if call.entry.is_of_field() {
        let at = generator.below(call.numbers.len());
        call.numbers[at] = generator.pick(&[0, 1, P - 1, P, P + 1, u64::MAX]);
        return;
    }
    if call.entry == Entry::Validate {
        return damage_validation(generator, call);
    }
    // Half of the changes are to the set, but for the sizes, which have nothing else.
    if call.entry == Entry::Sizes || generator.once_in(2) {
        damage_set(generator, &mut call.set);
    } else if call.entry == Entry::ExchangeDiagonal {
        damage_diagonal(generator, &mut call.buffers[0]);
    } else if call.entry == Entry::ExchangeHeight {
        call.numbers[0] = generator.pick(&HEIGHTS);
    } else if !call.numbers.is_empty() && generator.once_in(4) {
        call.numbers[0] = place(generator, call);
    } else if matches!(call.entry, Entry::Verify | Entry::Extract) && generator.once_in(4) {
        swap_leaf(generator, call);
    } else if call.entry == Entry::LeafOfFile && generator.once_in(2) {
        damage_contents(generator, &mut call.contents);
    } else {
        damage_buffer(generator, call);
    }
}

/// Swaps the leaf with one of its siblings.
fn swap_leaf(generator: &mut Generator, call: &mut Call) {
    let [_, leaf, siblings, ..] = &mut call.buffers[..] else { panic!("an opening has a leaf and siblings") };
    let l = leaf.len().max(1);
    if siblings.len() >= l {
        let start = generator.below(siblings.len() / l) * l;
        siblings[start..].iter_mut().zip(leaf).for_each(|(sibling, word)| std::mem::swap(sibling, word));
    }
}

/// A place or level that is mostly too high.
fn place(generator: &mut Generator, call: &Call) -> u64 {
    let set = &call.set;
    let small = set.height <= 32 && (1..=12).contains(&set.node_size) && (1..=12).contains(&set.width);
    let bound = match call.entry {
        Entry::ReadLevel => set.height,
        _ if small => set.places().min(u64::MAX.into()) as u64,
        _ => 1 << 32,
    };
    let places = [0, bound.wrapping_sub(1), bound, bound.saturating_add(1), 1 << 32, 1 << 63, u64::MAX];
    generator.pick(&places)
}

/// What validation is given: a list of another length, or another number.
fn damage_validation(generator: &mut Generator, call: &mut Call) {
    let numbers = (&mut call.numbers[..]).try_into().expect("five numbers");
    let [diagonal, constants] = &mut call.buffers[..] else { panic!("validation has two lists") };
    match generator.below(10) {
        0 => resize(generator, diagonal),
        1 => resize(generator, constants),
        _ => damage_numbers(generator, numbers, diagonal, constants),
    }
}

/// A set that is handed in: other kept values, other numbers in the places that it does not use, or another of its numbers and words. After
/// these the values that it keeps are mostly those of its D.
fn damage_set(generator: &mut Generator, set: &mut Set) {
    match generator.below(10) {
        0 | 1 => damage_kept_values(generator, set),
        2 => fill_beyond(generator, set),
        _ => {
            let mut numbers = set.five();
            let (words, constants) = (set.used_diagonal().len(), set.used_constants().len());
            damage_numbers(generator, &mut numbers, &mut set.diagonal[..words], &mut set.constants[..constants]);
            [set.width, set.node_size, set.height, set.full_rounds, set.partial_rounds] = numbers;
            if !generator.once_in(4) {
                set.keep();
            }
        }
    }
}

/// One of the kept values that are read becomes another; or all become others.
fn damage_kept_values(generator: &mut Generator, set: &mut Set) {
    let words = set.used_diagonal().len();
    let at = generator.below(words + 2);
    if at < words {
        set.inverses[at] = generator.pick(&others(set.inverses[at]));
    } else if at == words {
        set.total_inverse = generator.pick(&others(set.total_inverse));
    } else {
        set.inverses[..words].copy_from_slice(&generator.words(words));
        set.total_inverse = generator.word();
    }
}

/// Other numbers for a kept value: one more, one less, p more, which is congruent where it fits in 64 bits, p less it, and edges.
pub fn others(value: u64) -> Vec<u64> {
    let near = [value.wrapping_add(1), value.wrapping_sub(1), value.wrapping_add(P), P.wrapping_sub(value)];
    near.into_iter().chain([0, 1]).chain(EDGES).filter(|&other| other != value).collect()
}

/// One of the five numbers, or a word of D or C.
fn damage_numbers(generator: &mut Generator, numbers: &mut [u64; 5], diagonal: &mut [u64], constants: &mut [u64]) {
    let [width, node_size, height, full_rounds, partial_rounds] = numbers;
    match generator.below(8) {
        0 => *width = generator.pick(&[0, 1, 2, 3, 4, 5, 6, 7, 8, 9, 10, 11, 12, 13, 16, 24, 1 << 32, (1 << 32) + 4, u64::MAX]),
        1 => {
            let sizes = [0, 1, 2, 3, 4, 5, 6, 7, 8, 9, 12, 13, 24, *width, width.wrapping_mul(2), (1 << 32) + 2, u64::MAX];
            *node_size = generator.pick(&sizes);
        }
        2 => {
            *full_rounds =
                generator.pick(&[0, 1, 2, 3, 5, 7, 9, 11, 12, 13, 14, 16, 1 << 32, (1 << 32) + 2, u64::MAX - 1, u64::MAX])
        }
        3 => *partial_rounds = generator.pick(&[0, 63, 64, 65, 66, 128, 1 << 32, 1 << 63, u64::MAX]),
        4 => *height = generator.pick(&HEIGHTS),
        5 => put(if generator.once_in(2) { diagonal } else { constants }, generator, EDGES.to_vec()),
        6 => put_zeros(generator, diagonal),
        _ => make_cancelling(generator, diagonal),
    }
}

/// A D to exchange: of another length, with a number that is not a word, with zeros, or with inverses that cancel.
fn damage_diagonal(generator: &mut Generator, diagonal: &mut Vec<u64>) {
    match generator.below(4) {
        0 => resize(generator, diagonal),
        1 => put(diagonal, generator, EDGES.to_vec()),
        2 => put_zeros(generator, diagonal),
        _ => make_cancelling(generator, diagonal),
    }
}

/// Zeros in the diagonal: mostly two, for refusal 8; one, which alone is no refusal; or nothing but zeros.
fn put_zeros(generator: &mut Generator, diagonal: &mut [u64]) {
    let count = generator.pick(&[1, 2, 2, 2, diagonal.len()]).min(diagonal.len());
    for at in generator.some_below(count, diagonal.len()) {
        diagonal[at] = 0;
    }
}

/// Changes one word of the diagonal so that 1 plus the inverses of all but zeros is 0, if there is such a word. Without a zero refusal 9
/// applies, and beside one it does not. At times another word becomes 0 for this.
fn make_cancelling(generator: &mut Generator, diagonal: &mut [u64]) {
    let two = generator.some_below(diagonal.len().min(2), diagonal.len());
    let [at, other] = two[..] else { return };
    if generator.once_in(4) {
        diagonal[other] = 0;
    }
    if let Some(word) = cancelling_word(diagonal, at) {
        diagonal[at] = word;
    }
}

/// The word for this place with which 1 plus the inverses of the diagonal's words other than 0 is 0, if there is one.
pub fn cancelling_word(diagonal: &[u64], at: usize) -> Option<u64> {
    let others = diagonal.iter().enumerate().filter(|&(i, &d)| i != at && d != 0 && is_word(d));
    let sum = others.fold(1, |sum, (_, &d)| add(sum, inverse(d)));
    (sum != 0).then(|| inverse(subtract(0, sum)))
}

/// Another length.
fn resize(generator: &mut Generator, list: &mut Vec<u64>) {
    let lengths = [0, list.len() / 2, list.len().saturating_sub(1), list.len() + 1, list.len() + 7, list.len() * 2];
    let length = generator.pick(&lengths);
    list.resize(length, 1);
}

/// One of these numbers, anywhere in the list.
fn put(list: &mut [u64], generator: &mut Generator, numbers: Vec<u64>) {
    if !list.is_empty() {
        let at = generator.below(list.len());
        list[at] = generator.pick(&numbers);
    }
}

fn damage_buffer(generator: &mut Generator, call: &mut Call) {
    let l = call.set.node_size.clamp(1, 12) as usize;
    let at = generator.below(call.buffers.len());
    let is_records = call.entry == Entry::Push && at == 1;
    let buffer = &mut call.buffers[at];
    match generator.below(5) {
        0 => resize(generator, buffer),
        1 => put(buffer, generator, EDGES.to_vec()),
        // A place of a record.
        2 if is_records && !buffer.is_empty() => {
            let record = generator.below(buffer.len().div_ceil(7));
            buffer[record * 7] = generator.pick(&[1, 2, 1 << 32, (1 << 32) - 1, u64::MAX]);
        }
        3 if is_records => repeat_place(generator, buffer),
        // Two nodes swapped: leaves, siblings or whatever the buffer has.
        2 => {
            let nodes = buffer.len() / l;
            if nodes > 0 {
                let (a, b) = (generator.below(nodes), generator.below(nodes));
                (0..l).for_each(|i| buffer.swap(a * l + i, b * l + i));
            }
        }
        // Another word.
        _ => {
            let word = generator.word();
            put(buffer, generator, vec![word]);
        }
    }
}

/// Other contents, of which many would be equal if padding were not told from them. None is refused.
fn damage_contents(generator: &mut Generator, contents: &mut Vec<u8>) {
    let length = contents.len();
    match generator.below(5) {
        0 => contents.truncate(length.saturating_sub(1 + generator.below(14))),
        1 => contents.push(generator.pick(&[0, 1, 255])),
        2 => contents.resize(length + generator.below(100), 0),
        3 => contents.insert(generator.below(length + 1), 0),
        _ if length > 0 => contents[generator.below(length)] = generator.number() as u8,
        _ => contents.push(0),
    }
}
