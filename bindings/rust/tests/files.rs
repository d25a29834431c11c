//! Leaves of files: beside the model and the reference, of contents that are too long, and in trees.

mod model;
mod support;

use std::fmt::Write;

use model::field::P;
use model::set::Set;
use opening_tree::{entries, published, NotAccepted, Refusal, Tree};
use support::calls::kept;
use support::cases::{refused_sets, set_of, small, SHAPES};
use support::generator::Generator;
use support::mapping::Mapping;
use support::reference::{text, Input};

const SEED: u64 = 20260725;

/// The bytes of a message block.
fn block_bytes(shape: (u64, u64)) -> usize {
    7 * (shape.0 - shape.1) as usize
}

/// The leaf of a file: the model's, and also that of each function, whatever was in the buffer.
fn leaf_of(generator: &mut Generator, set: &Set, contents: &[u8]) -> Vec<u64> {
    let leaf = model::files::leaf(set, contents);
    let (kept, l) = (kept(set), set.node_size as usize);
    let (mut by_entry, mut written) = (generator.junk(l), generator.junk(l));
    assert_eq!(entries::leaf_of_file(&set.array(), contents, &mut by_entry), Ok(()));
    assert_eq!(by_entry, leaf, "{contents:?} under {set:?}");
    assert_eq!(kept.write_leaf_of_file(contents, &mut written), Ok(()));
    assert_eq!(written, leaf);
    assert_eq!(kept.leaf_of_file(contents), Ok(written));
    leaf
}

#[test]
fn every_length_up_to_three_blocks() {
    let generator = &mut Generator(SEED);
    for shape in SHAPES {
        for (full_rounds, partial_rounds) in [(2, 1), (8, 22)] {
            let set = set_of(generator, shape, 1, full_rounds, partial_rounds);
            for length in 0..=3 * block_bytes(shape) {
                let contents = generator.bytes(length);
                leaf_of(generator, &set, &contents);
            }
        }
    }
}

/// The number of bytes takes another digit in the message.
#[test]
fn lengths_at_powers_of_ten() {
    let generator = &mut Generator(SEED + 1);
    for shape in [(4, 1), (8, 4), (12, 6)] {
        let set = set_of(generator, shape, 0, 2, 0);
        for power in 1..=6 {
            let most = 10usize.pow(power);
            let contents = generator.bytes(most);
            assert_ne!(leaf_of(generator, &set, &contents), leaf_of(generator, &set, &contents[..most - 1]));
        }
    }
}

/// Contents that are easily taken for one another: with and without what padding is made of, at the end or before the contents.
fn near_misses(contents: &[u8], block: usize) -> Vec<Vec<u8>> {
    let message = [b"blob ", contents.len().to_string().as_bytes(), &[0], contents].concat();
    let mut padded = [&message[..], &[1]].concat();
    padded.resize(padded.len().next_multiple_of(block), 0);
    let mut made = vec![message, padded];
    for start in [&[][..], &[0], &[1]] {
        made.push([start, contents].concat());
    }
    made.extend(contents.split_last().map(|(_, rest)| rest.to_vec()));
    for end in [&[0][..], &[1], &[1, 1], &[1, 0, 1]] {
        for zeros in [0, 1, 6, 7, block - 1, block, 2 * block] {
            made.push([contents, end, &vec![0; zeros]].concat());
        }
    }
    made.sort();
    made.dedup();
    made
}

#[test]
fn near_misses_have_leaves_of_their_own() {
    let generator = &mut Generator(SEED + 2);
    for shape in SHAPES {
        let set = set_of(generator, shape, 1, 4, 3);
        // Messages that end at each place of a block.
        for length in 0..=block_bytes(shape) {
            let files = near_misses(&generator.bytes(length), block_bytes(shape));
            let mut leaves: Vec<Vec<u64>> = files.iter().map(|contents| leaf_of(generator, &set, contents)).collect();
            leaves.sort();
            leaves.dedup();
            assert_eq!(leaves.len(), files.len(), "two of the files have one leaf: {files:?} under {set:?}");
        }
    }
}

/// Files of zeros alone, whose words are 0 but for the first and the last few.
#[test]
fn zeros_have_leaves_of_their_own() {
    let generator = &mut Generator(SEED + 3);
    for shape in SHAPES {
        let set = set_of(generator, shape, 1, 2, 2);
        let most = 3 * block_bytes(shape);
        let mut leaves: Vec<Vec<u64>> = (0..=most).map(|length| leaf_of(generator, &set, &vec![0; length])).collect();
        leaves.sort();
        leaves.dedup();
        assert_eq!(leaves.len(), most + 1, "{set:?}");
    }
}

/// A leaf with l numbers of the caller's, which a refused call leaves.
const LEAF: [u64; 2] = [P, 9];

/// The refusal of these contents, which the model gives too, and after which the leaf is as it was.
fn refusal(set: &Set, contents: &[u8], leaf: &[u64]) -> Refusal {
    let (mut by_library, mut by_model) = (leaf.to_vec(), leaf.to_vec());
    let refusal = entries::leaf_of_file(&set.array(), contents, &mut by_library).expect_err("refused");
    assert_eq!(model::entries::leaf_of_file(set, contents, &mut by_model), Err(refusal.number()));
    assert_eq!((&by_library[..], &by_model[..]), (leaf, leaf));
    refusal
}

#[test]
fn contents_of_2_to_the_32_bytes_are_refused_unread() {
    for bytes in [1 << 32, (1 << 32) + 1, 1 << 33] {
        let mapping = Mapping::of_bytes(bytes);
        let (contents, before) = (mapping.bytes(), mapping.pages_in());
        assert_eq!(refusal(&small(), contents, &LEAF), Refusal::FileTooLong);
        assert_eq!(kept(&small()).leaf_of_file(contents), Err(Refusal::FileTooLong));
        let mut leaf = LEAF;
        assert_eq!(kept(&small()).write_leaf_of_file(contents, &mut leaf), Err(Refusal::FileTooLong));
        assert_eq!(leaf, LEAF);
        let other = published::width_12(6, 3).expect("accepted");
        assert_eq!(other.leaf_of_file(contents), Err(Refusal::FileTooLong));
        assert_eq!(mapping.pages_in(), before, "the contents were read");
        std::hint::black_box(contents[bytes / 2]);
        assert!(mapping.pages_in() > before, "a page that is read does not show here");
    }
}

#[test]
fn a_set_and_a_leaf_are_tested_before_the_contents() {
    let mapping = Mapping::of_bytes(1 << 32);
    let (long, before) = (mapping.bytes(), mapping.pages_in());
    for contents in [long, b"", b"hello\n"] {
        for length in [0, 1, 3, 4, 6] {
            assert_eq!(refusal(&small(), contents, &vec![P; length]), Refusal::BadLength);
            let mut leaf = vec![P; length];
            assert_eq!(kept(&small()).write_leaf_of_file(contents, &mut leaf), Err(Refusal::BadLength));
            assert_eq!(leaf, vec![P; length]);
        }
        for (set, number) in refused_sets() {
            for leaf in [&LEAF[..], &[], &[7; 3]] {
                assert_eq!(refusal(&set, contents, leaf).number(), number);
            }
        }
    }
    assert_eq!(mapping.pages_in(), before, "the contents were read");
}

/// A tree of files: each is accepted at its place, also after another file is put in the place of one.
#[test]
fn leaves_of_files_stand_in_trees() {
    let generator = &mut Generator(SEED + 4);
    for shape in SHAPES {
        let set = &kept(&set_of(generator, shape, 2, 4, 3));
        let leaf = |contents: &[u8]| set.leaf_of_file(contents).expect("not so long");
        let mut files: Vec<Vec<u8>> = (0..set.places() as usize).map(|place| generator.bytes(8 + place)).collect();
        let leaves: Vec<u64> = files.iter().flat_map(|contents| leaf(contents)).collect();
        let mut tree = Tree::build(set, &leaves).expect("words");
        let changed = generator.below(files.len());
        let another = b"another\n".to_vec();
        for _ in 0..2 {
            for (place, contents) in (0..).zip(&files) {
                let opening = tree.open(place).expect("a place of the tree");
                assert_eq!(set.verify(&tree.root(), &leaf(contents), &opening), Ok(()));
                let other = leaf(&[&contents[..], &[0]].concat());
                assert_eq!(set.verify(&tree.root(), &other, &opening), Err(NotAccepted::Rejected));
            }
            assert_eq!(tree.replace(changed as u64, &leaf(&another)), Ok(2));
            files[changed].clone_from(&another);
        }
    }
}

/// The line of a case, as the reference prints it.
fn line(set: &Set, contents: &[u8], leaf_words: usize) -> String {
    let Set { width, node_size, height, full_rounds, partial_rounds, .. } = set;
    let mut line = format!("{width} {node_size} {height} {full_rounds} {partial_rounds} bytes {} leaf_of_file ", contents.len());
    let before = vec![7; leaf_words];
    let mut leaf = before.clone();
    let answer = entries::leaf_of_file(&set.array(), contents, &mut leaf);
    let mut by_model = before.clone();
    assert_eq!(model::entries::leaf_of_file(set, contents, &mut by_model), answer.map_err(Refusal::number));
    assert_eq!(by_model, leaf);
    match answer {
        Ok(()) => {
            line.push('=');
            leaf.iter().for_each(|word| write!(line, " {word}").expect("text"));
        }
        Err(refusal) => {
            let left = if leaf == before { "kept" } else { "changed" };
            write!(line, "refused {} {left}", refusal.number()).expect("text");
        }
    }
    line
}

/// The cases of `reference/file_cases.py`, whose docstring has the form of the input, with the lines of `reference/file_vectors.py`.
#[test]
fn the_reference_has_the_same_leaves() {
    const LEAF_PLACES: u64 = 16;
    const CONTENTS_PLACES: usize = 16384;
    let mut input = Input::new(&text("crates/file_vectors/stdin"));
    let mut lines = Vec::new();
    for _ in 0..input.number() {
        let kind = input.number();
        let set = input.set();
        let leaf_words = input.number().min(LEAF_PLACES) as usize;
        let lengths = match kind {
            1 => None,
            2 => Some(input.number() as usize..=input.number() as usize),
            _ => panic!("no such case: {kind}"),
        };
        let contents: Vec<u8> = input.list(CONTENTS_PLACES).iter().map(|number| (number % 256) as u8).collect();
        for length in lengths.unwrap_or(contents.len()..=contents.len()) {
            lines.push(line(&set, &contents[..length], leaf_words));
        }
    }
    assert!(input.is_at_its_end());
    let printed = text("crates/file_vectors/stdout");
    let printed: Vec<&str> = printed.lines().collect();
    assert!(!lines.is_empty());
    for (at, (own, printed)) in lines.iter().zip(&printed).enumerate() {
        assert_eq!(own, printed, "line {}", at + 1);
    }
    assert_eq!(lines.len(), printed.len());
}
