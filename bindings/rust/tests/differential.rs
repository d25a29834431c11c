//! The library against the model, on calls that are done and calls that are damaged. Every answer and every buffer is compared.

mod model;
mod support;

use model::field::{add, inverse, subtract, P};
use model::set::{Set, DIAGONAL_PLACES};
use opening_tree::Record;
use support::calls::{kept, Answer, Call, Entry};
use support::cases::{call, greatest_height, nodes_above, places_under, records, set_for, set_of, with_diagonal, SHAPES};
use support::collisions::{collision, Collision, Kind};
use support::damage::{cancelling_word, damage, others, EDGES};
use support::generator::Generator;
use support::tally::Tally;

const SEED: u64 = 20260101;
const DRAWN_CALLS: usize = 10_000;
const LEAST_CALLS: u64 = 100_000;

#[test]
fn library_answers_as_the_model() {
    let generator = &mut Generator(SEED);
    let tally = &mut Tally::default();
    drawn_calls(generator, tally);
    let [drawn, _] = tally.pushes();
    heights(generator, tally);
    edges_of_sets(generator, tally);
    zeros_of_sets(generator, tally);
    kept_values_of_sets(generator, tally);
    edges_of_calls(generator, tally);
    let [at_edges, _] = tally.pushes();
    long_pushes(generator, tally);
    collisions(generator, tally);
    tally.print();
    assert!(tally.total() >= LEAST_CALLS);
    tally.assert_all_reached();
    let levels = tally.levels();
    assert!(levels.len() >= 4 && levels.iter().all(|&count| count >= 20), "{levels:?}");
    assert!(levels.iter().sum::<u64>() >= 500, "{levels:?}");
    let [_, long] = tally.pushes();
    assert!(drawn.done >= 1_000 && drawn.repeated >= 400, "{drawn:?}");
    assert!(at_edges.repeated >= drawn.repeated + 100, "{at_edges:?} after {drawn:?}");
    assert!(long.done >= 50 && long.repeated >= 500, "{long:?}");
}

/// Every function with drawn arguments: as they are, with one change, or with two.
fn drawn_calls(generator: &mut Generator, tally: &mut Tally) {
    for entry in Entry::ALL {
        for _ in 0..DRAWN_CALLS {
            let set = set_for(generator, entry);
            let mut call = call(generator, entry, set);
            for _ in 0..generator.pick(&[0, 0, 1, 1, 1, 2]) {
                damage(generator, &mut call);
            }
            tally.compare(call);
        }
    }
}

/// The sizes of every shape at every height, which are those of a set that is kept, and the first height that is refused.
fn heights(generator: &mut Generator, tally: &mut Tally) {
    for shape in SHAPES {
        let greatest = greatest_height(shape.0, shape.1);
        for height in 0..=greatest {
            let set = set_of(generator, shape, height, 2, 1);
            let kept = kept(&set);
            let words = [kept.leaf_words(), kept.store_words(), kept.opening_words()].map(|words| words as u64);
            assert_eq!(kept.places() as u128, set.places());
            assert_eq!(tally.compare(Call::sizes(set)), Answer::Sizes(words));
        }
        let taller = Set { height: greatest + 1, ..set_of(generator, shape, greatest, 2, 1) };
        assert_eq!(tally.compare(Call::sizes(taller)), Answer::Refused(5));
    }
}

/// Every place of D, and of C those that a set uses and those next to them, with each number at the edge of being a word; after a change
/// of D with the values that were kept, and with those of the new D.
fn edges_of_sets(generator: &mut Generator, tally: &mut Tally) {
    for shape in [(4, 2), (8, 4), (12, 3)] {
        for entry in Entry::with_set() {
            let set = set_of(generator, shape, 1, 2, 3);
            let call = done_call(generator, entry, set);
            for edge in EDGES.into_iter().chain([0]) {
                for i in 0..DIAGONAL_PLACES {
                    let mut call = call.clone();
                    call.set.diagonal[i] = edge;
                    tally.compare(call.clone());
                    call.set.keep();
                    tally.compare(call);
                }
                for i in 0..call.set.used_constants().len() + 2 {
                    let mut call = call.clone();
                    call.set.constants[i] = edge;
                    tally.compare(call);
                }
            }
        }
    }
}

/// One zero at every place of the diagonal, also where the other words cancel beside it, is taken. Two are refused at every two places, and
/// words that cancel without a zero are refused.
fn zeros_of_sets(generator: &mut Generator, tally: &mut Tally) {
    for shape in [(4, 1), (8, 2), (12, 6)] {
        for entry in Entry::ALL.into_iter().filter(|entry| !entry.is_of_field()) {
            let words: Vec<u64> = (0..shape.0).map(|_| generator.non_zero_word()).collect();
            let set = with_diagonal(set_of(generator, shape, 1, 2, 3), &words);
            let call = done_call(generator, entry, set);
            let mut answer = |diagonal: &[u64]| tally.compare(call.with_diagonal(diagonal));
            let is_of_set = |answer: Answer| matches!(answer, Answer::Refused(1..=9 | 18));
            for i in 0..words.len() {
                let mut diagonal = words.clone();
                diagonal[i] = cancelling_word(&diagonal, i).expect("drawn words don't cancel");
                assert_eq!(answer(&diagonal), Answer::Refused(9), "{diagonal:?}");
                diagonal[i] = 0;
                assert!(!is_of_set(answer(&diagonal)), "{diagonal:?}");
                let mut beside = diagonal.clone();
                let other = (i + 1) % beside.len();
                beside[other] = cancelling_word(&beside, other).expect("drawn words don't cancel");
                assert!(!is_of_set(answer(&beside)), "{beside:?}");
                for j in 0..i {
                    diagonal[j] = 0;
                    assert_eq!(answer(&diagonal), Answer::Refused(8), "{diagonal:?}");
                    diagonal[j] = words[j];
                }
            }
        }
    }
}

/// Diagonals of t words: drawn ones; ones whose inverses are small or close to p, and add up to 0, so that the inverse of 1 plus their sum is
/// 1; and these with a zero, at the first place and at another.
fn diagonals(generator: &mut Generator, t: usize) -> [Vec<u64>; 4] {
    let drawn = (0..t).map(|_| generator.non_zero_word()).collect();
    let balanced: Vec<u64> = (1..).flat_map(|n| [inverse(n), subtract(0, inverse(n))]).take(t).collect();
    let [mut first, mut other] = [balanced.clone(), balanced.clone()];
    first[0] = 0;
    other[1 + generator.below(t - 1)] = 0;
    [drawn, balanced, first, other]
}

/// Each kept value changed in turn is refused with 18, whatever else the function is handed, but beyond the words of D it changes nothing.
/// What D is refused with comes first, whatever values are kept.
fn kept_values_of_sets(generator: &mut Generator, tally: &mut Tally) {
    for shape in [(4, 2), (8, 4), (12, 3)] {
        for entry in Entry::with_set() {
            for diagonal in diagonals(generator, shape.0 as usize) {
                let set = with_diagonal(set_of(generator, shape, 1, 2, 3), &diagonal);
                let call = done_call(generator, entry, set);
                let answer = tally.compare(call.clone());
                each_kept_value(&call, &answer, tally);
                refused_before_kept_values(generator, &call, tally);
            }
        }
    }
}

/// The call with arguments beside its set that do not fit.
fn unfit(call: &Call) -> Call {
    let mut call = call.clone();
    call.buffers.iter_mut().for_each(|buffer| buffer.push(P));
    call.numbers.fill(u64::MAX);
    call
}

/// Of a call that the set does not refuse.
fn each_kept_value(call: &Call, answer: &Answer, tally: &mut Tally) {
    let words = call.diagonal().len();
    let mut is_wrong = |set: Set| {
        let call = Call { set, ..call.clone() };
        assert_eq!(tally.compare(unfit(&call)), Answer::Refused(18), "{call:?}");
        assert_eq!(tally.compare(call), Answer::Refused(18));
    };
    for i in 0..words {
        for other in others(call.set.inverses[i]) {
            let mut set = call.set.clone();
            set.inverses[i] = other;
            is_wrong(set);
        }
    }
    for total_inverse in others(call.set.total_inverse) {
        is_wrong(Set { total_inverse, ..call.set.clone() });
    }
    for i in words..DIAGONAL_PLACES {
        for other in others(call.set.inverses[i]) {
            let mut call = call.clone();
            call.set.inverses[i] = other;
            assert_eq!(tally.compare(call), *answer);
        }
    }
}

/// A D that is refused with 7, 8 or 9, with the values that were kept, with those that would be kept, and with any.
fn refused_before_kept_values(generator: &mut Generator, call: &Call, tally: &mut Tally) {
    let words = call.diagonal().len();
    let mut no_word = call.diagonal().to_vec();
    no_word[generator.below(words)] = P;
    let mut two_zeros = call.diagonal().to_vec();
    two_zeros[..2].fill(0);
    let mut cancelling: Vec<u64> = (0..words).map(|_| generator.non_zero_word()).collect();
    cancelling[0] = cancelling_word(&cancelling, 0).expect("drawn words don't cancel");
    for (diagonal, number) in [(no_word, 7), (two_zeros, 8), (cancelling, 9)] {
        let would_be = Call { set: with_diagonal(call.set.clone(), &diagonal), ..call.clone() };
        let mut were = would_be.clone();
        (were.set.inverses, were.set.total_inverse) = (call.set.inverses, call.set.total_inverse);
        let mut any = would_be.clone();
        any.set.inverses.copy_from_slice(&generator.junk(DIAGONAL_PLACES));
        any.set.total_inverse = generator.number();
        let mut zeros = would_be.clone();
        (zeros.set.inverses, zeros.set.total_inverse) = ([0; DIAGONAL_PLACES], 0);
        for call in [would_be, were, any, zeros] {
            assert_eq!(tally.compare(unfit(&call)), Answer::Refused(number), "{call:?}");
            assert_eq!(tally.compare(call), Answer::Refused(number));
        }
    }
}

/// Every number of every buffer at the edge of being a word, every length that is one off, and every place that is near the last.
fn edges_of_calls(generator: &mut Generator, tally: &mut Tally) {
    for shape in SHAPES {
        for height in 0..=2 {
            for entry in Entry::ALL.into_iter().filter(|&entry| entry != Entry::Sizes) {
                let set = set_of(generator, shape, height, 2, 1);
                edges_of_call(&done_call(generator, entry, set), tally);
            }
        }
    }
}

/// A call that is done, but for an extraction without a collision, and a reader where there are no levels.
fn done_call(generator: &mut Generator, entry: Entry, set: Set) -> Call {
    loop {
        let call = call(generator, entry, set.clone());
        let is_refused = matches!(call.clone().ask_model(), Answer::Refused(_));
        let must_be = entry == Entry::Extract || (entry == Entry::ReadLevel && set.height == 0);
        let is_empty_push = entry == Entry::Push && call.buffers[1].is_empty();
        if is_refused == must_be && !is_empty_push {
            return call;
        }
    }
}

fn edges_of_call(call: &Call, tally: &mut Tally) {
    numbers_at_edges(call, tally);
    lengths_at_edges(call, tally);
    places_at_edges(call, tally);
    match call.entry {
        Entry::Push => repeats_at_edges(call, tally),
        Entry::LeafOfFile => contents_at_edges(call, tally),
        _ => {}
    }
}

fn numbers_at_edges(call: &Call, tally: &mut Tally) {
    for (i, buffer) in call.buffers.iter().enumerate() {
        for j in 0..buffer.len() {
            for edge in EDGES {
                let mut call = call.clone();
                call.buffers[i][j] = edge;
                tally.compare(call);
            }
        }
    }
}

fn lengths_at_edges(call: &Call, tally: &mut Tally) {
    for (i, buffer) in call.buffers.iter().enumerate() {
        for length in [0, buffer.len().saturating_sub(1), buffer.len() + 1, buffer.len() + 7] {
            let mut call = call.clone();
            call.buffers[i].resize(length, 0);
            tally.compare(call);
        }
    }
}

fn places_at_edges(call: &Call, tally: &mut Tally) {
    let bound = match call.entry {
        Entry::ReadLevel => call.set.height,
        Entry::ExchangeHeight => 1 + greatest_height(call.set.width, call.set.node_size),
        _ => call.set.places() as u64,
    };
    for i in 0..call.numbers.len() {
        for number in [0, bound.wrapping_sub(1), bound, bound + 1].into_iter().chain(EDGES) {
            let mut call = call.clone();
            call.numbers[i] = number;
            tally.compare(call);
        }
    }
}

/// Every two records of a push that is done.
fn repeats_at_edges(call: &Call, tally: &mut Tally) {
    for to in 0..call.buffers[1].len() / Record::NUMBERS {
        for from in 0..to {
            repeated(call, from, to, tally);
        }
    }
}

/// A push that is done is refused where one record gets the place of another, with a leaf of its own or the same one. What is tested
/// before is refused before: a number that is not a word, and a place that the tree doesn't have.
fn repeated(call: &Call, from: usize, to: usize, tally: &mut Tally) {
    let (from, to) = (from * Record::NUMBERS, to * Record::NUMBERS);
    let mut compare = |change: &dyn Fn(&mut [u64]), number: u8| {
        let mut call = call.clone();
        change(&mut call.buffers[1]);
        assert_eq!(tally.compare(call), Answer::Refused(number), "records at {from} and {to}");
    };
    let beyond = call.set.places() as u64;
    compare(&|list| list[to] = list[from], 17);
    compare(&|list| list.copy_within(from..from + Record::NUMBERS, to), 17);
    compare(&|list| (list[to], list[from + 1]) = (list[from], P), 12);
    compare(&|list| (list[to], list[from], list[from + 1]) = (beyond, beyond, P), 11);
}

/// Lists of about 128 records and of more, at places that rise, fall or do neither, and of all places under a node: done, and refused
/// where two are the same.
fn long_pushes(generator: &mut Generator, tally: &mut Tally) {
    for shape in SHAPES {
        let arity = shape.0 / shape.1;
        let height = (0..).find(|&height| arity.pow(height) >= 200).expect("arities are above 1");
        let set = set_of(generator, shape, height.into(), 2, 1);
        for count in [127, 128, 129, 200] {
            let mut places: Vec<u64> = generator.some_below(count, set.places() as usize).into_iter().map(|n| n as u64).collect();
            long_push(generator, &set, &places, tally);
            places.sort();
            long_push(generator, &set, &places, tally);
            places.reverse();
            long_push(generator, &set, &places, tally);
        }
        for level in 1..=set.height {
            let places = places_under(generator, &set, level);
            long_push(generator, &set, &places, tally);
        }
    }
}

fn long_push(generator: &mut Generator, set: &Set, places: &[u64], tally: &mut Tally) {
    let buffers = vec![generator.words(set.store_words() as usize), records(generator, set, places)];
    let call = Call { entry: Entry::Push, set: set.clone(), numbers: vec![], buffers, contents: vec![] };
    let count = places.len();
    assert_eq!(tally.compare(call.clone()), Answer::Number(nodes_above(set.arity(), set.height, places)));
    let two = generator.some_below(2, count);
    for (from, to) in [(0, 1), (0, count - 1), (count / 2 - 1, count / 2), (count - 2, count - 1), (two[0], two[1])] {
        repeated(&call, from, to, tally);
    }
}

fn contents_at_edges(call: &Call, tally: &mut Tally) {
    let length = call.contents.len();
    for i in 0..length {
        for edge in [0, 1, 255] {
            let mut call = call.clone();
            call.contents[i] = edge;
            tally.compare(call);
        }
    }
    for length in [0, length.saturating_sub(1), length + 1, length + 7] {
        let mut call = call.clone();
        call.contents.resize(length, 0);
        tally.compare(call);
    }
}

/// Two leaves that are both accepted.
fn collisions(generator: &mut Generator, tally: &mut Tally) {
    for shape in SHAPES {
        let arity = (shape.0 / shape.1) as usize;
        let levels = (0..arity.min(4)).map(Kind::At);
        for kind in levels.chain([Kind::Twice]) {
            for partial in [0, 5] {
                if partial > 0 && matches!(kind, Kind::At(2..)) {
                    continue;
                }
                let made = collision(generator, shape, kind, partial);
                extractions(generator, tally, &made, kind);
            }
        }
    }
}

fn extractions(generator: &mut Generator, tally: &mut Tally, made: &Collision, kind: Kind) {
    edges_of_call(&made.extraction(generator), tally);
    for _ in 0..10 {
        let call = made.extraction(generator);
        let level = match kind {
            Kind::At(level) => level as u64,
            Kind::Twice => 0,
        };
        // At level 0 the leaf may be a node that is equal in both rows.
        let equal = call.buffers[1] == call.buffers[3];
        assert!(!equal || matches!(kind, Kind::At(0)), "{kind:?}");
        let expected = if equal { Answer::Refused(15) } else { Answer::Number(level) };
        assert_eq!(tally.compare(call.clone()), expected, "{kind:?}");

        for leaf in [1, 3] {
            let buffers = vec![call.buffers[0].clone(), call.buffers[leaf].clone(), call.buffers[leaf + 1].clone()];
            let verification = Call { entry: Entry::Verify, buffers, ..call.clone() };
            assert_eq!(tally.compare(verification), Answer::Accepted);
        }

        let mut swapped = call.clone();
        swapped.buffers.swap(1, 3);
        swapped.buffers.swap(2, 4);
        tally.compare(swapped);

        good_and_bad_openings(generator, tally, &call, expected);
        let mut damaged = call;
        damage(generator, &mut damaged);
        tally.compare(damaged);
    }
}

/// Two openings that are both accepted, whose answer is given, and either of them twice; each with its siblings as they are, or with one
/// word another. Equal leaves are refused with 15 in any case, and different ones with 14 unless both openings are good.
fn good_and_bad_openings(generator: &mut Generator, tally: &mut Tally, call: &Call, answer: Answer) {
    for (first, second) in [(1, 3), (3, 1), (1, 1), (3, 3)] {
        let mut base = call.clone();
        for (to, from) in [(1, first), (3, second)] {
            base.buffers[to..to + 2].clone_from_slice(&call.buffers[from..from + 2]);
        }
        let equal = base.buffers[1] == base.buffers[3];
        for bad in [&[][..], &[2], &[4], &[2, 4]] {
            let mut call = base.clone();
            for &siblings in bad {
                let at = generator.below(call.buffers[siblings].len());
                call.buffers[siblings][at] = add(call.buffers[siblings][at], 1 + generator.below(1000) as u64);
            }
            let expected = match (equal, bad) {
                (true, _) => Answer::Refused(15),
                (false, []) => answer.clone(),
                (false, _) => Answer::Refused(14),
            };
            assert_eq!(tally.compare(call.clone()), expected, "{bad:?}");
            if equal && bad.len() == 2 {
                before_equal_leaves(&call, tally);
            }
        }
    }
}

/// What is tested before equal leaves is refused before them, here where neither opening is accepted.
fn before_equal_leaves(call: &Call, tally: &mut Tally) {
    let mut compare = |change: &dyn Fn(&mut Call), number: u8| {
        let mut call = call.clone();
        change(&mut call);
        assert_eq!(tally.compare(call), Answer::Refused(number));
    };
    compare(&|call| call.set.total_inverse = add(call.set.total_inverse, 1), 18);
    compare(&|call| call.buffers[6].push(0), 10);
    compare(&|call| call.numbers[0] = call.set.places() as u64, 11);
    compare(&|call| (call.buffers[1][0], call.buffers[3][0]) = (P, P), 12);
    compare(&|call| call.buffers[4][0] = P, 12);
}
