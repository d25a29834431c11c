//! The published instances, held to the known answers that were published with them.

mod model;

use model::field::add;
use model::set::{validated, Numbers, Set};
use opening_tree::{published, NotAccepted, ParameterSet, Refusal, SetNumbers, Tree};

/// A state, and its permutation.
type Known<const T: usize> = ([u64; T], [u64; T]);

#[rustfmt::skip]
const KNOWN_8: [Known<8>; 2] = [
    (
        [0, 0, 0, 0, 0, 0, 0, 0],
        [
            4214787979728720400, 12324939279576102560, 10353596058419792404, 15456793487362310586,
            10065219879212154722, 16227496357546636742, 2959271128466640042, 14285409611125725709,
        ],
    ),
    (
        [0, 1, 2, 3, 4, 5, 6, 7],
        [
            14266028122062624699, 5353147180106052723, 15203350112844181434, 17630919042639565165,
            16601551015858213987, 10184091939013874068, 16774100645754596496, 12047415603622314780,
        ],
    ),
];

#[rustfmt::skip]
const KNOWN_12: [Known<12>; 1] = [
    (
        [0, 1, 2, 3, 4, 5, 6, 7, 8, 9, 10, 11],
        [
            138186169299091649, 2237493815125627916, 7098449130000758157, 16681569560651424230,
            2885694034573886267, 1987263728465303211, 4895658260063552408, 16782691522897809445,
            6250362358359317026, 8723968546836371205, 17025428646788054631, 7660698892044183277,
        ],
    ),
];

/// The set as the model has it, which is the library's number by number.
fn plain(set: &ParameterSet) -> Set {
    let numbers = set.numbers();
    let plain = validated(&Numbers {
        width: numbers.width,
        node_size: numbers.node_size,
        height: numbers.height,
        full_rounds: numbers.full_rounds,
        partial_rounds: numbers.partial_rounds,
        diagonal: numbers.diagonal.to_vec(),
        constants: numbers.constants.to_vec(),
    })
    .expect("accepted");
    assert_eq!(set.array(), &plain.array());
    plain
}

/// Library and model permute each state as it was published, and back, and compress it to the first words of the sum.
fn known<const T: usize>(set: &ParameterSet, answers: &[Known<T>]) {
    for (given, permuted) in answers {
        let mut state = *given;
        assert_eq!(set.permute(&mut state), Ok(()));
        assert_eq!(&state, permuted);
        assert_eq!(set.unpermute(&mut state), Ok(()));
        assert_eq!(&state, given);
        assert_eq!(model::permutation::permute(&plain(set), given), permuted);

        let sum: Vec<u64> = given.iter().zip(permuted).map(|(&a, &b)| add(a, b)).collect();
        assert_eq!(set.compress(given).as_deref(), Ok(&sum[..set.node_size()]));
    }
}

#[test]
fn published_known_answers() {
    for node_size in [1, 2, 4] {
        known(&published::width_8(node_size, 3).expect("accepted"), &KNOWN_8);
    }
    for node_size in [1, 2, 3, 4, 6] {
        known(&published::width_12(node_size, 3).expect("accepted"), &KNOWN_12);
    }
}

#[test]
fn node_size_and_height_are_the_callers() {
    for node_size in 0..=13 {
        let eight = published::width_8(node_size, 1).map(|set| (set.width(), set.node_size() as u64, set.height()));
        let twelve = published::width_12(node_size, 1).map(|set| (set.width(), set.node_size() as u64, set.height()));
        let fits = |sizes: &[u64], width: usize| {
            if sizes.contains(&node_size) {
                Ok((width, node_size, 1))
            } else {
                Err(Refusal::BadNodeSize)
            }
        };
        assert_eq!(eight, fits(&[1, 2, 4], 8));
        assert_eq!(twelve, fits(&[1, 2, 3, 4, 6], 12));
    }
    assert_eq!(published::width_8(4, 32).map(|set| set.places()), Ok(1 << 32));
    assert_eq!(published::width_8(4, 33), Err(Refusal::BadHeight));
    assert_eq!(published::width_12(4, 20).map(|set| set.places()), Ok(3486784401));
    assert_eq!(published::width_12(4, 21), Err(Refusal::BadHeight));
}

/// A published set with the height of another is that other, and so it is after its D was another.
#[test]
fn published_sets_exchange() {
    let [low, high] = [published::width_12(4, 2), published::width_12(4, 20)].map(|set| set.expect("accepted"));
    assert_eq!(low.exchange_height(20).as_ref(), Ok(&high));
    assert_eq!(high.exchange_height(2).as_ref(), Ok(&low));
    assert_eq!(high.exchange_height(21), Err(Refusal::BadHeight));
    let mut diagonal = published::DIAGONAL_12;
    diagonal[7] = 0;
    let other = low.exchange_diagonal(&diagonal).expect("one zero");
    assert_eq!(other.numbers(), SetNumbers { diagonal: &diagonal, ..low.numbers() });
    assert_eq!((other.inverses()[7], other.total_inverse()), (0, 0));
    assert_eq!(other.exchange_diagonal(&published::DIAGONAL_12), Ok(low.clone()));
    assert_eq!(low.exchange_diagonal(&published::DIAGONAL_8), Err(Refusal::BadListLength));
}

#[test]
fn trees_under_published_sets() {
    for set in [published::width_8(4, 3), published::width_8(2, 2), published::width_12(6, 3), published::width_12(4, 2)] {
        let set = set.expect("accepted");
        let leaves: Vec<u64> = (0..set.leaf_words() as u64).collect();
        let tree = Tree::build(&set, &leaves).expect("words");
        assert_eq!(tree.store(), model::tree::store(&plain(&set), &leaves));
        for place in 0..set.places() {
            let (leaf, opening) = (tree.leaf(place).expect("a place"), tree.open(place).expect("a place"));
            assert_eq!(set.verify(&tree.root(), leaf, &opening), Ok(()));
            let mut other = leaf.to_vec();
            other[0] += 1;
            assert_eq!(set.verify(&tree.root(), &other, &opening), Err(NotAccepted::Rejected));
        }
    }
}
