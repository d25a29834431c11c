//! Cases worked by hand, and each function once with an answer that is known.

mod model;

use std::error::Error;

use model::set::{INVERSES, TOTAL_INVERSE};
use opening_tree::entries;
use opening_tree::field::{self, P};
use opening_tree::{
    published, Collision, NotAccepted, Offer, Opening, ParameterSet, Record, Refusal, Root, SetNumbers, Sizes, Tree, Verdict,
    SET_SIZE,
};

/// The set T: small numbers, to be worked with by hand, and not safe.
const T: SetNumbers = SetNumbers {
    width: 4,
    node_size: 2,
    height: 1,
    full_rounds: 2,
    partial_rounds: 0,
    diagonal: &[1, 2, 3, 4],
    constants: &[0, 0, 0, 0, P - 505316, P - 410806, P - 127289, P - 94519],
};

/// The set U, likewise.
const U: SetNumbers = SetNumbers {
    partial_rounds: 1,
    constants: &[0, 0, 0, 0, P - 505316, P - 632615, P - 1454227, P - 1014482, P - 1010691],
    ..T
};

/// The set V, likewise, with a zero in its diagonal.
const V: SetNumbers = SetNumbers {
    diagonal: &[0, 1, 2, 3],
    constants: &[0, 0, 0, 0, P - 505316, P - 632614, P - 1043421, P - 887193, P - 916172],
    ..U
};

/// V with others beside the zero, of whose inverses and 1 the sum is 0, and with constants for these.
const W: SetNumbers = SetNumbers {
    diagonal: &[0, P - 3, P - 3, P - 3],
    constants: &[0, 0, 0, 0, P - 505316, P - 632614, 599803, P - 250748, P - 349058],
    ..U
};

/// T, whose D is not used where there are no partial rounds, with words whose inverses add up to 0.
const BALANCED: SetNumbers = SetNumbers { diagonal: &[1, P - 1, 2, P - 2], ..T };

/// The inverses of 2, 3 and 4: (p + 1) / 2, (2p + 1) / 3 and (3p + 1) / 4.
const HALF: u64 = 9223372034707292161;
const THIRD: u64 = 12297829379609722881;
const QUARTER: u64 = 13835058052060938241;

/// A set that was made for two leaves which are both accepted at one place, and so is not safe.
const WEAK: SetNumbers = SetNumbers {
    height: 2,
    diagonal: &[2323977009865630898, 12518514558001707300, 668178666096051417, 9875627240877486526],
    constants: &[
        1372557943261738864,
        5032861063245982280,
        2810201305772277961,
        1726419793238167099,
        11056965576908617619,
        1269056739062402058,
        13680347514614465711,
        4294967295,
    ],
    ..T
};
const WEAK_ROOT: [u64; 2] = [7353310026026904088, 13490686081725479607];
const WEAK_PLACE: u64 = 3;
const FIRST: Offer = Offer {
    leaf: &[3669959116008525303, 17781029918724427263],
    siblings: &[3257721517816812275, 4705944142922014037, 16445857043074958901, 14291850895486815322],
};
const SECOND: Offer = Offer {
    leaf: &[8531481348199922329, 1313280933183081952],
    siblings: &[2354424344695467737, 13835142492714613454, 3520250776031253462, 9297292628332905236],
};

fn set(numbers: SetNumbers) -> ParameterSet {
    ParameterSet::new(numbers).expect("accepted")
}

#[test]
fn arithmetic() {
    assert_eq!(field::product(P - 1, P - 1), Ok(1));
    assert_eq!(field::product(1 << 32, 1 << 32), Ok(4294967295));
    assert_eq!(field::product(1 << 48, 1 << 48), Ok(P - 1));
    assert_eq!(field::product(P, P), Ok(0));
    assert_eq!(field::product(P + 1, P - 1), Ok(P - 1));
    assert_eq!(field::product(u64::MAX, u64::MAX), Ok(P - 12884901885));
    assert_eq!(field::difference(0, 1), Ok(P - 1));
    assert_eq!(field::inverse(2), Ok(9223372034707292161));
    assert_eq!(field::seventh_root(128), Ok(2));
    assert_eq!(field::power(0, 0), Ok(1));
    assert_eq!(field::power(P, 0), Ok(1));
    assert_eq!(field::power(P, 1), Ok(0));
    assert_eq!(field::power(P + 2, 7), Ok(128));
}

/// Of D a set keeps the inverses, and that of 1 plus their sum, which under T is 37 / 12 and under BALANCED 1.
#[test]
fn kept_values() {
    for (word, inverse) in [(2, HALF), (3, THIRD), (4, QUARTER), (P - 3, (P - 1) / 3), (P - 2, P - HALF)] {
        assert_eq!(word as u128 * inverse as u128 % P as u128, 1);
    }
    assert_eq!(set(T).inverses(), [1, HALF, THIRD, QUARTER]);
    assert_eq!(set(T).total_inverse() as u128 * 37 % P as u128, 12);
    assert_eq!((set(V).inverses(), set(V).total_inverse()), (&[0, 1, HALF, THIRD][..], 0));
    let third = (P - 1) / 3;
    assert_eq!((set(W).inverses(), set(W).total_inverse()), (&[0, third, third, third][..], 0));
    assert_eq!((set(BALANCED).inverses(), set(BALANCED).total_inverse()), (&[1, P - 1, HALF, P - HALF][..], 1));
}

#[test]
fn places_of_a_set() {
    for (numbers, inverses, total_inverse) in [(BALANCED, [1, P - 1, HALF, P - HALF], 1), (V, [0, 1, HALF, THIRD], 0)] {
        let array = entries::validate(&numbers).expect("accepted");
        let mut places = [0; SET_SIZE];
        places[..5].copy_from_slice(&[4, 2, 1, 2, numbers.partial_rounds]);
        places[5..9].copy_from_slice(numbers.diagonal);
        places[17..17 + numbers.constants.len()].copy_from_slice(numbers.constants);
        places[INVERSES..INVERSES + 4].copy_from_slice(&inverses);
        places[TOTAL_INVERSE] = total_inverse;
        assert_eq!(array, places);
        assert_eq!(set(numbers).array(), &array);
        assert_eq!(set(numbers).numbers(), numbers);
    }
}

/// What becomes of (5, 4, 1, 1) under an array in which some places are others: the state that permutes to it, or a refusal.
fn unpermuted(numbers: SetNumbers, changes: &[(usize, u64)]) -> Result<[u64; 4], Refusal> {
    let mut array = *set(numbers).array();
    changes.iter().for_each(|&(place, number)| array[place] = number);
    let mut state = [5, 4, 1, 1];
    let answer = entries::unpermute(&array, &mut state);
    assert_eq!(entries::permute(&array, &mut [1, 0, 0, 0]), answer);
    answer.map(|()| state)
}

/// p + 1 is not 1, and p is not 0; and beyond the words of D anything is taken.
#[test]
fn kept_values_at_the_edge() {
    let refused = Err(Refusal::BadKeptValues);
    for numbers in [T, U, V, W, BALANCED] {
        assert_eq!(unpermuted(numbers, &[]), Ok([1, 0, 0, 0]));
        let array = *set(numbers).array();
        for place in (INVERSES..INVERSES + 4).chain([TOTAL_INVERSE]) {
            assert_eq!(unpermuted(numbers, &[(place, array[place] + 1)]), refused);
            assert_eq!(unpermuted(numbers, &[(place, u64::MAX)]), refused);
        }
        for place in INVERSES + 4..TOTAL_INVERSE {
            for number in [1, P - 1, P, u64::MAX] {
                assert_eq!(unpermuted(numbers, &[(place, number)]), Ok([1, 0, 0, 0]));
            }
        }
    }
    assert_eq!(unpermuted(T, &[(INVERSES, P + 1)]), refused);
    assert_eq!(unpermuted(BALANCED, &[(TOTAL_INVERSE, P + 1)]), refused);
    assert_eq!(unpermuted(V, &[(INVERSES, P)]), refused);
    assert_eq!(unpermuted(V, &[(TOTAL_INVERSE, P)]), refused);
    assert_eq!(unpermuted(T, &[(TOTAL_INVERSE, 0)]), refused);
    // The inverses of two words the other way round, with the same sum.
    assert_eq!(unpermuted(T, &[(INVERSES, HALF), (INVERSES + 1, 1)]), refused);
    // D all p - 4 is refused with 9, with any values kept.
    let singular = [5, 6, 7, 8].map(|place| (place, P - 4));
    assert_eq!(unpermuted(T, &singular), Err(Refusal::SingularDiagonal));
    assert_eq!(unpermuted(T, &[&singular[..], &[(INVERSES, P), (TOTAL_INVERSE, 0)]].concat()), Err(Refusal::SingularDiagonal));
    // Kept values are tested before the state.
    let mut array = *set(T).array();
    assert_eq!(entries::unpermute(&array, &mut [P; 3]), Err(Refusal::BadLength));
    array[INVERSES] = 2;
    assert_eq!(entries::unpermute(&array, &mut [P; 3]), Err(Refusal::BadKeptValues));
}

#[test]
fn exchanges() {
    for numbers in [T, V, W, BALANCED] {
        for diagonal in [T.diagonal, V.diagonal, W.diagonal, BALANCED.diagonal] {
            let outcome = set(SetNumbers { diagonal, ..numbers });
            assert_eq!(set(numbers).exchange_diagonal(diagonal), Ok(outcome));
        }
        for height in 0..=32 {
            let outcome = set(SetNumbers { height, ..numbers });
            assert_eq!(set(numbers).exchange_height(height), Ok(outcome));
        }
        for height in [33, 64, u64::MAX] {
            assert_eq!(set(numbers).exchange_height(height), Err(Refusal::BadHeight));
        }
        let refusal = |diagonal: &[u64]| set(numbers).exchange_diagonal(diagonal).err();
        for diagonal in [&[][..], &[P; 3], &[1, 2, 3, 4, 5], &[1; 12]] {
            assert_eq!(refusal(diagonal), Some(Refusal::BadListLength));
        }
        assert_eq!(refusal(&[0, P, 0, 4]), Some(Refusal::BadListWord));
        assert_eq!(refusal(&[0, 2, 0, 4]), Some(Refusal::ZeroInDiagonal));
        assert_eq!(refusal(&[P - 4; 4]), Some(Refusal::SingularDiagonal));
    }
}

/// What an exchange is handed is judged before what it makes, and what it does not use does not come into it.
#[test]
fn sets_that_are_exchanged() {
    let refusal = |array: &[u64; SET_SIZE], diagonal: &[u64], height: u64| {
        let refusal = entries::exchange_diagonal(array, diagonal).expect_err("refused");
        assert_eq!(entries::exchange_height(array, height), Err(refusal));
        refusal
    };
    let with = |place: usize, number: u64| {
        let mut array = *set(T).array();
        array[place] = number;
        array
    };
    for (diagonal, height) in [(T.diagonal, 1), (&[], 33)] {
        assert_eq!(refusal(&with(2, 33), diagonal, height), Refusal::BadHeight);
        assert_eq!(refusal(&with(17, P), diagonal, height), Refusal::BadListWord);
        assert_eq!(refusal(&with(5, 0), diagonal, height), Refusal::BadKeptValues);
        assert_eq!(refusal(&with(INVERSES + 3, 0), diagonal, height), Refusal::BadKeptValues);
        assert_eq!(refusal(&with(TOTAL_INVERSE, 0), diagonal, height), Refusal::BadKeptValues);
    }
    let mut array = *set(T).array();
    array[9..17].fill(P);
    array[25..225].fill(u64::MAX);
    array[INVERSES + 4..TOTAL_INVERSE].fill(1);
    assert_eq!(entries::exchange_diagonal(&array, BALANCED.diagonal).as_ref(), Ok(set(BALANCED).array()));
    assert_eq!(entries::exchange_height(&array, 1).as_ref(), Ok(set(T).array()));
}

#[test]
fn layers_of_the_model() {
    use model::permutation::{external_layer, internal_layer};
    assert_eq!(external_layer(&[1, 0, 0, 0]), [5, 4, 1, 1]);
    assert_eq!(external_layer(&[1, 0, 0, 0, 0, 0, 0, 0]), [10, 8, 2, 2, 5, 4, 1, 1]);
    assert_eq!(internal_layer(T.diagonal, &[1, 0, 0, 0]), [2, 1, 1, 1]);
    assert_eq!(internal_layer(V.diagonal, &[4, 3, 2, 1]), [10, 13, 14, 13]);
    for state in [[1, 0, 0, 0], [0, 0, 1, 0]] {
        assert_eq!(internal_layer(&[0, 1, 0, 3], &state), [1; 4]);
    }
}

/// Each round's constants take (1, 0, ..., 0) from (10, 8, 2, 2, 5, 4, 1, 1), so that the permutation ends as M_E of it.
#[test]
fn external_layer_of_eight() {
    let back = [P - 9, P - 8, P - 2, P - 2, P - 5, P - 4, P - 1, P - 1];
    let constants = [back, back].concat();
    let set = set(SetNumbers { width: 8, diagonal: &[1; 8], constants: &constants, ..T });
    let mut state = [1, 0, 0, 0, 0, 0, 0, 0];
    set.permute(&mut state).expect("eight words");
    assert_eq!(state, [10, 8, 2, 2, 5, 4, 1, 1]);
}

#[test]
fn permutation_and_compression() {
    for set in [set(T), set(U), set(V), set(W)] {
        let mut state = [1, 0, 0, 0];
        assert_eq!(set.permute(&mut state), Ok(()));
        assert_eq!(state, [5, 4, 1, 1]);
        assert_eq!(set.unpermute(&mut state), Ok(()));
        assert_eq!(state, [1, 0, 0, 0]);
        assert_eq!(set.compress(&[1, 0, 0, 0]), Ok(vec![6, 4]));
    }
}

#[test]
fn root_openings_and_verdicts() {
    let set = set(T);
    let tree = Tree::build(&set, &[1, 0, 0, 0]).expect("four words");
    let root = Root::from(vec![6, 4]);
    assert_eq!(tree.root(), root);
    assert_eq!(set.storeless_root(&[1, 0, 0, 0]), Ok(root.clone()));
    assert_eq!(tree.store(), [1, 0, 0, 0, 6, 4]);
    assert_eq!(tree.open(0), Ok(Opening { place: 0, siblings: vec![0, 0] }));
    assert_eq!(tree.open(1), Ok(Opening { place: 1, siblings: vec![1, 0] }));
    assert_eq!(tree.leaf(0), Ok(&[1, 0][..]));
    assert_eq!(tree.leaf(1), Ok(&[0, 0][..]));

    assert_eq!(set.read_level(&tree.open(1).expect("a place of the tree"), 0), Ok(vec![1, 0]));
}

/// A function that asks for a verdict by `?`, and goes on only after a yes.
fn merged(set: &ParameterSet, root: &Root, leaf: &[u64], opening: &Opening) -> Result<&'static str, Box<dyn Error>> {
    set.verify(root, leaf, opening)?;
    Ok("merged")
}

#[test]
fn yes_is_the_only_ok() {
    let set = set(T);
    let (root, leaf) = (Root::from(vec![6, 4]), [1, 0]);
    let opening = Opening { place: 0, siblings: vec![0, 0] };
    assert_eq!(set.verify(&root, &leaf, &opening), Ok(()));
    assert_eq!(merged(&set, &root, &leaf, &opening).expect("accepted"), "merged");

    let none = |why: NotAccepted, root: &Root, leaf: &[u64], opening: &Opening| {
        assert!(set.verify(root, leaf, opening).is_err());
        assert_eq!(set.verify(root, leaf, opening), Err(why));
        let error = merged(&set, root, leaf, opening).expect_err("not accepted");
        assert_eq!(error.to_string(), why.to_string());
        let verdict = entries::verify(set.array(), root.words(), opening.place, leaf, &opening.siblings);
        assert!(!verdict.is_accepted());
        assert_eq!(verdict.into_result(), Err(why));
    };
    let with = |place: u64, siblings: &[u64]| Opening { place, siblings: siblings.to_vec() };
    none(NotAccepted::Rejected, &root, &[0, 1], &opening);
    none(NotAccepted::Rejected, &Root::from(vec![6, 5]), &leaf, &opening);
    none(NotAccepted::Rejected, &root, &leaf, &with(1, &[0, 0]));
    none(NotAccepted::Rejected, &root, &leaf, &with(0, &[0, 1]));
    none(NotAccepted::Refused(Refusal::BadLength), &root, &[1], &opening);
    none(NotAccepted::Refused(Refusal::BadLength), &Root::from(vec![]), &leaf, &opening);
    none(NotAccepted::Refused(Refusal::BadLength), &root, &leaf, &with(0, &[]));
    none(NotAccepted::Refused(Refusal::BadPlace), &root, &leaf, &with(2, &[0, 0]));
    none(NotAccepted::Refused(Refusal::NotAWord), &root, &[P + 1, 0], &opening);
    none(NotAccepted::Refused(Refusal::NotAWord), &root, &leaf, &with(0, &[0, P]));
}

#[test]
fn every_refusal_is_a_reason() {
    for refusal in Refusal::ALL {
        let why = NotAccepted::from(refusal);
        assert_eq!(why, NotAccepted::Refused(refusal));
        assert_eq!(why.source().and_then(|source| source.downcast_ref()), Some(&refusal));
        assert_eq!(why.to_string(), format!("refused with {}", refusal.number()));
    }
    assert!(NotAccepted::Rejected.source().is_none());
}

#[test]
fn places_and_words_at_the_edge() {
    let set = set(T);
    let mut tree = Tree::build(&set, &[1, 0, 0, 0]).expect("four words");
    let before = tree.clone();
    for place in [2, 3, 1 << 32, u64::MAX] {
        assert_eq!(tree.open(place), Err(Refusal::BadPlace));
        assert_eq!(tree.leaf(place), Err(Refusal::BadPlace));
        assert_eq!(tree.replace(place, &[0, 0]), Err(Refusal::BadPlace));
        let other = Record { place, words: [0; 6] };
        assert_eq!(tree.push(&[Record { place: 0, ..other }, other]), Err(Refusal::BadPlace));
        assert_eq!(tree.push(&[other, other]), Err(Refusal::BadPlace));
    }
    assert_eq!(tree.replace(0, &[P, 0]), Err(Refusal::NotAWord));
    assert_eq!(tree.replace(0, &[0, 0, 0]), Err(Refusal::BadLength));
    assert_eq!(tree, before);
    assert_eq!(tree.replace(0, &[P - 1, 0]), Ok(1));
    assert_eq!(Tree::build(&set, &[P, 0, 0, 0]), Err(Refusal::NotAWord));
    assert_eq!(Tree::build(&set, &[P - 1, 0, 0, 0]), Ok(tree));
    assert_eq!(Tree::build(&set, &[1, 0, 0]), Err(Refusal::BadLength));
}

/// A place twice is refused, with equal leaves too, and a number that is not a word before it. Equal leaves at different places are taken.
#[test]
fn places_of_a_push() {
    let set = set(T);
    let mut tree = Tree::build(&set, &[1, 0, 0, 0]).expect("four words");
    let before = tree.clone();
    let [first, second] = [0, 1].map(|place| Record { place, words: [0; 6] });
    let third = Record { words: [1; 6], ..first };
    let lists =
        [&[first, first][..], &[first, third], &[first, second, third], &[second, second, first], &[third, first, second]];
    for list in lists {
        assert_eq!(tree.push(list), Err(Refusal::RepeatedPlace));
        let no_word = Record { words: [0, P, 0, 0, 0, 0], ..list[0] };
        assert_eq!(tree.push(&[list, &[no_word]].concat()), Err(Refusal::NotAWord));
        assert_eq!(tree.push(&[list, &[Record { place: 2, ..no_word }]].concat()), Err(Refusal::BadPlace));
    }
    assert_eq!(tree, before);
    let mut store = [P, 0, 0, 0, 6, 4];
    assert_eq!(entries::push(set.array(), &mut store, &[first, first]), Err(Refusal::NotAWord));
    assert_eq!(store, [P, 0, 0, 0, 6, 4]);
    assert_eq!(tree.push(&[second, first]), Ok(1));
    assert_eq!(tree.leaves(), [0; 4]);
}

/// How many nodes a push writes above its leaves, level by level from the lowest.
#[test]
fn counts_of_a_push() {
    let taller = |height: u64| SetNumbers { height, ..T };
    let three = SetNumbers { width: 12, node_size: 4, height: 2, diagonal: &[1; 12], constants: &[0; 24], ..T };
    let count = |numbers: SetNumbers, places: &[u64]| {
        let set = set(numbers);
        let mut tree = Tree::build(&set, &vec![0; set.leaf_words()]).expect("words");
        let records: Vec<Record> = places.iter().map(|&place| Record { place, words: [place + 1; 6] }).collect();
        let made = tree.push(&records).expect("different places");
        let mut other = Tree::build(&set, &vec![0; set.leaf_words()]).expect("words");
        for Record { place, words } in records {
            assert_eq!(other.replace(place, &words[..set.node_size()]), Ok(numbers.height));
        }
        assert_eq!(tree, other);
        assert_eq!(tree.root(), set.storeless_root(tree.leaves()).expect("words"));
        made
    };
    assert_eq!(count(taller(0), &[]), 0);
    assert_eq!(count(taller(0), &[0]), 0);
    assert_eq!(count(taller(3), &[]), 0);
    assert_eq!(count(taller(3), &[5]), 1 + 1 + 1);
    assert_eq!(count(taller(3), &[4, 5]), 1 + 1 + 1);
    assert_eq!(count(taller(3), &[4, 3]), 2 + 2 + 1);
    assert_eq!(count(taller(3), &[7, 0]), 2 + 2 + 1);
    assert_eq!(count(taller(3), &[1, 3, 0, 2]), 2 + 1 + 1);
    assert_eq!(count(taller(3), &[6, 2, 4, 0]), 4 + 2 + 1);
    assert_eq!(count(taller(3), &[0, 1, 2, 3, 4, 5, 6, 7]), 4 + 2 + 1);
    assert_eq!(count(three, &[5, 3, 4]), 1 + 1);
    assert_eq!(count(three, &[3, 2]), 2 + 1);
    assert_eq!(count(three, &[8, 1, 4]), 3 + 1);
    assert_eq!(count(three, &[0, 1, 2, 3, 4, 5, 6, 7, 8]), 3 + 1);
}

#[test]
fn sets_at_the_edge() {
    let refusal = |numbers: SetNumbers| ParameterSet::new(numbers).err();
    assert_eq!(refusal(SetNumbers { diagonal: &[P - 4; 4], ..T }), Some(Refusal::SingularDiagonal));
    assert_eq!(refusal(SetNumbers { diagonal: &[0, 2, 0, 4], ..T }), Some(Refusal::ZeroInDiagonal));
    assert_eq!(refusal(SetNumbers { diagonal: &[0, P - 2, P - 2, 0], ..T }), Some(Refusal::ZeroInDiagonal));
    assert_eq!(refusal(SetNumbers { diagonal: &[0; 4], ..T }), Some(Refusal::ZeroInDiagonal));
    assert_eq!(refusal(SetNumbers { diagonal: &[0, P, 3, 4], ..T }), Some(Refusal::BadListWord));
    for diagonal in [[0, 2, 3, 4], [1, 0, 3, 4], [1, 2, 0, 4], [1, 2, 3, 0], [0, P - 3, P - 3, P - 3]] {
        assert_eq!(refusal(SetNumbers { diagonal: &diagonal, ..T }), None);
    }
    assert_eq!(refusal(SetNumbers { height: 33, ..T }), Some(Refusal::BadHeight));
    let twelve = SetNumbers { width: 12, node_size: 1, height: 8, diagonal: &[1; 12], constants: &[0; 24], ..T };
    assert_eq!(refusal(SetNumbers { height: 9, ..twelve }), Some(Refusal::BadHeight));

    let tall = set(SetNumbers { height: 32, ..T });
    assert_eq!(tall.places(), 1 << 32);
    assert_eq!(tall.leaf_words(), 1 << 33);
    assert_eq!(tall.store_words(), (1 << 34) - 2);
    assert_eq!(Tree::build(&tall, &[0; 4]), Err(Refusal::BadLength));
    let wide = set(twelve);
    assert_eq!((wide.arity(), wide.places()), (12, 429981696));
    assert_eq!((wide.part_words(), wide.opening_words()), (11, 88));
}

#[test]
fn sizes() {
    let sizes = |array: &[u64; SET_SIZE]| entries::sizes(array).map(|sizes| (sizes.leaves, sizes.store, sizes.opening));
    let with_height = |height: u64| {
        let mut array = *set(T).array();
        array[2] = height;
        array
    };
    assert_eq!(sizes(set(T).array()), Ok((4, 6, 2)));
    assert_eq!(sizes(&with_height(0)), Ok((2, 2, 0)));
    assert_eq!(sizes(&with_height(32)), Ok((8589934592, 17179869182, 64)));
    assert_eq!(sizes(&with_height(33)), Err(Refusal::BadHeight));
    let set = published::width_12(4, 2).expect("accepted");
    assert_eq!(sizes(set.array()), Ok((36, 52, 16)));
    assert_eq!((set.leaf_words(), set.store_words(), set.opening_words()), (36, 52, 16));
    let greatest = published::width_12(6, 32).expect("accepted");
    assert_eq!(sizes(greatest.array()), Ok((25769803776, 51539607546, 192)));
}

#[test]
fn a_collision_above_the_leaves() {
    let set = set(WEAK);
    let root = Root::from(&WEAK_ROOT[..]);
    for offer in [FIRST, SECOND] {
        let opening = Opening { place: WEAK_PLACE, siblings: offer.siblings.to_vec() };
        assert_eq!(set.verify(&root, offer.leaf, &opening), Ok(()));
    }
    // The leaves are at odd places, so that the siblings come first.
    let row = |offer: Offer| {
        let node = set.compress(&[&offer.siblings[..2], offer.leaf].concat()).expect("four words");
        [&offer.siblings[2..], &node].concat()
    };
    let collision = Collision { level: 1, first_row: row(FIRST), second_row: row(SECOND) };
    assert_ne!(collision.first_row, collision.second_row);
    assert_eq!(set.compress(&collision.first_row), Ok(WEAK_ROOT.to_vec()));
    assert_eq!(set.compress(&collision.second_row), Ok(WEAK_ROOT.to_vec()));
    assert_eq!(set.extract(&root, WEAK_PLACE, FIRST, SECOND), Ok(collision));
    assert_eq!(set.extract(&root, WEAK_PLACE, FIRST, FIRST), Err(Refusal::EqualLeaves));
    assert_eq!(set.extract(&root, WEAK_PLACE - 1, FIRST, SECOND), Err(Refusal::NotAccepted));
    assert_eq!(set.extract(&root, WEAK_PLACE - 1, FIRST, FIRST), Err(Refusal::EqualLeaves));
    assert_eq!(set.extract(&root, WEAK_PLACE, FIRST, Offer { leaf: FIRST.leaf, ..SECOND }), Err(Refusal::EqualLeaves));
}

#[test]
fn a_leaf_beside_itself() {
    let (set, root) = (set(T), Root::from(&[6, 4][..]));
    let offer = |leaf, siblings| Offer { leaf, siblings };
    let own = offer(&[1, 0], &[0, 0]);
    for (other, refusal) in [
        (own, Refusal::EqualLeaves),
        (offer(&[1, 0], &[0, 1]), Refusal::EqualLeaves),
        (offer(&[2, 0], &[0, 0]), Refusal::NotAccepted),
    ] {
        assert_eq!(set.extract(&root, 0, own, other), Err(refusal));
        assert_eq!(set.extract(&root, 0, other, own), Err(refusal));
    }
}

/// A message block is two words here, 14 bytes, which `hello\n` fills with its padding.
#[test]
fn leaves_of_files() {
    let word = |bytes: &[u8; 7]| bytes.iter().rfold(0, |word, &byte| word << 8 | byte as u64);
    let empty_words = [word(b"blob 0\0"), word(b"\x01\0\0\0\0\0\0")];
    let hello_words = [word(b"blob 6\0"), word(b"hello\n\x01")];
    assert_eq!(empty_words, [52915648556130, 1]);
    assert_eq!(hello_words, [59512718322786, 292948653401448]);
    for (numbers, empty, hello) in [
        (T, [16155333835464672045, 8750051444766971692], [7674626845191841513, 11908278685281199477]),
        (U, [3393038296291752555, 1252048488361728094], [16886169805138202444, 15482757244013894609]),
    ] {
        let set = set(numbers);
        for (contents, [a, b], leaf) in [(&b""[..], empty_words, empty), (b"hello\n", hello_words, hello)] {
            assert_eq!(set.leaf_of_file(contents), Ok(leaf.to_vec()));
            let mut state = [a, b, 0, 0];
            set.permute(&mut state).expect("four words");
            assert_eq!(state[..2], leaf);
        }
    }
    // The 01 of the contents is not that of the padding: the message is two blocks.
    assert_eq!(set(T).leaf_of_file(b"hello\n\x01"), Ok(vec![2478763846379610736, 15239368740673049823]));
}

#[test]
fn every_function_gives_a_known_answer() {
    assert_eq!(entries::sum(P - 1, 2), Ok(1));
    assert_eq!(entries::difference(0, 1), Ok(P - 1));
    assert_eq!(entries::product(1 << 32, 1 << 32), Ok(4294967295));
    assert_eq!(entries::power(2, 7), Ok(128));
    assert_eq!(entries::inverse(2), Ok(9223372034707292161));
    assert_eq!(entries::seventh_root(128), Ok(2));

    let t = &entries::validate(&T).expect("accepted");
    assert_eq!((t[..9].to_vec(), t[INVERSES + 1]), (vec![4, 2, 1, 2, 0, 1, 2, 3, 4], HALF));
    let balanced = entries::exchange_diagonal(t, BALANCED.diagonal).expect("accepted");
    assert_eq!((balanced[5..9].to_vec(), balanced[TOTAL_INVERSE]), (BALANCED.diagonal.to_vec(), 1));
    let taller = entries::exchange_height(t, 5).expect("accepted");
    assert_eq!((taller[2], taller[TOTAL_INVERSE]), (5, t[TOTAL_INVERSE]));

    let mut state = [1, 0, 0, 0];
    assert_eq!(entries::permute(t, &mut state), Ok(()));
    assert_eq!(state, [5, 4, 1, 1]);
    assert_eq!(entries::unpermute(t, &mut state), Ok(()));
    assert_eq!(state, [1, 0, 0, 0]);
    let mut node = [0; 2];
    assert_eq!(entries::compress(t, &state, &mut node), Ok(()));
    assert_eq!(node, [6, 4]);

    assert_eq!(entries::sizes(t), Ok(Sizes { leaves: 4, store: 6, opening: 2 }));
    let mut store = [9; 6];
    assert_eq!(entries::build(t, &[1, 0, 0, 0], &mut store), Ok(()));
    assert_eq!(store, [1, 0, 0, 0, 6, 4]);
    let mut node = [0; 2];
    assert_eq!(entries::root(t, &store, &mut node), Ok(()));
    assert_eq!(node, [6, 4]);
    let mut node = [0; 2];
    assert_eq!(entries::storeless_root(t, &[1, 0, 0, 0], &mut node), Ok(()));
    assert_eq!(node, [6, 4]);
    let mut siblings = [9; 2];
    assert_eq!(entries::open(t, &store, 1, &mut siblings), Ok(()));
    assert_eq!(siblings, [1, 0]);
    assert_eq!(entries::verify(t, &node, 1, &[0, 0], &siblings), Verdict::Accepted);
    assert_eq!(entries::verify(t, &node, 0, &[0, 0], &siblings), Verdict::Rejected);
    assert_eq!(entries::verify(t, &node, 2, &[0, 0], &siblings), Verdict::Refused(Refusal::BadPlace));
    let mut part = [9; 2];
    assert_eq!(entries::read_level(t, &siblings, 0, &mut part), Ok(()));
    assert_eq!(part, [1, 0]);

    let mut store = [2, 3, 0, 0, 9, 9];
    assert_eq!(entries::replace(t, &mut store, 0, &[1, 0]), Ok(1));
    assert_eq!(store, [1, 0, 0, 0, 6, 4]);
    let mut store = [2, 3, 4, 5, 9, 9];
    let records = [Record { place: 1, words: [0; 6] }, Record { place: 0, words: [1, 0, P, P, P, P] }];
    assert_eq!(entries::push(t, &mut store, &records), Ok(1));
    assert_eq!(store, [1, 0, 0, 0, 6, 4]);
    let mut store = [2, 3, 4, 5, 9, 9];
    assert_eq!(entries::push_numbers(t, &mut store, entries::record_numbers(&records)), Ok(1));
    assert_eq!(store, [1, 0, 0, 0, 6, 4]);

    let (mut first_row, mut second_row) = ([0; 4], [0; 4]);
    let level = entries::extract(
        set(WEAK).array(),
        &WEAK_ROOT,
        WEAK_PLACE,
        FIRST.leaf,
        FIRST.siblings,
        SECOND.leaf,
        SECOND.siblings,
        &mut first_row,
        &mut second_row,
    );
    assert_eq!(level, Ok(1));
    assert_eq!(first_row[..2], FIRST.siblings[2..]);
    assert_eq!(second_row[..2], SECOND.siblings[2..]);

    let mut leaf = [9; 2];
    assert_eq!(entries::leaf_of_file(t, b"hello\n", &mut leaf), Ok(()));
    assert_eq!(leaf, [7674626845191841513, 11908278685281199477]);
}
