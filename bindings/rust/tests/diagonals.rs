//! Diagonals without a zero, with one and with more, beside the reference, which goes by the rank of the matrix: which sets are taken, and
//! the permutation under these, both ways.

mod model;
mod support;

use std::collections::BTreeMap;

use model::field::{add, inverse};
use model::set::Set;
use opening_tree::{entries, ParameterSet, Refusal};
use support::calls::{kept, numbers};
use support::reference::{printed, Input};

const STATE_PLACES: usize = 16;
const WIDTHS: [u64; 3] = [4, 8, 12];

/// What the reference says of a case: the refusal's number; or the permutation of the state, and its inverse permutation.
type Wanted = Result<[Vec<u64>; 2], u8>;

/// The form is that of the docstring of `reference/diagonal_vectors.py`.
fn read(set: &Set, line: &str) -> Wanted {
    let Set { width, node_size, height, full_rounds, partial_rounds, .. } = set;
    let begins = format!("{width} {node_size} {height} {full_rounds} {partial_rounds} ");
    let parts: Vec<&str> = line.strip_prefix(&begins).expect("the line of this set").split(' ').collect();
    let number = |text: &&str| text.parse::<u64>().unwrap_or_else(|error| panic!("{text}: {error}"));
    match &parts[..] {
        ["refused", refusal] => Err(number(refusal) as u8),
        ["permute", words @ ..] => {
            let (permuted, unpermuted) = words.split_at(*width as usize);
            assert_eq!((unpermuted[0], unpermuted.len()), ("unpermute", permuted.len() + 1));
            Ok([permuted, &unpermuted[1..]].map(|words| words.iter().map(number).collect()))
        }
        _ => panic!("no line of a set: {line}"),
    }
}

/// What a diagonal is by its words alone.
struct Kind {
    zeros: Vec<usize>,
    /// 1 plus the inverses of the words other than 0 is 0.
    cancels: bool,
}

impl Kind {
    fn of(diagonal: &[u64]) -> Kind {
        let zeros = (0..diagonal.len()).filter(|&i| diagonal[i] == 0).collect();
        let sum = diagonal.iter().filter(|&&d| d != 0).fold(1, |sum, &d| add(sum, inverse(d)));
        Kind { zeros, cancels: sum == 0 }
    }

    /// As the rows of refusals 8 and 9 have it.
    fn refusal(&self) -> Option<u8> {
        match (self.zeros.len(), self.cancels) {
            (0, true) => Some(9),
            (0 | 1, _) => None,
            _ => Some(8),
        }
    }
}

/// The answer of a set that is refused, by every function here, each of which leaves the state.
fn compare_refused(set: &Set, state: &[u64], number: u8) {
    let refused = Err(Refusal::from_number(number).expect("a refusal"));
    assert_eq!(ParameterSet::new(numbers(set)).map(|_| ()), refused, "{set:?}");
    for entry in [entries::permute, entries::unpermute] {
        let mut kept = state.to_vec();
        assert_eq!(entry(&set.array(), &mut kept), refused, "{set:?}");
        assert_eq!(kept, state, "{set:?}");
    }
}

/// The state permuted and the state that it is the permutation of, from which the library comes back to it.
fn compare_done(set: &Set, state: &[u64], [permuted, unpermuted]: [Vec<u64>; 2]) {
    let kept = kept(set);
    let (mut after, mut before) = (state.to_vec(), state.to_vec());
    assert_eq!((kept.permute(&mut after), &after), (Ok(()), &permuted), "{state:?} under {set:?}");
    assert_eq!((kept.unpermute(&mut before), &before), (Ok(()), &unpermuted), "{state:?} under {set:?}");
    assert_eq!((kept.unpermute(&mut after), &after[..]), (Ok(()), state), "{permuted:?} under {set:?}");
    assert_eq!((kept.permute(&mut before), &before[..]), (Ok(()), state), "{unpermuted:?} under {set:?}");
}

/// The cases of `reference/diagonal_cases.py`, whose docstring has their form, with the lines of `reference/diagonal_vectors.py`.
#[test]
fn the_reference_takes_the_same_diagonals() {
    let mut input = Input::new(&printed("diagonal_cases.py"));
    let lines = printed("diagonal_vectors.py");
    let mut lines = lines.lines();
    // By width, the number of zeros, 3 for three and more, and whether the others cancel; and by width and the place of a single zero.
    let (mut kinds, mut places) = (BTreeMap::new(), BTreeMap::new());
    for _ in 0..input.number() {
        let (set, state) = (input.set(), input.list(STATE_PLACES));
        let kind = Kind::of(set.used_diagonal());
        *kinds.entry((set.width, kind.zeros.len().min(3), kind.cancels)).or_insert(0) += 1;
        if let [place] = kind.zeros[..] {
            *places.entry((set.width, place)).or_insert(0) += 1;
        }
        let wanted = read(&set, lines.next().expect("a line for each set"));
        assert_eq!(wanted.as_ref().err().copied(), kind.refusal(), "{set:?}");
        assert_eq!(wanted.as_ref().err().copied(), model::set::check_set(&set).err(), "{set:?}");
        match wanted {
            Ok(words) => compare_done(&set, &state, words),
            Err(number) => compare_refused(&set, &state, number),
        }
    }
    assert!(input.is_at_its_end());
    assert_eq!(lines.next(), None);
    assert_all_reached(&kinds, &places);
}

/// At every width: none, one and two zeros, each with others that cancel and with others that don't, and more zeros; and a single one at
/// every place.
fn assert_all_reached(kinds: &BTreeMap<(u64, usize, bool), u64>, places: &BTreeMap<(u64, usize), u64>) {
    for width in WIDTHS {
        let of = |zeros: usize, cancels: bool| kinds.get(&(width, zeros, cancels)).copied().unwrap_or(0);
        let total: u64 = (0..=3).map(|zeros| of(zeros, false) + of(zeros, true)).sum();
        println!("t = {width}: {total} diagonals");
        for zeros in 0..=3 {
            let more = if zeros == 3 { " or more" } else { "" };
            println!("    {zeros}{more} zeros: {}, and {} whose others cancel", of(zeros, false), of(zeros, true));
            assert!(of(zeros, false) >= 100 && (of(zeros, true) >= 100 || zeros == 3));
        }
        assert!(total >= 1_000);
        for place in 0..width as usize {
            assert!(places.get(&(width, place)).is_some_and(|&count| count >= 20), "one zero at place {place}, t = {width}");
        }
    }
}
