//! Extractions beside the reference: of leaves that are equal or not, each with an opening that is good or bad, and of what is tested before.
//! The model is asked too.

mod model;
mod support;

use std::collections::{BTreeMap, BTreeSet};

use opening_tree::{Collision, Offer, Root};
use support::calls::{kept, Answer, Call, Entry};
use support::cases::SHAPES;
use support::reference::{text, Input};

/// The first number of an extraction's line.
const EXTRACTION: &str = "5 ";
const LIST_PLACES: usize = 64;
const BEFORE: u64 = 7;

/// Whether the leaves are equal, and whether each opening is accepted.
type Kind = (bool, [bool; 2]);

/// A line of the input; the docstring of `reference/tree_cases.py` has its form.
fn read(line: &str) -> Call {
    let mut input = Input::new(line.strip_prefix(EXTRACTION).expect("an extraction"));
    let set = input.set();
    let root = input.list(LIST_PLACES);
    let place = input.number();
    let [a, a_siblings, b, b_siblings] = [(); 4].map(|()| input.list(LIST_PLACES));
    let [a_row, b_row] = [(); 2].map(|()| vec![BEFORE; input.number() as usize]);
    assert!(input.is_at_its_end());
    let buffers = vec![root, a, a_siblings, b, b_siblings, a_row, b_row];
    Call { entry: Entry::Extract, set, numbers: vec![place], buffers, contents: vec![] }
}

/// The library's answer, which is the model's, and what it leaves.
fn answer(call: &Call) -> (Answer, Call) {
    let (mut library, mut model) = (call.clone(), call.clone());
    let answer = library.ask_library();
    assert_eq!((&answer, &library), (&model.ask_model(), &model));
    (answer, library)
}

/// The line of the output, as the docstring of `reference/tree_vectors.py` has it.
fn said(answer: &Answer, left: &Call) -> String {
    let five = left.set.five().map(|number| number.to_string()).join(" ");
    let answered = match answer {
        Answer::Number(level) => format!("level {level}"),
        Answer::Refused(number) => format!("refused {number}"),
        _ => panic!("no answer of an extraction: {answer:?}"),
    };
    let row = |at: usize| left.buffers[at].iter().map(u64::to_string).collect::<Vec<String>>().join(" ");
    format!("{five} extract {answered} first = {} second = {}", row(5), row(6))
}

/// The leaves and openings of a call to which nothing up to 12 applies, so that its openings have verdicts.
fn kind(call: &Call) -> Option<Kind> {
    if (5..7).any(|row| call.buffers[row].len() as u64 != call.set.width) {
        return None;
    }
    let mut accepted = [false; 2];
    for (accepted, leaf) in accepted.iter_mut().zip([1, 3]) {
        let buffers = [0, leaf, leaf + 1].map(|at| call.buffers[at].clone()).to_vec();
        *accepted = match answer(&Call { entry: Entry::Verify, buffers, ..call.clone() }).0 {
            Answer::Accepted => true,
            Answer::Rejected => false,
            _ => return None,
        };
    }
    Some((call.buffers[1] == call.buffers[3], accepted))
}

/// A set that is kept gives the same.
fn compare_kept(call: &Call, answer: &Answer, left: &Call) {
    let [root, a, a_siblings, b, b_siblings, ..] = &call.buffers[..] else { panic!("seven buffers") };
    let [first, second] = [(a, a_siblings), (b, b_siblings)].map(|(leaf, siblings)| Offer { leaf, siblings });
    match kept(&call.set).extract(&Root::from(&root[..]), call.numbers[0], first, second) {
        Ok(Collision { level, first_row, second_row }) => {
            assert_eq!((&Answer::Number(level), [&first_row, &second_row]), (answer, [&left.buffers[5], &left.buffers[6]]));
        }
        Err(refusal) => assert_eq!(&Answer::Refused(refusal.number()), answer),
    }
}

/// The cases of the section `extractions` of `tree_vectors`, with the lines that the reference has for them.
#[test]
fn the_reference_extracts_the_same() {
    let (input, output) = (text("crates/tree_vectors/stdin"), text("crates/tree_vectors/stdout"));
    let calls = input.lines().filter(|line| line.starts_with(EXTRACTION)).map(read);
    let mut lines = output.lines().skip_while(|&line| line != "section extractions").skip(1);
    let mut reached: BTreeMap<Kind, BTreeSet<(u64, u64)>> = BTreeMap::new();
    for call in calls {
        let (answer, left) = answer(&call);
        assert_eq!(Some(&said(&answer, &left)[..]), lines.next());
        let Some(kind) = kind(&call) else { continue };
        match kind {
            (true, _) => assert_eq!(answer, Answer::Refused(15)),
            (false, [true, true]) => assert!(matches!(answer, Answer::Number(_)), "{answer:?}"),
            (false, _) => assert_eq!(answer, Answer::Refused(14)),
        }
        compare_kept(&call, &answer, &left);
        reached.entry(kind).or_default().insert((call.set.width, call.set.node_size));
    }
    assert_eq!(lines.next(), None);
    for (kind, shapes) in &reached {
        println!("equal, and accepted: {kind:?}: {} widths and node sizes", shapes.len());
    }
    let every: BTreeSet<(u64, u64)> = SHAPES.into_iter().collect();
    assert!(reached.len() == 8 && reached.values().all(|shapes| *shapes == every), "{reached:?}");
}
