//! Sets with the values that they keep, and exchanges of D and of h, beside the reference: which are taken, what is kept, and what the
//! entries that take a set do under each. The model is asked too.

mod model;
mod support;

use std::collections::{BTreeMap, BTreeSet};

use model::set::{Set, DIAGONAL_PLACES, INVERSES};
use opening_tree::SET_SIZE;
use support::calls::{Answer, Call, Entry};
use support::cases::small;
use support::reference::{digest, printed, Input};

const LIST_DIAGONAL_PLACES: usize = 16;
const LIST_CONSTANT_PLACES: usize = 224;

/// A function, and the numbers and buffers that it is handed with a set.
type Arguments<'a> = (Entry, &'a [u64], &'a [&'a [u64]]);

/// What was reached.
#[derive(Default)]
struct Reached {
    /// Calls by function and refusal, 0 for none.
    answers: BTreeMap<&'static str, BTreeMap<u8, u64>>,
    /// Single kept values that are wrong, and for which a set is refused: the width, whether D has a zero, and the place.
    wrong: BTreeSet<(u64, bool, usize)>,
    /// Kept values beyond t other than 0 in a set that is taken: the width and the place.
    beyond: BTreeSet<(u64, usize)>,
}

/// The name that the reference has for a function.
fn name(entry: Entry) -> &'static str {
    match entry {
        Entry::Validate => "validate",
        Entry::ExchangeDiagonal => "exchange_diagonal",
        Entry::ExchangeHeight => "exchange_height",
        Entry::Permute => "permute",
        Entry::Unpermute => "unpermute",
        Entry::Compress => "compress",
        Entry::Sizes => "sizes",
        Entry::Build => "build",
        Entry::Root => "root",
        Entry::StorelessRoot => "storeless_root",
        Entry::Open => "open",
        Entry::Verify => "verify",
        _ => panic!("the reference has no such line: {entry:?}"),
    }
}

impl Reached {
    /// The library's answer to a call, which is the model's, as the reference writes it. A buffer that is written to is the last.
    fn answer(&mut self, set: &Set, (entry, numbers, buffers): Arguments) -> String {
        let buffers = buffers.iter().map(|buffer| buffer.to_vec()).collect();
        let call = Call { entry, set: set.clone(), numbers: numbers.to_vec(), buffers, contents: vec![] };
        let (mut library, mut model) = (call.clone(), call.clone());
        let answer = library.ask_library();
        assert_eq!((&answer, &library), (&model.ask_model(), &model));
        self.count(&call, &answer);
        let left = if library == call { "kept" } else { "changed" };
        match answer {
            Answer::Done => digest(library.buffers.last().expect("a buffer")).to_string(),
            Answer::Set(array) => {
                let kept: Vec<String> = array[INVERSES..].iter().map(u64::to_string).collect();
                format!("accepted {} kept {}", digest(&*array), kept.join(" "))
            }
            Answer::Sizes([leaves, store, opening]) => format!("{leaves} {store} {opening}"),
            Answer::Accepted => "accepted".to_string(),
            Answer::Rejected => "rejected".to_string(),
            // The reference's answer has a set of zeros.
            Answer::Refused(number) if matches!(entry, Entry::Validate | Entry::ExchangeDiagonal | Entry::ExchangeHeight) => {
                format!("refused {number} {}", digest(&[0; SET_SIZE]))
            }
            Answer::Refused(number) if matches!(entry, Entry::Sizes | Entry::Verify) => format!("refused {number}"),
            Answer::Refused(number) => format!("refused {number} {left}"),
            Answer::Number(_) => panic!("no such answer: {call:?}"),
        }
    }

    fn count(&mut self, call: &Call, answer: &Answer) {
        let number = if let Answer::Refused(number) = answer { *number } else { 0 };
        *self.answers.entry(name(call.entry)).or_default().entry(number).or_insert(0) += 1;
        let (set, mut right) = (&call.set, call.set.clone());
        right.keep();
        let kept = |set: &Set| [&set.inverses[..], &[set.total_inverse]].concat();
        let differ: Vec<usize> = (0..=DIAGONAL_PLACES).filter(|&place| kept(set)[place] != kept(&right)[place]).collect();
        if let (18, [place]) = (number, &differ[..]) {
            self.wrong.insert((set.width, set.used_diagonal().contains(&0), *place));
        }
        if call.entry == Entry::Unpermute && number == 0 {
            let beyond = (set.width as usize..DIAGONAL_PLACES).filter(|&place| set.inverses[place] != 0);
            self.beyond.extend(beyond.map(|place| (set.width, place)));
        }
    }

    /// The line of the next case.
    fn line(&mut self, input: &mut Input) -> String {
        let (numbers, parts) = match input.number() {
            1 => self.validation(input),
            2 => {
                let set = input.set_and_kept();
                (set.five(), self.entries(input, &set))
            }
            3 => {
                let (set, diagonal) = (input.set_and_kept(), input.list(LIST_DIAGONAL_PLACES));
                let answer = self.answer(&set, (Entry::ExchangeDiagonal, &[], &[&diagonal]));
                (set.five(), format!("exchange_diagonal {} {answer}", diagonal.len()))
            }
            4 => {
                let (set, height) = (input.set_and_kept(), input.number());
                let answer = self.answer(&set, (Entry::ExchangeHeight, &[height], &[]));
                (set.five(), format!("exchange_height {height} {answer}"))
            }
            other => panic!("no such case: {other}"),
        };
        let [width, node_size, height, full_rounds, partial_rounds] = numbers;
        format!("{width} {node_size} {height} {full_rounds} {partial_rounds} {parts}")
    }

    fn validation(&mut self, input: &mut Input) -> ([u64; 5], String) {
        let numbers = [(); 5].map(|()| input.number());
        let (diagonal, constants) = (input.list(LIST_DIAGONAL_PLACES), input.list(LIST_CONSTANT_PLACES));
        // Validation takes no set.
        let answer = self.answer(&small(), (Entry::Validate, &numbers, &[&diagonal, &constants]));
        (numbers, format!("validate {answer}"))
    }

    fn entries(&mut self, input: &mut Input, set: &Set) -> String {
        let [leaves, store, siblings, root, leaf] = [0, 1, 2, 3, 4].map(|seed| input.held(seed));
        let place = input.number();
        let [state, node] = [5, 6].map(|seed| input.held(seed));
        let calls: [Arguments; 9] = [
            (Entry::Sizes, &[], &[]),
            (Entry::Build, &[], &[&leaves, &store]),
            (Entry::Root, &[], &[&store, &root]),
            (Entry::StorelessRoot, &[], &[&leaves, &root]),
            (Entry::Open, &[place], &[&store, &siblings]),
            (Entry::Verify, &[place], &[&root, &leaf, &siblings]),
            (Entry::Permute, &[], &[&state]),
            (Entry::Unpermute, &[], &[&state]),
            (Entry::Compress, &[], &[&state, &node]),
        ];
        calls.map(|arguments| format!("{} {}", name(arguments.0), self.answer(set, arguments))).join(" ")
    }

    /// Every function was done, gave 9 and 18 for sets that were handed in, and the exchanges each refusal of an outcome; at every width
    /// each kept value alone was wrong, without a zero in D and with one, and beyond t each place held something.
    fn assert_all(&self) {
        assert_eq!(self.answers.len(), 12);
        for (name, answers) in &self.answers {
            println!("{name}: {} done, and refused by number {:?}", answers[&0], answers.range(1..));
            let refusals: &[u8] = match *name {
                "validate" => &[1, 2, 3, 4, 5, 6, 7, 8, 9],
                "exchange_diagonal" => &[6, 7, 8, 9, 18],
                "exchange_height" => &[5, 9, 18],
                _ => &[9, 18],
            };
            assert!(answers[&0] >= 30 && refusals.iter().all(|number| answers.get(number) >= Some(&3)), "{name}");
        }
        for width in [4, 8, 12] {
            for place in (0..width as usize).chain([DIAGONAL_PLACES]) {
                for zero in [false, true] {
                    assert!(self.wrong.contains(&(width, zero, place)), "t = {width}, place {place}, zero: {zero}");
                }
            }
            assert!((width as usize..DIAGONAL_PLACES).all(|place| self.beyond.contains(&(width, place))), "t = {width}");
        }
    }
}

/// The cases of `reference/set_cases.py`, whose docstring has their form, with the lines of `reference/set_vectors.py`.
#[test]
fn the_reference_has_the_same_sets() {
    let mut input = Input::new(&printed("set_cases.py"));
    let lines = printed("set_vectors.py");
    let mut lines = lines.lines();
    let mut reached = Reached::default();
    for at in 1..=input.number() {
        assert_eq!(Some(&reached.line(&mut input)[..]), lines.next(), "line {at}");
    }
    assert!(input.is_at_its_end());
    assert_eq!(lines.next(), None);
    reached.assert_all();
}
