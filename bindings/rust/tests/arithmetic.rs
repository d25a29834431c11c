//! The field's functions beside the reference: its edges in every pairing, and numbers that it draws, many of which are no words. The model
//! is asked too.

mod model;
mod support;

use std::collections::BTreeMap;

use model::field::{is_word, P};
use model::set::Set;
use support::calls::{Answer, Call, Entry};
use support::cases::{set_of, SHAPES};
use support::generator::Generator;
use support::reference::{drawn_numbers, text};

/// The functions under their names in the reference. Its seeds of drawn numbers are their indices, and then two more.
const ENTRIES: [(&str, Entry); 6] = [
    ("sum", Entry::Sum),
    ("difference", Entry::Difference),
    ("product", Entry::Product),
    ("power", Entry::Power),
    ("inverse", Entry::Inverse),
    ("seventh_root", Entry::SeventhRoot),
];
/// What products and powers are shown on.
const EDGES: [u64; 11] = [0, 1, P - 1, P, P + 1, P.wrapping_add(P), (1 << 32) - 1, 1 << 32, (1 << 32) + 1, 1 << 63, u64::MAX];
const EXPONENTS: [u64; 6] = [0, 1, P - 2, P - 1, P, u64::MAX];
const HIGH_HALF: u64 = u64::MAX << 32;

/// A function and its operands.
struct Case {
    entry: Entry,
    operands: Vec<u64>,
}

impl Case {
    /// What the library answers, as the reference writes it. The model answers the same.
    fn said(&self, set: &Set) -> String {
        let call =
            Call { entry: self.entry, set: set.clone(), numbers: self.operands.clone(), buffers: vec![], contents: vec![] };
        let answer = call.clone().ask_library();
        assert_eq!(answer, call.clone().ask_model(), "{call:?}");
        match answer {
            Answer::Number(word) => word.to_string(),
            Answer::Refused(number) => format!("refused {number}"),
            _ => panic!("no answer of the field: {answer:?}"),
        }
    }

    /// Whether each operand is a word; an exponent is a number, and counts for none.
    fn words(&self) -> Vec<bool> {
        let operands = if self.entry == Entry::Power { &self.operands[..1] } else { &self.operands };
        operands.iter().map(|&operand| is_word(operand)).collect()
    }
}

fn entry(name: &str) -> Entry {
    ENTRIES.into_iter().find(|&(known, _)| known == name).unwrap_or_else(|| panic!("no function {name}")).1
}

/// The operands of drawn lines; the docstring of `reference/field_vectors.py` says how they are drawn.
fn drawn(entry: Entry, seed: u64, count: usize, high: u64) -> Vec<Case> {
    let mut numbers = drawn_numbers(seed);
    let mut number = || numbers.next().expect("without end");
    let operand = |x: u64| if x % high == 0 { x | HIGH_HALF } else { x };
    let mut draw = || match entry {
        Entry::Sum | Entry::Difference | Entry::Product => vec![operand(number()), operand(number())],
        Entry::Power => vec![operand(number()), number()],
        _ => vec![operand(number())],
    };
    (0..count).map(|_| Case { entry, operands: draw() }).collect()
}

/// The section's cases, each with what the reference says.
fn cases(section: &str) -> Vec<(Case, String)> {
    let (mut cases, mut lines, mut seeds) = (vec![], section.lines(), 0..);
    let number = |part: &str| part.parse::<u64>().expect("a number");
    while let Some(line) = lines.next() {
        let parts: Vec<&str> = line.split(' ').collect();
        let entry = entry(parts[0]);
        if let [_, kind @ ("seeded" | "unreduced"), count] = parts[..] {
            let high = if kind == "seeded" { 16 } else { 2 };
            let drawn = drawn(entry, seeds.next().expect("a seed"), number(count) as usize, high);
            cases.extend(drawn.into_iter().map(|case| (case, lines.next().expect("a line for each").to_string())));
        } else {
            let (operands, said) = parts[1..].split_at(parts.len() - 3);
            let operands = operands.iter().map(|operand| number(operand)).collect();
            cases.push((Case { entry, operands }, said.join(" ").trim_start_matches("= ").to_string()));
        }
    }
    cases
}

/// The section `field` of `vectors`, with the lines that the reference has for it.
fn section() -> Vec<(Case, String)> {
    let output = text("crates/vectors/stdout");
    let after = output.strip_prefix("section field\n").expect("the section comes first");
    cases(after.split_once("section ").expect("others come after it").0)
}

#[test]
fn the_reference_answers_the_same() {
    let set = set_of(&mut Generator(0), SHAPES[0], 0, 2, 0);
    let mut reached: BTreeMap<(&str, Vec<bool>), (u64, u64)> = BTreeMap::new();
    for (case, said) in section() {
        assert_eq!(case.said(&set), said, "{:?} of {:?}", case.entry, case.operands);
        let words = case.words();
        let takes_any = matches!(case.entry, Entry::Product | Entry::Power);
        assert_eq!(said == "refused 12", !takes_any && words.contains(&false), "{:?} of {:?}", case.entry, case.operands);
        let (name, _) = ENTRIES[case.entry as usize];
        let (given, refused) = reached.entry((name, words)).or_default();
        *(if said.starts_with("refused") { refused } else { given }) += 1;
    }
    for ((name, words), (given, refused)) in &reached {
        println!("{name} of words {words:?}: {given} given, {refused} refused");
    }
    // Three functions of two numbers and three of one, power's base among these, on words and others in every way.
    assert_eq!(reached.len(), 3 * 4 + 3 * 2);
    for ((name, words), (given, _)) in reached {
        assert!(!matches!(name, "product" | "power") || given >= 500, "{name} of words {words:?}: {given}");
    }
}

/// Products of every two edges, and powers of every edge with every exponent, are among what is compared.
#[test]
fn the_reference_has_the_edges() {
    let section = section();
    let has = |entry, operands: [u64; 2]| section.iter().any(|(case, _)| case.entry == entry && case.operands == operands);
    for a in EDGES {
        assert!(EDGES.into_iter().all(|b| has(Entry::Product, [a, b])), "{a}");
        assert!(EXPONENTS.into_iter().all(|exponent| has(Entry::Power, [a, exponent])), "{a}");
    }
}
