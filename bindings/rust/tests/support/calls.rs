//! A call of any function, made to the library or to the model.

use opening_tree::entries::{self, SetNumbers, SET_SIZE};
use opening_tree::{ParameterSet, Refusal, Verdict};

use super::cases::with_diagonal;
use crate::model;
use crate::model::set::{Numbers, Set};

#[derive(Clone, Copy, Debug, PartialEq, Eq)]
pub enum Entry {
    Sum,
    Difference,
    Product,
    Power,
    Inverse,
    SeventhRoot,
    Validate,
    ExchangeDiagonal,
    ExchangeHeight,
    Permute,
    Unpermute,
    Compress,
    Sizes,
    Build,
    Root,
    StorelessRoot,
    Open,
    Verify,
    ReadLevel,
    Replace,
    Push,
    Extract,
    LeafOfFile,
}

impl Entry {
    pub const ALL: [Entry; 23] = [
        Entry::Sum,
        Entry::Difference,
        Entry::Product,
        Entry::Power,
        Entry::Inverse,
        Entry::SeventhRoot,
        Entry::Validate,
        Entry::ExchangeDiagonal,
        Entry::ExchangeHeight,
        Entry::Permute,
        Entry::Unpermute,
        Entry::Compress,
        Entry::Sizes,
        Entry::Build,
        Entry::Root,
        Entry::StorelessRoot,
        Entry::Open,
        Entry::Verify,
        Entry::ReadLevel,
        Entry::Replace,
        Entry::Push,
        Entry::Extract,
        Entry::LeafOfFile,
    ];

    /// Whether it is one of the field's functions.
    pub fn is_of_field(self) -> bool {
        (self as usize) < Entry::Validate as usize
    }

    pub fn takes_set(self) -> bool {
        self as usize > Entry::Validate as usize
    }

    /// The functions that take a set.
    pub fn with_set() -> impl Iterator<Item = Entry> {
        Entry::ALL.into_iter().filter(|entry| entry.takes_set())
    }

    /// The numbers of the refusals that it can give, rising.
    pub fn refusals(self) -> Vec<u8> {
        let own: &[u8] = match self {
            Entry::Product | Entry::Power => &[],
            Entry::Inverse => &[12, 13],
            field if field.is_of_field() => &[12],
            Entry::Validate => &[1, 2, 3, 4, 5, 6, 7, 8, 9],
            Entry::ExchangeDiagonal => &[6],
            Entry::ExchangeHeight | Entry::Sizes => &[],
            Entry::Open | Entry::Verify | Entry::ReadLevel | Entry::Replace => &[10, 11, 12],
            Entry::Push => &[10, 11, 12, 17],
            Entry::Extract => &[10, 11, 12, 14, 15],
            Entry::LeafOfFile => &[10, 16],
            _ => &[10, 12],
        };
        let of_set: &[u8] = if self.takes_set() { &[1, 2, 3, 4, 5, 7, 8, 9, 18] } else { &[] };
        let mut refusals = [of_set, own].concat();
        refusals.sort();
        refusals
    }
}

/// The arguments of a call. The numbers and buffers are in the order of the function's own parameters; the field's functions and
/// validation ignore the set, and all but `leaf_of_file` the contents.
#[derive(Clone, Debug, PartialEq)]
pub struct Call {
    pub entry: Entry,
    pub set: Set,
    pub numbers: Vec<u64>,
    pub buffers: Vec<Vec<u64>>,
    pub contents: Vec<u8>,
}

#[derive(Clone, Debug, PartialEq, Eq)]
pub enum Answer {
    Done,
    Set(Box<[u64; SET_SIZE]>),
    /// A word, a count or a level.
    Number(u64),
    /// Of all leaves, a store and an opening.
    Sizes([u64; 3]),
    Accepted,
    Rejected,
    Refused(u8),
}

impl From<Result<(), u8>> for Answer {
    fn from(result: Result<(), u8>) -> Answer {
        result.map_or_else(Answer::Refused, |()| Answer::Done)
    }
}

impl From<Result<[u64; SET_SIZE], u8>> for Answer {
    fn from(result: Result<[u64; SET_SIZE], u8>) -> Answer {
        result.map_or_else(Answer::Refused, |set| Answer::Set(Box::new(set)))
    }
}

impl From<Result<Set, u8>> for Answer {
    fn from(result: Result<Set, u8>) -> Answer {
        result.map(|set| set.array()).into()
    }
}

impl From<Result<u64, u8>> for Answer {
    fn from(result: Result<u64, u8>) -> Answer {
        result.map_or_else(Answer::Refused, Answer::Number)
    }
}

impl From<Result<[u64; 3], u8>> for Answer {
    fn from(result: Result<[u64; 3], u8>) -> Answer {
        result.map_or_else(Answer::Refused, Answer::Sizes)
    }
}

impl From<Result<bool, u8>> for Answer {
    fn from(result: Result<bool, u8>) -> Answer {
        result.map_or_else(Answer::Refused, |accepted| if accepted { Answer::Accepted } else { Answer::Rejected })
    }
}

impl From<Verdict> for Answer {
    fn from(verdict: Verdict) -> Answer {
        match verdict {
            Verdict::Accepted => Answer::Accepted,
            Verdict::Rejected => Answer::Rejected,
            Verdict::Refused(refusal) => Answer::Refused(refusal.number()),
        }
    }
}

/// A refusal as its number.
fn numbered<T>(result: Result<T, Refusal>) -> Result<T, u8> {
    result.map_err(Refusal::number)
}

/// What the library's validation is given for a set.
pub fn numbers(set: &Set) -> SetNumbers<'_> {
    SetNumbers {
        width: set.width,
        node_size: set.node_size,
        height: set.height,
        full_rounds: set.full_rounds,
        partial_rounds: set.partial_rounds,
        diagonal: set.used_diagonal(),
        constants: set.used_constants(),
    }
}

/// An accepted set, as the library keeps it.
pub fn kept(set: &Set) -> ParameterSet {
    ParameterSet::new(numbers(set)).expect("accepted")
}

impl Call {
    /// A call for the sizes of a set.
    pub fn sizes(set: Set) -> Call {
        Call { entry: Entry::Sizes, set, numbers: vec![], buffers: vec![], contents: vec![] }
    }

    /// The D of its set, or what validation is given for it; nothing for a function of the field.
    pub fn diagonal(&self) -> &[u64] {
        match self.entry {
            Entry::Validate => &self.buffers[0],
            entry if entry.takes_set() => self.set.used_diagonal(),
            _ => &[],
        }
    }

    /// The call with another D in its set, whose values it keeps, or in what validation is given.
    pub fn with_diagonal(&self, diagonal: &[u64]) -> Call {
        let mut call = self.clone();
        if call.entry == Entry::Validate {
            call.buffers[0] = diagonal.to_vec();
        } else {
            call.set = with_diagonal(call.set, diagonal);
        }
        call
    }

    /// Calls the library.
    pub fn ask_library(&mut self) -> Answer {
        let set = &self.set.array();
        match (self.entry, &self.numbers[..], &mut self.buffers[..]) {
            (Entry::Sum, &[a, b], []) => numbered(entries::sum(a, b)).into(),
            (Entry::Difference, &[a, b], []) => numbered(entries::difference(a, b)).into(),
            (Entry::Product, &[a, b], []) => numbered(entries::product(a, b)).into(),
            (Entry::Power, &[base, exponent], []) => numbered(entries::power(base, exponent)).into(),
            (Entry::Inverse, &[x], []) => numbered(entries::inverse(x)).into(),
            (Entry::SeventhRoot, &[y], []) => numbered(entries::seventh_root(y)).into(),
            (Entry::Validate, &[width, node_size, height, full_rounds, partial_rounds], [diagonal, constants]) => {
                let numbers = SetNumbers { width, node_size, height, full_rounds, partial_rounds, diagonal, constants };
                numbered(entries::validate(&numbers)).into()
            }
            (Entry::ExchangeDiagonal, [], [diagonal]) => numbered(entries::exchange_diagonal(set, diagonal)).into(),
            (Entry::ExchangeHeight, &[height], []) => numbered(entries::exchange_height(set, height)).into(),
            (Entry::Permute, [], [state]) => numbered(entries::permute(set, state)).into(),
            (Entry::Unpermute, [], [state]) => numbered(entries::unpermute(set, state)).into(),
            (Entry::Compress, [], [state, node]) => numbered(entries::compress(set, state, node)).into(),
            (Entry::Sizes, [], []) => {
                numbered(entries::sizes(set)).map(|sizes| [sizes.leaves, sizes.store, sizes.opening]).into()
            }
            (Entry::Build, [], [leaves, store]) => numbered(entries::build(set, leaves, store)).into(),
            (Entry::Root, [], [store, node]) => numbered(entries::root(set, store, node)).into(),
            (Entry::StorelessRoot, [], [leaves, node]) => numbered(entries::storeless_root(set, leaves, node)).into(),
            (Entry::Open, &[place], [store, siblings]) => numbered(entries::open(set, store, place, siblings)).into(),
            (Entry::Verify, &[place], [root, leaf, siblings]) => entries::verify(set, root, place, leaf, siblings).into(),
            (Entry::ReadLevel, &[level], [siblings, part]) => numbered(entries::read_level(set, siblings, level, part)).into(),
            (Entry::Replace, &[place], [store, leaf]) => numbered(entries::replace(set, store, place, leaf)).into(),
            (Entry::Push, [], [store, records]) => numbered(entries::push_numbers(set, store, records)).into(),
            (Entry::Extract, &[place], [root, a, a_siblings, b, b_siblings, a_row, b_row]) => {
                numbered(entries::extract(set, root, place, a, a_siblings, b, b_siblings, a_row, b_row)).into()
            }
            (Entry::LeafOfFile, [], [leaf]) => numbered(entries::leaf_of_file(set, &self.contents, leaf)).into(),
            _ => panic!("no such call: {self:?}"),
        }
    }

    /// Calls the model.
    pub fn ask_model(&mut self) -> Answer {
        use model::entries;
        let set = &self.set;
        match (self.entry, &self.numbers[..], &mut self.buffers[..]) {
            (Entry::Sum, &[a, b], []) => entries::sum(a, b).into(),
            (Entry::Difference, &[a, b], []) => entries::difference(a, b).into(),
            (Entry::Product, &[a, b], []) => entries::product(a, b).into(),
            (Entry::Power, &[base, exponent], []) => entries::power(base, exponent).into(),
            (Entry::Inverse, &[x], []) => entries::inverse(x).into(),
            (Entry::SeventhRoot, &[y], []) => entries::seventh_root(y).into(),
            (Entry::Validate, &[width, node_size, height, full_rounds, partial_rounds], [diagonal, constants]) => {
                let (diagonal, constants) = (diagonal.clone(), constants.clone());
                let numbers = Numbers { width, node_size, height, full_rounds, partial_rounds, diagonal, constants };
                entries::validate(&numbers).into()
            }
            (Entry::ExchangeDiagonal, [], [diagonal]) => entries::exchange_diagonal(set, diagonal).into(),
            (Entry::ExchangeHeight, &[height], []) => entries::exchange_height(set, height).into(),
            (Entry::Permute, [], [state]) => entries::permute(set, state).into(),
            (Entry::Unpermute, [], [state]) => entries::unpermute(set, state).into(),
            (Entry::Compress, [], [state, node]) => entries::compress(set, state, node).into(),
            (Entry::Sizes, [], []) => entries::sizes(set).into(),
            (Entry::Build, [], [leaves, store]) => entries::build(set, leaves, store).into(),
            (Entry::Root, [], [store, node]) => entries::root(set, store, node).into(),
            (Entry::StorelessRoot, [], [leaves, node]) => entries::storeless_root(set, leaves, node).into(),
            (Entry::Open, &[place], [store, siblings]) => entries::open(set, store, place, siblings).into(),
            (Entry::Verify, &[place], [root, leaf, siblings]) => entries::verify(set, root, place, leaf, siblings).into(),
            (Entry::ReadLevel, &[level], [siblings, part]) => entries::read_level(set, siblings, level, part).into(),
            (Entry::Replace, &[place], [store, leaf]) => entries::replace(set, store, place, leaf).into(),
            (Entry::Push, [], [store, records]) => entries::push(set, store, records).into(),
            (Entry::Extract, &[place], [root, a, a_siblings, b, b_siblings, a_row, b_row]) => {
                entries::extract(set, root, place, a, a_siblings, b, b_siblings, a_row, b_row).into()
            }
            (Entry::LeafOfFile, [], [leaf]) => entries::leaf_of_file(set, &self.contents, leaf).into(),
            _ => panic!("no such call: {self:?}"),
        }
    }
}
