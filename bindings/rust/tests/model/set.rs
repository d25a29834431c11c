//! Parameter sets of any numbers, their refusals, and what is kept with them.

use super::field::{add, inverse, is_word, sum_of};
use super::linear::{has_inverse, matrix_of};
use super::permutation::internal_layer;

pub const DIAGONAL_PLACES: usize = 12;
pub const CONSTANT_PLACES: usize = 208;
/// The kept values come after the five numbers, D and C.
pub const INVERSES: usize = 5 + DIAGONAL_PLACES + CONSTANT_PLACES;
pub const TOTAL_INVERSE: usize = INVERSES + DIAGONAL_PLACES;
pub const SET_PLACES: usize = TOTAL_INVERSE + 1;

/// What validation is given: lists of any lengths.
#[derive(Clone, Debug, PartialEq)]
pub struct Numbers {
    /// t
    pub width: u64,
    /// l
    pub node_size: u64,
    /// h
    pub height: u64,
    /// R_F
    pub full_rounds: u64,
    /// R_P
    pub partial_rounds: u64,
    /// D
    pub diagonal: Vec<u64>,
    /// C
    pub constants: Vec<u64>,
}

/// A set as it is handed in: all places, whatever they hold.
#[derive(Clone, Debug, PartialEq)]
pub struct Set {
    /// t
    pub width: u64,
    /// l
    pub node_size: u64,
    /// h
    pub height: u64,
    /// R_F
    pub full_rounds: u64,
    /// R_P
    pub partial_rounds: u64,
    /// D, and places beyond it.
    pub diagonal: [u64; DIAGONAL_PLACES],
    /// C, and places beyond it.
    pub constants: [u64; CONSTANT_PLACES],
    /// The inverses of D that are kept, and places beyond them.
    pub inverses: [u64; DIAGONAL_PLACES],
    /// The inverse of 1 plus their sum that is kept.
    pub total_inverse: u64,
}

/// The number if the condition applies.
pub fn refuse(number: u8, condition: bool) -> Result<(), u8> {
    if condition {
        Err(number)
    } else {
        Ok(())
    }
}

/// Refusals 1 to 9. Each test presumes that those before it did not apply.
pub fn check_numbers(numbers: &Numbers) -> Result<(), u8> {
    let Numbers { width: t, node_size: l, height: h, full_rounds, partial_rounds, diagonal, constants } = numbers;
    let not_words = |list: &[u64]| !list.iter().all(|&n| is_word(n));
    refuse(1, ![4, 8, 12].contains(t))?;
    refuse(2, *l == 0 || t % l != 0 || t / l < 2)?;
    refuse(3, full_rounds % 2 == 1 || *full_rounds == 0 || *full_rounds > 12)?;
    refuse(4, *partial_rounds > 64)?;
    refuse(5, *h > 32 || (*t as u128 / *l as u128).pow(*h as u32) > 1 << 32)?;
    refuse(6, diagonal.len() as u64 != *t || constants.len() as u64 != t * full_rounds + partial_rounds)?;
    refuse(7, not_words(diagonal) || not_words(constants))?;
    // Whether D is refused is decided by its matrix, and only with which number by its zeros.
    let layer = matrix_of(diagonal.len(), |state| internal_layer(diagonal, state));
    let zeros = diagonal.iter().filter(|&&d| d == 0).count();
    refuse(if zeros > 1 { 8 } else { 9 }, !has_inverse(&layer))
}

/// The values to keep of a diagonal of words: for each its inverse, which is 0 for 0, and the inverse of 1 plus their sum, which is 0
/// if there is a 0.
pub fn kept_values(diagonal: &[u64]) -> (Vec<u64>, u64) {
    let inverses: Vec<u64> = diagonal.iter().map(|&d| if d == 0 { 0 } else { inverse(d) }).collect();
    let total = add(1, sum_of(&inverses));
    let total_inverse = if diagonal.contains(&0) { 0 } else { inverse(total) };
    (inverses, total_inverse)
}

/// The words in the first places, and 0 in those after them.
fn placed<const PLACES: usize>(words: &[u64]) -> [u64; PLACES] {
    let mut places = [0; PLACES];
    places[..words.len()].copy_from_slice(words);
    places
}

/// The set of what validation is given, if it is accepted.
pub fn validated(numbers: &Numbers) -> Result<Set, u8> {
    check_numbers(numbers)?;
    let (inverses, total_inverse) = kept_values(&numbers.diagonal);
    Ok(Set {
        width: numbers.width,
        node_size: numbers.node_size,
        height: numbers.height,
        full_rounds: numbers.full_rounds,
        partial_rounds: numbers.partial_rounds,
        diagonal: placed(&numbers.diagonal),
        constants: placed(&numbers.constants),
        inverses: placed(&inverses),
        total_inverse,
    })
}

/// What every function tests of a set that it is handed: the numbers and the used places as validation does, and then refusal 18.
pub fn check_set(set: &Set) -> Result<(), u8> {
    check_numbers(&set.numbers())?;
    let (inverses, total_inverse) = kept_values(set.used_diagonal());
    refuse(18, set.inverses[..inverses.len()] != inverses || set.total_inverse != total_inverse)
}

impl Set {
    /// t, l, h, R_F and R_P
    pub fn five(&self) -> [u64; 5] {
        [self.width, self.node_size, self.height, self.full_rounds, self.partial_rounds]
    }

    /// The places of D that are used, as far as there are any.
    pub fn used_diagonal(&self) -> &[u64] {
        &self.diagonal[..self.width.min(DIAGONAL_PLACES as u64) as usize]
    }

    /// The places of C that are used, as far as there are any.
    pub fn used_constants(&self) -> &[u64] {
        let used = self.width as u128 * self.full_rounds as u128 + self.partial_rounds as u128;
        &self.constants[..used.min(CONSTANT_PLACES as u128) as usize]
    }

    /// What validation would be given for this set.
    pub fn numbers(&self) -> Numbers {
        Numbers {
            width: self.width,
            node_size: self.node_size,
            height: self.height,
            full_rounds: self.full_rounds,
            partial_rounds: self.partial_rounds,
            diagonal: self.used_diagonal().to_vec(),
            constants: self.used_constants().to_vec(),
        }
    }

    /// Keeps the values of its D.
    pub fn keep(&mut self) {
        let (inverses, total_inverse) = kept_values(self.used_diagonal());
        self.inverses[..inverses.len()].copy_from_slice(&inverses);
        self.total_inverse = total_inverse;
    }

    /// All places, in the order in which the library takes them.
    pub fn array(&self) -> [u64; SET_PLACES] {
        let places = [&self.five()[..], &self.diagonal, &self.constants, &self.inverses, &[self.total_inverse]].concat();
        places.try_into().expect("as many places as a set has")
    }
}

/// Sizes, of a set whose h is at most 32.
impl Set {
    /// k
    pub fn arity(&self) -> u64 {
        self.width / self.node_size
    }

    pub fn places(&self) -> u128 {
        self.places_at(0)
    }

    pub fn places_at(&self, level: u64) -> u128 {
        (self.arity() as u128).pow((self.height - level) as u32)
    }

    pub fn leaf_words(&self) -> u128 {
        self.places() * self.node_size as u128
    }

    /// Where a level begins in the store; for h + 1, where the store ends.
    pub fn level_start(&self, level: u64) -> u128 {
        (0..level).map(|below| self.places_at(below) * self.node_size as u128).sum()
    }

    pub fn store_words(&self) -> u128 {
        self.level_start(self.height + 1)
    }

    pub fn part_words(&self) -> u128 {
        (self.arity() - 1) as u128 * self.node_size as u128
    }

    pub fn opening_words(&self) -> u128 {
        self.height as u128 * self.part_words()
    }
}
