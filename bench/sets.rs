//! Parameter sets in Rust, over either version of the arithmetic: validation, which makes what a set keeps, and the judging of a set that is
//! handed in, which inverts nothing. Both refuse as the library does.
use crate::inverses::{Inverting, Kept};
use crate::poseidon2::{add, reduce, residue, Version, P};

/// What validation is given.
pub struct Numbers<'a> {
    pub width: u64,
    pub node_size: u64,
    pub height: u64,
    pub full_rounds: u64,
    pub partial_rounds: u64,
    pub diagonal: &'a [u64],
    pub constants: &'a [u64],
}

/// A set: the numbers of the array that the library writes and is handed, in their order.
#[repr(C)]
#[derive(Clone, PartialEq, Debug)]
pub struct Set {
    pub width: u64,
    pub node_size: u64,
    pub height: u64,
    pub full_rounds: u64,
    pub partial_rounds: u64,
    pub diagonal: [u64; 12],
    pub constants: [u64; 208],
    pub kept: Kept,
}

pub const DONE: u8 = 0;
pub const BAD_WIDTH: u8 = 1;
pub const SINGULAR: u8 = 9;
pub const BAD_KEPT_VALUES: u8 = 18;

/// Four numbers a turn, as the library does it, and then the last few.
pub fn all_words(numbers: &[u64]) -> bool {
    let words = |numbers: &[u64]| numbers.iter().all(|&x| x < P);
    let mut fours = numbers.chunks_exact(4);
    fours.all(words) && words(fours.remainder())
}

fn bad_height(arity: u64, height: u64) -> bool {
    if height > 32 {
        return true;
    }
    let mut leaves = 1u64;
    for _ in 0..height {
        leaves *= arity;
        if leaves > 1 << 32 {
            return true;
        }
    }
    false
}

/// Whether 9 refuses a D with one 0 at most: 1 and the inverses of its words, added up, times the product of the words; so without an
/// inversion. With a 0 the product of the other words is left.
fn bad_diagonal<V: Version>(diagonal: &[u64]) -> bool {
    let (mut all, mut but_one) = (1, 0);
    for &d in diagonal {
        but_one = V::mul_add(but_one, d, all);
        all = V::mul_add(all, d, 0);
    }
    add(residue(all), residue(but_one)) == 0
}

/// The first refusal of 1 to 5, or 0.
#[inline(always)]
fn refusal_of_numbers(t: u64, l: u64, height: u64, full_rounds: u64, partial_rounds: u64) -> u8 {
    if t != 4 && t != 8 && t != 12 {
        return BAD_WIDTH;
    }
    if l == 0 || t % l != 0 || t / l < 2 {
        return 2;
    }
    if full_rounds % 2 == 1 || full_rounds == 0 || full_rounds > 12 {
        return 3;
    }
    if partial_rounds > 64 {
        return 4;
    }
    if bad_height(t / l, height) {
        return 5;
    }
    DONE
}

/// The first refusal of 7 and 8, or 0.
#[inline(always)]
fn refusal_of_lists(diagonal: &[u64], constants: &[u64]) -> u8 {
    if !all_words(diagonal) || !all_words(constants) {
        return 7;
    }
    if diagonal.iter().filter(|&&d| d == 0).count() > 1 {
        return 8;
    }
    DONE
}

impl Numbers<'_> {
    /// The first refusal of 1 to 8, or 0.
    #[inline(always)]
    fn refusal(&self) -> u8 {
        let (t, full, partial) = (self.width, self.full_rounds, self.partial_rounds);
        let number = refusal_of_numbers(t, self.node_size, self.height, full, partial);
        if number != DONE {
            return number;
        }
        if self.diagonal.len() as u64 != t || self.constants.len() as u64 != t * full + partial {
            return 6;
        }
        refusal_of_lists(self.diagonal, self.constants)
    }
}

/// Validation as it was before a set kept anything: the number of the first refusal of 1 to 9, or 0.
#[inline(never)]
pub fn former_validate<V: Version>(numbers: &Numbers) -> u8 {
    let number = numbers.refusal();
    if number == DONE && bad_diagonal::<V>(numbers.diagonal) {
        return SINGULAR;
    }
    number
}

/// Validation: the number of the first refusal of 1 to 9, or 0 and the set.
#[inline(never)]
pub fn validate<V: Inverting>(numbers: &Numbers, set: &mut Set) -> u8 {
    let number = numbers.refusal();
    if number != DONE {
        return number;
    }
    let Some(kept) = V::kept(numbers.diagonal) else {
        return SINGULAR;
    };
    set.width = numbers.width;
    set.node_size = numbers.node_size;
    set.height = numbers.height;
    set.full_rounds = numbers.full_rounds;
    set.partial_rounds = numbers.partial_rounds;
    put(&mut set.diagonal, numbers.diagonal);
    put(&mut set.constants, numbers.constants);
    set.kept = kept;
    DONE
}

/// The places of a list, with zeros beyond it.
fn put(places: &mut [u64], list: &[u64]) {
    let (used, beyond) = places.split_at_mut(list.len());
    used.copy_from_slice(list);
    beyond.fill(0);
}

/// Whether a number is the inverse of a word, and 0 for 0.
#[inline(always)]
fn is_inverse<V: Version>(word: u64, e: u64) -> bool {
    e < P
        && if word == 0 {
            e == 0
        } else {
            residue(V::mul_add(word, e, 0)) == 1
        }
}

/// Whether the values are those that are kept for a D with one 0 at most: by products, and so not where 9 refuses it.
#[inline(always)]
fn fits<V: Version>(diagonal: &[u64], inverses: &[u64], total_inverse: u64) -> bool {
    if !diagonal.iter().zip(inverses).all(|(&d, &e)| is_inverse::<V>(d, e)) {
        return false;
    }
    if inverses.contains(&0) {
        return total_inverse == 0;
    }
    let total = residue(reduce(inverses.iter().fold(1, |n, &e| n + e as u128)));
    total != 0 && is_inverse::<V>(total, total_inverse)
}

impl Set {
    pub const NONE: Set = Set {
        width: 0,
        node_size: 0,
        height: 0,
        full_rounds: 0,
        partial_rounds: 0,
        diagonal: [0; 12],
        constants: [0; 208],
        kept: Kept::NONE,
    };

    /// What validation is given for the set.
    pub fn numbers(&self) -> Numbers<'_> {
        Numbers {
            width: self.width,
            node_size: self.node_size,
            height: self.height,
            full_rounds: self.full_rounds,
            partial_rounds: self.partial_rounds,
            diagonal: &self.diagonal[..self.width as usize],
            constants: self.used_constants(),
        }
    }

    /// The constants that are used.
    #[inline(always)]
    pub fn used_constants(&self) -> &[u64] {
        &self.constants[..(self.width * self.full_rounds + self.partial_rounds) as usize]
    }

    /// The judging of a set that is handed in: the number of its first refusal, or 0. The places beyond the used ones are not read. Where
    /// its kept values fit, 9 does not apply.
    #[inline(never)]
    pub fn judge<V: Version>(&self) -> u8 {
        let number = refusal_of_numbers(self.width, self.node_size, self.height, self.full_rounds, self.partial_rounds);
        if number != DONE {
            return number;
        }
        let t = self.width as usize;
        let diagonal = &self.diagonal[..t];
        let number = refusal_of_lists(diagonal, self.used_constants());
        if number != DONE || fits::<V>(diagonal, &self.kept.inverses[..t], self.kept.total_inverse) {
            return number;
        }
        if bad_diagonal::<V>(diagonal) {
            SINGULAR
        } else {
            BAD_KEPT_VALUES
        }
    }
}
