//! Arithmetic modulo p, on words; products and powers also on any numbers.

pub const P: u64 = 18446744069414584321;

const SEVENTH_ROOT_EXPONENT: u64 = 10540996611094048183;

pub fn is_word(number: u64) -> bool {
    number < P
}

pub fn add(a: u64, b: u64) -> u64 {
    ((a as u128 + b as u128) % P as u128) as u64
}

pub fn subtract(a: u64, b: u64) -> u64 {
    ((a as u128 + P as u128 - b as u128) % P as u128) as u64
}

pub fn multiply(a: u64, b: u64) -> u64 {
    (a as u128 * b as u128 % P as u128) as u64
}

pub fn power(base: u64, exponent: u64) -> u64 {
    if exponent == 0 {
        return 1;
    }
    let half = power(base, exponent / 2);
    let even = multiply(half, half);
    if exponent % 2 == 1 {
        multiply(even, base)
    } else {
        even
    }
}

/// The inverse of a word that is not 0, by Euclid's algorithm.
pub fn inverse(x: u64) -> u64 {
    // Each remainder is its factor times x, modulo p.
    let (mut upper, mut lower) = (P as i128, x as i128);
    let (mut upper_factor, mut lower_factor) = (0i128, 1i128);
    while lower != 0 {
        let quotient = upper / lower;
        (upper, lower) = (lower, upper - quotient * lower);
        (upper_factor, lower_factor) = (lower_factor, upper_factor - quotient * lower_factor);
    }
    upper_factor.rem_euclid(P as i128) as u64
}

pub fn seventh_power(x: u64) -> u64 {
    power(x, 7)
}

pub fn seventh_root(y: u64) -> u64 {
    power(y, SEVENTH_ROOT_EXPONENT)
}

pub fn sum_of(words: &[u64]) -> u64 {
    words.iter().fold(0, |sum, &word| add(sum, word))
}

pub fn add_lists(a: &[u64], b: &[u64]) -> Vec<u64> {
    a.iter().zip(b).map(|(&a, &b)| add(a, b)).collect()
}

pub fn subtract_lists(a: &[u64], b: &[u64]) -> Vec<u64> {
    a.iter().zip(b).map(|(&a, &b)| subtract(a, b)).collect()
}
