//! Roots of polynomials modulo p, by Cantor and Zassenhaus. A polynomial is its coefficients, that of the power 0 first, and the
//! last is not 0.

use super::generator::Generator;
use crate::model::field::{add, inverse, multiply, subtract, P};

fn trimmed(mut f: Vec<u64>) -> Vec<u64> {
    while f.last() == Some(&0) {
        f.pop();
    }
    f
}

/// The quotient and the remainder.
fn divided(f: &[u64], by: &[u64]) -> (Vec<u64>, Vec<u64>) {
    let mut rest = f.to_vec();
    let mut quotient = vec![0; (f.len() + 1).saturating_sub(by.len())];
    let scale = inverse(by[by.len() - 1]);
    for at in (0..quotient.len()).rev() {
        let factor = multiply(rest[at + by.len() - 1], scale);
        quotient[at] = factor;
        for (i, &coefficient) in by.iter().enumerate() {
            rest[at + i] = subtract(rest[at + i], multiply(factor, coefficient));
        }
    }
    (quotient, trimmed(rest))
}

fn common_divisor(f: &[u64], g: &[u64]) -> Vec<u64> {
    if g.is_empty() {
        f.to_vec()
    } else {
        common_divisor(g, &divided(f, g).1)
    }
}

fn product(f: &[u64], g: &[u64], modulus: &[u64]) -> Vec<u64> {
    let mut made = vec![0; f.len() + g.len()];
    for (i, &a) in f.iter().enumerate() {
        for (j, &b) in g.iter().enumerate() {
            made[i + j] = add(made[i + j], multiply(a, b));
        }
    }
    divided(&made, modulus).1
}

/// (x + shift)^exponent - (the other polynomial), modulo a polynomial.
fn power_less(shift: u64, exponent: u64, less: [u64; 2], modulus: &[u64]) -> Vec<u64> {
    let mut made = vec![1];
    for bit in (0..64).rev() {
        made = product(&made, &made, modulus);
        if exponent >> bit & 1 == 1 {
            made = product(&made, &[shift, 1], modulus);
        }
    }
    made.resize(made.len().max(2), 0);
    made[0] = subtract(made[0], less[0]);
    made[1] = subtract(made[1], less[1]);
    divided(&made, modulus).1
}

/// Every root of a polynomial of degree one or more, once.
pub fn roots(generator: &mut Generator, f: &[u64]) -> Vec<u64> {
    // x^p - x is the product of all x - n, so that the divisor has each root once and nothing else.
    let linear = common_divisor(f, &power_less(0, P, [0, 1], f));
    split(generator, &linear)
}

/// The roots of a product of different x - n.
fn split(generator: &mut Generator, f: &[u64]) -> Vec<u64> {
    match f {
        [] | [_] => vec![],
        [constant, slope] => vec![multiply(subtract(0, *constant), inverse(*slope))],
        _ => loop {
            // x + n is a square at about half of the roots.
            let shift = generator.number() % P;
            let part = common_divisor(f, &power_less(shift, (P - 1) / 2, [1, 0], f));
            if 1 < part.len() && part.len() < f.len() {
                let (other, _) = divided(f, &part);
                return [split(generator, &part), split(generator, &other)].concat();
            }
        },
    }
}
