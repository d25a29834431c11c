//! Inverses in Rust, twice: of words, of D, and of the permutation. The plain version takes powers bit by bit, a word after another, and
//! multiplies by the inverse matrix of M4. The tuned one takes them by addition chains, for all words of a state in step, since each
//! product of a chain waits for the one before it; and it takes the steps of M4 back.
use crate::poseidon2::{add, residue, Plain, Tuned, Version, P};

/// What a set keeps: the inverses of the words of D, 0 for a 0, and that of 1 plus their sum, 0 where D has a 0.
#[repr(C)]
#[derive(Clone, PartialEq, Debug)]
pub struct Kept {
    pub inverses: [u64; 12],
    pub total_inverse: u64,
}

impl Kept {
    pub const NONE: Kept = Kept {
        inverses: [0; 12],
        total_inverse: 0,
    };

    /// The place of the first 0 among the first T inverses.
    fn zero<const T: usize>(&self) -> Option<usize> {
        self.inverses[..T].iter().position(|&e| e == 0)
    }
}

/// What is asked of a version beside the permutation.
pub trait Inverting: Version {
    /// The inverse of a word, and 0 for 0.
    fn inverse(x: u64) -> u64;
    /// What is kept for a D with one 0 at most, unless 9 refuses it.
    fn kept(diagonal: &[u64]) -> Option<Kept>;
    /// The inverse permutation of T words: what is kept, C, R_F, R_P.
    fn unpermute<const T: usize>(s: &mut [u64; T], kept: &Kept, c: &[u64], full: usize, partial: usize);
}

/// What is kept for a D, by an inversion for each word and one more.
pub fn kept_singly<V: Inverting>(diagonal: &[u64]) -> Option<Kept> {
    let mut kept = Kept::NONE;
    for (e, &d) in kept.inverses.iter_mut().zip(diagonal) {
        *e = V::inverse(d);
    }
    if !diagonal.contains(&0) {
        let total = kept.inverses[..diagonal.len()].iter().fold(1, |n, &e| add(n, e));
        if total == 0 {
            return None;
        }
        kept.total_inverse = V::inverse(total);
    }
    Some(kept)
}

/// Below 2^64, congruent to a - b, of which b is a word; and a word if a is.
#[inline(always)]
fn subtract(a: u64, b: u64) -> u64 {
    let (rest, borrow) = a.overflowing_sub(b);
    if borrow {
        rest.wrapping_add(P)
    } else {
        rest
    }
}

/// Words below p after every sum and product.
mod plain {
    use super::*;
    use crate::poseidon2::plain::mul;

    const ROOT: u64 = 10540996611094048183;
    const EIGHTH: u64 = 16140901060737761281;
    /// The inverses of 3 and 4, for a sum of two blocks and of three.
    const SHARES: [u64; 2] = [12297829379609722881, 13835058052060938241];
    /// Eight times the inverse of M4.
    const MATRIX: [[u64; 4]; 4] = [
        [P - 1, 3, P - 6, 7],
        [1, P - 1, 4, P - 5],
        [P - 6, 7, P - 1, 3],
        [4, P - 5, 1, P - 1],
    ];

    fn power(x: u64, exponent: u64) -> u64 {
        let below = 63 - exponent.leading_zeros();
        (0..below).rev().fold(x, |r, bit| {
            let square = mul(r, r);
            if exponent >> bit & 1 == 1 {
                mul(square, x)
            } else {
                square
            }
        })
    }

    fn unexternal<const T: usize>(s: &mut [u64; T]) {
        for j in 0..if T > 4 { 4 } else { 0 } {
            let total = (0..T / 4).fold(0, |n, b| add(n, s[4 * b + j]));
            let share = mul(total, SHARES[T / 4 - 2]);
            (0..T / 4).for_each(|b| s[4 * b + j] = subtract(s[4 * b + j], share));
        }
        for block in s.chunks_exact_mut(4) {
            let y = MATRIX.map(|row| (0..4).fold(0, |n, i| add(n, mul(row[i], block[i]))));
            (0..4).for_each(|i| block[i] = mul(EIGHTH, y[i]));
        }
    }

    fn uninternal<const T: usize>(s: &mut [u64; T], kept: &Kept) {
        let e = &kept.inverses;
        let zero = kept.zero::<T>();
        let sum = match zero {
            Some(z) => s[z],
            None => mul((0..T).fold(0, |n, i| add(n, mul(e[i], s[i]))), kept.total_inverse),
        };
        (0..T).for_each(|i| s[i] = mul(e[i], subtract(s[i], sum)));
        if let Some(z) = zero {
            s[z] = subtract(sum, s.iter().fold(0, |n, &x| add(n, x)));
        }
    }

    impl Inverting for Plain {
        #[inline(never)]
        fn inverse(x: u64) -> u64 {
            power(x, P - 2)
        }

        #[inline(always)]
        fn kept(diagonal: &[u64]) -> Option<Kept> {
            kept_singly::<Plain>(diagonal)
        }

        #[inline(never)]
        fn unpermute<const T: usize>(s: &mut [u64; T], kept: &Kept, c: &[u64], full: usize, partial: usize) {
            let (first, rest) = c.split_at(T * full / 2);
            let (middle, last) = rest.split_at(partial);
            let unfull = |s: &mut [u64; T], c: &[u64]| {
                for c in c.chunks_exact(T).rev() {
                    unexternal(s);
                    (0..T).for_each(|i| s[i] = subtract(power(s[i], ROOT), c[i]));
                }
            };
            unfull(s, last);
            for &c in middle.iter().rev() {
                uninternal(s, kept);
                s[0] = subtract(power(s[0], ROOT), c);
            }
            unfull(s, first);
            unexternal(s);
        }
    }
}

/// Lazy numbers: below 2^64, sums in u128, one reduction a word.
mod tuned {
    use super::*;
    use crate::poseidon2::tuned::{mul, reduce_small};

    const THIRD: u64 = 12297829379609722881;

    #[inline(always)]
    fn products<const N: usize>(x: [u64; N], y: [u64; N]) -> [u64; N] {
        std::array::from_fn(|i| mul(x[i], y[i]))
    }

    /// Each x, squared n times, times its y.
    #[inline(always)]
    fn raised<const N: usize>(mut x: [u64; N], n: usize, y: [u64; N]) -> [u64; N] {
        for _ in 0..n {
            x = products(x, x);
        }
        products(x, y)
    }

    /// Seventh roots, by the exponent that is 100 ten times, 0, 110 ten times and 111 in binary: 63 squarings and nine products. The names
    /// tell how often 100 stands in the exponent reached.
    #[inline(always)]
    fn roots<const N: usize>(x: [u64; N]) -> [u64; N] {
        let x2 = products(x, x);
        let x4 = products(x2, x2);
        let two = raised(x4, 3, x4);
        let four = raised(two, 6, two);
        let eight = raised(four, 12, four);
        let ten = raised(eight, 6, two);
        let most = raised(raised(ten, 31, ten), 1, ten);
        raised(most, 2, products(products(x4, x2), x))
    }

    /// By the exponent p - 2, in binary 31 ones, a zero and 32 ones: 63 squarings and nine products. The names tell how many ones.
    #[inline(always)]
    fn inverse(x: u64) -> u64 {
        let one = [x];
        let two = raised(one, 1, one);
        let three = raised(two, 1, one);
        let six = raised(three, 3, three);
        let twelve = raised(six, 6, six);
        let thirty = raised(raised(twelve, 12, twelve), 6, six);
        let ones = raised(thirty, 1, one);
        residue(raised(raised(ones, 32, ones), 1, one)[0])
    }

    /// A word by 2 and by 4: with the multiple of p that can be divided, p being one above a multiple of 4.
    #[inline(always)]
    fn half(x: u64) -> u64 {
        (x >> 1) + (x & 1) * (P / 2 + 1)
    }

    #[inline(always)]
    fn quarter(x: u64) -> u64 {
        let n = x.wrapping_neg() & 3;
        ((x + n) >> 2) + n * (P / 4)
    }

    /// The four sums of M4 from the last to the first.
    #[inline(always)]
    fn unm4([t35, t5, t24, t4]: [u64; 4]) -> [u64; 4] {
        let (t3, t2) = (subtract(t35, t5), subtract(t24, t4));
        let (t1, t0) = (quarter(subtract(t4, t3)), quarter(subtract(t5, t2)));
        let (d, b) = (half(subtract(t3, t0)), half(subtract(t2, t1)));
        [subtract(t0, b), b, subtract(t1, d), d]
    }

    /// Of words, to words.
    #[inline(always)]
    fn unexternal<const T: usize>(s: &mut [u64; T]) {
        let mut share = [0; 4];
        if T > 4 {
            for j in 0..4 {
                let total = residue(reduce_small((0..T / 4).map(|b| s[4 * b + j] as u128).sum()));
                share[j] = if T == 8 { residue(mul(total, THIRD)) } else { quarter(total) };
            }
        }
        for block in s.chunks_exact_mut(4) {
            let x = std::array::from_fn(|j| subtract(block[j], share[j]));
            block.copy_from_slice(&unm4(x));
        }
    }

    #[inline(always)]
    fn uninternal<const T: usize>(s: &mut [u64; T], kept: &Kept, zero: Option<usize>) {
        let e = &kept.inverses;
        let sum = residue(match zero {
            Some(z) => s[z],
            None => mul(
                reduce_small((0..T).rev().map(|i| mul(e[i], s[i]) as u128).sum()),
                kept.total_inverse,
            ),
        });
        (0..T).for_each(|i| s[i] = mul(e[i], subtract(s[i], sum)));
        if let Some(z) = zero {
            s[z] = subtract(sum, residue(reduce_small(s.iter().map(|&x| x as u128).sum())));
        }
    }

    /// Full rounds with these constants, from the last on: of words, to words.
    #[inline(always)]
    fn unfull<const T: usize>(s: &mut [u64; T], c: &[u64]) {
        for c in c.chunks_exact(T).rev() {
            unexternal(s);
            let roots = roots(*s);
            (0..T).for_each(|i| s[i] = subtract(residue(roots[i]), c[i]));
        }
    }

    impl Inverting for Tuned {
        #[inline(never)]
        fn inverse(x: u64) -> u64 {
            inverse(x)
        }

        /// By one inversion: with a the product of the words, and b that times 1 plus the inverses, x = 1 / (a × b) gives 1 / a = x × b
        /// and the other inverse, a / b = x × a × a. Where D has a 0, a is the product of the other words, and b is not asked for.
        #[inline(never)]
        fn kept(diagonal: &[u64]) -> Option<Kept> {
            let mut kept = Kept::NONE;
            let (mut a, mut b, mut zero) = (1, 1, false);
            for (before, &d) in kept.inverses.iter_mut().zip(diagonal) {
                *before = a;
                if d == 0 {
                    zero = true;
                } else {
                    b = Tuned::mul_add(b, d, a);
                    a = mul(a, d);
                }
            }
            let mut rest = if zero {
                inverse(a)
            } else {
                if residue(b) == 0 {
                    return None;
                }
                let x = inverse(mul(a, b));
                kept.total_inverse = residue(mul(mul(x, a), a));
                mul(x, b)
            };
            for (e, &d) in kept.inverses.iter_mut().zip(diagonal).rev() {
                if d == 0 {
                    *e = 0;
                } else {
                    *e = residue(mul(rest, *e));
                    rest = mul(rest, d);
                }
            }
            Some(kept)
        }

        #[inline(never)]
        fn unpermute<const T: usize>(s: &mut [u64; T], kept: &Kept, c: &[u64], full: usize, partial: usize) {
            let (first, rest) = c.split_at(T * full / 2);
            let (middle, last) = rest.split_at(partial);
            let zero = kept.zero::<T>();
            unfull(s, last);
            for &c in middle.iter().rev() {
                uninternal(s, kept, zero);
                let [root] = roots([s[0]]);
                s[0] = subtract(root, c);
            }
            s.iter_mut().for_each(|x| *x = residue(*x));
            unfull(s, first);
            unexternal(s);
        }
    }
}
