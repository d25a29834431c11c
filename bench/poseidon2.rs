//! Poseidon2 over p = 2^64 - 2^32 + 1 in Rust with u128, written twice: plainly, and tuned.
pub const P: u64 = 0xFFFF_FFFF_0000_0001;
const EPSILON: u64 = 0xFFFF_FFFF;

/// Seeded words.
pub fn seeded() -> impl FnMut() -> u64 {
    let mut x = 88172645463325252u64;
    move || {
        x ^= x << 13;
        x ^= x >> 7;
        x ^= x << 17;
        x % P
    }
}

/// What the code of the trees asks of the arithmetic.
pub trait Version {
    /// Below 2^64, congruent to a * b + c.
    fn mul_add(a: u64, b: u64, c: u64) -> u64;
    /// The permutation of T words below p, or of any numbers for the tuned version: D and C in their places, R_F, R_P.
    fn permute<const T: usize>(s: &mut [u64; T], d: &[u64; 12], c: &[u64; 208], full: usize, partial: usize);
    /// The first half of M_E by itself, which `permute` does not call: to each block of four the sum of all blocks; a block alone stays. The
    /// numbers are as small as `halves` says.
    fn sums<const T: usize>(x: &[u64; T], s: &mut [u64; T]);
    /// The second half: M4 in each block.
    fn m4_blocks<const T: usize>(x: &[u64; T], s: &mut [u64; T]);
}

pub struct Plain;
pub struct Tuned;

/// The word of x.
#[inline(always)]
pub fn residue(x: u64) -> u64 {
    if x >= P {
        x - P
    } else {
        x
    }
}

/// The sum of two words.
#[inline(always)]
pub fn add(a: u64, b: u64) -> u64 {
    let s = a as u128 + b as u128;
    if s >= P as u128 {
        (s - P as u128) as u64
    } else {
        s as u64
    }
}

/// Below 2^64, congruent to a + b, of which one is a word.
#[inline(always)]
pub fn add_word(a: u64, b: u64) -> u64 {
    let (sum, carry) = a.overflowing_add(b);
    if carry {
        sum.wrapping_add(EPSILON)
    } else {
        sum
    }
}

/// Below 2^64, congruent to x.
#[inline(always)]
pub fn reduce(x: u128) -> u64 {
    let (low, high) = (x as u64, (x >> 64) as u64);
    let (mut rest, borrow) = low.overflowing_sub(high >> 32);
    if borrow {
        rest = rest.wrapping_sub(EPSILON);
    }
    let (sum, carry) = rest.overflowing_add((high & EPSILON) * EPSILON);
    if carry {
        sum.wrapping_add(EPSILON)
    } else {
        sum
    }
}

/// The four sums of M4, on any kind of number.
macro_rules! m4 {
    ($x:expr, $add:expr) => {{
        let [a, b, c, d] = $x;
        let (t0, t1) = ($add(a, b), $add(c, d));
        let (t2, t3) = ($add($add(b, b), t1), $add($add(d, d), t0));
        let (u1, u0) = ($add(t1, t1), $add(t0, t0));
        let (t4, t5) = ($add($add(u1, u1), t3), $add($add(u0, u0), t2));
        [$add(t3, t5), t5, $add(t2, t4), t4]
    }};
}

/// The halves of M_E by themselves, on any kind of sum.
macro_rules! sums {
    ($x:expr, $s:expr, $add:expr) => {
        for j in 0..4 {
            let total = (1..T / 4).fold($x[j], |n, b| $add(n, $x[4 * b + j]));
            (0..T / 4).for_each(|b| $s[4 * b + j] = if T > 4 { $add($x[4 * b + j], total) } else { total });
        }
    };
}

macro_rules! m4_blocks {
    ($x:expr, $s:expr, $add:expr) => {
        for b in 0..T / 4 {
            let y = m4!([$x[4 * b], $x[4 * b + 1], $x[4 * b + 2], $x[4 * b + 3]], $add);
            $s[4 * b..4 * b + 4].copy_from_slice(&y);
        }
    };
}

/// Words below p after every sum and product.
pub mod plain {
    use super::*;

    #[inline(always)]
    pub fn mul(a: u64, b: u64) -> u64 {
        residue(reduce(a as u128 * b as u128))
    }

    #[inline(always)]
    fn seventh(x: u64) -> u64 {
        let x2 = mul(x, x);
        let x4 = mul(x2, x2);
        mul(mul(x4, x2), x)
    }

    #[inline(always)]
    fn external<const T: usize>(s: &mut [u64; T]) {
        for b in 0..T / 4 {
            let y = m4!([s[4 * b], s[4 * b + 1], s[4 * b + 2], s[4 * b + 3]], add);
            s[4 * b..4 * b + 4].copy_from_slice(&y);
        }
        if T > 4 {
            for j in 0..4 {
                let total = (0..T / 4).fold(0, |n, b| add(n, s[4 * b + j]));
                (0..T / 4).for_each(|b| s[4 * b + j] = add(s[4 * b + j], total));
            }
        }
    }

    impl Version for Plain {
        #[inline(always)]
        fn mul_add(a: u64, b: u64, c: u64) -> u64 {
            add(mul(a, b), c)
        }

        #[inline(always)]
        fn permute<const T: usize>(s: &mut [u64; T], d: &[u64; 12], c: &[u64; 208], full: usize, partial: usize) {
            permute(s, d, c, full, partial)
        }

        #[inline(never)]
        fn sums<const T: usize>(x: &[u64; T], s: &mut [u64; T]) {
            sums!(x, s, add)
        }

        #[inline(never)]
        fn m4_blocks<const T: usize>(x: &[u64; T], s: &mut [u64; T]) {
            m4_blocks!(x, s, add)
        }
    }

    #[inline(never)]
    fn permute<const T: usize>(s: &mut [u64; T], d: &[u64; 12], c: &[u64; 208], full: usize, partial: usize) {
        let mut k = 0;
        let fulls = |s: &mut [u64; T], k: &mut usize| {
            for _ in 0..full / 2 {
                (0..T).for_each(|i| s[i] = seventh(add(s[i], c[*k + i])));
                *k += T;
                external(s);
            }
        };
        external(s);
        fulls(s, &mut k);
        for _ in 0..partial {
            s[0] = seventh(add(s[0], c[k]));
            k += 1;
            let total = s.iter().fold(0, |n, &x| add(n, x));
            (0..T).for_each(|i| s[i] = add(total, mul(d[i], s[i])));
        }
        fulls(s, &mut k);
    }
}

/// Lazy numbers: below 2^64, sums in u128, one reduction a word.
pub mod tuned {
    use super::*;

    /// x below 2^96
    #[inline(always)]
    pub fn reduce_small(x: u128) -> u64 {
        let (sum, carry) = (x as u64).overflowing_add((x >> 64) as u64 * EPSILON);
        if carry {
            sum.wrapping_add(EPSILON)
        } else {
            sum
        }
    }

    #[inline(always)]
    pub fn mul(a: u64, b: u64) -> u64 {
        reduce(a as u128 * b as u128)
    }

    #[inline(always)]
    fn seventh(x: u64) -> u64 {
        let x2 = mul(x, x);
        let x4 = mul(x2, x2);
        let x3 = mul(x2, x);
        mul(x3, x4)
    }

    #[inline(always)]
    fn external<const T: usize>(s: &mut [u64; T]) {
        let mut w = [0u128; T];
        for b in 0..T / 4 {
            let x = [
                s[4 * b] as u128,
                s[4 * b + 1] as u128,
                s[4 * b + 2] as u128,
                s[4 * b + 3] as u128,
            ];
            w[4 * b..4 * b + 4].copy_from_slice(&m4!(x, |a: u128, b: u128| a + b));
        }
        for j in 0..4 {
            let total: u128 = if T > 4 { (0..T / 4).map(|b| w[4 * b + j]).sum() } else { 0 };
            (0..T / 4).for_each(|b| s[4 * b + j] = reduce_small(w[4 * b + j] + total));
        }
    }

    impl Version for Tuned {
        #[inline(always)]
        fn mul_add(a: u64, b: u64, c: u64) -> u64 {
            reduce(a as u128 * b as u128 + c as u128)
        }

        #[inline(always)]
        fn permute<const T: usize>(s: &mut [u64; T], d: &[u64; 12], c: &[u64; 208], full: usize, partial: usize) {
            permute(s, d, c, full, partial)
        }

        #[inline(never)]
        fn sums<const T: usize>(x: &[u64; T], s: &mut [u64; T]) {
            sums!(x, s, |a: u64, b: u64| a + b)
        }

        #[inline(never)]
        fn m4_blocks<const T: usize>(x: &[u64; T], s: &mut [u64; T]) {
            m4_blocks!(x, s, |a: u64, b: u64| a + b)
        }
    }

    #[inline(never)]
    fn permute<const T: usize>(s: &mut [u64; T], d: &[u64; 12], c: &[u64; 208], full: usize, partial: usize) {
        let mut k = 0;
        external(s);
        for _ in 0..full / 2 {
            (0..T).for_each(|i| s[i] = seventh(add_word(s[i], c[k + i])));
            k += T;
            external(s);
        }
        for _ in 0..partial {
            s[0] = seventh(add_word(s[0], c[k]));
            k += 1;
            let total = reduce_small(s.iter().map(|&x| x as u128).sum()) as u128;
            (0..T).for_each(|i| s[i] = reduce(total + d[i] as u128 * s[i] as u128));
        }
        for _ in 0..full / 2 {
            (0..T).for_each(|i| s[i] = seventh(add_word(s[i], c[k + i])));
            k += T;
            external(s);
        }
        s.iter_mut().for_each(|x| *x = residue(*x));
    }
}
