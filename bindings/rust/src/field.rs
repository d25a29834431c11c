//! Arithmetic modulo p = 18446744069414584321. Only the numbers 0 to p - 1 are words. [`product`] and [`power`] take any numbers, reduced or
//! not, and give the word; the others refuse what is no word.
//!
//! ```
//! use opening_tree::field::{self, P};
//! use opening_tree::Refusal;
//!
//! assert_eq!(field::product(1 << 48, 1 << 48), Ok(P - 1));
//! assert_eq!(field::inverse(2), Ok(9223372034707292161));
//! assert_eq!(field::sum(P, 0), Err(Refusal::NotAWord));
//! assert_eq!(field::product(P + 2, u64::MAX), field::product(2, u64::MAX - P));
//! assert_eq!(field::power(P, 0), Ok(1));
//! ```

pub use crate::entries::{difference, inverse, power, product, seventh_root, sum};

/// The modulus, 2^64 - 2^32 + 1.
pub const P: u64 = 18446744069414584321;
