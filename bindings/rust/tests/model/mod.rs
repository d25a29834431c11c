//! A plain model of the library: what each function answers and leaves in its buffers, written from the rules alone and sharing
//! nothing with the library. A refusal is its number. Each test uses its part.
#![allow(dead_code)]

pub mod entries;
pub mod field;
pub mod files;
pub mod linear;
pub mod permutation;
pub mod set;
pub mod tree;
