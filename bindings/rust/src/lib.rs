//! Merkle openings over Poseidon2, modulo p = 2^64 - 2^32 + 1: safe bindings of a proved library.
//!
//! A tree keeps one root, a few words, for all its leaves; an opening shows later that a leaf stood at a place.
//!
//! ```
//! use opening_tree::{published, NotAccepted, Tree};
//!
//! let set = published::width_12(4, 2)?; // nodes of four words, three to a row, and nine leaves
//! let leaves: Vec<u64> = (0..36).collect();
//! let tree = Tree::build(&set, &leaves)?;
//! let (root, opening) = (tree.root(), tree.open(5)?);
//! set.verify(&root, &leaves[20..24], &opening)?; // an error unless the opening is accepted
//! assert_eq!(set.verify(&root, &leaves[24..28], &opening), Err(NotAccepted::Rejected));
//! # Ok::<(), NotAccepted>(())
//! ```
//!
//! Any numbers may be handed in. A call is done, or refused by a [`Refusal`]; after a refusal every buffer and
//! every tree is as it was. So a push of [`Record`]s is made whole or not at all, and one that has a place twice is refused. A
//! verification is `Ok` for an opening that is accepted and for nothing else: one that is rejected or refused is an error,
//! [`NotAccepted`].
//!
//! The types here are for numbers that are kept together; [`entries`] has the library's twenty-three functions over plain slices,
//! for sets and buffers of one's own. A [`ParameterSet`] is validated, and keeps the inverses that the inverse permutation uses, so
//! that this inverts nothing. [`field`] is the arithmetic.
//!
//! Choosing a safe set is the caller's part. [`published`] has the Poseidon2 authors' instances to start from.

#![deny(unsafe_code)]
#![warn(missing_docs, missing_debug_implementations)]

#[cfg(not(all(target_arch = "x86_64", target_os = "linux")))]
compile_error!("the library is made for x86-64 Linux alone");

#[allow(unsafe_code)]
pub mod entries;
pub mod field;
mod opening;
pub mod published;
mod record;
mod refusal;
mod set;
mod sys;
mod tree;
mod verdict;

pub use entries::{SetNumbers, Sizes, SET_SIZE};
pub use opening::{Collision, Offer, Opening, Root};
pub use record::Record;
pub use refusal::Refusal;
pub use set::ParameterSet;
pub use tree::Tree;
pub use verdict::{NotAccepted, Verdict};
