//! Parameter sets that are validated, and what needs no tree.

use std::fmt;

use crate::entries::{self, SetNumbers, Sizes, SET_SIZE};
use crate::opening::{Collision, Offer, Opening, Root};
use crate::refusal::Refusal;
use crate::verdict::NotAccepted;

/// A parameter set that is validated, and keeps what the inverse permutation would have to invert: the inverses of D.
///
/// ```
/// use opening_tree::{published, ParameterSet, Refusal, SetNumbers};
///
/// let set = published::width_8(4, 32)?;
/// assert_eq!((set.arity(), set.places()), (2, 1 << 32));
/// assert_eq!((set.leaf_words(), set.store_words()), ((1 << 32) * 4, ((1 << 33) - 1) * 4));
/// assert_eq!((set.opening_words(), set.part_words()), (128, 4));
///
/// let taller = SetNumbers { height: 33, ..set.numbers() };
/// assert_eq!(ParameterSet::new(taller), Err(Refusal::BadHeight));
/// # Ok::<(), Refusal>(())
/// ```
#[derive(Clone, PartialEq, Eq, Hash)]
pub struct ParameterSet([u64; SET_SIZE]);

/// The numbers that the set was made of, which are all that there is to it.
impl fmt::Debug for ParameterSet {
    fn fmt(&self, f: &mut fmt::Formatter<'_>) -> fmt::Result {
        f.debug_tuple("ParameterSet").field(&self.numbers()).finish()
    }
}

/// Where the lists and the kept values stand in the array.
const DIAGONAL: usize = 5;
const CONSTANTS: usize = 17;
const INVERSES: usize = 225;
const TOTAL_INVERSE: usize = 237;

impl ParameterSet {
    /// The set of these numbers, if it is not refused. Refusals 1 to 9.
    pub fn new(numbers: SetNumbers) -> Result<ParameterSet, Refusal> {
        entries::validate(&numbers).map(ParameterSet)
    }

    /// The set with another D. Refusal 6 for a D that is not of t numbers, and 7 to 9 for its words.
    ///
    /// ```
    /// use opening_tree::{published, Refusal};
    ///
    /// let set = published::width_8(4, 1)?;
    /// let other = set.exchange_diagonal(&[0, 1, 2, 3, 4, 5, 6, 7])?;
    /// assert_eq!(other.numbers().diagonal, [0, 1, 2, 3, 4, 5, 6, 7]);
    /// assert_eq!(other.exchange_diagonal(set.numbers().diagonal)?, set);
    /// assert_eq!(set.exchange_diagonal(&[1, 2, 3]), Err(Refusal::BadListLength));
    /// # Ok::<(), Refusal>(())
    /// ```
    pub fn exchange_diagonal(&self, diagonal: &[u64]) -> Result<ParameterSet, Refusal> {
        entries::exchange_diagonal(&self.0, diagonal).map(ParameterSet)
    }

    /// The set with another h. Refusal 5.
    ///
    /// ```
    /// use opening_tree::{published, Refusal};
    ///
    /// let set = published::width_12(4, 2)?;
    /// assert_eq!(set.exchange_height(20)?.places(), 3486784401);
    /// assert_eq!(set.exchange_height(21), Err(Refusal::BadHeight));
    /// # Ok::<(), Refusal>(())
    /// ```
    pub fn exchange_height(&self, height: u64) -> Result<ParameterSet, Refusal> {
        entries::exchange_height(&self.0, height).map(ParameterSet)
    }

    /// The array that the functions of [`entries`] take.
    pub fn array(&self) -> &[u64; SET_SIZE] {
        &self.0
    }

    /// The numbers that the set was made of.
    pub fn numbers(&self) -> SetNumbers<'_> {
        let [width, node_size, height, full_rounds, partial_rounds, ..] = self.0;
        SetNumbers {
            width,
            node_size,
            height,
            full_rounds,
            partial_rounds,
            diagonal: &self.0[DIAGONAL..][..size(width)],
            constants: &self.0[CONSTANTS..][..size(width * full_rounds + partial_rounds)],
        }
    }

    /// The inverse of each word of D, and 0 for a 0: t words, which are kept so that [`unpermute`](ParameterSet::unpermute) inverts nothing.
    ///
    /// ```
    /// use opening_tree::{field, published, Refusal};
    ///
    /// let set = published::width_8(4, 1)?;
    /// let mut sum = 1;
    /// for (&word, &inverse) in set.numbers().diagonal.iter().zip(set.inverses()) {
    ///     assert_eq!(field::product(word, inverse)?, 1);
    ///     sum = field::sum(sum, inverse)?;
    /// }
    /// assert_eq!(field::product(sum, set.total_inverse())?, 1);
    /// # Ok::<(), Refusal>(())
    /// ```
    pub fn inverses(&self) -> &[u64] {
        &self.0[INVERSES..][..self.width()]
    }

    /// The inverse of 1 plus the sum of the [`inverses`](ParameterSet::inverses), and 0 where D has a 0. It is kept for the same.
    pub fn total_inverse(&self) -> u64 {
        self.0[TOTAL_INVERSE]
    }

    /// t, the words of a state and of a row of nodes.
    pub fn width(&self) -> usize {
        size(self.numbers().width)
    }

    /// l, the words of a node: of a leaf and of a root.
    pub fn node_size(&self) -> usize {
        size(self.numbers().node_size)
    }

    /// h, the levels above the leaves.
    pub fn height(&self) -> u64 {
        self.numbers().height
    }

    /// k, the nodes of a row.
    pub fn arity(&self) -> u64 {
        self.numbers().width / self.numbers().node_size
    }

    /// k^h, the number of leaves.
    pub fn places(&self) -> u64 {
        self.sizes().leaves / self.numbers().node_size
    }

    fn sizes(&self) -> Sizes {
        entries::sizes(&self.0).expect("a set that is validated is never refused")
    }

    /// The words of all leaves.
    pub fn leaf_words(&self) -> usize {
        size(self.sizes().leaves)
    }

    /// The words of a store: every node of every level.
    pub fn store_words(&self) -> usize {
        size(self.sizes().store)
    }

    /// The words of an opening: the siblings of every level.
    pub fn opening_words(&self) -> usize {
        size(self.sizes().opening)
    }

    /// The words of an opening at one level.
    pub fn part_words(&self) -> usize {
        self.width() - self.node_size()
    }

    /// The permutation of t words, in place. Refusals 10 and 12.
    ///
    /// ```
    /// let set = opening_tree::published::width_8(4, 1)?;
    /// let mut state = [0, 1, 2, 3, 4, 5, 6, 7];
    /// set.permute(&mut state)?;
    /// assert_eq!(state[0], 14266028122062624699); // as published
    /// set.unpermute(&mut state)?;
    /// assert_eq!(state, [0, 1, 2, 3, 4, 5, 6, 7]);
    /// # Ok::<(), opening_tree::Refusal>(())
    /// ```
    pub fn permute(&self, state: &mut [u64]) -> Result<(), Refusal> {
        entries::permute(&self.0, state)
    }

    /// The words whose permutation is given, in place, by the inverses that the set keeps. Refusals 10 and 12.
    pub fn unpermute(&self, state: &mut [u64]) -> Result<(), Refusal> {
        entries::unpermute(&self.0, state)
    }

    /// The compression of a row of t words: a node of l. Refusals 10 and 12.
    pub fn compress(&self, row: &[u64]) -> Result<Vec<u64>, Refusal> {
        let mut node = vec![0; self.node_size()];
        entries::compress(&self.0, row, &mut node)?;
        Ok(node)
    }

    /// The root of the leaves, without a store. Refusals 10 and 12.
    pub fn storeless_root(&self, leaves: &[u64]) -> Result<Root, Refusal> {
        let mut node = vec![0; self.node_size()];
        entries::storeless_root(&self.0, leaves, &mut node)?;
        Ok(Root::from(node))
    }

    /// `Ok` where the leaf stood at the opening's place under the root, and nowhere else: an opening that is rejected or refused is an
    /// error. Refusals 10 to 12.
    ///
    /// ```
    /// use opening_tree::{published, NotAccepted, Opening, Refusal, Tree};
    ///
    /// let set = published::width_8(4, 1)?;
    /// let tree = Tree::build(&set, &[1, 2, 3, 4, 5, 6, 7, 8])?;
    /// let (root, opening) = (tree.root(), tree.open(0)?);
    /// assert!(set.verify(&root, &[1, 2, 3, 4], &opening).is_ok());
    ///
    /// // Another leaf is rejected, and a rejected opening is not `Ok`.
    /// let rejected = set.verify(&root, &[1, 2, 3, 5], &opening);
    /// assert!(!rejected.is_ok());
    /// assert_eq!(rejected, Err(NotAccepted::Rejected));
    ///
    /// // There is no place 2, and a refused opening is not `Ok` either.
    /// let refused = set.verify(&root, &[1, 2, 3, 4], &Opening { place: 2, ..opening });
    /// assert_eq!(refused, Err(NotAccepted::Refused(Refusal::BadPlace)));
    /// # Ok::<(), NotAccepted>(())
    /// ```
    #[must_use = "only `Ok` says that the leaf stood at the place"]
    pub fn verify(&self, root: &Root, leaf: &[u64], opening: &Opening) -> Result<(), NotAccepted> {
        entries::verify(&self.0, root.words(), opening.place, leaf, &opening.siblings).into_result()
    }

    /// The siblings of one level, k - 1 nodes. No number of another level is looked at. Refusals 10, 11 for a level not below h, and 12.
    ///
    /// ```
    /// use opening_tree::{published, Opening};
    ///
    /// let set = published::width_8(2, 3)?; // rows of four nodes, so three siblings at each level
    /// let opening = Opening { place: 5, siblings: (0..18).collect() };
    /// assert_eq!(set.read_level(&opening, 1)?, [6, 7, 8, 9, 10, 11]);
    /// # Ok::<(), opening_tree::Refusal>(())
    /// ```
    pub fn read_level(&self, opening: &Opening, level: u64) -> Result<Vec<u64>, Refusal> {
        let mut part = vec![0; self.part_words()];
        entries::read_level(&self.0, &opening.siblings, level, &mut part)?;
        Ok(part)
    }

    /// Of two leaves that are both accepted at a place under one root, the lowest level at which their rows differ and compress
    /// alike, and these rows. Refusals 10 to 12, 15 and 14, in this order: a leaf beside itself is 15, whatever the openings are.
    pub fn extract(&self, root: &Root, place: u64, first: Offer, second: Offer) -> Result<Collision, Refusal> {
        let mut first_row = vec![0; self.width()];
        let mut second_row = vec![0; self.width()];
        let level = entries::extract(
            &self.0,
            root.words(),
            place,
            first.leaf,
            first.siblings,
            second.leaf,
            second.siblings,
            &mut first_row,
            &mut second_row,
        )?;
        Ok(Collision { level, first_row, second_row })
    }

    /// The leaf of a file, l words, from its contents. It is made of what Git calls the file's blob (`blob`, a space, the number of bytes
    /// in decimal, a zero byte and the contents), which is padded and taken in by the permutation, seven bytes a word and t - l words at
    /// a time. Refusal 16 for contents of over 4294967295 bytes.
    ///
    /// ```
    /// use opening_tree::{published, NotAccepted, Tree};
    ///
    /// let set = published::width_12(6, 1)?; // two leaves of six words
    /// let leaves = [set.leaf_of_file(b"hello\n")?, set.leaf_of_file(b"")?].concat();
    /// let tree = Tree::build(&set, &leaves)?;
    /// let (root, opening) = (tree.root(), tree.open(0)?);
    ///
    /// // Whoever holds the root alone, and is handed the file and the opening:
    /// set.verify(&root, &set.leaf_of_file(b"hello\n")?, &opening)?; // an error unless the opening is accepted
    /// assert_eq!(set.verify(&root, &set.leaf_of_file(b"hello")?, &opening), Err(NotAccepted::Rejected));
    /// # Ok::<(), NotAccepted>(())
    /// ```
    pub fn leaf_of_file(&self, contents: &[u8]) -> Result<Vec<u64>, Refusal> {
        let mut leaf = vec![0; self.node_size()];
        self.write_leaf_of_file(contents, &mut leaf)?;
        Ok(leaf)
    }

    /// [`leaf_of_file`](ParameterSet::leaf_of_file), written to a leaf of l numbers. Refusals 10 and 16.
    ///
    /// This takes no memory but what it is given: neither the contents nor the message that is made of them are copied. The contents are
    /// read where they are, so that a file which is mapped may be handed in, and none is read by a call that is refused.
    ///
    /// ```
    /// use opening_tree::{published, Refusal};
    ///
    /// let set = published::width_12(6, 1)?;
    /// let mut leaves = [0; 12];
    /// for (leaf, contents) in leaves.chunks_exact_mut(6).zip(["hello\n", ""]) {
    ///     set.write_leaf_of_file(contents.as_bytes(), leaf)?;
    /// }
    /// assert_eq!(leaves[..6], set.leaf_of_file(b"hello\n")?);
    /// assert_eq!(set.write_leaf_of_file(b"", &mut leaves), Err(Refusal::BadLength));
    /// # Ok::<(), Refusal>(())
    /// ```
    pub fn write_leaf_of_file(&self, contents: &[u8], leaf: &mut [u64]) -> Result<(), Refusal> {
        entries::leaf_of_file(&self.0, contents, leaf)
    }
}

/// A size as a slice's length.
fn size(number: u64) -> usize {
    usize::try_from(number).expect("lengths are of 64 bits on the one target")
}
