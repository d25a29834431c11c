//! Roots, openings and collisions: numbers that may come from anyone, and are checked where they are used.

/// A root: l numbers, kept for a whole tree.
///
/// ```
/// use opening_tree::Root;
///
/// let root = Root::from(vec![6, 4]);
/// assert_eq!(root.words(), [6, 4]);
/// ```
#[derive(Clone, Debug, PartialEq, Eq, Hash)]
pub struct Root(Vec<u64>);

impl Root {
    /// Its numbers.
    pub fn words(&self) -> &[u64] {
        &self.0
    }
}

impl From<Vec<u64>> for Root {
    fn from(words: Vec<u64>) -> Root {
        Root(words)
    }
}

impl From<&[u64]> for Root {
    fn from(words: &[u64]) -> Root {
        Root(words.to_vec())
    }
}

/// The opening of a place: for each level from the leaves up, the other nodes of its row, ascending.
#[derive(Clone, Debug, PartialEq, Eq, Hash)]
pub struct Opening {
    /// The place of the leaf.
    pub place: u64,
    /// h × (k - 1) × l numbers.
    pub siblings: Vec<u64>,
}

/// A leaf and the siblings that it is offered with.
#[derive(Clone, Copy, Debug, PartialEq, Eq, Hash)]
pub struct Offer<'a> {
    /// l numbers.
    pub leaf: &'a [u64],
    /// h × (k - 1) × l numbers.
    pub siblings: &'a [u64],
}

/// Two different rows of t words that compress alike, and the level at which they stand.
#[derive(Clone, Debug, PartialEq, Eq, Hash)]
pub struct Collision {
    /// 0 for rows of leaves.
    pub level: u64,
    /// The row of the first leaf.
    pub first_row: Vec<u64>,
    /// The row of the second leaf.
    pub second_row: Vec<u64>,
}
