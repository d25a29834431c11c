//! Trees that own their store.

use crate::entries;
use crate::opening::{Opening, Root};
use crate::record::Record;
use crate::refusal::Refusal;
use crate::set::ParameterSet;

/// A tree: a set and the store of its leaves.
///
/// ```
/// use opening_tree::{published, Record, Refusal, Tree};
///
/// let set = published::width_8(4, 2)?;
/// let mut tree = Tree::build(&set, &[0; 16])?; // four leaves of four words
/// assert_eq!(tree.replace(3, &[7, 7, 7, 7])?, 2); // compressions
/// let [first, second] = [0, 1].map(|place| Record::new(place, &[9, 8, 7, 6]).expect("at most six words"));
/// assert_eq!(tree.push(&[second, first])?, 2); // the node above both, and the root
/// assert_eq!(tree.leaves(), [9, 8, 7, 6, 9, 8, 7, 6, 0, 0, 0, 0, 7, 7, 7, 7]);
/// assert_eq!(tree.root(), set.storeless_root(tree.leaves())?);
/// assert_eq!(tree.push(&[first, second, first]), Err(Refusal::RepeatedPlace)); // and the tree is as it was
/// # Ok::<(), Refusal>(())
/// ```
#[derive(Clone, Debug, PartialEq, Eq, Hash)]
pub struct Tree {
    set: ParameterSet,
    /// As building and the changes left it: of its exact length, every number a word.
    store: Vec<u64>,
}

impl Tree {
    /// The tree of k^h leaves, l words each. Refusals 10 and 12.
    pub fn build(set: &ParameterSet, leaves: &[u64]) -> Result<Tree, Refusal> {
        // Tested before memory is taken for the store, which is then at most twice the leaves.
        if leaves.len() != set.leaf_words() {
            return Err(Refusal::BadLength);
        }
        let mut store = vec![0; set.store_words()];
        entries::build(set.array(), leaves, &mut store)?;
        Ok(Tree { set: set.clone(), store })
    }

    /// The set that the tree was built under.
    pub fn set(&self) -> &ParameterSet {
        &self.set
    }

    /// The levels one after another, leaves first.
    pub fn store(&self) -> &[u64] {
        &self.store
    }

    /// Level 0.
    pub fn leaves(&self) -> &[u64] {
        &self.store[..self.set.leaf_words()]
    }

    /// The leaf at a place. Refusal 11.
    pub fn leaf(&self, place: u64) -> Result<&[u64], Refusal> {
        let place = usize::try_from(place).map_err(|_| Refusal::BadPlace)?;
        self.leaves().chunks_exact(self.set.node_size()).nth(place).ok_or(Refusal::BadPlace)
    }

    /// The root.
    pub fn root(&self) -> Root {
        let mut node = vec![0; self.set.node_size()];
        entries::root(self.set.array(), &self.store, &mut node).expect("a tree's own store is never refused");
        Root::from(node)
    }

    /// The opening of a place. Refusal 11.
    pub fn open(&self, place: u64) -> Result<Opening, Refusal> {
        let mut siblings = vec![0; self.set.opening_words()];
        entries::open(self.set.array(), &self.store, place, &mut siblings)?;
        Ok(Opening { place, siblings })
    }

    /// Puts a leaf at a place, and answers the compressions made, h. Refusals 10 to 12.
    pub fn replace(&mut self, place: u64, leaf: &[u64]) -> Result<u64, Refusal> {
        entries::replace(self.set.array(), &mut self.store, place, leaf)
    }

    /// Makes the replacements, all or none, and answers the compressions made: the number of different nodes above the places, at most h
    /// for each record. The tree is the one that the replacements leave if each is made singly. Refusals 10 to 12, and 17 for records of
    /// which two have the same place.
    pub fn push(&mut self, records: &[Record]) -> Result<u64, Refusal> {
        entries::push(self.set.array(), &mut self.store, records)
    }
}
