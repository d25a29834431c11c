//! Replacement records.

/// One replacement of a push: a place, and room for a leaf of up to six words. The first l are read, the others are not. The records of
/// a push have different places.
#[derive(Clone, Copy, Debug, PartialEq, Eq, Hash)]
#[repr(C)]
pub struct Record {
    /// Where the leaf goes.
    pub place: u64,
    /// The leaf, and what fills the record up.
    pub words: [u64; 6],
}

impl Record {
    /// The numbers of a record in a flat list.
    pub const NUMBERS: usize = 7;

    /// The record that puts a leaf at a place, or `None` for a leaf of over six words.
    ///
    /// ```
    /// use opening_tree::Record;
    ///
    /// assert_eq!(Record::new(3, &[7, 8]), Some(Record { place: 3, words: [7, 8, 0, 0, 0, 0] }));
    /// assert_eq!(Record::new(3, &[0; 7]), None);
    /// ```
    pub fn new(place: u64, leaf: &[u64]) -> Option<Record> {
        let mut words = [0; 6];
        words.get_mut(..leaf.len())?.copy_from_slice(leaf);
        Some(Record { place, words })
    }
}
