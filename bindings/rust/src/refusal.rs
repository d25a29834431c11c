//! The refusals of a call.

use std::error::Error;
use std::fmt;

/// Why a call was refused. Of the refusals that apply, the first one tested is given. They are tested in the order of their numbers,
/// except that 18 comes after 9 and before 10, 16 and 17 come after 12 and before 13, and 15 comes before 14. An exchange tests the set
/// that it is handed by all of them before it tests the set that it makes.
///
/// ```
/// use opening_tree::{field, Refusal};
///
/// let refusal = field::inverse(0).unwrap_err();
/// assert_eq!(refusal, Refusal::NoInverse);
/// assert_eq!(refusal.number(), 13);
/// assert_eq!(refusal.to_string(), "0 has no inverse");
/// ```
#[derive(Clone, Copy, Debug, PartialEq, Eq, PartialOrd, Ord, Hash)]
#[repr(u8)]
pub enum Refusal {
    /// The width is not 4, 8 or 12.
    BadWidth = 1,
    /// The node size is 0, does not divide the width, or leaves an arity below 2.
    BadNodeSize = 2,
    /// The full rounds are odd, 0 or above 12.
    BadFullRounds = 3,
    /// The partial rounds are above 64.
    BadPartialRounds = 4,
    /// The height is above 32, or there are more than 2^32 leaves.
    BadHeight = 5,
    /// The diagonal or the constants are of another length.
    BadListLength = 6,
    /// A number of the diagonal or the constants is not a word.
    BadListWord = 7,
    /// Two or more words of the diagonal are 0. One may be.
    ZeroInDiagonal = 8,
    /// No word of the diagonal is 0, and 1 plus their inverses is 0.
    SingularDiagonal = 9,
    /// Another buffer is not of its exact length, or a push has over 2^32 records.
    BadLength = 10,
    /// A place is not below the number of leaves, or a level not below the height.
    BadPlace = 11,
    /// A number that has to be a word is not one.
    NotAWord = 12,
    /// The inverse of 0.
    NoInverse = 13,
    /// Extraction: the leaves differ, and an opening is not accepted.
    NotAccepted = 14,
    /// Extraction: the leaves are equal, whether their openings are accepted or not.
    EqualLeaves = 15,
    /// The contents of a file are more than 4294967295 bytes.
    FileTooLong = 16,
    /// Two records of a push have the same place.
    RepeatedPlace = 17,
    /// The kept values of a set that is handed in are not those of its diagonal.
    BadKeptValues = 18,
}

impl Refusal {
    /// Every refusal, in the order in which they are tested.
    pub const ALL: [Refusal; 18] = [
        Refusal::BadWidth,
        Refusal::BadNodeSize,
        Refusal::BadFullRounds,
        Refusal::BadPartialRounds,
        Refusal::BadHeight,
        Refusal::BadListLength,
        Refusal::BadListWord,
        Refusal::ZeroInDiagonal,
        Refusal::SingularDiagonal,
        Refusal::BadKeptValues,
        Refusal::BadLength,
        Refusal::BadPlace,
        Refusal::NotAWord,
        Refusal::FileTooLong,
        Refusal::RepeatedPlace,
        Refusal::NoInverse,
        Refusal::EqualLeaves,
        Refusal::NotAccepted,
    ];

    /// Its number, 1 to 18.
    pub const fn number(self) -> u8 {
        self as u8
    }

    /// The refusal of a number, if it has one.
    pub fn from_number(number: u8) -> Option<Refusal> {
        Refusal::ALL.into_iter().find(|refusal| refusal.number() == number)
    }
}

impl fmt::Display for Refusal {
    fn fmt(&self, f: &mut fmt::Formatter<'_>) -> fmt::Result {
        f.write_str(match self {
            Refusal::BadWidth => "the width is not 4, 8 or 12",
            Refusal::BadNodeSize => "the node size is 0, doesn't divide the width, or the arity is below 2",
            Refusal::BadFullRounds => "the full rounds are odd, 0 or above 12",
            Refusal::BadPartialRounds => "the partial rounds are above 64",
            Refusal::BadHeight => "the height is above 32, or the leaves are more than 2^32",
            Refusal::BadListLength => "the diagonal or the constants are of wrong length",
            Refusal::BadListWord => "a number in the diagonal or the constants is not below p",
            Refusal::ZeroInDiagonal => "two or more words of the diagonal are 0",
            Refusal::SingularDiagonal => "no word of the diagonal is 0, and 1 plus their inverses is 0",
            Refusal::BadLength => "a buffer is not of its exact length, or a push has over 2^32 records",
            Refusal::BadPlace => "a place is not below the number of leaves, or a level not below the height",
            Refusal::NotAWord => "a number that has to be a word is not one",
            Refusal::NoInverse => "0 has no inverse",
            Refusal::NotAccepted => "an opening handed to the extractor is not accepted",
            Refusal::EqualLeaves => "the leaves handed to the extractor are equal",
            Refusal::FileTooLong => "the contents of a file are more than 4294967295 bytes",
            Refusal::RepeatedPlace => "two records of a push have the same place",
            Refusal::BadKeptValues => "the kept values of a set are not those of its diagonal",
        })
    }
}

impl Error for Refusal {}

#[cfg(test)]
mod tests {
    use super::Refusal;

    #[test]
    fn every_row_has_its_number() {
        let numbers = [1, 2, 3, 4, 5, 6, 7, 8, 9, 18, 10, 11, 12, 16, 17, 13, 15, 14];
        assert_eq!(Refusal::ALL.map(Refusal::number), numbers);
        for (refusal, number) in Refusal::ALL.into_iter().zip(numbers) {
            assert_eq!(Refusal::from_number(number), Some(refusal));
        }
        for number in [0, 19, 99, 255] {
            assert_eq!(Refusal::from_number(number), None);
        }
    }

    #[test]
    fn every_row_has_its_own_words() {
        let mut words: Vec<String> = Refusal::ALL.iter().map(Refusal::to_string).collect();
        words.sort();
        words.dedup();
        assert_eq!(words.len(), 18);
    }
}
