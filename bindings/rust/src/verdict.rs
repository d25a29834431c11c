//! What is said of an opening: yes, or why not.

use std::error::Error;
use std::fmt;

use crate::refusal::Refusal;

/// What [`entries::verify`](crate::entries::verify) says of an opening. `Accepted` is the only yes.
///
/// ```
/// use opening_tree::{NotAccepted, Refusal, Verdict};
///
/// assert_eq!(Verdict::Accepted.into_result(), Ok(()));
/// assert_eq!(Verdict::Rejected.into_result(), Err(NotAccepted::Rejected));
/// assert!(!Verdict::Refused(Refusal::BadPlace).is_accepted());
/// ```
#[derive(Clone, Copy, Debug, PartialEq, Eq, Hash)]
#[must_use = "the opening is accepted only where this is `Verdict::Accepted`"]
pub enum Verdict {
    /// Compressing the leaf's way up among its siblings ends in the root.
    Accepted,
    /// It ends in another node.
    Rejected,
    /// What was handed in is refused.
    Refused(Refusal),
}

impl Verdict {
    /// Whether this is `Accepted`.
    #[must_use]
    pub const fn is_accepted(self) -> bool {
        matches!(self, Verdict::Accepted)
    }

    /// `Ok` for `Accepted`, and for nothing else.
    pub const fn into_result(self) -> Result<(), NotAccepted> {
        match self {
            Verdict::Accepted => Ok(()),
            Verdict::Rejected => Err(NotAccepted::Rejected),
            Verdict::Refused(refusal) => Err(NotAccepted::Refused(refusal)),
        }
    }
}

/// Why an opening is not accepted.
///
/// A [`Refusal`] becomes one by `?`, so that a function which verifies can answer this for every call that it makes.
///
/// ```
/// use std::error::Error;
///
/// use opening_tree::{NotAccepted, Refusal};
///
/// let refused = NotAccepted::from(Refusal::BadPlace);
/// assert_eq!(refused, NotAccepted::Refused(Refusal::BadPlace));
/// assert_eq!(refused.to_string(), "refused with 11");
/// assert_eq!(refused.source().map(|refusal| refusal.to_string()), Some(Refusal::BadPlace.to_string()));
///
/// assert_eq!(NotAccepted::Rejected.to_string(), "rejected: the opening does not end in the root");
/// assert!(NotAccepted::Rejected.source().is_none());
/// ```
#[derive(Clone, Copy, Debug, PartialEq, Eq, Hash)]
#[must_use = "the opening is not accepted"]
pub enum NotAccepted {
    /// Compressing the leaf's way up among its siblings ends in another node than the root.
    Rejected,
    /// What was handed in is refused.
    Refused(Refusal),
}

impl From<Refusal> for NotAccepted {
    fn from(refusal: Refusal) -> NotAccepted {
        NotAccepted::Refused(refusal)
    }
}

impl fmt::Display for NotAccepted {
    fn fmt(&self, f: &mut fmt::Formatter<'_>) -> fmt::Result {
        match self {
            NotAccepted::Rejected => f.write_str("rejected: the opening does not end in the root"),
            NotAccepted::Refused(refusal) => write!(f, "refused with {}", refusal.number()),
        }
    }
}

impl Error for NotAccepted {
    /// The refusal, which says what it means in words.
    fn source(&self) -> Option<&(dyn Error + 'static)> {
        match self {
            NotAccepted::Rejected => None,
            NotAccepted::Refused(refusal) => Some(refusal),
        }
    }
}
