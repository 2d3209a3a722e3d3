//! What a call answers.

use crate::refusal::Refusal;
use std::fmt;

/// Either "allotted" with the number of offers, or "refused" with a number and a byte offset.
#[derive(Clone, Copy, Debug, PartialEq, Eq, Hash)]
pub enum Answer {
    Allotted { offers: usize },
    Refused(Refusal),
}

impl Answer {
    /// The answer that the numbers of a result stand for.
    pub(crate) fn of(result: [u64; 3]) -> Self {
        match result.map(|number| number as usize) {
            [0, offers, 0] => Answer::Allotted { offers },
            [1, number, offset] => Answer::Refused(Refusal { number, offset }),
            other => unreachable!("a call has no result {other:?}"),
        }
    }
}

impl fmt::Display for Answer {
    /// The first line that document 01 prints.
    fn fmt(&self, to: &mut fmt::Formatter) -> fmt::Result {
        match self {
            Answer::Allotted { offers } => write!(to, "offers {offers}"),
            Answer::Refused(refusal) => refusal.fmt(to),
        }
    }
}
