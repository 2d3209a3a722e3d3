//! What a review answers.

use crate::refusal::Refusal;
use std::fmt;

/// Either "passes", or what is found first, or "refused" with a number and a byte offset; candidates and institutes are numbered from 1.
#[derive(Clone, Copy, Debug, PartialEq, Eq, Hash)]
pub enum Judgement {
    /// The list is stable.
    Passes,
    /// The first candidate whose seat is not in the row, or whose step is not the one the institute gives when it chooses from the
    /// listed seats that are in their rows.
    WrongSeat {
        candidate: usize,
    },
    /// Where there is no wrong seat: the first candidate and best entry ranked above the seat which the institute would choose if that
    /// one entry were added.
    BetterEntry {
        candidate: usize,
        institute: usize,
        code: usize,
    },
    Refused(Refusal),
}

impl Judgement {
    /// The judgement that the numbers of a result stand for.
    pub(crate) fn of(result: [u64; 4]) -> Self {
        match result.map(|number| number as usize) {
            [0, 0, 0, 0] => Judgement::Passes,
            [1, number, offset, 0] => Judgement::Refused(Refusal { number, offset }),
            [2, candidate, 0, 0] => Judgement::WrongSeat { candidate },
            [3, candidate, institute, code] => Judgement::BetterEntry {
                candidate,
                institute,
                code,
            },
            other => unreachable!("a review has no result {other:?}"),
        }
    }
}

impl fmt::Display for Judgement {
    /// One line, as those of `rounds/lists`.
    fn fmt(&self, to: &mut fmt::Formatter) -> fmt::Result {
        match self {
            Judgement::Passes => to.write_str("passes"),
            Judgement::WrongSeat { candidate } => write!(to, "seat of {candidate}"),
            Judgement::BetterEntry {
                candidate,
                institute,
                code,
            } => write!(to, "entry of {candidate}: {institute} {code}"),
            Judgement::Refused(refusal) => refusal.fmt(to),
        }
    }
}
