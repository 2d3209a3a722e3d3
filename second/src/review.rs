//! The review of a hand-made list: what it answers and what the work area holds after it.

use crate::answer::{work_bytes, TOO_SMALL};
use crate::choice::Document;
use crate::findings::{entry_taken, wrong_seat};
use crate::list::said;
use crate::reading::{read, Refusal, Round};

/// What a review answers; candidates and institutes are numbered from 1, and the code is that of the entry's category.
#[derive(Clone, Copy, Debug, PartialEq, Eq, Hash)]
pub enum Review {
    /// Neither of the two findings is there.
    Passes,
    /// The seat or the step of this candidate is wrong.
    Wrong(usize),
    /// The institute would take this entry of the candidate.
    WouldTake {
        candidate: usize,
        institute: usize,
        code: u8,
    },
    /// A question about the file, the list or the work area was answered no.
    Refused { number: u8, offset: usize },
}

impl From<Refusal> for Review {
    fn from(refusal: Refusal) -> Self {
        Review::Refused {
            number: refusal.number,
            offset: refusal.offset,
        }
    }
}

/// The refusal of a list of another length.
const OTHER_LENGTH: Refusal = Refusal {
    number: 15,
    offset: 0,
};

/// The bytes of a list of a round.
pub fn list_bytes(round: &Round) -> usize {
    round.form.seat_bytes() * round.candidates.len()
}

/// Reviews a list on a lent work area and leaves in it what the document says.
pub fn review(file: &[u8], list: &[u8], work: &mut [u8]) -> Review {
    let round = match read(file) {
        Ok(round) => round,
        Err(refusal) => return refusal.into(),
    };
    if list.len() != list_bytes(&round) {
        return OTHER_LENGTH.into();
    }
    if work.len() < work_bytes(&round) {
        return TOO_SMALL.into();
    }
    work[..work_bytes(&round)].fill(0);
    found(&round, list)
}

/// What is found in a list with the bytes of a seat for each candidate of a round.
pub fn found(round: &Round, list: &[u8]) -> Review {
    let said = said(round, list);
    if let Some(candidate) = wrong_seat(round, &Document, &said) {
        return Review::Wrong(candidate + 1);
    }
    match entry_taken(round, &Document, &said) {
        Some((candidate, entry)) => Review::WouldTake {
            candidate: candidate + 1,
            institute: entry.institute + 1,
            code: entry.category,
        },
        None => Review::Passes,
    }
}
