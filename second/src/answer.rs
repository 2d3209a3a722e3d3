//! The call: what it answers and what both areas hold after it.

use crate::choice::Document;
use crate::list::seat_bytes;
use crate::offers::{allot, Allotment};
use crate::orders::{ended, Order};
use crate::reading::{read, Refusal, Round};
use crate::steps::closing_places;

/// What a call answers; the answer bytes are the first 3n + 12m of the answer area, 5n for 3n in the wide form and 24m for 12m under policy 2, none where the call takes no answer area.
#[derive(Clone, Debug, PartialEq, Eq)]
pub enum Outcome {
    Allotted { offers: usize, answer: Vec<u8> },
    Refused { number: u8, offset: usize },
}

impl From<Refusal> for Outcome {
    fn from(refusal: Refusal) -> Self {
        Outcome::Refused {
            number: refusal.number,
            offset: refusal.offset,
        }
    }
}

/// The refusal of areas that are too small.
pub(crate) const TOO_SMALL: Refusal = Refusal {
    number: 14,
    offset: 0,
};

/// The bytes of the answer area a round needs: for each candidate those of a seat and one more, and two for each closing place of each institute.
pub fn answer_bytes(round: &Round) -> usize {
    let each_institute = 2 * closing_places(round);
    (round.form.seat_bytes() + 1) * round.candidates.len() + each_institute * round.institutes.len()
}

/// The bytes of the work area a round needs.
pub fn work_bytes(round: &Round) -> usize {
    8 * round.candidates.len()
}

/// The bytes written to the answer area for a round's allotment.
pub fn answer_of(round: &Round, allotment: &Allotment) -> Vec<u8> {
    let mut bytes = Vec::new();
    for &seat in &allotment.seats {
        bytes.extend(seat_bytes(round.form, seat));
    }
    for place in allotment.closing.iter().flatten() {
        bytes.extend((*place as u16).to_le_bytes());
    }
    bytes.extend(&allotment.types);
    bytes
}

/// The outcome of a call with areas of these lengths.
pub fn call(file: &[u8], answer_len: usize, work_len: usize) -> Outcome {
    call_by(|round| allot(round, &Document), file, answer_len, work_len)
}

/// The outcome of a call with areas of these lengths, a round that passes being allotted in this way.
fn call_by(
    allot: impl FnOnce(&Round) -> Allotment,
    file: &[u8],
    answer_len: usize,
    work_len: usize,
) -> Outcome {
    let round = match read(file) {
        Ok(round) => round,
        Err(refusal) => return refusal.into(),
    };
    if answer_len < answer_bytes(&round) || work_len < work_bytes(&round) {
        return TOO_SMALL.into();
    }
    let allotment = allot(&round);
    Outcome::Allotted {
        offers: allotment.offers,
        answer: answer_of(&round, &allotment),
    }
}

/// The outcome of a call that takes no answer area and a work area of this length.
pub fn call_without_answer(file: &[u8], work_len: usize) -> Outcome {
    match call(file, usize::MAX, work_len) {
        Outcome::Allotted { offers, .. } => Outcome::Allotted {
            offers,
            answer: Vec::new(),
        },
        refused => refused,
    }
}

/// Makes the call on two lent areas and leaves in them what the document says.
pub fn call_on(file: &[u8], answer: &mut [u8], work: &mut [u8]) -> Outcome {
    let outcome = call(file, answer.len(), work.len());
    leave(&outcome, file, answer, work);
    outcome
}

/// Makes the call on two lent areas with candidates called up in an order.
pub fn call_in_order_on(
    order: Order,
    seed: u64,
    file: &[u8],
    answer: &mut [u8],
    work: &mut [u8],
) -> Outcome {
    let allot = |round: &Round| ended(round, &Document, order, seed).allotment;
    let outcome = call_by(allot, file, answer.len(), work.len());
    leave(&outcome, file, answer, work);
    outcome
}

/// Leaves in both areas what an outcome leaves there.
fn leave(outcome: &Outcome, file: &[u8], answer: &mut [u8], work: &mut [u8]) {
    if let Outcome::Allotted { answer: bytes, .. } = outcome {
        answer[..bytes.len()].copy_from_slice(bytes);
        clear_work(file, work);
    }
}

/// Makes the call that takes no answer area on a lent work area.
pub fn call_without_answer_on(file: &[u8], work: &mut [u8]) -> Outcome {
    let outcome = call_without_answer(file, work.len());
    if let Outcome::Allotted { .. } = &outcome {
        clear_work(file, work);
    }
    outcome
}

/// Sets the first 8n work bytes to 0.
fn clear_work(file: &[u8], work: &mut [u8]) {
    if let Ok(round) = read(file) {
        work[..work_bytes(&round)].fill(0);
    }
}
