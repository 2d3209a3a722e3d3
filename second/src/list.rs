//! A hand-made list: what its bytes for each candidate, institute and step, say.

use crate::choice::Offer;
use crate::form::Form;
use crate::offers::Seat;
use crate::reading::{Entry, Round};
use crate::steps::category_of;

/// What a list says of a candidate.
#[derive(Clone, Copy, Debug, PartialEq, Eq)]
pub enum Said {
    /// Institute 0 and step 0, in the wide form with the zero byte: no seat.
    NoSeat,
    /// A seat that stands for the entry at this place of the row.
    InRow { seat: Seat, place: usize },
    /// Any other bytes.
    NotInRow,
}

/// The entry a seat stands for, that of its institute with the category of its step, if the institute has that step.
fn entry_of(round: &Round, seat: Seat) -> Option<Entry> {
    Some(Entry {
        institute: seat.institute,
        category: category_of(round, seat.institute, seat.step)?,
    })
}

/// The bytes of a seat, or of none, in a form.
pub fn seat_bytes(form: Form, seat: Option<Seat>) -> Vec<u8> {
    let (institute, step) = seat.map_or((0, 0), |seat| (seat.institute + 1, seat.step));
    let mut bytes = form.number(institute);
    bytes.push(step);
    bytes.resize(form.seat_bytes(), 0);
    bytes
}

/// What the bytes of a seat say of the candidate of a round with this row.
fn said_of(round: &Round, row: &[Entry], bytes: &[u8]) -> Said {
    let form = round.form;
    let (institute, rest) = (form.institute(bytes), &bytes[form.institute_bytes()..]);
    let (step, behind) = (rest[0], &rest[1..]);
    if behind.iter().any(|&byte| byte != 0) {
        return Said::NotInRow;
    }
    if (institute, step) == (0, 0) {
        return Said::NoSeat;
    }
    if !(1..=round.institutes.len()).contains(&institute) {
        return Said::NotInRow;
    }
    let seat = Seat {
        institute: institute - 1,
        step,
    };
    let place = entry_of(round, seat).and_then(|own| row.iter().position(|&entry| entry == own));
    match place {
        Some(place) => Said::InRow { seat, place },
        None => Said::NotInRow,
    }
}

/// What a list with the bytes of a seat for each candidate says of each.
pub fn said(round: &Round, list: &[u8]) -> Vec<Said> {
    let rows = round.candidates.iter().map(|candidate| &candidate.row);
    rows.zip(list.chunks_exact(round.form.seat_bytes()))
        .map(|(row, bytes)| said_of(round, row, bytes))
        .collect()
}

/// For each institute, the offers of the listed seats at it that are in their rows.
pub fn listed(round: &Round, said: &[Said]) -> Vec<Vec<Offer>> {
    let mut offers = vec![Vec::new(); round.institutes.len()];
    for (candidate, one) in said.iter().enumerate() {
        if let Said::InRow { seat, place } = *one {
            offers[seat.institute].push(Offer {
                candidate,
                category: round.candidates[candidate].row[place].category,
            });
        }
    }
    offers
}
