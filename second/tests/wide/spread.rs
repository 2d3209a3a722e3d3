//! Rounds in the wide form whose institutes have numbers far apart.

use second::form::Form;
use second::offers::{Allotment, Seat};
use second::reading::{Entry, Institute, Round};

/// How far apart the institutes of a round are put: 256 numbers, so that their low bytes are the same, or as far as there is room.
pub fn apart(round: &Round) -> usize {
    match round.institutes.len() {
        0..=4 => 256,
        m => 999 / (m - 1),
    }
}

/// The same round in the wide form with its institutes put apart, those between having no positions and nobody on their merit lists.
pub fn spread(round: &Round) -> Round {
    let apart = apart(round);
    let last = (round.institutes.len() - 1) * apart;
    let none = Institute {
        positions: [0; 5],
        reserved: std::array::from_fn(|_| vec![0; round.types]),
        steps: Vec::new(),
    };
    let mut wide = Round {
        form: Form::Wide,
        institutes: vec![none; last + 1],
        merit: vec![Vec::new(); last + 1],
        ..round.clone()
    };
    for (number, institute) in round.institutes.iter().enumerate() {
        wide.institutes[number * apart] = institute.clone();
        wide.merit[number * apart] = round.merit[number].clone();
    }
    for entry in wide.candidates.iter_mut().flat_map(|one| &mut one.row) {
        *entry = Entry {
            institute: entry.institute * apart,
            ..*entry
        };
    }
    wide
}

/// The seat of a spread round as that of the round.
#[allow(dead_code)]
pub fn gathered(round: &Round, seat: Seat) -> Seat {
    assert_eq!(seat.institute % apart(round), 0);
    Seat {
        institute: seat.institute / apart(round),
        ..seat
    }
}

/// The allotment of a round as that of the spread one.
#[allow(dead_code)]
pub fn spread_allotment(round: &Round, allotment: Allotment) -> Allotment {
    let apart = apart(round);
    let mut closing = vec![vec![0; 6]; (round.institutes.len() - 1) * apart + 1];
    for (number, places) in allotment.closing.iter().enumerate() {
        closing[number * apart] = places.clone();
    }
    let seats = allotment.seats.iter().map(|seat| {
        seat.map(|seat| Seat {
            institute: seat.institute * apart,
            ..seat
        })
    });
    Allotment {
        seats: seats.collect(),
        closing,
        ..allotment
    }
}
