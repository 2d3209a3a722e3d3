//! Stability in the words of demand 3, about a round and a list.

use second::choice::{Offer, Rule, Taken};
use second::offers::Seat;
use second::reading::{Entry, Round};

/// The category of the step of a seat, if its institute has that step.
fn category_of(round: &Round, seat: Seat) -> Option<u8> {
    let place = usize::from(seat.step).checked_sub(1)?;
    match round.policy {
        2 => {
            let steps = &round.institutes[seat.institute].steps;
            steps.get(place).map(|step| step.category)
        }
        _ => [0, 1, 2, 3, 4, 0].get(place).copied(),
    }
}

/// The place of a seat in a row: that of its entry, below all entries where there is none, below that where the entry is not in the row.
pub fn rank(round: &Round, row: &[Entry], seat: Option<Seat>) -> usize {
    let Some(seat) = seat else {
        return row.len();
    };
    let stands_for = |entry: &Entry| {
        entry.institute == seat.institute && category_of(round, seat) == Some(entry.category)
    };
    row.iter().position(stands_for).unwrap_or(row.len() + 1)
}

/// The offers an institute might get: each candidate with each entry of the row that names it.
fn listed_offers(round: &Round, institute: usize) -> Vec<Offer> {
    let mut offers = Vec::new();
    for (candidate, one) in round.candidates.iter().enumerate() {
        for entry in &one.row {
            if entry.institute == institute {
                offers.push(Offer {
                    candidate,
                    category: entry.category,
                });
            }
        }
    }
    offers.sort();
    offers
}

/// The offers of those taken.
pub fn offers_of(taken: &[Taken]) -> Vec<Offer> {
    let mut offers: Vec<Offer> = taken.iter().map(|one| one.offer).collect();
    offers.sort();
    offers
}

/// The subset of a list that the bits of a number pick.
pub fn subset(list: &[Offer], bits: usize) -> Vec<Offer> {
    (0..list.len())
        .filter(|place| bits >> place & 1 == 1)
        .map(|place| list[place])
        .collect()
}

/// Two sets of offers together.
fn together(one: &[Offer], other: &[Offer]) -> Vec<Offer> {
    let mut all = [one, other].concat();
    all.sort();
    all.dedup();
    all
}

/// The offers of those taken, each with its step.
fn steps_of(taken: &[Taken]) -> Vec<(Offer, u8)> {
    taken.iter().map(|one| (one.offer, one.step)).collect()
}

/// The seats an institute gave, as offers with their steps.
fn given(round: &Round, seats: &[Option<Seat>], institute: usize) -> Vec<(Offer, u8)> {
    let mut given = Vec::new();
    for (candidate, seat) in seats.iter().enumerate() {
        if let Some(seat) = seat.filter(|seat| seat.institute == institute) {
            let category = category_of(round, seat).expect("a seat in the row");
            let offer = Offer {
                candidate,
                category,
            };
            given.push((offer, seat.step));
        }
    }
    given
}

/// Whether an offer's entry stands later in its candidate's row than the candidate's seat does; where the candidate has no seat, no offer does.
fn ranks_below(round: &Round, institute: usize, offer: Offer, seats: &[Option<Seat>]) -> bool {
    let row = &round.candidates[offer.candidate].row;
    let offered = row
        .iter()
        .position(|entry| entry.institute == institute && entry.category == offer.category);
    match (offered, seats[offer.candidate]) {
        (Some(offered), Some(seat)) => offered > rank(round, row, Some(seat)),
        _ => false,
    }
}

/// Why a list is not stable; nothing where it is.
pub fn unstable<R: Rule + ?Sized>(
    round: &Round,
    rule: &R,
    seats: &[Option<Seat>],
) -> Option<String> {
    for (candidate, &seat) in seats.iter().enumerate() {
        let row = &round.candidates[candidate].row;
        if seat.is_some() && rank(round, row, seat) >= row.len() {
            return Some("a seat not listed".to_string());
        }
    }
    for institute in 0..round.institutes.len() {
        let given = given(round, seats, institute);
        let own: Vec<Offer> = given.iter().map(|&(offer, _)| offer).collect();
        if steps_of(&rule.choose(round, institute, &own)) != given {
            return Some("other seats from just those given".to_string());
        }
        let listed = listed_offers(round, institute);
        for bits in 0..1 << listed.len() {
            let set = subset(&listed, bits);
            if set == own {
                continue;
            }
            let chosen = offers_of(&rule.choose(round, institute, &together(&set, &own)));
            let below = |&offer: &Offer| ranks_below(round, institute, offer, seats);
            if chosen == set && !set.iter().any(below) {
                return Some(format!("institute {} would choose {set:?}", institute + 1));
            }
        }
    }
    None
}
