//! What a review can find in a hand-made list: a wrong seat, or an entry that would be taken.

use crate::choice::{Offer, Rule, Taken};
use crate::list::{listed, Said};
use crate::reading::{Entry, Round};

/// The first candidate whose seat is not in the row or whose step is not the one the institute gives from the listed seats that are in their rows.
pub fn wrong_seat<R: Rule + ?Sized>(round: &Round, rule: &R, said: &[Said]) -> Option<usize> {
    let given: Vec<Vec<Taken>> = listed(round, said)
        .iter()
        .enumerate()
        .map(|(institute, offers)| match offers.is_empty() {
            true => Vec::new(),
            false => rule.choose(round, institute, offers),
        })
        .collect();
    (0..said.len()).find(|&candidate| match said[candidate] {
        Said::NoSeat => false,
        Said::NotInRow => true,
        Said::InRow { seat, .. } => !given[seat.institute]
            .iter()
            .any(|one| (one.offer.candidate, one.step) == (candidate, seat.step)),
    })
}

/// The first candidate and best entry above the seat that the institute takes from its listed seats and that one entry.
pub fn entry_taken<R: Rule + ?Sized>(
    round: &Round,
    rule: &R,
    said: &[Said],
) -> Option<(usize, Entry)> {
    let listed = listed(round, said);
    let taken = |candidate: usize, entry: Entry| {
        let added = Offer {
            candidate,
            category: entry.category,
        };
        let mut offers = listed[entry.institute].clone();
        offers.push(added);
        rule.choose(round, entry.institute, &offers)
            .iter()
            .any(|one| one.offer == added)
    };
    for (candidate, one) in said.iter().enumerate() {
        let entry = above(&round.candidates[candidate].row, *one)
            .iter()
            .find(|&&entry| taken(candidate, entry));
        if let Some(&entry) = entry {
            return Some((candidate, entry));
        }
    }
    None
}

/// The entries of a row above what a list says: all where that is no seat of the row.
fn above(row: &[Entry], said: Said) -> &[Entry] {
    match said {
        Said::InRow { place, .. } => &row[..place],
        _ => row,
    }
}
