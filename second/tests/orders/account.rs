//! What happens in one order of a round, and how that differs from what happens in the lowest-number order.

use second::choice::{Document, Rule};
use second::orders::{Calling, Ended, Order, Turn};
use second::reading::Round;
use std::collections::BTreeSet;

/// The turns of an order, who is held at which institute and step at any time, and what it ends with.
pub struct Account {
    pub turns: Vec<Turn>,
    pub seats: BTreeSet<(usize, usize, u8)>,
    pub ended: Ended,
}

/// The account of an order.
pub fn account<R: Rule>(round: &Round, rule: &R, order: Order, seed: u64) -> Account {
    let mut calling = Calling::new(round, rule, order, seed);
    let mut seats = BTreeSet::new();
    while let Some(turn) = calling.turn() {
        let institute = turn.entry.institute;
        let held = &calling.process.held[institute];
        seats.extend(
            held.iter()
                .map(|one| (one.offer.candidate, institute, one.step)),
        );
    }
    Account {
        ended: calling.ended(),
        turns: calling.turns,
        seats,
    }
}

/// In how many rounds each of the other orders has other turns than the lowest-number order, and in how many somebody is held at a seat in one of the two and never in the other.
#[derive(Debug, Default, PartialEq, Eq)]
pub struct Differing {
    pub turns: [usize; 6],
    pub seats: [usize; 6],
}

/// Asserts that every other order of these rounds ends as the lowest-number order does, and tells how far they differ before.
pub fn alike(rounds: impl Iterator<Item = Round>) -> Differing {
    let mut differing = Differing::default();
    for (seed, round) in rounds.enumerate() {
        let seed = seed as u64;
        let lowest = account(&round, &Document, Order::LowestFirst, seed);
        for (place, order) in Order::OTHERS.into_iter().enumerate() {
            let other = account(&round, &Document, order, seed);
            assert_eq!(
                other.ended,
                lowest.ended,
                "{}, seed {seed}: {round:?}",
                order.name()
            );
            differing.turns[place] += usize::from(other.turns != lowest.turns);
            differing.seats[place] += usize::from(other.seats != lowest.seats);
        }
    }
    differing
}
