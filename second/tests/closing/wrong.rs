//! Wrong closing places, each as a rule of its own.

use second::choice::{Document, Offer, Rule, Taken, Way};
use second::reading::Round;

/// The merit place of somebody taken, 1 for the best.
fn place(merit: &[usize], one: &Taken) -> usize {
    1 + merit
        .iter()
        .position(|&candidate| candidate == one.offer.candidate)
        .expect("whoever is taken is on the merit list")
}

/// For each step, a place made from those it took in its fill by merit, in order of candidates, 0 if nobody.
fn of_the_fill(taken: &[Taken], made: impl Fn(&[Taken]) -> usize) -> Vec<usize> {
    let closing = |step: usize| {
        let filled: Vec<Taken> = taken
            .iter()
            .copied()
            .filter(|one| usize::from(one.step) == step && one.way == Way::ByMerit)
            .collect();
        if filled.is_empty() {
            0
        } else {
            made(&filled)
        }
    };
    (1..=6).map(closing).collect()
}

/// Counts those taken for use too.
pub struct UseCounted;

impl Rule for UseCounted {
    fn closing(&self, round: &Round, institute: usize, taken: &[Taken]) -> Vec<usize> {
        let merit = &round.merit[institute];
        let mut places = vec![0; 6];
        for one in taken {
            let closing = &mut places[usize::from(one.step) - 1];
            *closing = place(merit, one).max(*closing);
        }
        places
    }
}

/// Gives the smallest place of the fill by merit.
pub struct SmallestPlace;

impl Rule for SmallestPlace {
    fn closing(&self, round: &Round, institute: usize, taken: &[Taken]) -> Vec<usize> {
        let merit = &round.merit[institute];
        of_the_fill(taken, |filled| {
            let places = filled.iter().map(|one| place(merit, one));
            places.min().unwrap_or(0)
        })
    }
}

/// Gives the place of the last of the fill by merit in order of candidates.
pub struct LastByNumber;

impl Rule for LastByNumber {
    fn closing(&self, round: &Round, institute: usize, taken: &[Taken]) -> Vec<usize> {
        let merit = &round.merit[institute];
        of_the_fill(taken, |filled| {
            filled.last().map_or(0, |one| place(merit, one))
        })
    }
}

/// Takes everybody with a mark who holds a seat to be there for use.
pub struct MarkedLeftOut;

impl Rule for MarkedLeftOut {
    fn choose(&self, round: &Round, institute: usize, offers: &[Offer]) -> Vec<Taken> {
        let mut taken = Document.choose(round, institute, offers);
        for one in &mut taken {
            if round.candidates[one.offer.candidate].marks != 0 {
                one.way = Way::ForUse;
            }
        }
        taken
    }
}

/// Leaves everybody at a step as that step first took them, though others arrive later.
pub struct WayKept;

impl Rule for WayKept {
    fn choose(&self, round: &Round, institute: usize, offers: &[Offer]) -> Vec<Taken> {
        let mut taken: Vec<Taken> = Vec::new();
        for count in 0..=offers.len() {
            let before = taken;
            taken = Document.choose(round, institute, &offers[..count]);
            for one in &mut taken {
                let earlier = before
                    .iter()
                    .find(|held| (held.offer, held.step) == (one.offer, one.step));
                one.way = earlier.map_or(one.way, |held| held.way);
            }
        }
        taken
    }
}
