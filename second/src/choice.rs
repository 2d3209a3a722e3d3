//! One institute chooses: what its steps give from any set of offers to it.

use crate::horizontal::{first_placing, use_of};
use crate::reading::Round;
use crate::steps::{closing_places, steps_of};

/// An offer to a known institute: a candidate, counted from 0, and the category of the entry.
#[derive(Clone, Copy, Debug, PartialEq, Eq, PartialOrd, Ord, Hash)]
pub struct Offer {
    pub candidate: usize,
    pub category: u8,
}

/// How a step takes somebody.
#[derive(Clone, Copy, Debug, PartialEq, Eq, PartialOrd, Ord, Hash)]
pub enum Way {
    /// As somebody who raises the use of those taken.
    ForUse,
    /// In the fill of the remaining positions.
    ByMerit,
}

/// An offer that was taken, with its step and how that step took it.
#[derive(Clone, Copy, Debug, PartialEq, Eq, PartialOrd, Ord, Hash)]
pub struct Taken {
    pub offer: Offer,
    pub step: u8,
    pub way: Way,
}

/// What happens to candidates taken at an earlier step.
#[derive(Clone, Copy, Debug, PartialEq, Eq)]
pub enum Earlier {
    /// They are left out, as the choice does.
    LeftOut,
    /// Only the offer taken is left out, as the completion does.
    OfferLeftOut,
}

/// What is given to one step: those it considers, in merit order, with the marks of each, its positions and the reserved ones.
pub struct Step<'a> {
    pub considered: Vec<usize>,
    pub marks: Vec<u8>,
    pub positions: usize,
    pub reserved: &'a [usize],
}

/// The rule by which institutes choose; what is written here is the document's.
pub trait Rule {
    /// Those taken for use within one step, as places in the list of those considered.
    fn for_use(&self, step: &Step) -> Vec<usize> {
        raising(step)
    }

    /// The vacancies that a step hands on, from its positions, handed ones included, and how many of these were taken.
    fn vacancies(&self, positions: usize, taken: usize) -> usize {
        positions - taken
    }

    /// The offers an institute takes from a set of offers, in order of candidates, with their steps.
    fn choose(&self, round: &Round, institute: usize, offers: &[Offer]) -> Vec<Taken> {
        steps(self, round, institute, offers, Earlier::LeftOut)
    }

    /// What the completion of the choice takes from a set of offers.
    fn complete(&self, round: &Round, institute: usize, offers: &[Offer]) -> Vec<Taken> {
        steps(self, round, institute, offers, Earlier::OfferLeftOut)
    }

    /// The closing places of an institute, from what it takes of all offers ever made to it.
    fn closing(&self, round: &Round, institute: usize, taken: &[Taken]) -> Vec<usize> {
        largest_by_merit(round, institute, taken)
    }

    /// The type of each of those an institute takes of all offers ever made to it, 0 for those in a fill by merit.
    fn types(&self, round: &Round, institute: usize, taken: &[Taken]) -> Vec<u8> {
        first_types(round, institute, taken)
    }
}

/// The rule as the document says it.
pub struct Document;

impl Rule for Document {}

/// Goes down the merit list and takes each candidate who raises the use of those taken.
pub fn raising(step: &Step) -> Vec<usize> {
    let mut taken = Vec::new();
    let mut marks = Vec::new();
    let mut used = use_of(&marks, step.reserved);
    for place in 0..step.considered.len() {
        marks.push(step.marks[place]);
        let with = use_of(&marks, step.reserved);
        if with > used {
            taken.push(place);
            used = with;
        } else {
            marks.pop();
        }
    }
    taken
}

/// Those left who fill by merit the positions that remain after those taken for use.
pub fn filling(step: &Step, for_use: &[usize]) -> Vec<usize> {
    (0..step.considered.len())
        .filter(|place| !for_use.contains(place))
        .take(step.positions.saturating_sub(for_use.len()))
        .collect()
}

/// For each step, the largest merit place among those it took in its fill by merit, 0 if nobody and beyond the steps.
pub fn largest_by_merit(round: &Round, institute: usize, taken: &[Taken]) -> Vec<usize> {
    let mut places = vec![0; closing_places(round)];
    if taken.is_empty() {
        return places;
    }
    for (place, &candidate) in round.merit[institute].iter().enumerate() {
        for one in taken {
            if one.offer.candidate == candidate && one.way == Way::ByMerit {
                places[usize::from(one.step) - 1] = place + 1;
            }
        }
    }
    places
}

/// For each of those taken, the type of the first placing of those whom the same step took for use, 0 for the others.
pub fn first_types(round: &Round, institute: usize, taken: &[Taken]) -> Vec<u8> {
    let mut types = vec![0; taken.len()];
    for (step, listed) in (1..).zip(steps_of(round, institute)) {
        let places = used_by_merit(&round.merit[institute], taken, step);
        let marks: Vec<u8> = places
            .iter()
            .map(|&place| round.candidates[taken[place].offer.candidate].marks)
            .collect();
        let placing = first_placing(&marks, &listed.reserved);
        for (place, given) in places.into_iter().zip(placing) {
            types[place] = given;
        }
    }
    types
}

/// Those whom a step took for use, as places in the list of those taken, read down the merit list.
pub fn used_by_merit(merit: &[usize], taken: &[Taken], step: u8) -> Vec<usize> {
    let place_of = |&candidate: &usize| {
        taken.iter().position(|one| {
            (one.offer.candidate, one.step, one.way) == (candidate, step, Way::ForUse)
        })
    };
    merit.iter().filter_map(place_of).collect()
}

/// The positions that a step reserves for each type.
pub fn reserved_of(round: &Round, institute: usize, step: u8) -> Vec<usize> {
    let mut steps = steps_of(round, institute);
    steps.swap_remove(usize::from(step) - 1).reserved
}

/// Runs the steps of one institute over a set of offers, under a rule.
pub fn steps<R: Rule + ?Sized>(
    rule: &R,
    round: &Round,
    institute: usize,
    offers: &[Offer],
    earlier: Earlier,
) -> Vec<Taken> {
    let own = steps_of(round, institute);
    let mut handed = vec![0; own.len()];
    let mut taken: Vec<Taken> = Vec::new();
    for (place, listed) in own.iter().enumerate() {
        let (number, category) = (place as u8 + 1, listed.category);
        let positions = listed.positions + handed[place];
        let reserved = &listed.reserved;
        let considered = considered(&round.merit[institute], offers, category, &taken, earlier);
        let marks = considered
            .iter()
            .map(|&candidate| round.candidates[candidate].marks)
            .collect();
        let step = Step {
            considered,
            marks,
            positions,
            reserved,
        };
        let for_use = rule.for_use(&step);
        let by_merit = filling(&step, &for_use);
        if let Some(receiver) = usize::from(listed.receiver).checked_sub(1) {
            handed[receiver] += rule.vacancies(positions, for_use.len() + by_merit.len());
        }
        for (way, places) in [(Way::ForUse, for_use), (Way::ByMerit, by_merit)] {
            taken.extend(places.into_iter().map(|place| Taken {
                offer: Offer {
                    candidate: step.considered[place],
                    category,
                },
                step: number,
                way,
            }));
        }
    }
    taken.sort();
    taken
}

/// The candidates on the merit list, in its order, who offer this category and are not left out.
fn considered(
    merit: &[usize],
    offers: &[Offer],
    category: u8,
    taken: &[Taken],
    earlier: Earlier,
) -> Vec<usize> {
    let people = merit.iter().max().map_or(0, |largest| largest + 1);
    let mut offering = vec![false; people];
    for offer in offers {
        if offer.category == category && offer.candidate < people {
            offering[offer.candidate] = true;
        }
    }
    for one in taken {
        if earlier == Earlier::LeftOut || one.offer.category == category {
            offering[one.offer.candidate] = false;
        }
    }
    merit
        .iter()
        .copied()
        .filter(|&candidate| offering[candidate])
        .collect()
}
