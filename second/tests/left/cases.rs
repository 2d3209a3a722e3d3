//! The steps of an institute as lists, made ones and those of worked rounds.

use crate::search::Listing;
use second::choice::{filling, raising, Document, Offer, Rule, Step, Taken};
use second::offers::Process;
use second::random::Random;
use second::reading::Round;
use std::cell::RefCell;

/// One to three steps over a merit list of up to 14 candidates and 1 to 8 types; each step considers some of those not yet taken.
pub fn some_case(random: &mut Random) -> Vec<Listing> {
    let types = random.from_to(1, 8);
    let people = random.from_to(1, 14);
    let marks = some_marks(random, people, types);
    let most = if types < 4 { 3 } else { random.from_to(1, 2) };
    let mut free = vec![true; people];
    let mut case = Vec::new();
    for _ in 0..random.from_to(1, 3) {
        let listing = Listing {
            marks: marks.clone(),
            considered: free.iter().map(|&free| free && !random.one_in(5)).collect(),
            reserved: (0..types).map(|_| random.from_to(0, most)).collect(),
        };
        let step = step_of(&listing, random.from_to(0, 1));
        let for_use = raising(&step);
        let by_merit = filling(&step, &for_use);
        for place in for_use.into_iter().chain(by_merit) {
            free[step.considered[place]] = false;
        }
        case.push(listing);
    }
    case
}

/// The marks of so many candidates: any, thin ones, or those of types next to each other.
fn some_marks(random: &mut Random, people: usize, types: usize) -> Vec<u8> {
    let thin = random.from_to(0, 3);
    let all = (1u64 << types) - 1;
    let own = |_| {
        let bits = match thin {
            3 => 3 << random.from_to(0, types) >> 1,
            _ => (0..thin).fold(random.bits(), |bits, _| bits & random.bits()),
        };
        (bits & all) as u8
    };
    (0..people).map(own).collect()
}

/// The step of a list with so many positions that are not reserved, the candidates being places in the merit list.
pub fn step_of(listing: &Listing, more: usize) -> Step<'_> {
    let considered: Vec<usize> = (0..listing.marks.len())
        .filter(|&who| listing.considered[who])
        .collect();
    Step {
        marks: considered.iter().map(|&who| listing.marks[who]).collect(),
        considered,
        positions: listing.reserved.iter().sum::<usize>() + more,
        reserved: &listing.reserved,
    }
}

/// The document's rule, which notes the candidates each step considers and its reserved positions.
#[derive(Default)]
struct Noting(RefCell<Vec<(Vec<usize>, Vec<usize>)>>);

impl Rule for Noting {
    fn for_use(&self, step: &Step) -> Vec<usize> {
        let noted = (step.considered.clone(), step.reserved.to_vec());
        self.0.borrow_mut().push(noted);
        raising(step)
    }
}

/// The steps in which an institute chooses from a set of offers, as lists.
fn steps_of(round: &Round, institute: usize, offers: &[Offer]) -> Vec<Listing> {
    let noting = Noting::default();
    let _: Vec<Taken> = noting.choose(round, institute, offers);
    let merit = &round.merit[institute];
    let listing = |(considered, reserved): (Vec<usize>, Vec<usize>)| Listing {
        marks: merit
            .iter()
            .map(|&who| round.candidates[who].marks)
            .collect(),
        considered: merit.iter().map(|who| considered.contains(who)).collect(),
        reserved,
    };
    noting.0.into_inner().into_iter().map(listing).collect()
}

/// The steps in which each institute of a round chooses from all offers ever made to it, when the offers have ended.
pub fn cases_of(round: &Round) -> Vec<Vec<Listing>> {
    let mut process = Process::new(round, &Document);
    while let Some(&candidate) = process.ready().first() {
        process.turn(candidate);
    }
    (0..round.institutes.len())
        .map(|institute| steps_of(round, institute, &process.made[institute]))
        .collect()
}
