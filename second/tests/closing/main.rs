//! The closing places of document 02, Point 1, and the wrong ones that are caught.

mod naive;
#[path = "../demand3/tiny.rs"]
mod tiny;
mod worked;
mod wrong;

use naive::{by_trying, Tried};
use second::choice::{Document, Offer, Rule, Taken, Way};
use second::generate::{lawful_round, Class};
use second::horizontal::use_of;
use second::offers::{Allotment, Process, Seat};
use second::random::Random;
use second::reading::Round;
use tiny::tiny;
use worked::worked;
use wrong::{LastByNumber, MarkedLeftOut, SmallestPlace, UseCounted, WayKept};

/// How many tiny rounds are run.
const ROUNDS: u64 = 5000;

/// How many tiny rounds a wrong rule is run over.
const WRONG_ROUNDS: u64 = 1500;

/// Runs the offers to their end.
fn ended<'a, R: Rule>(round: &'a Round, rule: &'a R) -> Process<'a, R> {
    let mut process = Process::new(round, rule);
    while let Some(&candidate) = process.ready().first() {
        process.turn(candidate);
    }
    process
}

/// Rounds of the small and the mid class.
fn larger_rounds() -> impl Iterator<Item = Round> {
    let small = (0..600).map(|seed| lawful_round(Class::Small, seed));
    small.chain((0..40).map(|seed| lawful_round(Class::Mid, seed)))
}

/// The closing places in other words, from all offers ever made.
fn tried(process: &Process<impl Rule>) -> Vec<Vec<usize>> {
    (0..process.made.len())
        .map(|institute| {
            by_trying(process.round, institute, &process.made[institute])
                .map(|step| step.by_merit.last().map_or(0, |place| place + 1))
                .to_vec()
        })
        .collect()
}

#[test]
fn closing_places_are_those_found_by_trying_every_set() {
    for seed in 0..ROUNDS {
        let round = tiny(seed);
        let process = ended(&round, &Document);
        assert_eq!(process.allotment().closing, tried(&process), "seed {seed}");
    }
}

/// What an institute holds at each step, in the same form as what is found by trying.
fn held(process: &Process<impl Rule>, institute: usize) -> [Tried; 6] {
    let places = |step: usize, way: Way| -> Vec<usize> {
        let merit = &process.round.merit[institute];
        let taken = |&place: &usize| {
            process.held[institute].iter().any(|one| {
                let own = (usize::from(one.step), one.way, one.offer.candidate);
                own == (step + 1, way, merit[place])
            })
        };
        (0..merit.len()).filter(taken).collect()
    };
    std::array::from_fn(|step| Tried {
        for_use: places(step, Way::ForUse),
        by_merit: places(step, Way::ByMerit),
    })
}

#[test]
fn those_held_for_use_and_by_merit_are_those_found_by_trying_every_set() {
    for seed in 0..ROUNDS {
        let round = tiny(seed);
        let process = ended(&round, &Document);
        for institute in 0..round.institutes.len() {
            let tried = by_trying(&round, institute, &process.made[institute]);
            assert_eq!(held(&process, institute), tried, "seed {seed}");
        }
    }
}

/// The closing places from the seats alone: down the merit list, a holder with whom the use of the step's holders does not rise is there by merit.
fn from_the_seats(round: &Round, seats: &[Option<Seat>]) -> Vec<Vec<usize>> {
    let step_closes = |institute: usize, step: u8| {
        let reserved: &[usize] = match step {
            6 => &[],
            _ => &round.institutes[institute].reserved[usize::from(step) - 1],
        };
        let mut marks = Vec::new();
        let mut closing = 0;
        for (place, &candidate) in round.merit[institute].iter().enumerate() {
            if seats[candidate] != Some(Seat { institute, step }) {
                continue;
            }
            let above = use_of(&marks, reserved);
            marks.push(round.candidates[candidate].marks);
            if use_of(&marks, reserved) == above {
                closing = place + 1;
            }
        }
        closing
    };
    (0..round.institutes.len())
        .map(|institute| (1..=6).map(|step| step_closes(institute, step)).collect())
        .collect()
}

#[test]
fn closing_places_can_be_told_from_the_seats() {
    for round in (0..ROUNDS).map(tiny).chain(larger_rounds()) {
        let Allotment { seats, closing, .. } = ended(&round, &Document).allotment();
        assert_eq!(closing, from_the_seats(&round, &seats), "{round:?}");
    }
}

/// The offers an institute rejected of those made to it.
fn rejected(made: &[Offer], held: &[Taken]) -> Vec<Offer> {
    made.iter()
        .copied()
        .filter(|offer| held.iter().all(|one| one.offer != *offer))
        .collect()
}

/// Asserts that an institute takes of its seats with some of the offers it rejected the same for use and by merit as of all offers made to it.
fn same_with(process: &Process<Document>, institute: usize, some: &[Offer]) {
    let held = &process.held[institute];
    let mut offers: Vec<Offer> = held.iter().map(|one| one.offer).collect();
    offers.extend(some);
    let chosen = Document.choose(process.round, institute, &offers);
    assert_eq!(&chosen, held, "{some:?}: {:?}", process.round);
}

#[test]
fn every_set_between_the_seats_and_all_offers_gives_the_same_for_use_and_by_merit() {
    let mut sets = 0;
    for seed in 0..ROUNDS {
        let round = tiny(seed);
        let process = ended(&round, &Document);
        for (institute, made) in process.made.iter().enumerate() {
            let rejected = rejected(made, &process.held[institute]);
            for bits in 0..1usize << rejected.len() {
                let some: Vec<Offer> = (0..rejected.len())
                    .filter(|place| bits >> place & 1 == 1)
                    .map(|place| rejected[place])
                    .collect();
                same_with(&process, institute, &some);
                sets += 1;
            }
        }
    }
    assert!(sets > 4 * ROUNDS, "{sets}");
}

#[test]
fn sets_between_the_seats_and_all_offers_of_larger_rounds_give_the_same() {
    for (seed, round) in larger_rounds().enumerate() {
        let mut random = Random::new(seed as u64);
        let process = ended(&round, &Document);
        for (institute, made) in process.made.iter().enumerate() {
            let rejected = rejected(made, &process.held[institute]);
            same_with(&process, institute, &[]);
            same_with(&process, institute, &rejected);
            for of in [2, 2, 4, 8] {
                let mut some = rejected.clone();
                some.retain(|_| random.one_in(of));
                same_with(&process, institute, &some);
            }
        }
    }
}

#[test]
fn the_tiny_rounds_reject_marked_candidates_and_have_steps_that_take_both_ways() {
    let (mut marked, mut both, mut other) = (0, 0, 0);
    for seed in 0..ROUNDS {
        let round = tiny(seed);
        let process = ended(&round, &Document);
        for (institute, held) in process.held.iter().enumerate() {
            let is_marked = |offer: &Offer| round.candidates[offer.candidate].marks != 0;
            let rejected = rejected(&process.made[institute], held);
            marked += u64::from(rejected.iter().any(is_marked));
            let takes =
                |step: u8, way: Way| held.iter().any(|one| (one.step, one.way) == (step, way));
            both += u64::from(
                (1..=5).any(|step| takes(step, Way::ForUse) && takes(step, Way::ByMerit)),
            );
            let closing = Document.closing(&round, institute, held);
            other += u64::from(closing != UseCounted.closing(&round, institute, held));
        }
    }
    assert!(marked * 4 > ROUNDS, "{marked}");
    assert!(both * 8 > ROUNDS, "{both}");
    assert!(other * 4 > ROUNDS, "{other}");
}

/// What catches wrong closing places: the same in other words on tiny rounds, and the rounds of the folder.
fn caught_by<R: Rule>(rule: &R) -> Vec<String> {
    let mut names = Vec::new();
    let wrong = |seed: u64| {
        let round = tiny(seed);
        let process = ended(&round, rule);
        process.allotment().closing != tried(&process)
    };
    if (0..WRONG_ROUNDS).any(wrong) {
        names.push("trying".to_string());
    }
    for (name, round) in worked() {
        let due = ended(&round, &Document).allotment();
        if ended(&round, rule).allotment().closing != due.closing {
            names.push(name);
        }
    }
    names
}

#[test]
fn counting_those_taken_for_use_is_caught() {
    assert_eq!(
        caught_by(&UseCounted),
        [
            "trying",
            "a",
            "a-open-only",
            "a-open-only-policy-0",
            "all-for-use",
            "down-again",
            "every-step",
            "filled-though-marked",
            "found-by-moving",
            "given-back",
            "longest-chain",
            "lowest-for-use",
            "marked-and-rejected",
            "moved-between-types",
            "no-types-at-6",
            "one-left-after-moves",
            "pushed-up",
            "rejected-goes-last"
        ]
    );
}

#[test]
fn the_smallest_place_is_caught() {
    assert_eq!(
        caught_by(&SmallestPlace),
        [
            "trying",
            "filled-though-marked",
            "lowest-for-use",
            "marked-by-merit",
            "n-512",
            "no-types-at-6",
            "step-6-by-merit"
        ]
    );
}

#[test]
fn the_place_of_the_last_by_number_is_caught() {
    assert_eq!(
        caught_by(&LastByNumber),
        [
            "trying",
            "filled-though-marked",
            "lowest-for-use",
            "marked-by-merit",
            "n-512",
            "no-types-at-6",
            "step-6-by-merit"
        ]
    );
}

#[test]
fn leaving_out_everybody_marked_is_caught() {
    assert_eq!(
        caught_by(&MarkedLeftOut),
        [
            "trying",
            "all-eight-types",
            "equal-marks",
            "filled-though-marked",
            "marked-and-rejected",
            "marked-by-merit",
            "no-types-at-6",
            "step-6-by-merit"
        ]
    );
}

#[test]
fn keeping_how_somebody_was_first_taken_is_caught() {
    assert_eq!(
        caught_by(&WayKept),
        ["trying", "all-eight-types", "marked-by-merit"]
    );
}
