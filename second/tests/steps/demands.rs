//! Demands 2 and 3 of rounds with step lists.

#[path = "../common/always.rs"]
mod always;

use crate::statements::{choice_is_one, gives_up, held_once, stable, truthful, Found};
use crate::tiny_lists::tiny_lists;
use crate::words::Words;
use second::choice::{Document, Way};
use second::generate::{lawful_round, Class};
use second::horizontal::use_of;
use second::offers::{allot, Process, Seat};
use second::orders::{ended, Order};
use second::random::Random;
use second::reading::Round;
use second::widening::wide;

/// How many tiny rounds each statement is run over.
const ROUNDS: u64 = 3000;

/// Asserts a statement of every tiny round with step lists.
fn holds_always(statement: impl Fn(&Round, &mut Random) -> Found) {
    for seed in 0..ROUNDS {
        if let Err(counterexample) = statement(&tiny_lists(seed), &mut Random::new(seed)) {
            panic!("seed {seed}: {counterexample}");
        }
    }
}

#[test]
fn statement_1_truthful() {
    holds_always(|round, random| truthful(round, &|other| allot(other, &Document).seats, random));
}

#[test]
fn statement_2_stable() {
    holds_always(|round, _| stable(round, &Document, &allot(round, &Document).seats));
}

#[test]
fn the_choice_is_one_and_nobody_is_held_twice() {
    holds_always(|round, random| {
        choice_is_one(round, &Document, random).and_then(|()| held_once(round, &Document))
    });
}

#[test]
fn allotments_of_small_rounds_are_those_of_the_words() {
    for seed in 0..300 {
        let round = lawful_round(Class::StepsTiny, seed);
        assert_eq!(allot(&round, &Document), allot(&round, &Words), "{round:?}");
    }
}

#[test]
fn orders_of_larger_rounds_end_alike() {
    let made = |class: Class, count: u64| (0..count).map(move |seed| lawful_round(class, seed));
    let rounds = made(Class::StepsSmall, 600).chain(made(Class::WideStepsSmall, 100));
    for (seed, round) in rounds.chain(made(Class::StepsMid, 10)).enumerate() {
        let due = ended(&round, &Document, Order::LowestFirst, 0);
        for order in Order::OTHERS {
            let other = ended(&round, &Document, order, seed as u64);
            assert_eq!(other, due, "{} {seed}", order.name());
        }
    }
}

#[test]
fn wide_rounds_are_allotted_alike() {
    for seed in 0..1000 {
        let round = lawful_round(Class::StepsSmall, seed);
        assert_eq!(allot(&wide(&round), &Document), allot(&round, &Document));
    }
}

/// The closing places from the seats alone: down the merit list, a holder with whom the use of the step's holders does not rise is there by merit.
fn from_the_seats(round: &Round, seats: &[Option<Seat>]) -> Vec<Vec<usize>> {
    let step_closes = |institute: usize, step: u8| {
        let own = round.institutes[institute].steps.get(usize::from(step) - 1);
        let (mut marks, mut closing) = (Vec::new(), 0);
        for (place, &candidate) in round.merit[institute].iter().enumerate() {
            if seats[candidate] != Some(Seat { institute, step }) {
                continue;
            }
            let reserved = &own.expect("a listed step").reserved;
            let above = use_of(&marks, reserved);
            marks.push(round.candidates[candidate].marks);
            if use_of(&marks, reserved) == above {
                closing = place + 1;
            }
        }
        closing
    };
    let institutes = 0..round.institutes.len();
    institutes
        .map(|institute| (1..=12).map(|step| step_closes(institute, step)).collect())
        .collect()
}

#[test]
fn twelve_closing_places_can_be_told_from_the_seats() {
    let tiny = (0..ROUNDS).map(tiny_lists);
    let small = (0..600).map(|seed| lawful_round(Class::StepsSmall, seed));
    for round in tiny.chain(small) {
        let allotment = allot(&round, &Document);
        let due = from_the_seats(&round, &allotment.seats);
        assert_eq!(allotment.closing, due, "{round:?}");
    }
}

#[test]
fn the_tiny_rounds_hand_vacancies_through_several_steps() {
    let [mut handed, mut through, mut lost, mut again] = [0; 4];
    for seed in 0..ROUNDS {
        let round = tiny_lists(seed);
        let mut process = Process::new(&round, &Document);
        let mut gave_up = false;
        while let Some(&candidate) = process.ready().first() {
            gave_up |= gives_up(&mut process, candidate);
        }
        lost += u64::from(gave_up);
        for (own, held) in round.institutes.iter().zip(&process.held) {
            let at = |number: usize| {
                let here = held.iter().filter(|one| usize::from(one.step) == number);
                here.count()
            };
            let by_merit = |number: usize| {
                let mut here = held.iter().filter(|one| usize::from(one.step) == number);
                here.any(|one| one.way == Way::ByMerit)
            };
            let hands_to = |from: usize, to: usize| usize::from(own.steps[from - 1].receiver) == to;
            let all = 1..=own.steps.len();
            let more = |&number: &usize| at(number) > own.steps[number - 1].positions;
            handed += u64::from(all.clone().any(|number| more(&number) && by_merit(number)));
            through += u64::from(all.clone().filter(more).any(|number| {
                let before = (1..number).filter(|&other| hands_to(other, number));
                let own_ones: usize = before
                    .map(|other| own.steps[other - 1].positions)
                    .sum::<usize>();
                at(number) > own.steps[number - 1].positions + own_ones
            }));
            again += u64::from(all.clone().any(|number| {
                let category = own.steps[number - 1].category;
                let earlier = &own.steps[..number - 1];
                at(number) > 0 && earlier.iter().any(|step| step.category == category)
            }));
        }
    }
    assert!(handed * 5 > ROUNDS, "{handed}");
    assert!(through * 20 > ROUNDS, "{through}");
    assert!(lost * 5 > ROUNDS, "{lost}");
    assert!(again * 5 > ROUNDS, "{again}");
}
