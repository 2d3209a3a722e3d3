//! Reviews of lists of rounds with step lists, and the wrong reviews that are caught.

use crate::all_lists::{all_lists, with_pairs, Counts, Paired};
use crate::lists::{how_many, Pair};
use crate::looks::Look;
use crate::own_list::own_list;
use crate::tiny_lists::tiny_lists;
use crate::wrong_reviews::{counted, named};
use second::generate::{
    lawful, lawful_round, steps_damaged, wide_steps_damaged, Class, STEPS_QUESTIONS,
};
use second::random::Random;
use second::reading::Round;
use second::review::found;
use second::widening::{wide, widened, widened_list};
use second::writing::write;
use second::{review, Review};

/// The most lists of a round that is run with all of them.
const LISTS: usize = 1200;

/// The bytes 0 0 and the seats in a candidate's row: each step of the institute with the entry's category.
fn of_the_row(round: &Round, candidate: usize) -> Vec<Pair> {
    let mut pairs = vec![[0, 0]];
    for entry in &round.candidates[candidate].row {
        let steps = (1..).zip(&round.institutes[entry.institute].steps);
        let fitting = steps.filter(|(_, step)| step.category == entry.category);
        pairs.extend(fitting.map(|(number, _)| [entry.institute as u8 + 1, number]));
    }
    pairs
}

/// The pairs of the row, and some that are not: the first seat of institute 1 outside the row, if there is one, steps beyond the list, no institute, no step, an institute too many, all bits.
fn and_some_more(round: &Round, candidate: usize) -> Vec<Pair> {
    let mut pairs = of_the_row(round, candidate);
    let steps = round.institutes[0].steps.len() as u8;
    let outside = (1..=steps).map(|step| [1, step]);
    let outside: Option<Pair> = outside.clone().find(|pair| !pairs.contains(pair));
    let more = round.institutes.len() as u8 + 1;
    pairs.extend(outside);
    pairs.extend([
        [1, steps + 1],
        [1, 13],
        [0, 1],
        [1, 0],
        [more, 1],
        [255, 255],
    ]);
    pairs
}

/// The tiny rounds that have at most so many lists over these pairs, with the pairs of each candidate.
fn with_few_lists(
    seeds: u64,
    most: usize,
    pairs: fn(&Round, usize) -> Vec<Pair>,
) -> impl Iterator<Item = Paired> {
    let rounds = with_pairs((0..seeds).map(tiny_lists), pairs);
    rounds.filter(move |(_, pairs)| how_many(pairs) <= most)
}

/// The tiny rounds that have few lists, with pairs in the rows and some more.
fn some_rounds() -> impl Iterator<Item = Paired> {
    with_few_lists(600, 2 * LISTS, and_some_more)
}

/// Asserts that more than so many lists pass, as many have a wrong seat, and as many leave an entry that would be taken.
fn more_than(least: usize, counts: &Counts) {
    let each = [counts.passing, counts.seats, counts.entries];
    assert!(each.iter().all(|&count| count > least), "{counts:?}");
}

#[test]
fn just_the_stable_lists_of_seats_in_their_rows_pass() {
    let rounds = with_few_lists(2000, LISTS, of_the_row);
    more_than(1500, &all_lists(rounds));
}

#[test]
fn just_the_stable_lists_pass() {
    more_than(150, &all_lists(some_rounds()));
}

#[test]
fn the_list_of_the_allotment_passes() {
    let made = |class: Class, count: u64| (0..count).map(move |seed| lawful_round(class, seed));
    let rounds = (0..2000)
        .map(tiny_lists)
        .chain(made(Class::StepsTiny, 1000))
        .chain(made(Class::StepsSmall, 1000))
        .chain(made(Class::StepsMid, 20))
        .chain(made(Class::StepsMaximal, 1))
        .chain(made(Class::StepsCrowded, 1))
        .chain(made(Class::WideStepsTiny, 500))
        .chain(made(Class::WideStepsSmall, 200))
        .chain(made(Class::WideStepsMany, 20));
    for round in rounds {
        let review = found(&round, &own_list(&round));
        assert_eq!(review, Review::Passes, "{round:?}");
    }
}

#[test]
fn widened_lists_are_reviewed_alike() {
    let mut random = Random::new(3);
    for seed in 0..1000 {
        let round = tiny_lists(seed);
        for _ in 0..5 {
            let people = 0..round.candidates.len();
            let pairs = people.map(|who| random.pick(&and_some_more(&round, who)));
            let list: Vec<u8> = pairs.flatten().collect();
            let (widened_file, widened_list) = (widened(&write(&round)), widened_list(&list));
            let work = &mut [7; 64];
            let said = review(&write(&round), &list, work);
            assert_eq!(review(&widened_file, &widened_list, work), said);
            assert_eq!(found(&wide(&round), &widened_list), said);
        }
    }
}

#[test]
fn a_step_beyond_the_list_of_its_own_institute_counts_as_not_in_the_row() {
    for seed in 0..500 {
        let round = tiny_lists(seed);
        for (institute, own) in round.institutes.iter().enumerate() {
            for step in own.steps.len() as u8 + 1..=13 {
                let mut list = own_list(&round);
                list[..2].copy_from_slice(&[institute as u8 + 1, step]);
                assert_eq!(found(&round, &list), Review::Wrong(1), "{round:?}");
            }
        }
    }
}

#[test]
fn a_list_of_another_length_and_a_small_work_area_are_refused() {
    let refused = |number| Review::Refused { number, offset: 0 };
    for (class, each) in [(Class::StepsSmall, 2), (Class::WideStepsSmall, 4)] {
        for seed in 0..100 {
            let file = lawful(class, seed);
            let n = lawful_round(class, seed).candidates.len();
            for length in (0..=each * n + 5).filter(|&length| length != each * n) {
                let said = review(&file, &vec![0; length], &mut vec![7; 8 * n]);
                assert_eq!(said, refused(15), "{length}");
            }
            let list = vec![0; each * n];
            let said = review(&file, &list, &mut vec![7; 8 * n - 1]);
            assert_eq!(said, refused(14));
            let mut work = vec![7; 8 * n + 3];
            let said = review(&file, &list, &mut work);
            assert!(!matches!(said, Review::Refused { .. }));
            assert_eq!(work[..8 * n], vec![0; 8 * n]);
            assert_eq!(work[8 * n..], [7; 3]);
        }
    }
}

#[test]
fn a_file_that_is_not_allotted_is_not_reviewed() {
    for number in STEPS_QUESTIONS {
        for made in (0..40).flat_map(|seed| {
            [
                steps_damaged(number, seed),
                wide_steps_damaged(number, seed),
            ]
        }) {
            let due = Review::Refused {
                number: made.number,
                offset: made.offset,
            };
            for (length, work_len) in [(0, 0), (6, 24), (48, 192), (2048, 4096)] {
                let mut work = vec![7; work_len];
                assert_eq!(review(&made.file, &vec![0; length], &mut work), due);
                assert_eq!(work, vec![7; work_len]);
            }
        }
    }
}

/// Asserts in how many lists, in how many by passing, and in which worked lists of rounds with step lists a wrong review is caught.
fn caught(look: Look, counts: [usize; 2], names: &[&str]) {
    let names: Vec<String> = names.iter().map(|name| name.to_string()).collect();
    let found = counted(look, some_rounds());
    let worked = named(look, |round| round.policy == 2);
    assert_eq!((found, worked), (counts, names), "{look:?}");
}

#[test]
fn the_lists_are_these_many() {
    let counts: Vec<usize> = some_rounds().map(|(_, pairs)| how_many(&pairs)).collect();
    assert_eq!((counts.len(), counts.iter().sum::<usize>()), (293, 163_031));
}

#[test]
fn ignoring_steps_is_caught() {
    caught(Look::NoSteps, [21_008, 1423], &["steps-other-of-two"]);
}

#[test]
fn the_categories_of_document_01_are_caught() {
    caught(
        Look::FixedCategories,
        [13_234, 242],
        &[
            "steps-6-of-5",
            "steps-own-of-two",
            "steps-would-take",
            "wide-steps-2-of-2",
        ],
    );
}

#[test]
fn the_list_of_the_first_institute_is_caught() {
    caught(Look::ListOfFirst, [2887, 53], &["wide-steps-2-of-2"]);
}

#[test]
fn reading_a_step_beyond_the_list_as_open_is_caught() {
    caught(Look::BeyondAsOpen, [401, 0], &["steps-6-of-5"]);
}

#[test]
fn reading_what_is_no_seat_as_none_is_caught() {
    caught(
        Look::ReadAsNone,
        [114_906, 9660],
        &["steps-13-of-12", "steps-6-of-5", "wide-steps-2-of-1"],
    );
}
