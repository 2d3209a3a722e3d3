//! Document 02, Point 5: the review of hand-made lists, and the wrong reviews that are caught.

#[path = "../common/all_lists.rs"]
mod all_lists;
#[path = "../demand3/arrangements.rs"]
mod arrangements;
mod cases;
mod family;
mod lists;
mod looks;
#[path = "../common/own_list.rs"]
mod own_list;
mod refusals;
mod remembered;
#[path = "../closing/worked.rs"]
mod rounds;
#[path = "../types/several.rs"]
mod several;
#[path = "../demand3/stability.rs"]
mod stability;
#[path = "../demand3/tiny.rs"]
mod tiny;
#[path = "../demand3/words.rs"]
mod words;
mod wrong;
#[path = "../common/wrong_reviews.rs"]
mod wrong_reviews;

use all_lists::{all_lists, with_pairs, Counts, Paired};
use cases::cases;
use family::every_round;
use lists::{and_some_more, how_many, of_the_row, pairs_of};
use looks::{Look, Over};
use own_list::own_list;
use rounds::worked;
use second::choice::Document;
use second::generate::{lawful_round, Class};
use second::printing::print_review;
use second::random::Random;
use second::reading::{read, Round};
use second::review::found;
use second::Review;
use several::several;
use std::process::Command;
use tiny::tiny;

/// How many tiny rounds, and as many of several types, are run with lists of seats in their rows.
const ROUNDS: u64 = 3000;

/// The most such lists of a round that is run.
const ROW_LISTS: usize = 1500;

/// The most lists of a tiny round that is run with other pairs too.
const LISTS: usize = 20_000;

/// The rounds that have at most so many lists, with their pairs.
fn with_few_lists(
    rounds: impl Iterator<Item = Round>,
    most: usize,
) -> impl Iterator<Item = Paired> {
    rounds.filter_map(move |round| {
        let pairs = pairs_of(&round, most)?;
        Some((round, pairs))
    })
}

#[test]
fn just_the_stable_lists_pass_in_every_round_of_two_candidates_and_one_type() {
    let counts = all_lists(with_pairs(every_round(2, 1), and_some_more));
    let due = Counts {
        rounds: 12_960,
        lists: 1_011_240,
        passing: 14_080,
        seats: 982_984,
        entries: 14_176,
        several: 1088,
    };
    assert_eq!(counts, due);
}

#[test]
fn just_the_stable_lists_pass_in_every_round_of_three_candidates_without_types() {
    let counts = all_lists(with_pairs(every_round(3, 0), of_the_row));
    let due = Counts {
        rounds: 27_648,
        lists: 628_864,
        passing: 29_478,
        seats: 553_984,
        entries: 45_402,
        several: 1764,
    };
    assert_eq!(counts, due);
}

#[test]
fn just_the_stable_lists_of_tiny_rounds_pass() {
    let counts = all_lists(with_few_lists((0..200).map(tiny), LISTS));
    let due = Counts {
        rounds: 126,
        lists: 902_678,
        passing: 147,
        seats: 901_010,
        entries: 1521,
        several: 17,
    };
    assert_eq!(counts, due);
}

#[test]
fn just_the_stable_lists_of_seats_in_their_rows_pass() {
    let rounds = (0..ROUNDS).map(tiny).chain((0..ROUNDS).map(several));
    let of_rows = with_pairs(rounds, of_the_row);
    let counts = all_lists(of_rows.filter(|(_, pairs)| how_many(pairs) <= ROW_LISTS));
    let due = Counts {
        rounds: 4584,
        lists: 1_559_400,
        passing: 6021,
        seats: 1_389_464,
        entries: 163_915,
        several: 1092,
    };
    assert_eq!(counts, due);
}

/// Rounds of every class, tiny ones, such of several types, and the worked ones.
fn rounds_of_every_class() -> impl Iterator<Item = Round> {
    let made = |class: Class, count: u64| (0..count).map(move |seed| lawful_round(class, seed));
    (0..ROUNDS)
        .map(tiny)
        .chain((0..ROUNDS).map(several))
        .chain(made(Class::Tiny, 2000))
        .chain(made(Class::Small, 2000))
        .chain(made(Class::Mid, 40))
        .chain(made(Class::Maximal, 1))
        .chain(made(Class::Contested, 1))
        .chain(made(Class::Crowded, 2))
        .chain(worked().into_iter().map(|(_, round)| round))
}

#[test]
fn the_list_of_the_allotment_passes() {
    let mut rounds = 0;
    for round in rounds_of_every_class() {
        let review = found(&round, &own_list(&round));
        assert_eq!(review, Review::Passes, "{round:?}");
        rounds += 1;
    }
    assert_eq!(rounds, 10_076);
}

/// The list of a round's allotment with some candidates' bytes replaced by others that are in their rows or, now and then, by any.
fn changed(round: &Round, random: &mut Random) -> Vec<u8> {
    let mut list = own_list(round);
    for _ in 0..random.from_to(1, 3) {
        let who = random.from_to(0, round.candidates.len() - 1);
        let pair = if random.one_in(8) {
            random.pick(&and_some_more(round, who))
        } else {
            random.pick(&of_the_row(round, who))
        };
        list[2 * who..2 * who + 2].copy_from_slice(&pair);
    }
    list
}

#[test]
fn changed_lists_of_larger_rounds_are_answered_as_the_tests_own_review_does() {
    let mut random = Random::new(5);
    let mut counts = [0; 3];
    let small = (0..1000).map(|seed| (lawful_round(Class::Small, seed), 20));
    let mid = (0..20).map(|seed| (lawful_round(Class::Mid, seed), 5));
    for (round, lists) in small.chain(mid) {
        for _ in 0..lists {
            let list = &changed(&round, &mut random)[..];
            let review = found(&round, list);
            let own = Over {
                look: Look::Right,
                round: &round,
                rule: &Document,
                list,
            };
            assert_eq!(review, own.answer(), "{list:?} of {round:?}");
            counts[match review {
                Review::Passes => 0,
                Review::Wrong(_) => 1,
                _ => 2,
            }] += 1;
        }
    }
    assert_eq!(counts, [3758, 13_039, 3303]);
}

#[test]
fn worked_lists_are_answered_as_expected() {
    let cases = cases();
    assert_eq!(cases.len(), 35);
    for case in cases {
        let line = print_review(&case.file, &case.list);
        assert_eq!(line, case.expected, "{}", case.name);
    }
}

#[test]
fn the_command_prints_what_is_expected() {
    for case in cases() {
        let mut command = Command::new(env!("CARGO_BIN_EXE_second"));
        let output = command.arg("review").args(&case.paths).output();
        let printed = output.expect("the program runs").stdout;
        assert_eq!(printed, case.expected.as_bytes(), "{}", case.name);
    }
}

#[test]
fn each_readable_form_agrees_with_its_list() {
    for case in cases() {
        let bytes = case.hex.split_whitespace();
        let bytes: Vec<u8> = bytes
            .map(|byte| u8::from_str_radix(byte, 16).expect("two digits in base sixteen"))
            .collect();
        assert_eq!(bytes, case.list, "{}", case.name);
        let lines: Vec<&str> = case.hex.lines().collect();
        let width = read(&case.file).map_or(2, |round| round.form.seat_bytes());
        let mut whole = lines.iter().take(case.list.len() / width);
        assert!(
            whole.all(|line| line.len() == 3 * width - 1),
            "{}",
            case.name
        );
        let due = case.list.len().div_ceil(width);
        assert_eq!(lines.len(), due, "{}", case.name);
    }
}
