//! The types of document 02, Point 3, and the wrong ones that are caught.

mod lists;
mod naive;
mod several;
#[path = "../demand3/tiny.rs"]
mod tiny;
#[path = "../closing/naive.rs"]
mod tried;
#[path = "../closing/worked.rs"]
mod worked;
mod wrong;

use lists::{all_fit, all_lists, first_of_each, some_list, Listing};
use naive::{first_of_all, is_placing, types_by_trying};
use second::choice::{reserved_of, used_by_merit, Document, Offer, Rule, Taken, Way};
use second::generate::{lawful_round, Class};
use second::horizontal::first_placing;
use second::offers::{allot, Process};
use second::orders::Order;
use second::random::Random;
use second::reading::Round;
use several::several;
use tiny::tiny;
use worked::worked;
use wrong::{
    from_0, last_up, moving, moving_if_full, smallest_held, smallest_sum, staying, without_regard,
    ByNumber, FillMarked, List, Listed,
};

/// How many tiny rounds, and as many of several types, are run.
const ROUNDS: u64 = 5000;

/// The tiny rounds, then those of several types.
fn small_rounds() -> impl Iterator<Item = Round> {
    (0..ROUNDS).map(tiny).chain((0..ROUNDS).map(several))
}

/// Runs the offers to their end.
fn ended(round: &Round) -> Process<'_, Document> {
    let mut process = Process::new(round, &Document);
    while let Some(&candidate) = process.ready().first() {
        process.turn(candidate);
    }
    process
}

#[test]
fn the_first_placing_is_the_first_of_all_on_all_small_lists() {
    let mut whole = 0;
    for (types, people, most) in [(0, 3, 0), (1, 6, 4), (2, 6, 3), (3, 4, 2), (4, 3, 2)] {
        for fewer in 0..=people {
            whole += first_of_each(all_lists(types, fewer, most));
        }
    }
    assert_eq!(whole, 191_259);
}

#[test]
fn the_first_placing_is_the_first_of_all_on_some_lists_of_four_and_eight_types() {
    let mut random = Random::new(3);
    let mut lists = |people, types, most, count: usize| {
        first_of_each((0..count).map(|_| some_list(&mut random, people, types, most)))
    };
    assert_eq!(lists(7, 4, 3, 20_000), 4878);
    assert_eq!(lists(5, 8, 1, 5_000), 1707);
}

/// Asserts of a list that fits that its first placing is one, and that nobody can have a smaller type, those before keeping theirs.
fn nobody_smaller(marks: &[u8], reserved: &[usize]) {
    let first = first_placing(marks, reserved);
    assert!(
        is_placing(&first, marks, reserved),
        "{marks:?} {reserved:?}"
    );
    let mut room = reserved.to_vec();
    for (who, &own) in first.iter().enumerate() {
        for smaller in (0..usize::from(own) - 1).filter(|one| marks[who] >> one & 1 == 1) {
            if room[smaller] > 0 {
                room[smaller] -= 1;
                assert!(!all_fit(&marks[who + 1..], &room), "{marks:?} {reserved:?}");
                room[smaller] += 1;
            }
        }
        room[usize::from(own) - 1] -= 1;
    }
}

#[test]
fn in_larger_lists_nobody_can_have_a_smaller_type() {
    let mut random = Random::new(5);
    let mut several = 0;
    for _ in 0..1500 {
        let Listing { marks, reserved } = some_list(&mut random, 60, 8, 8);
        let mut fitting = Vec::new();
        for own in marks {
            fitting.push(own);
            if !all_fit(&fitting, &reserved) {
                fitting.pop();
            }
        }
        nobody_smaller(&fitting, &reserved);
        several += usize::from(fitting.len() > 10);
    }
    assert!(several > 700, "{several}");
}

/// The types in other words, from all offers ever made.
fn tried(process: &Process<impl Rule>) -> Vec<u8> {
    let mut types = vec![0; process.round.candidates.len()];
    for (institute, made) in process.made.iter().enumerate() {
        let given = types_by_trying(process.round, institute, made);
        for (own, more) in types.iter_mut().zip(given) {
            *own += more;
        }
    }
    types
}

#[test]
fn types_are_those_found_by_trying_every_function() {
    for round in small_rounds() {
        let process = ended(&round);
        assert_eq!(process.allotment().types, tried(&process), "{round:?}");
    }
}

/// The offers an institute rejected of those made to it.
fn rejected(made: &[Offer], held: &[Taken]) -> Vec<Offer> {
    made.iter()
        .copied()
        .filter(|offer| held.iter().all(|one| one.offer != *offer))
        .collect()
}

#[test]
fn every_set_between_the_seats_and_all_offers_gives_the_same_types() {
    let mut sets = 0;
    for round in small_rounds() {
        let process = ended(&round);
        for (institute, made) in process.made.iter().enumerate() {
            let held = &process.held[institute];
            let due = types_by_trying(&round, institute, made);
            let rejected = rejected(made, held);
            for bits in 0..1usize << rejected.len() {
                let some = (0..rejected.len())
                    .filter(|place| bits >> place & 1 == 1)
                    .map(|place| rejected[place]);
                let offers: Vec<Offer> = held.iter().map(|one| one.offer).chain(some).collect();
                let types = types_by_trying(&round, institute, &offers);
                assert_eq!(types, due, "{offers:?}: {round:?}");
                let taken = Document.choose(&round, institute, &offers);
                for (one, own) in taken.iter().zip(Document.types(&round, institute, &taken)) {
                    assert_eq!(own, due[one.offer.candidate], "{offers:?}: {round:?}");
                }
                sets += 1;
            }
        }
    }
    assert_eq!(sets, 83_205);
}

/// Asserts of what an institute holds that those taken for use have a placing in which nobody can have a smaller type, and the others 0.
fn sound(process: &Process<Document>, institute: usize) {
    let (round, held) = (process.round, &process.held[institute]);
    let types = Document.types(round, institute, held);
    for (one, &own) in held.iter().zip(&types) {
        assert_eq!(own > 0, one.way == Way::ForUse, "{round:?}");
    }
    for step in 1..=6 {
        let places = used_by_merit(&round.merit[institute], held, step);
        let marks: Vec<u8> = places
            .iter()
            .map(|&place| round.candidates[held[place].offer.candidate].marks)
            .collect();
        let reserved = reserved_of(round, institute, step);
        nobody_smaller(&marks, &reserved);
        let given: Vec<u8> = places.iter().map(|&place| types[place]).collect();
        assert_eq!(given, first_placing(&marks, &reserved));
    }
}

#[test]
fn types_of_larger_rounds_are_placings_in_which_nobody_can_have_a_smaller_type() {
    for (class, count) in [
        (Class::Small, 1500),
        (Class::Mid, 60),
        (Class::Maximal, 3),
        (Class::Contested, 1),
        (Class::Crowded, 3),
    ] {
        for seed in 0..count {
            let round = lawful_round(class, seed);
            let process = ended(&round);
            for institute in 0..round.institutes.len() {
                sound(&process, institute);
            }
        }
    }
}

#[test]
fn found_by_moving_goes_as_told() {
    let (open, sc) = (([0b11, 0b101], [1, 1, 1, 0]), ([0b111, 0b1010, 1], [1; 4]));
    assert_eq!(first_placing(&open.0, &open.1), [1, 3]);
    assert_eq!(moving(&open.0, &open.1), [2, 1]);
    assert_eq!(moving_if_full(&open.0, &open.1), [1, 3]);
    assert_eq!(smallest_sum(&open.0, &open.1), [2, 1]);
    assert_eq!(first_placing(&sc.0, &sc.1), [2, 4, 1]);
    assert_eq!(moving(&sc.0, &sc.1), [2, 4, 1]);
    assert_eq!(moving_if_full(&sc.0, &sc.1), [3, 2, 1]);
}

#[test]
fn down_again_goes_as_told() {
    let (_, round) = worked()
        .into_iter()
        .find(|(name, _)| name == "down-again")
        .expect("a worked round");
    let mut process = Process::new(&round, &Document);
    for (candidate, types) in [[1, 0, 0], [2, 1, 0], [1, 0, 2]].into_iter().enumerate() {
        process.turn(candidate);
        assert_eq!(process.allotment().types, types);
    }
}

/// In how many of all lists of three types and four candidates, with up to two positions each, that can be placed whole a way of giving types differs from the first of all placings.
fn lists_caught(list: List) -> usize {
    all_lists(3, 4, 2)
        .filter(|listing| {
            first_of_all(&listing.marks, &listing.reserved)
                .is_some_and(|first| list(&listing.marks, &listing.reserved) != first)
        })
        .count()
}

/// In how many tiny rounds and rounds of several types the types differ from those found by trying, and in which worked rounds from those expected.
fn rounds_caught(types: impl Fn(&Round) -> Vec<u8>) -> (usize, usize, Vec<String>) {
    let caught = |made: fn(u64) -> Round| {
        (0..ROUNDS)
            .map(made)
            .filter(|round| types(round) != tried(&ended(round)))
            .count()
    };
    let names = worked()
        .into_iter()
        .filter(|(_, round)| types(round) != allot(round, &Document).types)
        .map(|(name, _)| name)
        .collect();
    (caught(tiny), caught(several), names)
}

/// What catches a rule's types.
fn rule_caught(rule: &impl Rule) -> (usize, usize, Vec<String>) {
    rounds_caught(|round| allot(round, rule).types)
}

/// The counts and the names of the worked rounds by which wrong types are caught.
fn by(tiny: usize, several: usize, names: &[&str]) -> (usize, usize, Vec<String>) {
    let names = names.iter().map(|name| name.to_string()).collect();
    (tiny, several, names)
}

/// The worked rounds in which an earlier and a later candidate could have the same smaller type.
const ONE_TYPE_FOR_TWO: [&str; 5] = [
    "down-again",
    "equal-marks",
    "found-by-moving",
    "given-back",
    "pushed-up",
];

#[test]
fn there_are_lists_to_catch_wrong_types() {
    assert_eq!(lists_caught(|_, _| Vec::new()), 16_225);
}

#[test]
fn the_placing_found_by_moving_is_caught() {
    assert_eq!(lists_caught(moving), 6788);
    let due = by(7, 506, &ONE_TYPE_FOR_TWO);
    assert_eq!(rule_caught(&Listed(moving)), due);
}

#[test]
fn the_placing_found_by_moving_where_all_are_full_is_caught() {
    assert_eq!(lists_caught(moving_if_full), 1545);
    let due = by(0, 41, &["found-by-moving", "given-back"]);
    assert_eq!(rule_caught(&Listed(moving_if_full)), due);
}

#[test]
fn types_numbered_from_0_are_caught() {
    assert_eq!(lists_caught(from_0), 16_225);
    let names = [
        "a",
        "a-open-only",
        "a-open-only-policy-0",
        "all-eight-types",
        "all-for-use",
        "down-again",
        "equal-marks",
        "every-step",
        "filled-though-marked",
        "found-by-moving",
        "given-back",
        "longest-chain",
        "lowest-for-use",
        "marked-and-rejected",
        "marked-by-merit",
        "moved-between-types",
        "no-types-at-6",
        "one-left-after-moves",
        "pushed-up",
        "rejected-goes-last",
    ];
    assert_eq!(rule_caught(&Listed(from_0)), by(2686, 4916, &names));
}

#[test]
fn smallest_types_from_the_last_up_are_caught() {
    assert_eq!(lists_caught(last_up), 6923);
    let due = by(7, 513, &ONE_TYPE_FOR_TWO);
    assert_eq!(rule_caught(&Listed(last_up)), due);
}

#[test]
fn the_smallest_type_without_regard_to_the_rest_is_caught() {
    assert_eq!(lists_caught(without_regard), 4793);
    let names = [
        "all-eight-types",
        "found-by-moving",
        "given-back",
        "longest-chain",
        "moved-between-types",
        "no-types-at-6",
        "one-left-after-moves",
    ];
    assert_eq!(rule_caught(&Listed(without_regard)), by(8, 446, &names));
}

#[test]
fn the_smallest_type_held_is_caught() {
    assert_eq!(lists_caught(smallest_held), 12_025);
    let names = [
        "all-eight-types",
        "down-again",
        "equal-marks",
        "found-by-moving",
        "given-back",
        "longest-chain",
        "moved-between-types",
        "no-types-at-6",
        "one-left-after-moves",
        "pushed-up",
    ];
    assert_eq!(rule_caught(&Listed(smallest_held)), by(742, 3304, &names));
}

#[test]
fn the_smallest_sum_is_caught() {
    assert_eq!(lists_caught(smallest_sum), 608);
    let due = by(0, 18, &["found-by-moving"]);
    assert_eq!(rule_caught(&Listed(smallest_sum)), due);
}

#[test]
fn reading_down_the_numbers_is_caught() {
    let due = by(
        4,
        283,
        &["equal-marks", "found-by-moving", "given-back", "pushed-up"],
    );
    assert_eq!(rule_caught(&ByNumber), due);
}

#[test]
fn types_for_the_marked_in_the_fill_are_caught() {
    let names = [
        "all-eight-types",
        "equal-marks",
        "filled-though-marked",
        "marked-and-rejected",
        "marked-by-merit",
        "no-types-at-6",
        "step-6-by-merit",
    ];
    assert_eq!(rule_caught(&FillMarked), by(2470, 3569, &names));
}

#[test]
fn staying_at_the_type_last_given_is_caught() {
    let lowest_first = |round: &Round| staying(round, Order::LowestFirst);
    assert_eq!(rounds_caught(lowest_first), by(1, 34, &["down-again"]));
}

#[test]
fn staying_at_the_type_last_given_depends_on_the_order() {
    let differs =
        |round: &Round| staying(round, Order::LowestFirst) != staying(round, Order::LastFirst);
    let otherwise = |made: fn(u64) -> Round| (0..ROUNDS).map(made).filter(differs).count();
    assert_eq!((otherwise(tiny), otherwise(several)), (3, 57));
    let names: Vec<String> = worked()
        .into_iter()
        .filter(|(_, round)| differs(round))
        .map(|(name, _)| name)
        .collect();
    assert_eq!(names, ["down-again"]);
}
