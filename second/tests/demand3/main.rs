//! Demand 3 run over thousands of tiny rounds, and the wrong rules it turns back.

#[path = "../common/always.rs"]
mod always;
mod arrangements;
#[path = "../wide/spread.rs"]
mod spread;
mod stability;
mod statements;
mod tiny;
mod words;
mod wrong;

use second::choice::{Document, Rule};
use second::generate::{lawful_round, Class};
use second::offers::{allot, Process, Seat};
use second::random::Random;
use second::reading::{read, Round};
use second::widening::wide;
use second::writing::write;
use second::{call_on, Form, Outcome};
use spread::{gathered, spread};
use statements::{
    any_order, choice_is_one, completion_agrees_in_the_run, completion_is_one, gives_up,
    held_and_new_suffice, held_once, same_choice, stable, truthful, Found,
};
use std::cell::RefCell;
use tiny::tiny;
use wrong::{
    AllMarkedFirst, ConsideredByCode, ConsideredTwice, MarkedFirst, NeverMoved, PositionsKept,
    SeatsKept,
};

/// How many rounds each statement is run over.
const ROUNDS: u64 = 5000;

/// How many rounds of the wide form statements 1 and 2 are run over.
const WIDE_ROUNDS: u64 = 500;

/// How many rounds with institutes far apart statements 1 and 2 are run over.
const FAR_ROUNDS: u64 = 100;

/// How many rounds a wrong rule has to pass before it counts as not turned back.
const WRONG_ROUNDS: u64 = 1500;

/// The list that stands in the answer area after an allotment call on the round's file, whatever the lent areas hold.
fn list_of_call(round: &Round, random: &mut Random) -> Vec<Option<Seat>> {
    let n = round.candidates.len();
    let mut area = |least: usize| -> Vec<u8> {
        let length = least + random.from_to(0, 4);
        (0..length).map(|_| random.bits() as u8).collect()
    };
    let width = match round.form {
        Form::Narrow => 2,
        Form::Wide => 4,
    };
    let mut answer = area((width + 1) * n + 12 * round.institutes.len());
    let mut work = area(8 * n);
    let outcome = call_on(&write(round), &mut answer, &mut work);
    assert!(matches!(outcome, Outcome::Allotted { .. }));
    answer[..width * n]
        .chunks_exact(width)
        .map(|bytes| {
            let (institute, step) = match *bytes {
                [institute, step] => (usize::from(institute), step),
                [low, high, step, 0] => (usize::from(u16::from_le_bytes([low, high])), step),
                _ => panic!("{bytes:?}"),
            };
            (institute != 0 || step != 0).then(|| Seat {
                institute: institute - 1,
                step,
            })
        })
        .collect()
}

/// The list of a call on the round with its institutes put far apart, in the wide form.
fn list_of_far_call(round: &Round, random: &mut Random) -> Vec<Option<Seat>> {
    let seats = list_of_call(&spread(round), random);
    let gather = |seat: Option<Seat>| seat.map(|seat| gathered(round, seat));
    seats.into_iter().map(gather).collect()
}

/// Asserts a statement of every round.
fn holds_always(statement: impl Fn(&Round, &mut Random) -> Found) {
    for seed in 0..ROUNDS {
        if let Err(counterexample) = statement(&tiny(seed), &mut Random::new(!seed)) {
            panic!("seed {seed}: {counterexample}");
        }
    }
}

#[test]
fn statement_1_truthful() {
    holds_always(|round, random| {
        let areas = RefCell::new(Random::new(random.bits()));
        truthful(
            round,
            &|other| list_of_call(other, &mut areas.borrow_mut()),
            random,
        )
    });
}

#[test]
fn statement_2_stable() {
    holds_always(|round, random| stable(round, &Document, &list_of_call(round, random)));
}

#[test]
fn statements_1_and_2_hold_of_wide_rounds() {
    for seed in 0..WIDE_ROUNDS {
        let round = wide(&tiny(seed));
        let random = &mut Random::new(!seed);
        let areas = RefCell::new(Random::new(random.bits()));
        let list = |other: &Round| list_of_call(other, &mut areas.borrow_mut());
        let found =
            truthful(&round, &list, random).and_then(|()| stable(&round, &Document, &list(&round)));
        assert_eq!(found, Ok(()), "seed {seed}");
    }
}

#[test]
fn statements_1_and_2_hold_of_institutes_far_apart() {
    for seed in 0..FAR_ROUNDS {
        let round = tiny(seed);
        let random = &mut Random::new(!seed);
        let areas = RefCell::new(Random::new(random.bits()));
        let list = |other: &Round| list_of_far_call(other, &mut areas.borrow_mut());
        let found =
            truthful(&round, &list, random).and_then(|()| stable(&round, &Document, &list(&round)));
        assert_eq!(found, Ok(()), "seed {seed}");
    }
}

#[test]
fn the_choice_is_one() {
    holds_always(|round, random| choice_is_one(round, &Document, random));
}

#[test]
fn nobody_is_held_twice() {
    holds_always(|round, _| held_once(round, &Document));
}

#[test]
fn statements_4_and_5_hold_of_larger_rounds() {
    let small = (0..1500).map(|seed| (Class::Small, seed));
    let mid = (0..6).map(|seed| (Class::Mid, seed));
    for (class, seed) in small.chain(mid) {
        let round = lawful_round(class, seed);
        let found = held_and_new_suffice(&round, &Document)
            .and_then(|()| held_once(&round, &Document))
            .and_then(|()| completion_agrees_in_the_run(&round, &Document));
        assert_eq!(found, Ok(()), "{} {seed}", class.name());
    }
}

#[test]
fn the_tiny_rounds_are_contested() {
    let (mut displaced, mut sixth, mut both) = (0, 0, 0);
    for seed in 0..ROUNDS {
        let round = tiny(seed);
        let mut process = Process::new(&round, &Document);
        let (mut lost, mut at_six) = (false, false);
        while let Some(&candidate) = process.ready().first() {
            lost |= gives_up(&mut process, candidate);
            at_six |= process.held.iter().flatten().any(|one| one.step == 6);
        }
        displaced += u64::from(lost);
        sixth += u64::from(at_six);
        both += u64::from(process.made.iter().any(|made| {
            made.iter().any(|one| {
                made.iter()
                    .filter(|other| other.candidate == one.candidate)
                    .count()
                    == 2
            })
        }));
    }
    assert!(displaced * 4 > ROUNDS, "{displaced}");
    assert!(sixth * 8 > ROUNDS, "{sixth}");
    assert!(both * 4 > ROUNDS, "{both}");
}

/// Whether each statement turns a rule back: 1 to 5 (in the run, then on any sets), the choice being one, the worked rounds, the words.
fn turned_back<R: Rule>(rule: &R) -> Vec<&'static str> {
    let mut names = Vec::new();
    let mut add = |name: &'static str, statement: &dyn Fn(&Round, &mut Random) -> Found| {
        let found =
            (0..WRONG_ROUNDS).any(|seed| statement(&tiny(seed), &mut Random::new(!seed)).is_err());
        if found {
            names.push(name);
        }
    };
    add("1 truthful", &|round, random| {
        truthful(round, &|other| allot(other, rule).seats, random)
    });
    add("2 stable", &|round, _| {
        stable(round, rule, &allot(round, rule).seats)
    });
    add("3 any order", &|round, random| {
        any_order(round, rule, random)
    });
    add("4 held and new", &|round, _| {
        held_and_new_suffice(round, rule)
    });
    add("held once", &|round, _| held_once(round, rule));
    add("5 in the run", &|round, _| {
        completion_agrees_in_the_run(round, rule)
    });
    add("5 on any sets", &|round, random| {
        completion_is_one(round, rule, random)
    });
    add("one choice", &|round, random| {
        choice_is_one(round, rule, random)
    });
    add("words", &|round, random| same_choice(round, rule, random));
    for (name, file) in WORKED {
        let round = read(file).expect("a lawful worked round");
        if allot(&round, rule) != allot(&round, &Document) {
            names.push(name);
        }
    }
    names
}

/// The lawful worked rounds, and the two added ones, that wrong rules may meet.
const WORKED: [(&str, &[u8]); 5] = [
    ("round a", include_bytes!("../../../rounds/a.round")),
    (
        "round a-open-only",
        include_bytes!("../../../rounds/a-open-only.round"),
    ),
    (
        "round moved-between-types",
        include_bytes!("../../../rounds/moved-between-types.round"),
    ),
    (
        "round type-without-positions",
        include_bytes!("../../../rounds/type-without-positions.round"),
    ),
    (
        "round taken-as-open-not-obc",
        include_bytes!("../../../rounds/taken-as-open-not-obc.round"),
    ),
];

#[test]
fn never_moving_is_another_stable_and_truthful_rule_turned_back_by_its_worked_round() {
    assert_eq!(
        turned_back(&NeverMoved),
        ["words", "round moved-between-types"]
    );
}

#[test]
fn keeping_dereserved_positions_is_turned_back_as_more_seats_than_positions() {
    assert_eq!(
        turned_back(&PositionsKept),
        ["one choice", "words", "round a"]
    );
}

#[test]
fn keeping_dereserved_seats_is_turned_back_by_demand_3() {
    assert_eq!(
        turned_back(&SeatsKept),
        [
            "1 truthful",
            "2 stable",
            "3 any order",
            "5 in the run",
            "5 on any sets",
            "words",
            "round a"
        ]
    );
}

#[test]
fn considering_twice_shows_only_in_the_choice_itself() {
    assert_eq!(turned_back(&ConsideredTwice), ["one choice", "words"]);
}

#[test]
fn considering_by_code_is_turned_back_by_demand_3() {
    assert_eq!(
        turned_back(&ConsideredByCode),
        [
            "1 truthful",
            "3 any order",
            "4 held and new",
            "held once",
            "5 in the run",
            "5 on any sets",
            "words"
        ]
    );
}

#[test]
fn taking_the_best_marked_first_is_turned_back_by_demand_3() {
    assert_eq!(
        turned_back(&MarkedFirst),
        [
            "1 truthful",
            "2 stable",
            "3 any order",
            "4 held and new",
            "held once",
            "5 on any sets",
            "words",
            "round type-without-positions"
        ]
    );
}

#[test]
fn taking_all_marked_first_is_another_stable_and_truthful_rule_turned_back_by_the_words() {
    assert_eq!(
        turned_back(&AllMarkedFirst),
        ["words", "round type-without-positions"]
    );
}

#[test]
fn seating_nobody_is_truthful_and_fails_stability() {
    let nobody = |round: &Round| vec![None; round.candidates.len()];
    let mut unstable = 0;
    for seed in 0..200 {
        let round = tiny(seed);
        assert_eq!(truthful(&round, &nobody, &mut Random::new(seed)), Ok(()));
        unstable += u64::from(stable(&round, &Document, &nobody(&round)).is_err());
    }
    assert!(unstable > 100, "{unstable}");
}

#[test]
fn seating_by_number_fails_stability() {
    let by_number = |round: &Round| -> Vec<Option<Seat>> {
        let open = round.institutes[0].positions[0];
        let first = Seat {
            institute: 0,
            step: 1,
        };
        (0..round.candidates.len())
            .map(|candidate| (candidate < open).then_some(first))
            .collect()
    };
    let found = |seed| {
        let round = tiny(seed);
        stable(&round, &Document, &by_number(&round)).is_err()
    };
    assert!((0..200).filter(|&seed| found(seed)).count() > 100);
}

#[test]
fn giving_first_choices_only_fails_stability_and_truth() {
    let first_only = |round: &Round| {
        let mut short = round.clone();
        for candidate in &mut short.candidates {
            candidate.row.truncate(1);
        }
        allot(&short, &Document).seats
    };
    let mut caught = (0, 0);
    for seed in 0..400 {
        let round = tiny(seed);
        let gains = truthful(&round, &first_only, &mut Random::new(seed)).is_err();
        let blocked = stable(&round, &Document, &first_only(&round)).is_err();
        caught = (caught.0 + u64::from(gains), caught.1 + u64::from(blocked));
    }
    assert!(caught.0 > 0 && caught.1 > 0, "{caught:?}");
}
