//! Document 02, Point 2: candidates called up in any order, and the wrong rules that this catches.

mod account;
mod arrival;
mod every;
#[path = "../demand3/tiny.rs"]
mod tiny;
#[path = "../closing/worked.rs"]
mod worked;
#[path = "../demand3/wrong.rs"]
mod wrong;
#[path = "../closing/wrong.rs"]
mod wrong_closing;

use account::{alike, Differing};
use arrival::{ByArrival, FirstServed, StepKept};
use every::{every_order, free, sound};
use second::choice::{Document, Rule};
use second::generate::{lawful_round, Class};
use second::orders::{ended, Calling, Ended, Order};
use second::reading::{read, Round};
use std::fmt::Write;
use std::fs;
use tiny::tiny;
use worked::{folder, worked};
use wrong::{
    AllMarkedFirst, ConsideredByCode, ConsideredTwice, MarkedFirst, NeverMoved, PositionsKept,
    SeatsKept,
};
use wrong_closing::{LastByNumber, MarkedLeftOut, SmallestPlace, UseCounted, WayKept};

/// How many tiny rounds are run.
const ROUNDS: u64 = 5000;

/// The orders of a fixed list of candidates.
const FIXED: [Order; 3] = [Order::LowestFirst, Order::LastFirst, Order::BySurname];

/// The first rounds of a class.
fn rounds(class: Class, count: u64) -> impl Iterator<Item = Round> {
    (0..count).map(move |seed| lawful_round(class, seed))
}

/// Runs all orders of those rounds whose orders pass through at most so many states, asserts that each ends as the lowest-number order does, and tells how many rounds, states and orders these are.
fn all_alike(rounds: impl Iterator<Item = Round>, most: usize) -> (usize, usize, u128) {
    let mut all = (0, 0, 0);
    for round in rounds {
        let Some(every) = every_order(&round, most) else {
            continue;
        };
        let lowest = ended(&round, &Document, Order::LowestFirst, 0);
        let tried = lowest.tried.iter().map(Vec::len).collect();
        assert_eq!(every.ends, [(tried, lowest.allotment)], "{round:?}");
        all = (all.0 + 1, all.1 + every.states, all.2 + every.orders);
    }
    all
}

#[test]
fn every_order_of_a_tiny_round_ends_alike() {
    let all = all_alike((0..ROUNDS).map(tiny), usize::MAX);
    assert_eq!(all, (5000, 187_232, 1_049_845_933_256));
}

#[test]
fn every_order_of_a_small_round_with_few_states_ends_alike() {
    let all = all_alike(rounds(Class::Small, 2000), 300);
    assert_eq!(all, (724, 41_597, 7_024_683));
}

#[test]
fn orders_let_those_go_who_are_free_and_stop_when_nobody_is() {
    for seed in 0..ROUNDS {
        let round = tiny(seed);
        let entries = round.candidates.iter().map(|one| one.row.len()).sum();
        for order in [&[Order::LowestFirst], &Order::OTHERS[..]].concat() {
            let mut calling = Calling::new(&round, &Document, order, seed);
            let mut before = free(&calling.process);
            while let Some(turn) = calling.turn() {
                assert!(before.contains(&turn.candidate), "{round:?}");
                assert!(calling.turns.len() <= entries, "{round:?}");
                sound(&calling.process);
                before = free(&calling.process);
            }
            assert!(before.is_empty(), "{}: {round:?}", order.name());
        }
    }
}

#[test]
fn in_a_fixed_list_the_one_just_rejected_goes_next_and_is_the_only_one() {
    for (seed, round) in (0..ROUNDS)
        .map(tiny)
        .chain(rounds(Class::Small, 500))
        .enumerate()
    {
        for order in FIXED {
            let mut calling = Calling::new(&round, &Document, order, seed as u64);
            let mut before = free(&calling.process);
            let mut rejected = None;
            while let Some(turn) = calling.turn() {
                let goes = turn.candidate;
                assert!(rejected.is_none_or(|due| due == goes), "{round:?}");
                let after = free(&calling.process);
                let mut new = after.iter().copied();
                let left = |&one: &usize| one == goes || !before.contains(&one);
                rejected = new.find(left);
                assert!(!new.any(|one| left(&one)), "{round:?}");
                before = after;
            }
        }
    }
}

#[test]
fn the_orders_of_tiny_rounds_end_alike_though_they_differ_before() {
    assert_eq!(
        alike((0..ROUNDS).map(tiny)),
        Differing {
            turns: [4693, 4309, 4168, 3890, 4693, 2678],
            seats: [2943, 2226, 2040, 2046, 2655, 841],
        }
    );
}

#[test]
fn the_orders_of_small_rounds_end_alike_though_they_differ_before() {
    assert_eq!(
        alike(rounds(Class::Small, 4000)),
        Differing {
            turns: [3766, 3446, 3659, 3636, 3766, 3054],
            seats: [2802, 2366, 2421, 2416, 2734, 1553],
        }
    );
}

#[test]
fn the_orders_of_mid_rounds_end_alike_though_they_differ_before() {
    assert_eq!(
        alike(rounds(Class::Mid, 300)),
        Differing {
            turns: [300; 6],
            seats: [300; 6],
        }
    );
}

#[test]
fn the_orders_of_maximal_rounds_end_alike_though_they_differ_before() {
    assert_eq!(
        alike(rounds(Class::Maximal, 30)),
        Differing {
            turns: [30; 6],
            seats: [30; 6],
        }
    );
}

#[test]
fn the_orders_of_contested_and_crowded_rounds_end_alike_though_they_differ_before() {
    assert_eq!(
        alike(rounds(Class::Contested, 3).chain(rounds(Class::Crowded, 5))),
        Differing {
            turns: [8; 6],
            seats: [7, 7, 7, 7, 7, 5],
        }
    );
}

#[test]
fn the_orders_of_worked_rounds_end_alike() {
    alike(worked().into_iter().map(|(_, round)| round));
}

/// Each offer of an order with who is held after it, as `rounds/README.md` tells them.
fn told(round: &Round, order: Order) -> Vec<String> {
    let mut calling = Calling::new(round, &Document, order, 0);
    let mut lines = Vec::new();
    while let Some(turn) = calling.turn() {
        let category = ["open", "SC", "ST", "OBC", "EWS"][usize::from(turn.entry.category)];
        let held: Vec<String> = (1..)
            .zip(calling.process.allotment().seats)
            .filter_map(|(candidate, seat)| {
                let seat = seat?;
                Some(format!("{candidate}: {} {}", seat.institute + 1, seat.step))
            })
            .collect();
        lines.push(format!(
            "{} offers {} {category} | {}",
            turn.candidate + 1,
            turn.entry.institute + 1,
            held.join(", ")
        ));
    }
    lines
}

/// Asserts that the readme of the rounds tells the two orders of a round as they go.
fn told_as_they_go(name: &str, order: Order) {
    let file = fs::read(folder().join(name).with_extension("round")).expect("a round");
    let round = read(&file).expect("a lawful round");
    let mut table = String::new();
    let both = told(&round, Order::LowestFirst).into_iter();
    for (number, (lowest, other)) in both.zip(told(&round, order)).enumerate() {
        let _ = writeln!(table, "| {} | {lowest} | {other} |", number + 1);
    }
    let readme = fs::read_to_string(folder().join("README.md")).expect("a text");
    assert!(readme.contains(&table), "{table}");
}

#[test]
fn called_last_first_goes_as_told() {
    told_as_they_go("called-last-first", Order::LastFirst);
}

#[test]
fn rejected_goes_last_goes_as_told() {
    told_as_they_go("rejected-goes-last", Order::RejectedLast);
}

/// The orders, other than that of document 01, that end otherwise than it does.
fn otherwise<R: Rule>(round: &Round, rule: &R, seed: u64) -> [bool; 6] {
    let lowest = ended(round, rule, Order::LowestFirst, seed);
    Order::OTHERS.map(|order| ended(round, rule, order, seed) != lowest)
}

/// In how many tiny rounds each order ends otherwise under a rule than the lowest-number order, and the worked rounds of up to 16 candidates in which some order does.
fn caught<R: Rule>(rule: &R) -> ([usize; 6], Vec<String>) {
    let mut counts = [0; 6];
    for seed in 0..ROUNDS {
        let otherwise = otherwise(&tiny(seed), rule, seed);
        for (count, caught) in counts.iter_mut().zip(otherwise) {
            *count += usize::from(caught);
        }
    }
    let mut small = worked();
    small.retain(|(_, round)| round.candidates.len() <= 16);
    small.retain(|(_, round)| otherwise(round, rule, 0).contains(&true));
    (counts, small.into_iter().map(|(name, _)| name).collect())
}

/// The counts and the names of the worked rounds by which a wrong rule is caught.
fn by(counts: [usize; 6], names: &[&str]) -> ([usize; 6], Vec<String>) {
    (counts, names.iter().map(|name| name.to_string()).collect())
}

#[test]
fn keeping_dereserved_seats_is_caught() {
    let names = [
        "called-last-first",
        "no-types-at-6",
        "rejected-goes-last",
        "step-6-by-merit",
    ];
    let due = by([283, 195, 165, 177, 255, 47], &names);
    assert_eq!(caught(&SeatsKept), due);
}

#[test]
fn never_giving_up_whom_it_holds_is_caught() {
    let names = [
        "a",
        "a-open-only",
        "a-open-only-policy-0",
        "all-eight-types",
        "all-for-use",
        "called-last-first",
        "down-again",
        "filled-though-marked",
        "longest-chain",
        "lowest-for-use",
        "marked-and-rejected",
        "marked-by-merit",
        "moved-between-types",
        "no-types-at-6",
        "one-left-after-moves",
        "one-open-policy-0",
        "rejected-goes-last",
        "step-6-by-merit",
        "taken-as-open-not-obc",
        "type-without-positions",
    ];
    let due = by([2953, 2278, 2087, 2104, 2679, 769], &names);
    assert_eq!(caught(&FirstServed), due);
}

#[test]
fn choosing_by_who_came_first_is_caught() {
    let names = [
        "a",
        "a-open-only",
        "all-eight-types",
        "called-last-first",
        "down-again",
        "equal-marks",
        "every-step",
        "filled-though-marked",
        "longest-chain",
        "lowest-for-use",
        "marked-and-rejected",
        "marked-by-merit",
        "moved-between-types",
        "no-types-at-6",
        "one-left-after-moves",
        "one-open-policy-0",
        "rejected-goes-last",
        "step-6-by-merit",
        "taken-as-open-not-obc",
        "type-without-positions",
    ];
    let due = by([2762, 2012, 1847, 1852, 2550, 519], &names);
    assert_eq!(caught(&ByArrival), due);
}

#[test]
fn keeping_the_step_that_first_took_somebody_is_caught() {
    let names = [
        "a-open-only",
        "every-step",
        "no-types-at-6",
        "step-6-by-merit",
    ];
    let due = by([352, 211, 193, 189, 291, 71], &names);
    assert_eq!(caught(&StepKept), due);
}

#[test]
fn keeping_how_somebody_was_first_taken_is_caught() {
    let names = ["all-eight-types", "equal-marks", "marked-by-merit"];
    let due = by([242, 144, 132, 136, 214, 40], &names);
    assert_eq!(caught(&WayKept), due);
}

#[test]
fn considering_by_code_is_caught() {
    assert_eq!(caught(&ConsideredByCode), by([3; 6], &[]));
}

#[test]
fn taking_the_best_marked_first_is_caught() {
    assert_eq!(caught(&MarkedFirst), by([7, 6, 5, 3, 3, 4], &[]));
}

#[test]
fn wrong_rules_that_choose_alike_in_any_order_are_not_caught() {
    let nowhere = by([0; 6], &[]);
    assert_eq!(caught(&NeverMoved), nowhere);
    assert_eq!(caught(&PositionsKept), nowhere);
    assert_eq!(caught(&ConsideredTwice), nowhere);
    assert_eq!(caught(&AllMarkedFirst), nowhere);
    assert_eq!(caught(&UseCounted), nowhere);
    assert_eq!(caught(&SmallestPlace), nowhere);
    assert_eq!(caught(&LastByNumber), nowhere);
    assert_eq!(caught(&MarkedLeftOut), nowhere);
}

/// In how many tiny rounds, under a rule, last number first differs from lowest number first in the entries tried, their number, the institutes of the seats, the steps, the closing places and the types.
fn parts<R: Rule>(rule: &R) -> [usize; 6] {
    let institutes = |ended: &Ended| -> Vec<Option<usize>> {
        let seats = ended.allotment.seats.iter();
        seats.map(|seat| seat.map(|seat| seat.institute)).collect()
    };
    let mut counts = [0; 6];
    for seed in 0..ROUNDS {
        let round = tiny(seed);
        let one = ended(&round, rule, Order::LowestFirst, seed);
        let other = ended(&round, rule, Order::LastFirst, seed);
        let differing = [
            one.tried != other.tried,
            one.allotment.offers != other.allotment.offers,
            institutes(&one) != institutes(&other),
            one.allotment.seats != other.allotment.seats,
            one.allotment.closing != other.allotment.closing,
            one.allotment.types != other.allotment.types,
        ];
        for (count, differs) in counts.iter_mut().zip(differing) {
            *count += usize::from(differs);
        }
    }
    counts
}

#[test]
fn each_part_of_the_comparison_catches_something() {
    assert_eq!(parts(&SeatsKept), [249, 221, 161, 281, 282, 110]);
    assert_eq!(parts(&StepKept), [0, 0, 0, 352, 352, 0]);
    assert_eq!(parts(&WayKept), [0, 0, 0, 0, 216, 242]);
}
