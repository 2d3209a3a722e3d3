//! The wrong reviews, and the lists that catch them.

use crate::all_lists::Paired;
use crate::lists::how_many;
use crate::looks::Look;
use crate::tiny::tiny;
use crate::with_few_lists;
use crate::wrong_reviews::{counted, named};

/// How many tiny rounds a wrong review is run over, as far as they have few lists.
const ROUNDS: u64 = 400;

/// The most lists of such a round.
const LISTS: usize = 2000;

/// The tiny rounds that have few lists, with their pairs.
fn rounds() -> impl Iterator<Item = Paired> {
    with_few_lists((0..ROUNDS).map(tiny), LISTS)
}

/// Asserts in how many lists, in how many by what passes, and in which worked lists of rounds without step lists a wrong review is caught.
fn caught(look: Look, lists: usize, passing: usize, names: &[&str]) {
    assert_eq!(counted(look, rounds()), [lists, passing]);
    assert_eq!(named(look, |round| round.policy < 2), names);
}

#[test]
fn the_lists_are_these_many() {
    let counts: Vec<usize> = rounds().map(|(_, pairs)| how_many(&pairs)).collect();
    assert_eq!((counts.len(), counts.iter().sum()), (145, 143_755));
}

#[test]
fn passing_every_list_is_caught() {
    caught(
        Look::PassesAll,
        143_582,
        143_582,
        &[
            "first-of-two",
            "institute-2-of-1",
            "left-out-of-obc",
            "never-moved",
            "nobody",
            "not-in-row",
            "one-at-a-time",
            "own-seat-beside",
            "right-institute-wrong-step",
            "step-0",
            "step-6-policy-0",
            "step-7",
            "wide-300-would-take",
            "wide-44-for-300",
            "wide-last-byte-1",
            "wide-none-last-byte-1",
        ],
    );
}

#[test]
fn looking_at_the_first_entry_only_is_caught() {
    caught(Look::FirstEntryOnly, 180, 131, &["left-out-of-obc"]);
}

#[test]
fn choosing_from_all_listed_seats_is_caught() {
    caught(Look::AllListed, 117, 0, &["not-in-row"]);
}

#[test]
fn ignoring_steps_is_caught() {
    caught(
        Look::NoSteps,
        6903,
        248,
        &["first-of-two", "right-institute-wrong-step"],
    );
}

#[test]
fn naming_the_last_candidate_is_caught() {
    caught(
        Look::LastNamed,
        129_163,
        0,
        &[
            "first-of-two",
            "nobody",
            "own-seat-beside",
            "step-6-policy-0",
            "wide-300-would-take",
        ],
    );
}

#[test]
fn adding_all_entries_at_once_is_caught() {
    caught(
        Look::AllAtOnce,
        55,
        0,
        &["one-at-a-time", "wide-300-would-take"],
    );
}

#[test]
fn reading_step_6_under_policy_0_as_not_in_the_row_is_caught() {
    caught(Look::NoStep6, 96, 0, &["step-6-policy-0"]);
}

#[test]
fn asking_whether_the_candidate_is_taken_at_all_is_caught() {
    caught(
        Look::TakenAtAll,
        119,
        67,
        &["another-that-passes", "own", "wide-own"],
    );
}

#[test]
fn naming_the_worst_entry_is_caught() {
    caught(
        Look::WorstNamed,
        134,
        0,
        &["one-at-a-time", "wide-300-would-take"],
    );
}

#[test]
fn taking_the_own_seat_away_is_caught() {
    caught(
        Look::OwnSeatAway,
        48,
        27,
        &["another-that-passes", "own", "wide-own"],
    );
}

#[test]
fn looking_at_all_rows_before_the_steps_is_caught() {
    caught(Look::RowsFirst, 19_998, 0, &["first-of-two"]);
}

#[test]
fn looking_at_entries_before_the_seats_of_those_behind_is_caught() {
    caught(
        Look::OneByOne,
        7015,
        0,
        &[
            "institute-2-of-1",
            "right-institute-wrong-step",
            "step-0",
            "step-7",
            "wide-last-byte-1",
        ],
    );
}

#[test]
fn looking_at_entries_below_the_seat_too_is_caught() {
    caught(Look::BelowToo, 83, 40, &["below-the-seat", "wide-300"]);
}

#[test]
fn reading_what_is_no_seat_as_none_is_caught() {
    caught(
        Look::ReadAsNone,
        91_982,
        6699,
        &[
            "institute-2-of-1",
            "step-0",
            "step-7",
            "wide-last-byte-1",
            "wide-none-last-byte-1",
        ],
    );
}

#[test]
fn faulting_those_without_a_seat_is_caught() {
    caught(
        Look::NoneAtFault,
        10_075,
        131,
        &[
            "institute-2-of-1",
            "left-out-of-obc",
            "never-moved",
            "nobody",
            "one-at-a-time",
            "own",
            "own-seat-beside",
            "right-institute-wrong-step",
            "step-0",
            "step-7",
            "wide-300-would-take",
            "wide-last-byte-1",
            "wide-own",
        ],
    );
}
