//! What a call leaves in the two lent areas, and the refusal of areas that are too small.

#[path = "common/areas_of_a.rs"]
mod areas_of_a;

use areas_of_a::{
    answer_needed, answer_of_a, beyond_stay, refused_unchanged, work_needed, TOO_SMALL,
};
use second::{call, call_on, call_without_answer_on, Outcome};

const A: &[u8] = include_bytes!("../../rounds/a.round");
const CUT: &[u8] = include_bytes!("../../rounds/cut-71.round");
const EMPTY_ROW: &[u8] = include_bytes!("../../rounds/empty-row.round");
const MARKED_AND_REJECTED: &[u8] = include_bytes!("../../rounds/marked-and-rejected.round");
const ALL_EIGHT_TYPES: &[u8] = include_bytes!("../../rounds/all-eight-types.round");

/// The answer bytes of round A.
fn answer() -> Vec<u8> {
    answer_of_a(&[0, 0, 1, 4, 1, 1], 6)
}

#[test]
fn an_answer_area_of_20_bytes_is_refused_and_21_suffice() {
    assert_eq!(answer().len(), 21);
    answer_needed(A, answer());
}

#[test]
fn every_answer_area_below_3n_and_12m_is_refused() {
    for (file, least) in [
        (A, 21),
        (EMPTY_ROW, 15),
        (MARKED_AND_REJECTED, 42),
        (ALL_EIGHT_TYPES, 42),
    ] {
        for length in 0..least {
            assert_eq!(call(file, length, 80), TOO_SMALL, "{length}");
        }
        for length in least..least + 50 {
            let outcome = call(file, length, 80);
            assert!(matches!(outcome, Outcome::Allotted { .. }), "{length}");
        }
    }
}

#[test]
fn a_work_area_of_23_bytes_is_refused() {
    work_needed(A, 21);
}

#[test]
fn a_call_without_answer_area_is_asked_only_for_work() {
    let mut work = [7; 26];
    let outcome = call_without_answer_on(A, &mut work);
    assert_eq!(
        outcome,
        Outcome::Allotted {
            offers: 4,
            answer: Vec::new()
        }
    );
    assert_eq!(work[..24], [0; 24]);
    assert_eq!(work[24..], [7; 2]);
}

#[test]
fn bytes_beyond_stay() {
    for more in 0..100 {
        beyond_stay(A, &answer(), [9, 7], more);
    }
}

#[test]
fn a_refusal_changes_neither_area() {
    for (file, answer_len, work_len) in [
        (A, 18, 24),
        (A, 20, 24),
        (A, 21, 23),
        (CUT, 30, 30),
        (&[], 0, 0),
    ] {
        refused_unchanged(file, answer_len, work_len);
    }
}

#[test]
fn a_fault_of_the_file_comes_before_small_areas() {
    let cut = Outcome::Refused {
        number: 4,
        offset: 62,
    };
    assert_eq!(call(CUT, 0, 0), cut);
}

#[test]
fn work_bytes_are_zero_also_after_no_offer() {
    let mut answer = [9; 15];
    let mut work = [7; 9];
    let outcome = call_on(EMPTY_ROW, &mut answer, &mut work);
    assert!(matches!(outcome, Outcome::Allotted { offers: 0, .. }));
    assert_eq!(answer, [0; 15]);
    assert_eq!(work, [0, 0, 0, 0, 0, 0, 0, 0, 7]);
}

#[test]
fn seats_closing_places_and_types_stand_in_this_order() {
    let mut answer = [9; 44];
    call_on(MARKED_AND_REJECTED, &mut answer, &mut [7; 48]);
    assert_eq!(answer[..12], [0, 0, 2, 1, 0, 0, 1, 1, 1, 1, 1, 1]);
    assert_eq!(answer[12..24], [1, 0, 0, 0, 0, 0, 0, 0, 0, 0, 0, 0]);
    assert_eq!(answer[24..36], [1, 0, 0, 0, 0, 0, 0, 0, 0, 0, 0, 0]);
    assert_eq!(answer[36..], [0, 0, 0, 2, 1, 0, 9, 9]);
}

#[test]
fn types_stand_as_their_numbers() {
    let mut answer = [9; 43];
    call_on(ALL_EIGHT_TYPES, &mut answer, &mut [7; 80]);
    assert_eq!(answer[20..32], [0, 0, 0, 0, 0, 0, 0, 0, 9, 0, 0, 0]);
    assert_eq!(answer[32..], [0, 0, 1, 8, 7, 6, 5, 4, 3, 2, 9]);
}
