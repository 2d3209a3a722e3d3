//! What a review refuses, in which order, and what it leaves in the work area.

use second::generate::{damaged, lawful, lawful_round, Class};
use second::{call, review, Outcome, Review};

const A: &[u8] = include_bytes!("../../../rounds/a.round");
const ONE_BYTE_MORE: &[u8] = include_bytes!("../../../rounds/one-byte-more.round");

/// The list of round A.
const OWN: [u8; 6] = [0, 0, 1, 4, 1, 1];

/// The refusal with a number at an offset.
fn refused(number: u8, offset: usize) -> Review {
    Review::Refused { number, offset }
}

/// A review on a work area of this length that asserts what it leaves there: all bytes where it refuses, else 0 in the first 8n and the others.
fn reviewed(file: &[u8], list: &[u8], work_len: usize) -> Review {
    let mut work = vec![7; work_len];
    let review = review(file, list, &mut work);
    let cleared = match review {
        Review::Refused { .. } => 0,
        _ => 4 * list.len(),
    };
    assert_eq!(work[..cleared], vec![0; cleared]);
    assert_eq!(work[cleared..], vec![7; work_len - cleared]);
    review
}

#[test]
fn a_list_of_any_length_but_2n_is_refused() {
    for seed in 0..200 {
        let file = lawful(Class::Small, seed);
        let n = lawful_round(Class::Small, seed).candidates.len();
        for length in (0..=2 * n + 3).filter(|&length| length != 2 * n) {
            for work_len in [0, 8 * n - 1, 8 * n, 8 * n + 9] {
                assert_eq!(reviewed(&file, &vec![0; length], work_len), refused(15, 0));
            }
        }
        let review = reviewed(&file, &vec![0; 2 * n], 8 * n);
        assert!(!matches!(review, Review::Refused { .. }));
    }
}

#[test]
fn a_work_area_below_8n_is_refused() {
    for list in [OWN, [0; 6], [1; 6], [255; 6]] {
        for work_len in 0..24 {
            assert_eq!(reviewed(A, &list, work_len), refused(14, 0));
        }
        for work_len in 24..60 {
            let review = reviewed(A, &list, work_len);
            assert!(!matches!(review, Review::Refused { .. }));
        }
    }
}

#[test]
fn the_file_comes_first_then_the_list_then_the_work_area() {
    assert_eq!(reviewed(ONE_BYTE_MORE, &OWN[..5], 23), refused(13, 72));
    assert_eq!(reviewed(ONE_BYTE_MORE, &OWN, 23), refused(13, 72));
    assert_eq!(reviewed(ONE_BYTE_MORE, &OWN, 24), refused(13, 72));
    assert_eq!(reviewed(A, &OWN[..5], 23), refused(15, 0));
    assert_eq!(reviewed(A, &OWN[..5], 24), refused(15, 0));
    assert_eq!(reviewed(A, &OWN, 23), refused(14, 0));
    assert_eq!(reviewed(A, &OWN, 24), Review::Passes);
}

#[test]
fn a_file_that_is_not_allotted_is_not_reviewed() {
    for number in 1..=13 {
        for seed in 0..100 {
            let made = damaged(number, seed);
            let due = refused(number, made.offset);
            for (length, work_len) in [(0, 0), (6, 24), (48, 192), (1024, 4096)] {
                assert_eq!(reviewed(&made.file, &vec![0; length], work_len), due);
                let outcome = call(&made.file, 2000, work_len);
                let Outcome::Refused { number, offset } = outcome else {
                    panic!("{outcome:?}");
                };
                assert_eq!(refused(number, offset), due);
            }
        }
    }
}

#[test]
fn the_work_area_is_left_alike_whatever_is_found() {
    assert_eq!(reviewed(A, &OWN, 30), Review::Passes);
    assert_eq!(reviewed(A, &[1; 6], 30), Review::Wrong(1));
    let would_take = Review::WouldTake {
        candidate: 1,
        institute: 1,
        code: 0,
    };
    assert_eq!(reviewed(A, &[0; 6], 30), would_take);
}
