//! What a call leaves in the areas of a round with step lists, and the sizes that question 14 asks for.

#[path = "../common/areas_of_a.rs"]
mod areas_of_a;

use crate::tiny_lists::tiny_lists;
use areas_of_a::{answer_needed, answer_of_a, beyond_stay, refused_unchanged, work_needed};
use second::choice::Document;
use second::offers::allot;
use second::printing::print_round;
use second::widening::wide;
use second::writing::write;
use second::{call_on, widened, with_step_lists};

const A: &[u8] = include_bytes!("../../../rounds/a.round");

/// File A with step lists.
fn a() -> Vec<u8> {
    with_step_lists(A).expect("A has a head")
}

/// The answer bytes of A with step lists.
fn answer() -> Vec<u8> {
    answer_of_a(&[0, 0, 1, 4, 1, 1], 12)
}

#[test]
fn a_with_step_lists_needs_33_bytes_and_39_in_the_wide_form() {
    let wide = answer_of_a(&[0, 0, 0, 0, 1, 0, 4, 0, 1, 0, 1, 0], 12);
    assert_eq!([answer().len(), wide.len()], [33, 39]);
    answer_needed(&a(), answer());
    answer_needed(&widened(&a()), wide);
}

#[test]
fn the_work_area_needs_8n_bytes_as_ever() {
    work_needed(&a(), 33);
}

#[test]
fn all_answer_bytes_are_written_and_those_beyond_stay() {
    for lent in [0, 1, 9, 255] {
        beyond_stay(&a(), &answer(), [lent; 2], 40);
    }
}

#[test]
fn a_refusal_changes_neither_area() {
    for (file, answer_len, work_len) in [
        (&a()[..], 21, 24),
        (&a(), 32, 24),
        (&a(), 33, 23),
        (&a()[..87], 40, 40),
    ] {
        refused_unchanged(file, answer_len, work_len);
    }
}

#[test]
fn closing_places_stand_twelve_for_each_institute_between_seats_and_types() {
    for seed in 0..1000 {
        let narrow = tiny_lists(seed);
        for (round, seat) in [(wide(&narrow), 4), (narrow, 2)] {
            let (n, m) = (round.candidates.len(), round.institutes.len());
            let mut answer = vec![0xa5; (seat + 1) * n + 24 * m];
            call_on(&write(&round), &mut answer, &mut vec![0xa5; 8 * n]);
            let allotment = allot(&round, &Document);
            let places: Vec<usize> = answer[seat * n..seat * n + 24 * m]
                .chunks_exact(2)
                .map(|pair| usize::from(u16::from_le_bytes([pair[0], pair[1]])))
                .collect();
            assert_eq!(places, allotment.closing.concat());
            assert_eq!(places.len(), 12 * m);
            assert_eq!(answer[seat * n + 24 * m..], allotment.types);
            for (own, places) in round.institutes.iter().zip(places.chunks(12)) {
                assert!(places[own.steps.len()..].iter().all(|&place| place == 0));
            }
        }
    }
}

#[test]
fn twelve_closing_places_are_printed() {
    for seed in 0..300 {
        let round = tiny_lists(seed);
        let text = print_round(&write(&round));
        let closing = text.lines().filter(|line| line.starts_with("closing"));
        let widths: Vec<usize> = closing.map(|line| line.split(' ').count()).collect();
        assert_eq!(widths, vec![14; round.institutes.len()]);
        assert_eq!(text, print_round(&widened(&write(&round))));
    }
}
