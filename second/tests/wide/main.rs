//! Document 02, Point 6: rounds of the wide form, and the wrong readings that are caught.

#[path = "../common/areas_of_a.rs"]
mod areas_of_a;
#[allow(dead_code)]
#[path = "../review/cases.rs"]
mod cases;
mod own;
#[path = "../common/own_list.rs"]
mod own_list;
mod program;
mod reviews;
#[path = "../closing/worked.rs"]
mod rounds;
#[path = "../types/several.rs"]
mod several;
mod spread;
#[path = "../demand3/stability.rs"]
mod stability;
#[path = "../demand3/tiny.rs"]
mod tiny;
mod wrong;
#[path = "../common/wrong_readings.rs"]
mod wrong_readings;

use areas_of_a::{answer_needed, answer_of_a, beyond_stay, refused_unchanged, work_needed};
use rounds::worked;
use second::choice::Document;
use second::generate::{lawful_round, Class};
use second::offers::allot;
use second::orders::Order;
use second::printing::print_round;
use second::reading::{read, Round};
use second::widening::{wide, widened, widened_list};
use second::writing::write;
use second::{call, call_on, Form, Outcome};
use several::several;
use spread::{spread, spread_allotment};
use tiny::tiny;

const A: &[u8] = include_bytes!("../../../rounds/a.round");

/// Lawful narrow rounds of every class, tiny ones, ones of several types and worked ones.
fn narrow_rounds() -> impl Iterator<Item = Round> {
    let made = |class: Class, count: u64| (0..count).map(move |seed| lawful_round(class, seed));
    (0..3000)
        .map(tiny)
        .chain((0..1000).map(several))
        .chain(made(Class::Tiny, 1000))
        .chain(made(Class::Small, 1500))
        .chain(made(Class::Mid, 20))
        .chain(made(Class::Maximal, 1))
        .chain(made(Class::Crowded, 1))
        .chain(worked().into_iter().map(|(_, round)| round))
}

#[test]
fn a_widened_file_is_the_round_in_the_wide_form() {
    for round in narrow_rounds() {
        let file = widened(&write(&round));
        assert_eq!(file, write(&wide(&round)));
        assert_eq!(read(&file), Ok(wide(&round)));
        let entries: usize = round.candidates.iter().map(|one| one.row.len()).sum();
        assert_eq!(file.len(), write(&round).len() + entries);
    }
}

/// The answer of a narrow round as that of the wide one.
fn widened_answer(n: usize, answer: &[u8]) -> Vec<u8> {
    let (seats, rest) = answer.split_at(2 * n);
    [&widened_list(seats), rest].concat()
}

#[test]
fn widened_rounds_are_allotted_alike() {
    let mut rounds = 0;
    for round in narrow_rounds() {
        let (n, m) = (round.candidates.len(), round.institutes.len());
        let file = write(&round);
        let Outcome::Allotted { offers, answer } = call(&file, 3 * n + 12 * m, 8 * n) else {
            panic!("{round:?}");
        };
        let due = Outcome::Allotted {
            offers,
            answer: widened_answer(n, &answer),
        };
        assert_eq!(call(&widened(&file), 5 * n + 12 * m, 8 * n), due);
        rounds += 1;
    }
    assert_eq!(rounds, 6554);
}

#[test]
fn widened_rounds_are_printed_alike() {
    for seed in 0..2000 {
        let file = write(&tiny(seed));
        assert_eq!(print_round(&widened(&file)), print_round(&file));
    }
}

#[test]
fn rounds_with_institutes_far_apart_are_allotted_alike() {
    let small = (0..300).map(|seed| lawful_round(Class::Small, seed));
    let mid = (0..5).map(|seed| lawful_round(Class::Mid, seed));
    for round in (0..2000).map(tiny).chain(small).chain(mid) {
        let far = read(&write(&spread(&round))).expect("a lawful round");
        let due = spread_allotment(&round, allot(&round, &Document));
        assert_eq!(allot(&far, &Document), due, "{round:?}");
    }
}

#[test]
fn orders_of_widened_rounds_end_alike() {
    for seed in 0..500 {
        let file = widened(&write(&tiny(seed)));
        let (mut answer, mut work) = ([7; 100], [7; 50]);
        call_on(&file, &mut answer, &mut work);
        for order in Order::OTHERS {
            let (mut other, mut work) = ([7; 100], [9; 50]);
            second::answer::call_in_order_on(order, seed, &file, &mut other, &mut work);
            assert_eq!(other, answer, "{} {seed}", order.name());
        }
    }
}

/// The answer bytes of round A in the wide form.
fn answer_of_wide_a() -> Vec<u8> {
    answer_of_a(&[0, 0, 0, 0, 1, 0, 4, 0, 1, 0, 1, 0], 6)
}

#[test]
fn an_answer_area_of_26_bytes_is_refused_and_27_suffice() {
    assert_eq!(answer_of_wide_a().len(), 27);
    answer_needed(&widened(A), answer_of_wide_a());
}

#[test]
fn the_work_area_needs_8n_bytes_as_ever() {
    work_needed(&widened(A), 27);
}

#[test]
fn all_answer_bytes_are_written_and_those_beyond_stay() {
    let file = widened(A);
    for lent in [0, 1, 9, 255] {
        beyond_stay(&file, &answer_of_wide_a(), [lent; 2], 40);
    }
}

#[test]
fn a_refusal_of_a_wide_round_changes_neither_area() {
    let file = widened(A);
    for (file, answer_len, work_len) in [
        (&file[..], 21, 24),
        (&file, 26, 24),
        (&file, 27, 23),
        (&file[..75], 40, 40),
    ] {
        refused_unchanged(file, answer_len, work_len);
    }
}

#[test]
fn a_seat_has_both_bytes_of_its_institute() {
    let mut round = wide(&tiny(0));
    round.institutes = vec![round.institutes[0].clone(); 1000];
    round.merit = vec![round.merit[0].clone(); 1000];
    for (number, candidate) in round.candidates.iter_mut().enumerate() {
        candidate.row.truncate(1);
        candidate.row[0].institute = [255, 256, 299, 999][number];
    }
    let mut answer = vec![7; 20 + 12_000];
    call_on(&write(&round), &mut answer, &mut [7; 32]);
    let seats = [0, 1, 1, 0, 1, 1, 1, 0, 44, 1, 1, 0, 232, 3, 1, 0];
    assert_eq!(answer[..16], seats);
}

#[test]
fn the_form_is_told_by_the_head_alone() {
    for kind in 0..70_000usize {
        let due = match kind {
            1 => Some(Form::Narrow),
            5 => Some(Form::Wide),
            _ => None,
        };
        assert_eq!(Form::told(kind), due);
    }
}
