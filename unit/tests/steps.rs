//! The wrapper on rounds whose institutes list their own steps: file A with other institutes, in both forms, its areas, its lists
//! under review, and the refusals.

use tazbilk::{allot, review, steps_answer_size, wide_steps_answer_size, work_size};
use tazbilk::{Answer, Judgement, Refusal};

/// File A and the same in the wide form; behind the head, 12 bytes, and the institute, 24, both go on with the candidates.
const A: &[u8] = include_bytes!("../../rounds/a.round");
const WIDE_A: &[u8] = include_bytes!("../../rounds/wide-a.round");

/// EWS with one position and OBC with one, both handing their vacancies to step 3, open with one position, reserved for type 1.
const THREE: [u8; 18] = [4, 3, 1, 0, 0, 0, 3, 3, 1, 0, 0, 0, 0, 0, 1, 0, 1, 0];

/// The steps that policy 1 gives to the institute of file A.
const SIX: [u8; 36] = [
    0, 0, 1, 0, 1, 0, 1, 0, 0, 0, 0, 0, 2, 0, 0, 0, 0, 0, 3, 6, 1, 0, 0, 0, 4, 0, 0, 0, 0, 0, 0, 0,
    0, 0, 0, 0,
];

/// File A, or the wide one, under policy 2 with this institute.
fn with(a: &[u8], steps: &[u8]) -> Vec<u8> {
    let lead = [steps.len() as u8, 0, 7, 0];
    let mut file = [&a[..12], &lead, steps, &a[36..]].concat();
    file[10] = 2;
    file
}

/// The refusal with this number at this byte.
fn refused(number: usize, offset: usize) -> Answer {
    Answer::Refused(Refusal { number, offset })
}

/// Twelve closing places as bytes, all 0 but one at a step.
fn closing(step: usize, place: u8) -> [u8; 24] {
    let mut bytes = [0; 24];
    bytes[2 * (step - 1)] = place;
    bytes
}

#[test]
fn vacancies_go_where_the_list_says_and_what_lies_beyond_stays() {
    let (mut answer, mut work) = ([9; 35], [7; 26]);
    let said = allot(&with(A, &THREE), &mut answer, &mut work);
    assert_eq!(said, Answer::Allotted { offers: 3 });
    assert_eq!(answer[..6], [1, 3, 1, 3, 1, 3]);
    assert_eq!(answer[6..30], closing(3, 2));
    assert_eq!(answer[30..33], [0, 0, 1]);
    assert_eq!(answer[33..], [9; 2]);
    assert_eq!(work[..24], [0; 24]);
    assert_eq!(work[24..], [7; 2]);
}

#[test]
fn a_wide_round_has_twelve_closing_places_too() {
    let (mut answer, mut work) = ([9; 41], [7; 26]);
    let said = allot(&with(WIDE_A, &THREE), &mut answer, &mut work);
    assert_eq!(said, Answer::Allotted { offers: 3 });
    assert_eq!(answer[..12], [1, 0, 3, 0, 1, 0, 3, 0, 1, 0, 3, 0]);
    assert_eq!(answer[12..36], closing(3, 2));
    assert_eq!(answer[36..39], [0, 0, 1]);
    assert_eq!(answer[39..], [9; 2]);
    assert_eq!(work[..24], [0; 24]);
    assert_eq!(work[24..], [7; 2]);
}

#[test]
fn the_steps_of_policy_1_as_a_list_seat_everyone_alike() {
    for a in [A, WIDE_A] {
        let (mut by_policy, mut by_list) = ([0; 60], [0; 60]);
        let mut work = [0; 24];
        let said = allot(&with(a, &SIX), &mut by_list, &mut work);
        assert_eq!(said, allot(a, &mut by_policy, &mut work));
        let seats = if a == A { 6 } else { 12 };
        assert_eq!(by_list[..seats + 12], by_policy[..seats + 12]);
        assert_eq!(by_list[seats + 12..seats + 24], [0; 12]);
        let types = &by_policy[seats + 12..seats + 15];
        assert_eq!(&by_list[seats + 24..seats + 27], types);
    }
}

#[test]
fn areas_of_the_sizes_told_suffice_and_smaller_ones_are_refused() {
    for (a, size) in [
        (A, steps_answer_size(3, 1)),
        (WIDE_A, wide_steps_answer_size(3, 1)),
    ] {
        let file = with(a, &THREE);
        let (mut answer, mut work) = (vec![9; size], vec![7; work_size(3)]);
        assert_eq!(allot(&file, &mut answer[1..], &mut work), refused(14, 0));
        assert_eq!(allot(&file, &mut answer, &mut work[1..]), refused(14, 0));
        assert_eq!((answer[0], work[0]), (9, 7));
        assert_eq!(answer[1..], vec![9; size - 1]);
        let said = allot(&file, &mut answer, &mut work);
        assert_eq!(said, Answer::Allotted { offers: 3 });
    }
}

#[test]
fn a_list_of_twelve_steps_uses_its_last_closing_place() {
    let none = [0; 4 + 2].repeat(11);
    let twelve = [none, vec![0, 0, 2, 0, 0, 0]].concat();
    let mut answer = [9; 33];
    let said = allot(&with(A, &twelve), &mut answer, &mut [0; 24]);
    assert_eq!(said, Answer::Allotted { offers: 3 });
    assert_eq!(answer[..6], [1, 12, 1, 12, 0, 0]);
    assert_eq!(answer[6..30], closing(12, 2));
    assert_eq!(answer[30..], [0; 3]);
}

#[test]
fn a_review_admits_the_steps_of_the_list_alone() {
    let (three, six) = (with(A, &THREE), with(A, &SIX));
    let seat = |candidate| Judgement::WrongSeat { candidate };
    let entry = |candidate, code| Judgement::BetterEntry {
        candidate,
        institute: 1,
        code,
    };
    for (file, list, due) in [
        (&three, [1, 3, 1, 3, 1, 3], Judgement::Passes),
        (&three, [1, 3, 1, 3, 0, 0], entry(3, 0)),
        (&three, [1, 3, 1, 4, 1, 3], seat(2)),
        (&three, [1, 3, 1, 3, 1, 12], seat(3)),
        (&three, [1, 1, 1, 3, 1, 3], seat(1)),
        (&six, [0, 0, 1, 4, 1, 1], Judgement::Passes),
        (&six, [1, 6, 0, 0, 1, 1], entry(2, 3)),
        (&six, [0, 0, 1, 4, 1, 6], seat(3)),
        (&six, [0, 0, 1, 7, 1, 1], seat(2)),
    ] {
        let mut work = [7; 25];
        assert_eq!(review(file, &list, &mut work), due, "{list:?}");
        assert_eq!(work[..24], [0; 24]);
        assert_eq!(work[24], 7);
    }
}

#[test]
fn a_wide_list_is_reviewed_by_the_steps_of_the_list_and_by_the_last_byte() {
    let file = with(WIDE_A, &THREE);
    let mut list = [1, 0, 3, 0, 1, 0, 3, 0, 1, 0, 3, 0];
    let mut work = [7; 24];
    assert_eq!(review(&file, &list, &mut work), Judgement::Passes);
    for (at, value, candidate) in [(3, 1, 1), (6, 4, 2), (6, 2, 0), (10, 0, 3), (10, 13, 3)] {
        let kept = std::mem::replace(&mut list[at], value);
        let due = match candidate {
            0 => Judgement::Passes,
            _ => Judgement::WrongSeat { candidate },
        };
        assert_eq!(review(&file, &list, &mut work), due, "{at} {value}");
        list[at] = kept;
    }
}

#[test]
fn what_is_wrong_with_a_list_of_steps_is_refused_in_the_order_of_the_questions() {
    for (changes, due) in [
        (&[(10, 3)][..], refused(5, 0)),
        (&[(10, 1)], refused(2, 12)),
        (&[(14, 2)], refused(2, 12)),
        (&[(12, 0)], refused(3, 12)),
        (&[(12, 17)], refused(3, 12)),
        (&[(12, 78)], refused(3, 12)),
        (&[(12, 24)], refused(2, 40)),
        (&[(12, 72)], refused(4, 12)),
        (&[(19, 4)], refused(6, 12)),
        (&[(20, 2)], refused(7, 12)),
        (&[(28, 5)], refused(17, 12)),
        (&[(17, 1)], refused(18, 12)),
        (&[(17, 4)], refused(18, 12)),
        (&[(29, 3)], refused(18, 12)),
        (&[(17, 1), (28, 5)], refused(17, 12)),
        (&[(17, 1), (28, 5), (32, 2)], refused(7, 12)),
        (&[(17, 1), (19, 4), (28, 5), (32, 2)], refused(6, 12)),
    ] {
        let mut file = with(A, &THREE);
        for &(at, value) in changes {
            file[at] = value;
        }
        let (mut answer, mut work) = ([9; 40], [7; 40]);
        assert_eq!(allot(&file, &mut answer, &mut work), due, "{changes:?}");
        assert_eq!((answer, work), ([9; 40], [7; 40]));
    }
}
