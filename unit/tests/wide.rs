//! The wrapper on wide rounds: file A in the wide form, a round of 300 institutes, lists under review, and files above 65,536 bytes.

use tazbilk::{allot, review, wide_answer_size, wide_list_size, work_size};
use tazbilk::{Answer, Judgement, Refusal, ANSWER_MOST, WORK_MOST};

/// File A in the wide form.
const A: &[u8] = include_bytes!("../../rounds/wide-a.round");

/// The unit's own list for it.
const OWN: [u8; 12] = [0, 0, 0, 0, 1, 0, 4, 0, 1, 0, 1, 0];

/// Adds a record of a kind with a body of two-byte numbers.
fn put(file: &mut Vec<u8>, kind: u16, body: &[u16]) {
    let lead = [2 * body.len() as u16, kind];
    file.extend(lead.iter().chain(body).flat_map(|two| two.to_le_bytes()));
}

/// A wide round of n general candidates, the first of whom lists the institutes 300 and 44 and the others nothing, at m institutes
/// with one open position and all candidates on their merit lists.
fn state(n: u16, m: u16) -> Vec<u8> {
    let mut file = Vec::new();
    put(&mut file, 5, &[n, m, 0, 0]);
    for _ in 0..m {
        put(&mut file, 2, &[1, 0, 0, 0, 0]);
    }
    file.extend([8, 0, 6, 0, 0, 0, 44, 1, 0, 44, 0, 0]);
    for _ in 1..n {
        put(&mut file, 6, &[0]);
    }
    let merit: Vec<u16> = (1..=n).collect();
    for _ in 0..m {
        put(&mut file, 4, &merit);
    }
    file
}

/// The refusal with this number at this byte.
fn refused(number: usize, offset: usize) -> Answer {
    Answer::Refused(Refusal { number, offset })
}

#[test]
fn file_a_is_allotted_as_in_the_narrow_form_and_what_lies_beyond_stays() {
    let (mut answer, mut work) = ([9; 29], [7; 26]);
    assert_eq!(
        allot(A, &mut answer, &mut work),
        Answer::Allotted { offers: 4 }
    );
    assert_eq!(answer[..12], OWN);
    assert_eq!(answer[12..24], [0, 0, 0, 0, 0, 0, 2, 0, 0, 0, 0, 0]);
    assert_eq!(answer[24..27], [0, 0, 1]);
    assert_eq!(answer[27..], [9; 2]);
    assert_eq!(work[..24], [0; 24]);
    assert_eq!(work[24..], [7; 2]);
}

#[test]
fn areas_of_the_sizes_told_suffice_and_smaller_ones_are_refused() {
    let (mut answer, mut work) = (vec![9; wide_answer_size(3, 1)], vec![7; work_size(3)]);
    assert_eq!(allot(A, &mut answer[1..], &mut work), refused(14, 0));
    assert_eq!(allot(A, &mut answer, &mut work[1..]), refused(14, 0));
    assert_eq!((answer[0], work[0]), (9, 7));
    assert_eq!(
        allot(A, &mut answer, &mut work),
        Answer::Allotted { offers: 4 }
    );
}

#[test]
fn institute_300_stands_in_two_bytes() {
    let file = state(1, 300);
    let mut answer = vec![9; wide_answer_size(1, 300)];
    assert_eq!(
        allot(&file, &mut answer, &mut [7; 8]),
        Answer::Allotted { offers: 1 }
    );
    assert_eq!(answer[..4], [44, 1, 1, 0]);
    let mut closing = vec![0; 12 * 300];
    closing[12 * 299] = 1;
    assert_eq!(answer[4..4 + 12 * 300], closing);
    assert_eq!(answer[4 + 12 * 300..], [0]);
}

#[test]
fn a_wide_list_is_reviewed_by_both_bytes_of_the_institute_and_by_the_last_byte() {
    let file = state(1, 300);
    let wrong = Judgement::WrongSeat { candidate: 1 };
    let better = Judgement::BetterEntry {
        candidate: 1,
        institute: 300,
        code: 0,
    };
    for (list, due) in [
        ([44, 1, 1, 0], Judgement::Passes),
        ([44, 0, 1, 0], better),
        ([0, 0, 0, 0], better),
        ([44, 1, 1, 1], wrong),
        ([0, 0, 0, 1], wrong),
        ([43, 1, 1, 0], wrong),
        ([44, 2, 1, 0], wrong),
        ([44, 1, 2, 0], wrong),
    ] {
        let mut work = [7; 9];
        assert_eq!(review(&file, &list, &mut work), due, "{list:?}");
        assert_eq!(work, [0, 0, 0, 0, 0, 0, 0, 0, 7]);
    }
}

#[test]
fn a_wide_list_has_four_bytes_for_each_candidate() {
    let mut work = [7; 24];
    assert_eq!(OWN.len(), wide_list_size(3));
    let many = [OWN, OWN].concat();
    for list in [&[], &OWN[..6], &OWN[..11], &many[..13]] {
        let due = Judgement::Refused(Refusal {
            number: 15,
            offset: 0,
        });
        assert_eq!(review(A, list, &mut work), due);
        assert_eq!(work, [7; 24]);
    }
    assert_eq!(review(A, &OWN, &mut work), Judgement::Passes);
}

#[test]
fn the_length_of_a_file_alone_refuses_nothing() {
    let (mut answer, mut work) = ([0; ANSWER_MOST], [0; WORK_MOST]);
    let long = [A, &vec![0; 70_000 - A.len()]].concat();
    assert_eq!(allot(&long, &mut answer, &mut work), refused(13, A.len()));
    let lawful = state(30, 1000);
    assert!(lawful.len() > 70_000);
    assert_eq!(
        allot(&lawful, &mut answer, &mut work),
        Answer::Allotted { offers: 1 }
    );
    assert_eq!(answer[..4], [44, 1, 1, 0]);
}
