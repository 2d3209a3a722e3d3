//! The wrapper on file A: the answer, the review of lists, the areas, and the refusals in words.

use tazbilk::{allot, answer_size, list_size, review, work_size};
use tazbilk::{Answer, Judgement, Refusal, ANSWER_MOST, FILE_MOST, LIST_MOST, WORK_MOST};

const A: &[u8] = include_bytes!("../../rounds/a.round");

/// The refusal with this number at this byte.
fn refused(number: usize, offset: usize) -> Answer {
    Answer::Refused(Refusal { number, offset })
}

/// The review that is refused with this number at this byte.
fn turned_back(number: usize, offset: usize) -> Judgement {
    Judgement::Refused(Refusal { number, offset })
}

/// The unit's own list for file A.
const OWN: [u8; 6] = [0, 0, 1, 4, 1, 1];

#[test]
fn file_a_is_allotted_and_what_lies_beyond_stays() {
    let (mut answer, mut work) = ([9; 23], [7; 26]);
    assert_eq!(
        allot(A, &mut answer, &mut work),
        Answer::Allotted { offers: 4 }
    );
    let closing = [0, 0, 0, 0, 0, 0, 2, 0, 0, 0, 0, 0];
    let types = [0, 0, 1];
    assert_eq!(answer[..6], OWN);
    assert_eq!(answer[6..18], closing);
    assert_eq!(answer[18..21], types);
    assert_eq!(answer[21..], [9; 2]);
    assert_eq!(work[..24], [0; 24]);
    assert_eq!(work[24..], [7; 2]);
}

#[test]
fn areas_of_the_sizes_told_suffice_and_smaller_ones_are_refused() {
    let (mut answer, mut work) = (vec![9; answer_size(3, 1)], vec![7; work_size(3)]);
    assert_eq!(allot(A, &mut answer[1..], &mut work), refused(14, 0));
    assert_eq!(allot(A, &mut answer, &mut work[1..]), refused(14, 0));
    assert_eq!(allot(A, &mut [], &mut []), refused(14, 0));
    assert_eq!((answer[0], work[0]), (9, 7));
    assert_eq!(
        allot(A, &mut answer, &mut work),
        Answer::Allotted { offers: 4 }
    );
}

#[test]
fn the_unit_s_own_list_passes_and_what_lies_beyond_stays() {
    let mut work = [7; 26];
    assert_eq!(review(A, &OWN, &mut work), Judgement::Passes);
    assert_eq!(work[..24], [0; 24]);
    assert_eq!(work[24..], [7; 2]);
}

#[test]
fn findings_name_the_candidate_and_the_entry_and_clear_the_work_area() {
    let wrong = Judgement::WrongSeat { candidate: 2 };
    let better = Judgement::BetterEntry {
        candidate: 2,
        institute: 1,
        code: 3,
    };
    for (list, due, line) in [
        ([0, 0, 1, 1, 1, 1], wrong, "seat of 2"),
        ([1, 6, 0, 0, 1, 1], better, "entry of 2: 1 3"),
        (OWN, Judgement::Passes, "passes"),
    ] {
        let mut work = [7; 25];
        let said = review(A, &list, &mut work);
        assert_eq!((said, said.to_string().as_str()), (due, line));
        assert_eq!(work[..24], [0; 24]);
        assert_eq!(work[24], 7);
    }
}

#[test]
fn a_review_is_refused_for_the_file_then_the_list_then_the_work_area() {
    let mut work = vec![7; work_size(3)];
    let own = OWN.as_slice();
    let many = [OWN.as_slice(); 200].concat();
    let less = work_size(3) - 1;
    for (file, list, lent, due) in [
        (&A[..71], &own[..5], 0, turned_back(4, 62)),
        (A, &[], 24, turned_back(15, 0)),
        (A, &own[..5], 24, turned_back(15, 0)),
        (A, &own[..5], 0, turned_back(15, 0)),
        (A, &many, less, turned_back(15, 0)),
        (A, own, less, turned_back(14, 0)),
        (A, own, 0, turned_back(14, 0)),
    ] {
        assert_eq!(review(file, list, &mut work[..lent]), due);
        assert_eq!(work, [7; 24]);
    }
    assert_eq!(own.len(), list_size(3));
    assert_eq!(review(A, own, &mut work), Judgement::Passes);
}

#[test]
fn the_most_is_what_the_documents_say() {
    assert_eq!(
        (FILE_MOST, ANSWER_MOST, WORK_MOST),
        (1_299_660, 26_560, 4_096)
    );
    assert_eq!(LIST_MOST, 2_048);
}

/// The meaning of a number.
fn meaning(number: usize) -> &'static str {
    Refusal { number, offset: 0 }.meaning()
}

#[test]
fn a_refusal_says_what_is_wrong() {
    let said = allot(&A[..71], &mut [], &mut []);
    assert_eq!(said, refused(4, 62));
    assert_eq!(said.to_string(), "refused 4 at 62");
    assert_eq!(
        meaning(4),
        "the file ends before the whole body of the record"
    );
}

#[test]
fn the_list_has_a_meaning_for_each_question_and_no_other() {
    let lines: Vec<&str> = include_str!("../meanings.txt").lines().collect();
    assert_eq!(lines.len(), 18);
    for (before, &line) in lines.iter().enumerate() {
        assert_eq!(meaning(before + 1), line);
        assert_eq!(line, line.trim());
        assert!(!line.is_empty() && !line.ends_with('.'));
        assert!(!lines[..before].contains(&line), "{line} stands twice");
    }
    for number in [0, 19, usize::MAX] {
        assert_eq!(meaning(number), "no question has this number");
    }
}
