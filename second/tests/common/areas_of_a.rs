//! What a call on round A, in whatever form, does with the two lent areas.

use second::{call, call_on, call_without_answer, Outcome};

/// The refusal of areas that are too small.
pub const TOO_SMALL: Outcome = Outcome::Refused {
    number: 14,
    offset: 0,
};

/// The bytes of the work area that three candidates need.
const WORK: usize = 24;

/// The answer bytes of round A: these seats, so many closing places, and the types.
pub fn answer_of_a(seats: &[u8], places: usize) -> Vec<u8> {
    let mut closing = vec![0; 2 * places];
    closing[6] = 2;
    [seats, &closing, &[0, 0, 1]].concat()
}

/// Asserts that an answer area shorter than this answer is refused and that one as long or longer gets it.
pub fn answer_needed(file: &[u8], answer: Vec<u8>) {
    let least = answer.len();
    for length in 0..least {
        assert_eq!(call(file, length, WORK), TOO_SMALL, "{length}");
    }
    let due = Outcome::Allotted { offers: 4, answer };
    for length in least..least + 33 {
        assert_eq!(call(file, length, WORK), due, "{length}");
    }
}

/// Asserts that a work area below 8n bytes is refused, beside an answer area of this length and without one, and that 8n suffice.
pub fn work_needed(file: &[u8], answer_len: usize) {
    for length in 0..WORK {
        assert_eq!(call(file, answer_len, length), TOO_SMALL, "{length}");
        assert_eq!(call_without_answer(file, length), TOO_SMALL, "{length}");
    }
    let outcome = call_without_answer(file, WORK);
    assert!(matches!(outcome, Outcome::Allotted { offers: 4, .. }));
}

/// Asserts that a call writes all bytes of this answer, leaves 0 in 8n bytes of the work area, and keeps so many bytes beyond in both, the answer and the work area being lent with these bytes.
pub fn beyond_stay(file: &[u8], due: &[u8], lent: [u8; 2], more: usize) {
    let mut answer = vec![lent[0]; due.len() + more];
    let mut work = vec![lent[1]; WORK + more];
    call_on(file, &mut answer, &mut work);
    assert_eq!(answer[..due.len()], *due);
    assert_eq!(answer[due.len()..], vec![lent[0]; more]);
    assert_eq!(work[..WORK], [0; WORK]);
    assert_eq!(work[WORK..], vec![lent[1]; more]);
}

/// Asserts that a call with areas of these lengths is refused and changes neither.
pub fn refused_unchanged(file: &[u8], answer_len: usize, work_len: usize) {
    let mut answer = vec![9; answer_len];
    let mut work = vec![7; work_len];
    let outcome = call_on(file, &mut answer, &mut work);
    assert!(matches!(outcome, Outcome::Refused { .. }));
    assert_eq!(answer, vec![9; answer_len]);
    assert_eq!(work, vec![7; work_len]);
}
