//! Files at the edge of each question, with what they are expected to give.

use super::lawful::{lawful, lawful_round, Class};
use crate::form::Form;
use crate::reading::{Candidate, Entry, Institute, Round, LONGEST_WITHOUT_STEPS, OPEN};
use crate::writing::{records, write};

/// What a boundary file is expected to give.
#[derive(Clone, Copy, Debug, PartialEq, Eq)]
pub enum Expected {
    Passes,
    Refused { number: u8, offset: usize },
}

use Expected::Passes;

/// The refusal with this number at this byte.
pub(super) fn refused(number: u8, offset: usize) -> Expected {
    Expected::Refused { number, offset }
}

/// The bytes of file A.
pub(super) const A: &[u8] = include_bytes!("../../../rounds/a.round");

/// The offsets of file A's records.
const A_RECORDS: [usize; 6] = [0, 12, 36, 44, 54, 62];

/// One candidate listing open, of code 0 and without marks.
pub(super) fn plain_candidate() -> Candidate {
    Candidate {
        code: OPEN,
        marks: 0,
        row: vec![Entry {
            institute: 0,
            category: OPEN,
        }],
    }
}

/// One candidate, one institute with one open position, no policy; the head takes 12 bytes, the institute's record 14 and 10 for each type.
pub(super) fn plain_round(types: usize) -> Round {
    Round {
        form: Form::Narrow,
        types,
        policy: 0,
        institutes: vec![Institute {
            positions: [1, 0, 0, 0, 0],
            reserved: std::array::from_fn(|_| vec![0; types]),
            steps: Vec::new(),
        }],
        candidates: vec![plain_candidate()],
        merit: vec![vec![0]],
    }
}

/// The plain round after a change.
fn changed(types: usize, change: impl Fn(&mut Round)) -> Vec<u8> {
    let mut round = plain_round(types);
    change(&mut round);
    write(&round)
}

/// The plain round with a two-byte number written at a place of its file.
fn with_number(types: usize, at: usize, number: usize) -> Vec<u8> {
    let mut file = write(&plain_round(types));
    file[at..at + 2].copy_from_slice(&(number as u16).to_le_bytes());
    file
}

/// A round with this many candidates and whole merit list.
fn candidates(n: usize) -> Vec<u8> {
    changed(0, |round| {
        round.candidates = vec![plain_candidate(); n];
        round.merit = vec![(0..n).collect()];
    })
}

/// A round with this many institutes, one candidate listing the first so many of them.
fn institutes(m: usize, entries: usize) -> Vec<u8> {
    changed(0, |round| {
        round.institutes = vec![round.institutes[0].clone(); m];
        round.merit = vec![vec![0]; m];
        round.candidates[0].row = (0..entries)
            .map(|institute| Entry {
                institute,
                category: OPEN,
            })
            .collect();
    })
}

/// The plain round with these positions.
fn positions(positions: [usize; 5]) -> Vec<u8> {
    changed(0, |round| round.institutes[0].positions = positions)
}

/// The plain round with these positions in EWS and these reserved.
fn reserved(positions: usize, reserved: &[usize]) -> Vec<u8> {
    changed(reserved.len(), |round| {
        round.institutes[0].positions[4] = positions;
        round.institutes[0].reserved[4] = reserved.to_vec();
    })
}

/// The plain round with the candidate's code and marks.
fn code_and_marks(types: usize, code: u8, marks: u8) -> Vec<u8> {
    changed(types, |round| {
        round.candidates[0].code = code;
        round.candidates[0].marks = marks;
    })
}

/// The plain round with the candidate of code 2 listing these, institutes counted from 1.
fn listing(row: &[(usize, u8)]) -> Vec<u8> {
    changed(0, |round| {
        round.candidates[0].code = 2;
        round.candidates[0].row = row
            .iter()
            .map(|&(institute, category)| Entry {
                institute: institute.wrapping_sub(1),
                category,
            })
            .collect();
    })
}

/// All boundary files with their names.
pub fn boundary() -> Vec<(String, Vec<u8>, Expected)> {
    let mut all = Vec::new();
    let mut add = |name: &str, file: Vec<u8>, expected: Expected| {
        all.push((name.to_string(), file, expected));
    };

    for kept in 0..A.len() {
        let offset = A_RECORDS
            .into_iter()
            .rfind(|&offset| offset <= kept)
            .unwrap_or(0);
        let number = if kept < offset + 4 { 1 } else { 4 };
        add(
            &format!("a-cut-{kept}"),
            A[..kept].to_vec(),
            refused(number, offset),
        );
    }
    add("a", A.to_vec(), Passes);
    for more in 1..=5 {
        let mut file = A.to_vec();
        file.extend(vec![0; more]);
        add(&format!("a-and-{more}-more"), file, refused(13, 72));
    }

    add("n-0", with_number(0, 4, 0), refused(5, 0));
    add("n-512", candidates(512), Passes);
    add("n-513", candidates(513), refused(5, 0));
    add("m-0", with_number(0, 6, 0), refused(5, 0));
    add("m-32", institutes(32, 1), Passes);
    add("m-33", institutes(33, 1), refused(5, 0));
    add("types-8", write(&plain_round(8)), Passes);
    add("types-9", write(&plain_round(9)), refused(5, 0));
    add("policy-1", with_number(0, 10, 1), Passes);
    add("policy-2", with_number(0, 10, 2), refused(2, 12));
    add("policy-3", with_number(0, 10, 3), refused(5, 0));
    add("policy-256", with_number(0, 10, 256), refused(5, 0));

    add("kind-256-more", with_number(0, 2, 257), refused(2, 0));
    add("head-length-7", with_number(0, 0, 7), refused(3, 0));
    add("head-length-10", with_number(0, 0, 10), refused(3, 0));
    add(
        "institute-length-less",
        with_number(1, 12, 10),
        refused(3, 12),
    );
    add(
        "institute-length-more",
        with_number(0, 12, 20),
        refused(3, 12),
    );
    add("candidate-length-0", with_number(0, 26, 0), refused(3, 26));
    add("candidate-length-1", with_number(0, 26, 1), refused(3, 26));
    add("candidate-length-2", listing(&[]), Passes);
    add("candidate-length-3", with_number(0, 26, 3), refused(3, 26));
    add(
        "candidate-length-34-cut",
        with_number(0, 26, 34),
        refused(4, 26),
    );
    add(
        "candidate-length-35",
        with_number(0, 26, 35),
        refused(3, 26),
    );
    add(
        "candidate-length-36",
        with_number(0, 26, 36),
        refused(3, 26),
    );
    add("entries-16", institutes(17, 16), Passes);
    add("entries-17", institutes(17, 17), refused(3, 12 + 17 * 14));
    add(
        "merit-length-0",
        changed(0, |round| round.merit[0].clear()),
        Passes,
    );
    add("merit-length-1", with_number(0, 34, 1), refused(3, 34));
    add("merit-length-3", with_number(0, 34, 3), refused(3, 34));
    add("merit-length-4-of-1", with_number(0, 34, 4), refused(3, 34));

    add(
        "positions-1024",
        positions([204, 205, 205, 205, 205]),
        Passes,
    );
    add("positions-1025", positions([205; 5]), refused(6, 12));
    add(
        "positions-1024-in-one",
        positions([0, 0, 0, 1024, 0]),
        Passes,
    );
    add(
        "positions-sum-65536",
        positions([65_535, 1, 0, 0, 0]),
        refused(6, 12),
    );
    add(
        "positions-sum-66560",
        positions([65_535, 1025, 0, 0, 0]),
        refused(6, 12),
    );
    add(
        "positions-sum-327675",
        positions([65_535; 5]),
        refused(6, 12),
    );
    add("reserved-all", reserved(3, &[1, 2]), Passes);
    add("reserved-one-more", reserved(3, &[2, 2]), refused(7, 12));
    add(
        "reserved-without-positions",
        reserved(0, &[1]),
        refused(7, 12),
    );
    add(
        "reserved-sum-65536",
        reserved(3, &[32_768, 32_768]),
        refused(7, 12),
    );
    add(
        "reserved-sum-65537",
        reserved(3, &[65_535, 2]),
        refused(7, 12),
    );
    let mut both = plain_round(1);
    both.institutes[0].positions = [1025, 0, 0, 0, 0];
    both.institutes[0].reserved[2] = vec![1];
    add("positions-and-reserved", write(&both), refused(6, 12));

    add("code-4", code_and_marks(0, 4, 0), Passes);
    add("code-5", code_and_marks(0, 5, 0), refused(8, 26));
    add("code-255", code_and_marks(0, 255, 0), refused(8, 26));
    add("mark-type-3-of-3", code_and_marks(3, 0, 0b111), Passes);
    add(
        "mark-type-4-of-3",
        code_and_marks(3, 0, 0b1000),
        refused(8, 56),
    );
    add("mark-type-1-of-0", code_and_marks(0, 0, 1), refused(8, 26));
    add("marks-all-of-8", code_and_marks(8, 0, 255), Passes);
    add(
        "mark-type-8-of-7",
        code_and_marks(7, 0, 128),
        refused(8, 96),
    );
    add("entry-own", listing(&[(1, 2), (1, 0)]), Passes);
    add(
        "entry-institute-0",
        listing(&[(1, 2), (0, 0)]),
        refused(9, 26),
    );
    add("entry-institute-2-of-1", listing(&[(2, 2)]), refused(9, 26));
    add("entry-code-of-others", listing(&[(1, 3)]), refused(9, 26));
    add(
        "entry-code-2-of-0",
        changed(0, |round| round.candidates[0].row[0].category = 2),
        refused(9, 26),
    );
    add(
        "entries-same",
        listing(&[(1, 0), (1, 2), (1, 0)]),
        refused(10, 26),
    );
    add(
        "entries-same-then-wrong",
        listing(&[(1, 0), (1, 0), (2, 0)]),
        refused(9, 26),
    );
    add("merit-0", with_number(0, 38, 0), refused(11, 34));
    add("merit-2-of-1", with_number(0, 38, 2), refused(11, 34));
    let mut same = plain_round(0);
    same.candidates.push(plain_candidate());
    same.merit[0] = vec![1, 1];
    add("merit-same", write(&same), refused(12, 42));
    same.candidates.push(plain_candidate());
    same.merit[0] = vec![1, 1, 9];
    add("merit-same-then-wrong", write(&same), refused(11, 50));

    let longest = longest();
    add("longest", longest.clone(), Passes);
    let mut more = longest;
    more.push(0);
    add(
        "longest-and-1-more",
        more,
        refused(13, LONGEST_WITHOUT_STEPS),
    );
    let mut cut = lawful(Class::Small, 3);
    let last = records(&lawful_round(Class::Small, 3))
        .pop()
        .map_or(0, |last| last.len());
    cut.truncate(cut.len() - last);
    let offset = cut.len();
    add("last-record-missing", cut, refused(1, offset));
    all
}

/// The longest lawful file without step lists.
fn longest() -> Vec<u8> {
    lawful(Class::Maximal, 1)
}
