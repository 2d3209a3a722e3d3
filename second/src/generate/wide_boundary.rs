//! Files at the edge of each question in the wide form, and files in which the forms are mixed up.

use super::boundary::{plain_candidate, plain_round, refused, Expected, Expected::Passes, A};
use super::lawful::{lawful, Class};
use crate::form::Form;
use crate::reading::{Entry, Round, LONGEST_WIDE_WITHOUT_STEPS, OPEN};
use crate::widening::{wide, widened};
use crate::writing::{record, records, write};

/// The offsets of the records of file A in the wide form.
const A_RECORDS: [usize; 6] = [0, 12, 36, 45, 57, 66];

/// The bytes of file A in the wide form.
const A_BYTES: usize = 76;

/// The plain round in the wide form after a change; the head takes 12 bytes, the institute's record 14 and 10 for each type, the candidate's 9 and the merit list's 6.
fn changed(types: usize, change: impl FnOnce(&mut Round)) -> Vec<u8> {
    let mut round = wide(&plain_round(types));
    change(&mut round);
    write(&round)
}

/// A file with a two-byte number written at a place.
fn with_number(mut file: Vec<u8>, at: usize, number: usize) -> Vec<u8> {
    file[at..at + 2].copy_from_slice(&(number as u16).to_le_bytes());
    file
}

/// The plain round in the wide form with a two-byte number written at a place of its file.
fn plain_with(at: usize, number: usize) -> Vec<u8> {
    with_number(changed(0, |_| {}), at, number)
}

/// A round of a form with this many institutes, one candidate of code 2 listing these, institutes counted from 1.
fn listing_in(form: Form, m: usize, row: &[(usize, u8)]) -> Vec<u8> {
    let mut round = plain_round(0);
    round.form = form;
    round.institutes = vec![round.institutes[0].clone(); m];
    round.merit = vec![vec![0]; m];
    round.candidates[0].code = 2;
    round.candidates[0].row = row
        .iter()
        .map(|&(institute, category)| Entry {
            institute: institute.wrapping_sub(1),
            category,
        })
        .collect();
    write(&round)
}

/// A wide round with this many institutes, one candidate of code 2 listing these, institutes counted from 1.
fn listing(m: usize, row: &[(usize, u8)]) -> Vec<u8> {
    listing_in(Form::Wide, m, row)
}

/// The offset of the candidate's record behind so many institutes without types.
fn behind(m: usize) -> usize {
    12 + 14 * m
}

/// A wide round with this many candidates and whole merit list.
fn candidates(n: usize) -> Vec<u8> {
    changed(0, |round| {
        round.candidates = vec![plain_candidate(); n];
        round.merit = vec![(0..n).collect()];
    })
}

/// A wide round of 17 institutes whose candidate's body is cut or filled to a length from a row of 17 entries.
fn of_length(length: usize) -> Vec<u8> {
    let row: Vec<(usize, u8)> = (1..=17).map(|institute| (institute, OPEN)).collect();
    let file = listing(17, &row);
    let start = behind(17);
    let mut body = file[start + 4..start + 4 + 53].to_vec();
    body.resize(length, 0);
    let kind = Form::Wide.candidate();
    [&file[..start], &record(kind, &body), &file[start + 57..]].concat()
}

/// A lawful wide round of exactly this many bytes, from 9,402 to 73,398: 500 institutes, 64 candidates, the first of them with one entry for an odd number and two for an even one, and merit lists whole from the first on.
fn of_bytes(bytes: usize) -> Vec<u8> {
    let entries = 2 - bytes % 2;
    let mut left = (bytes - 12 - 500 * 14 - 64 * 6 - 3 * entries - 500 * 4) / 2;
    changed(0, |round| {
        round.institutes = vec![round.institutes[0].clone(); 500];
        round.candidates = vec![plain_candidate(); 64];
        for (number, candidate) in round.candidates.iter_mut().enumerate() {
            candidate.row = (300..300 + if number == 0 { entries } else { 0 })
                .map(|institute| Entry {
                    institute,
                    category: OPEN,
                })
                .collect();
        }
        round.merit = (0..500)
            .map(|_| {
                let listed = left.min(64);
                left -= listed;
                (0..listed).collect()
            })
            .collect();
    })
}

/// The files of one part, each with its name.
type Files = Vec<(String, Vec<u8>, Expected)>;

/// File A in the wide form, cut at every byte and with bytes more.
fn of_a() -> Files {
    let a = widened(A);
    let mut files = Files::new();
    for kept in 0..A_BYTES {
        let before = A_RECORDS.into_iter().rfind(|&offset| offset <= kept);
        let offset = before.unwrap_or(0);
        let number = if kept < offset + 4 { 1 } else { 4 };
        let name = format!("a-cut-{kept}");
        files.push((name, a[..kept].to_vec(), refused(number, offset)));
    }
    files.push(("a".to_string(), a.clone(), Passes));
    for more in 1..=5 {
        let file = [&a[..], &vec![0; more]].concat();
        files.push((format!("a-and-{more}-more"), file, refused(13, A_BYTES)));
    }
    files
}

/// The numbers of the head.
fn of_heads() -> Files {
    let mut files = Files::new();
    let mut add = |name: &str, file: Vec<u8>, expected: Expected| {
        files.push((name.to_string(), file, expected));
    };
    add("n-0", plain_with(4, 0), refused(5, 0));
    add("n-512", candidates(512), Passes);
    add("n-513", candidates(513), refused(5, 0));
    add("m-0", plain_with(6, 0), refused(5, 0));
    for m in [32, 33, 255, 256, 257, 1000] {
        add(&format!("m-{m}"), listing(m, &[(m, OPEN)]), Passes);
    }
    add("m-1001", listing(1001, &[(1, OPEN)]), refused(5, 0));
    add("m-1024", plain_with(6, 1024), refused(5, 0));
    add("m-65535", plain_with(6, 65_535), refused(5, 0));
    let narrow = |m: usize| listing_in(Form::Narrow, m, &[(1, OPEN)]);
    add("narrow-m-32", narrow(32), Passes);
    add("narrow-m-33", narrow(33), refused(5, 0));
    add("narrow-m-256", narrow(256), refused(5, 0));
    add("narrow-m-1000", narrow(1000), refused(5, 0));
    add("types-8", changed(8, |_| {}), Passes);
    add("types-9", changed(9, |_| {}), refused(5, 0));
    add("policy-1", plain_with(10, 1), Passes);
    add("policy-2", plain_with(10, 2), refused(2, 12));
    add("policy-3", plain_with(10, 3), refused(5, 0));
    add("policy-256", plain_with(10, 256), refused(5, 0));
    add("head-length-7", plain_with(0, 7), refused(3, 0));
    add("head-length-10", plain_with(0, 10), refused(3, 0));
    files
}

/// Kinds of head and candidate in files of both forms.
fn of_kinds() -> Files {
    let mut files = Files::new();
    let mut add = |name: String, file: Vec<u8>, expected: Expected| {
        files.push((name, file, expected));
    };
    for form in Form::BOTH {
        let mut round = plain_round(0);
        round.form = form;
        let file = write(&round);
        let name = match form {
            Form::Narrow => "narrow-",
            Form::Wide => "",
        };
        for kind in (0..=7).chain([257, 261, 65_535]) {
            let expected = match Form::told(kind) {
                Some(told) if told == form => Passes,
                Some(_) => refused(2, 26),
                None => refused(2, 0),
            };
            let file = with_number(file.clone(), 2, kind);
            add(format!("{name}head-kind-{kind}"), file, expected);
        }
        for kind in (0..=7).chain([259, 262, 65_535]) {
            let expected = if kind == form.candidate() {
                Passes
            } else {
                refused(2, 26)
            };
            let file = with_number(file.clone(), 28, kind);
            add(format!("{name}candidate-kind-{kind}"), file, expected);
        }
    }
    let both = listing(33, &[(1, OPEN), (33, OPEN)]);
    let as_narrow = with_number(both, 2, Form::Narrow.head());
    add("m-33-as-narrow".to_string(), as_narrow, refused(5, 0));
    let parts = |form: Form| {
        let mut round = plain_round(0);
        round.form = form;
        round.candidates = vec![plain_candidate(); 2];
        records(&round)
    };
    let mut mixed = parts(Form::Wide);
    mixed[3] = parts(Form::Narrow)[3].clone();
    let name = "narrow-second-candidate".to_string();
    add(name, mixed.concat(), refused(2, 35));
    let mut mixed = parts(Form::Narrow);
    mixed[3] = parts(Form::Wide)[3].clone();
    let name = "narrow-wide-second-candidate".to_string();
    add(name, mixed.concat(), refused(2, 34));
    files
}

/// Lengths of candidates' records and of merit lists.
fn of_lengths() -> Files {
    let mut files = Files::new();
    let mut add = |name: &str, file: Vec<u8>, expected: Expected| {
        files.push((name.to_string(), file, expected));
    };
    for length in 0..=60 {
        let lawful = (0..=16).any(|entries| length == 2 + 3 * entries);
        let expected = if lawful {
            Passes
        } else {
            refused(3, behind(17))
        };
        let name = format!("candidate-length-{length}");
        add(&name, of_length(length), expected);
    }
    for length in [256 + 2, 65_534, 65_535] {
        let name = format!("candidate-length-{length}");
        add(&name, plain_with(26, length), refused(3, 26));
    }
    add(
        "candidate-length-50-cut",
        plain_with(26, 50),
        refused(4, 26),
    );
    let row: Vec<(usize, u8)> = (984..=1000).map(|institute| (institute, OPEN)).collect();
    add("entries-16", listing(1000, &row[1..]), Passes);
    add("entries-17", listing(1000, &row), refused(3, behind(1000)));
    let institute = with_number(changed(1, |_| {}), 12, 10);
    add("institute-length-less", institute, refused(3, 12));
    add("institute-length-more", plain_with(12, 20), refused(3, 12));
    let empty = changed(0, |round| round.merit[0].clear());
    add("merit-length-0", empty, Passes);
    for length in [1, 3, 4, 65_535] {
        let name = format!("merit-length-{length}-of-1");
        add(&name, plain_with(35, length), refused(3, 35));
    }
    let at = 26 + 512 * 9;
    for (length, expected) in [
        (1023, refused(3, at)),
        (1025, refused(3, at)),
        (1026, refused(3, at)),
    ] {
        let file = with_number(candidates(512), at, length);
        add(&format!("merit-length-{length}-of-512"), file, expected);
    }
    files
}

/// Positions, codes, marks and merit numbers.
fn of_numbers() -> Files {
    let mut files = Files::new();
    let mut add = |name: &str, file: Vec<u8>, expected: Expected| {
        files.push((name.to_string(), file, expected));
    };
    let positions =
        |positions: [usize; 5]| changed(0, |round| round.institutes[0].positions = positions);
    let most = [204, 205, 205, 205, 205];
    add("positions-1024", positions(most), Passes);
    add("positions-1025", positions([205; 5]), refused(6, 12));
    let wrapping = [65_535, 1, 0, 0, 0];
    add("positions-sum-65536", positions(wrapping), refused(6, 12));
    let reserved = |reserved: [usize; 2]| {
        changed(2, |round| {
            round.institutes[0].positions[4] = 3;
            round.institutes[0].reserved[4] = reserved.to_vec();
        })
    };
    add("reserved-all", reserved([1, 2]), Passes);
    add("reserved-one-more", reserved([2, 2]), refused(7, 12));
    let wrapping = [32_768, 32_768];
    add("reserved-sum-65536", reserved(wrapping), refused(7, 12));
    let marked = |types: usize, code: u8, marks: u8| {
        changed(types, |round| {
            round.candidates[0].code = code;
            round.candidates[0].marks = marks;
        })
    };
    add("code-4", marked(0, 4, 0), Passes);
    add("code-5", marked(0, 5, 0), refused(8, 26));
    add("mark-type-3-of-3", marked(3, 0, 0b111), Passes);
    add("mark-type-4-of-3", marked(3, 0, 0b1000), refused(8, 56));
    add("marks-all-of-8", marked(8, 0, 255), Passes);
    add("merit-0", plain_with(39, 0), refused(11, 35));
    add("merit-2-of-1", plain_with(39, 2), refused(11, 35));
    let same = |list: Vec<usize>| {
        changed(0, |round| {
            round.candidates.push(plain_candidate());
            round.merit[0] = list.clone();
        })
    };
    add("merit-same", same(vec![1, 1]), refused(12, 44));
    add("merit-same-then-wrong", same(vec![8, 8]), refused(11, 44));
    files
}

/// Institutes of one and of two bytes in the rows.
fn of_rows() -> Files {
    let mut files = Files::new();
    for m in [1, 44, 255, 256, 257, 300, 999, 1000] {
        for institute in [0, 1, 44, 255, 256, 257, 300, 512, 999, 1000, 1001, 65_535] {
            let expected = if (1..=m).contains(&institute) {
                Passes
            } else {
                refused(9, behind(m))
            };
            let name = format!("entry-institute-{institute}-of-{m}");
            files.push((name, listing(m, &[(institute, OPEN)]), expected));
        }
    }
    let mut add = |name: &str, m: usize, row: &[(usize, u8)], number: u8| {
        let expected = match number {
            0 => Passes,
            _ => refused(number, behind(m)),
        };
        files.push((name.to_string(), listing(m, row), expected));
    };
    add("entry-own", 300, &[(300, 2), (300, 0)], 0);
    add("entry-code-of-others", 300, &[(300, 3)], 9);
    add("entry-code-1", 300, &[(300, 2), (44, 1)], 9);
    add("entries-256-apart", 513, &[(1, 0), (257, 0), (513, 0)], 0);
    add(
        "entries-low-byte-0",
        768,
        &[(256, 0), (512, 0), (768, 0)],
        0,
    );
    add("entries-bytes-turned", 513, &[(258, 0), (513, 0)], 0);
    add("entries-same", 300, &[(300, 0), (44, 0), (300, 0)], 10);
    add("entries-same-own", 300, &[(44, 2), (300, 2), (44, 2)], 10);
    add(
        "entries-same-then-wrong",
        300,
        &[(300, 0), (300, 0), (301, 0)],
        9,
    );
    files
}

/// The longest files, and those about the most bytes that the program reads.
fn of_sizes() -> Files {
    let longest = lawful(Class::WideMaximal, 1);
    let more = [&longest[..], &[0]].concat();
    let mut cut = longest.clone();
    cut.pop();
    let last = LONGEST_WIDE_WITHOUT_STEPS - 4 - 2 * 512;
    let mut files: Files = [65_535, 65_536, 65_537]
        .into_iter()
        .map(|bytes| (format!("{bytes}-bytes"), of_bytes(bytes), Passes))
        .collect();
    files.extend([
        ("longest".to_string(), longest, Passes),
        (
            "longest-and-1-more".to_string(),
            more,
            refused(13, LONGEST_WIDE_WITHOUT_STEPS),
        ),
        ("longest-but-1".to_string(), cut, refused(4, last)),
    ]);
    files
}

/// All boundary files of the wide form with their names, and what each is expected to give whatever its length.
pub fn wide_boundary() -> Vec<(String, Vec<u8>, Expected)> {
    [
        of_a(),
        of_heads(),
        of_kinds(),
        of_lengths(),
        of_numbers(),
        of_rows(),
        of_sizes(),
    ]
    .concat()
}
