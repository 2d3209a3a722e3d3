//! Damaged files: each is a lawful file changed so that a known question is the first answered no.

use super::lawful::{lawful_round, Class};
use crate::form::Form;
use crate::random::Random;
use crate::reading::{Candidate, Entry, Round, MOST_CANDIDATES, OPEN};
use crate::steps::{step_bytes, LISTED, MOST_STEPS};
use crate::writing::records;

/// The questions that files without step lists are damaged for.
pub const QUESTIONS: [u8; 13] = [1, 2, 3, 4, 5, 6, 7, 8, 9, 10, 11, 12, 13];

/// The questions that files with step lists are damaged for.
pub const STEPS_QUESTIONS: [u8; 15] = [1, 2, 3, 4, 5, 6, 7, 17, 18, 8, 9, 10, 11, 12, 13];

/// A damaged file with the refusal it was made for.
#[derive(Clone, Debug, PartialEq, Eq)]
pub struct Damaged {
    pub file: Vec<u8>,
    pub number: u8,
    pub offset: usize,
}

/// Which files are damaged: those of a form, with step lists or without.
#[derive(Clone, Copy)]
struct Files {
    form: Form,
    lists: bool,
}

/// Narrow files without step lists.
const NARROW: Files = Files {
    form: Form::Narrow,
    lists: false,
};

/// Wide files without step lists.
const WIDE: Files = Files {
    form: Form::Wide,
    lists: false,
};

/// Narrow files with step lists.
const STEPS: Files = Files {
    form: Form::Narrow,
    lists: true,
};

/// Wide files with step lists.
const WIDE_STEPS: Files = Files {
    form: Form::Wide,
    lists: true,
};

/// A class of such files.
fn some_class(random: &mut Random, files: Files) -> Class {
    let [narrow, small, many] = match files.lists {
        false => [Class::Small, Class::WideSmall, Class::WideMany],
        true => [
            Class::StepsSmall,
            Class::WideStepsSmall,
            Class::WideStepsMany,
        ],
    };
    match files.form {
        Form::Narrow => narrow,
        Form::Wide => random.pick(&[small, small, many]),
    }
}

/// A round with something to damage in each record: 1 to 7 types, rows of at least two entries, whole merit lists of at least two candidates.
fn base(random: &mut Random, files: Files) -> Round {
    loop {
        let class = some_class(random, files);
        let mut round = lawful_round(class, random.bits());
        let n = round.candidates.len();
        if n < 2 || !(1..=7).contains(&round.types) {
            continue;
        }
        for candidate in &mut round.candidates {
            lengthen(candidate);
        }
        for list in &mut round.merit {
            *list = (0..n).collect();
            random.shuffle(list);
        }
        return round;
    }
}

/// Gives a candidate a row of at least two entries, by code 1 at institute 1 where there are fewer.
fn lengthen(candidate: &mut Candidate) {
    if candidate.row.len() < 2 {
        candidate.code = 1;
        candidate.row = [OPEN, 1]
            .map(|category| Entry {
                institute: 0,
                category,
            })
            .to_vec();
    }
}

/// The kind of the record at a place of the file order.
fn kind_at(round: &Round, place: usize) -> usize {
    let m = round.institutes.len();
    match place {
        0 => round.form.head(),
        _ if place <= m => institute_kind(round),
        _ if place <= m + round.candidates.len() => round.form.candidate(),
        _ => 4,
    }
}

/// The kind of an institute's record.
fn institute_kind(round: &Round) -> usize {
    match round.policy {
        LISTED => 7,
        _ => 2,
    }
}

/// Writes a two-byte number at a place.
fn put(bytes: &mut [u8], at: usize, number: usize) {
    bytes[at..at + 2].copy_from_slice(&(number as u16).to_le_bytes());
}

/// The two-byte number at a place.
fn get(bytes: &[u8], at: usize) -> usize {
    usize::from(bytes[at]) + 256 * usize::from(bytes[at + 1])
}

/// The kind of record that a question is put to, where it is only one kind.
fn kind_asked(round: &Round, number: u8) -> Option<usize> {
    match number {
        5 => Some(round.form.head()),
        6 | 7 => Some(institute_kind(round)),
        17 | 18 => Some(7),
        8..=10 => Some(round.form.candidate()),
        11 | 12 => Some(4),
        _ => None,
    }
}

/// Where the positions of each category, or of each step, stand in an institute's record.
fn positions_at(round: &Round, record: &[u8]) -> Vec<usize> {
    let width = step_bytes(round.types);
    match round.policy {
        LISTED => (6..record.len()).step_by(width).collect(),
        _ => (4..record.len()).step_by(width - 2).collect(),
    }
}

/// Damages one record so that a question from 2, 3, 5 to 12, 17 and 18 is the first of its questions answered no.
fn damage(random: &mut Random, round: &Round, record: &mut [u8], number: u8) {
    let n = round.candidates.len();
    let m = round.institutes.len();
    let types = round.types;
    match number {
        2 => damage_kind(random, round, record),
        3 => damage_length(random, round, record),
        5 => {
            let [more, many] = match round.form {
                Form::Narrow => [33, 256],
                Form::Wide => [1001, 1256],
            };
            let (field, value) = random.pick(&[
                (0, 0),
                (0, 513),
                (0, 65_535),
                (1, 0),
                (1, more),
                (1, many),
                (2, 9),
                (2, 65_535),
                (3, 3),
                (3, 256),
            ]);
            put(record, 4 + 2 * field, value);
        }
        6 => {
            let all = positions_at(round, record);
            let own = random.from_to(0, all.len() - 1);
            let others: usize = (0..all.len())
                .filter(|&other| other != own)
                .map(|other| get(record, all[other]))
                .sum();
            // The last of these sums to a small number where sums wrap.
            let wrapping = if others > 0 { 65_536 - others } else { 65_535 };
            let value = random.pick(&[1025 - others, 1026, 65_535, wrapping]);
            put(record, all[own], value);
        }
        7 => {
            let all = positions_at(round, record);
            let start = all[random.from_to(0, all.len() - 1)];
            let held = random.from_to(1, types);
            let others: usize = (1..=types)
                .filter(|&other| other != held)
                .map(|other| get(record, start + 2 * other))
                .sum();
            let positions = get(record, start);
            // The last of these sums to a small number where sums wrap.
            let wrapping = if others > 0 { 65_536 - others } else { 65_535 };
            let value = random.pick(&[positions + 1 - others, positions + 1, 65_535, wrapping]);
            put(record, start + 2 * held, value);
        }
        8 => {
            if random.one_in(2) {
                record[4] = random.from_to(5, 255) as u8;
            } else {
                record[5] |= 1 << random.from_to(types, 7);
            }
        }
        9 => {
            let width = round.form.entry_bytes();
            let entry = 6 + width * random.from_to(0, (record.len() - 6) / width - 1);
            match random.from_to(1, 3) {
                1 => record[entry..entry + width - 1].fill(0),
                2 => damage_institute(random, round.form, m, &mut record[entry..]),
                _ => {
                    let wrong: Vec<u8> = (1..=255).filter(|&code| code != record[4]).collect();
                    record[entry + width - 1] = if random.one_in(2) {
                        wrong[random.from_to(0, 3)]
                    } else {
                        random.pick(&wrong)
                    };
                }
            }
        }
        10 => copy_part(random, record, 6, round.form.entry_bytes()),
        11 => {
            let at = 4 + 2 * random.from_to(0, (record.len() - 4) / 2 - 1);
            let value = random.pick(&[0, n + 1, 65_535]);
            put(record, at, value);
        }
        12 => copy_part(random, record, 4, 2),
        17 => {
            let step = random.pick(&positions_at(round, record)) - 2;
            record[step] = random.pick(&[5, 6, 7, 128, 255]);
        }
        18 => {
            let steps = positions_at(round, record);
            let place = random.from_to(0, steps.len() - 1);
            record[steps[place] - 1] = wrong_receiver(random, place + 1, steps.len());
        }
        _ => unreachable!("this question is not about what one record holds"),
    }
}

/// The number of a step that cannot get the vacancies of a step of this number: itself, an earlier one, or one beyond the list.
fn wrong_receiver(random: &mut Random, number: usize, count: usize) -> u8 {
    let wrong = match random.from_to(1, 4) {
        1 => number,
        2 => random.from_to(1, number),
        3 => count + 1,
        _ => random.from_to(count + 1, 255),
    };
    wrong as u8
}

/// Makes the institute at the start of an entry one of too large a number, in the wide form also one whose low byte stays.
fn damage_institute(random: &mut Random, form: Form, m: usize, entry: &mut [u8]) {
    match form {
        Form::Narrow => entry[0] = random.from_to(m + 1, 255) as u8,
        Form::Wide if random.one_in(2) => put(entry, 0, random.from_to(m + 1, 65_535)),
        Form::Wide => {
            let (low, high) = (usize::from(entry[0]), m / 256 + 1);
            put(entry, 0, low + 256 * random.from_to(high, 255));
        }
    }
}

/// Makes the kind another one.
fn damage_kind(random: &mut Random, round: &Round, record: &mut [u8]) {
    let due = get(record, 2);
    let all: &[usize] = match (round.form, round.policy) {
        (_, LISTED) => &[0, 1, 2, 3, 4, 5, 6, 7, 8],
        (Form::Narrow, _) => &[0, 1, 2, 3, 4, 5],
        (Form::Wide, _) => &[0, 1, 2, 3, 4, 5, 6, 7],
    };
    let others: Vec<usize> = [all, &[due + 256, 65_535]]
        .concat()
        .into_iter()
        .filter(|&kind| kind != due)
        .collect();
    let kind = random.pick(&others);
    put(record, 2, kind);
}

/// Makes the length one the table does not allow.
fn damage_length(random: &mut Random, round: &Round, record: &mut [u8]) {
    let due = get(record, 0);
    let n = round.candidates.len();
    let width = step_bytes(round.types);
    let lengths = match get(record, 2) {
        3 => vec![0, 1, 3, 33, 35, 36, due + 1, 65_535],
        6 => vec![0, 1, 3, 4, 6, 7, 49, 51, 52, 53, due + 1, due + 2, 65_535],
        4 => vec![1, due + 1, 2 * n + 1, 2 * n + 2, 65_535],
        7 => vec![0, 2, width - 2, due - 1, due + 2, (MOST_STEPS + 1) * width],
        _ => vec![0, due - 2, due - 1, due + 1, due + 2, 65_535],
    };
    let length = random.pick(&lengths);
    put(record, 0, length);
}

/// Copies one part over another one of the list of parts of this width that begins at a place.
fn copy_part(random: &mut Random, record: &mut [u8], start: usize, width: usize) {
    let count = (record.len() - start) / width;
    let from = random.from_to(0, count - 1);
    let to = (from + random.from_to(1, count - 1)) % count;
    let part = start + width * from..start + width * (from + 1);
    record.copy_within(part, start + width * to);
}

/// The offset of the record at a place of the file order.
fn offset_of(records: &[Vec<u8>], place: usize) -> usize {
    records[..place].iter().map(Vec::len).sum()
}

/// A place whose record can be asked the question.
fn some_place(random: &mut Random, round: &Round, records: &[Vec<u8>], number: u8) -> usize {
    loop {
        let place = random.from_to(0, records.len() - 1);
        let asked = kind_asked(round, number);
        if asked.is_none() || asked == Some(kind_at(round, place)) {
            return place;
        }
    }
}

/// The refusal of a file whose damaged records have these faults, each a place and a number, the first one first.
fn due(round: &Round, records: &[Vec<u8>], faults: &[(usize, u8)]) -> (u8, usize) {
    let told = Form::told(get(&records[0], 2)).filter(|&told| told != round.form);
    let (place, number) = match told {
        Some(told) => due_under(told, round, &records[0], faults),
        None => faults[0],
    };
    (number, offset_of(records, place))
}

/// The place and number of the refusal where the head tells the other form: a fault of the head or of an institute decides, else the first candidate's record has not the kind due.
fn due_under(told: Form, round: &Round, head: &[u8], faults: &[(usize, u8)]) -> (usize, u8) {
    if faults.contains(&(0, 3)) {
        return (0, 3);
    }
    let [n, m, types, policy] = [4, 6, 8, 10].map(|at| get(head, at));
    let in_range = (1..=MOST_CANDIDATES).contains(&n)
        && (1..=told.most_institutes()).contains(&m)
        && types <= 8
        && policy <= usize::from(LISTED);
    if !in_range {
        return (0, 5);
    }
    let institutes = 1..=round.institutes.len();
    let first = faults.iter().find(|fault| institutes.contains(&fault.0));
    *first.unwrap_or(&(round.institutes.len() + 1, 2))
}

/// A file whose first question answered no is the one with this number, from 1 to 13.
pub fn damaged(number: u8, seed: u64) -> Damaged {
    damaged_in(NARROW, number, seed)
}

/// A wide file whose first question answered no is the one with this number, from 1 to 13; a head that tells the narrow form may make it question 5 for 2.
pub fn wide_damaged(number: u8, seed: u64) -> Damaged {
    damaged_in(WIDE, number, seed)
}

/// A file with step lists whose first question answered no is the one with this number, from 1 to 13, 17 or 18.
pub fn steps_damaged(number: u8, seed: u64) -> Damaged {
    damaged_in(STEPS, number, seed)
}

/// A wide file with step lists whose first question answered no is the one with this number, from 1 to 13, 17 or 18; a head that tells the narrow form may make it question 5 for 2.
pub fn wide_steps_damaged(number: u8, seed: u64) -> Damaged {
    damaged_in(WIDE_STEPS, number, seed)
}

/// One of such files, damaged for a question.
fn damaged_in(files: Files, number: u8, seed: u64) -> Damaged {
    let mut random = Random::new(seed);
    let round = base(&mut random, files);
    let mut records = records(&round);
    let place = some_place(&mut random, &round, &records, number);
    let offset = offset_of(&records, place);
    match number {
        1 | 4 => {
            let length = records[place].len();
            let kept = match number {
                1 => random.from_to(0, 3),
                _ => random.from_to(4, length - 1),
            };
            let file = records.concat()[..offset + kept].to_vec();
            Damaged {
                file,
                number,
                offset,
            }
        }
        13 => {
            let offset = offset_of(&records, records.len());
            let mut file = records.concat();
            for _ in 0..random.from_to(1, 20) {
                file.push(random.from_to(0, 255) as u8);
            }
            Damaged {
                file,
                number,
                offset,
            }
        }
        _ => {
            damage(&mut random, &round, &mut records[place], number);
            let (number, offset) = due(&round, &records, &[(place, number)]);
            Damaged {
                file: records.concat(),
                number,
                offset,
            }
        }
    }
}

/// A file with two faults, in one record or in two; the first decides.
pub fn two_faults(seed: u64) -> Damaged {
    two_faults_in(NARROW, seed)
}

/// A wide file with two faults, in one record or in two; the first decides.
pub fn wide_two_faults(seed: u64) -> Damaged {
    two_faults_in(WIDE, seed)
}

/// A file with step lists and two faults, in one record or in two; the first decides.
pub fn steps_two_faults(seed: u64) -> Damaged {
    two_faults_in(STEPS, seed)
}

/// A wide file with step lists and two faults, in one record or in two; the first decides.
pub fn wide_steps_two_faults(seed: u64) -> Damaged {
    two_faults_in(WIDE_STEPS, seed)
}

/// One of such files with two faults that do not fit together to another form.
fn two_faults_in(files: Files, seed: u64) -> Damaged {
    let form = files.form;
    let mut random = Random::new(seed);
    loop {
        let round = base(&mut random, files);
        let (records, faults) = with_two_faults(&mut random, &round);
        let first = round.institutes.len() + 1;
        let told = Form::told(get(&records[0], 2));
        if told.is_some_and(|told| told != form && get(&records[first], 2) == told.candidate()) {
            continue;
        }
        let (number, offset) = due(&round, &records, &faults);
        return Damaged {
            file: records.concat(),
            number,
            offset,
        };
    }
}

/// The records of a round with two faults, and these, each a place and a number, the first one first.
fn with_two_faults(random: &mut Random, round: &Round) -> (Vec<Vec<u8>>, [(usize, u8); 2]) {
    let mut records = records(round);
    let numbers: &[u8] = match round.policy {
        LISTED => &[2, 3, 5, 6, 7, 8, 9, 10, 11, 12, 6, 7, 17, 18, 17, 18],
        _ => &[2, 3, 5, 6, 7, 8, 9, 10, 11, 12],
    };
    let first = random.pick(numbers);
    let place = some_place(random, round, &records, first);
    let (second, other) = loop {
        let second = random.pick(numbers);
        let other = if random.one_in(2) {
            place
        } else {
            some_place(random, round, &records, second)
        };
        let asked = kind_asked(round, second);
        let fits = asked.is_none() || asked == Some(kind_at(round, other));
        if fits && (second, other) != (first, place) {
            break (second, other);
        }
    };
    let mut faults = [(place, first), (other, second)];
    faults.sort();
    // The later fault is made first, so that the earlier one is there in the end.
    for (at, number) in [faults[1], faults[0]] {
        damage(random, round, &mut records[at], number);
    }
    (records, faults)
}
