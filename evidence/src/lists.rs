//! Lists to review, each made for a round file.

use crate::numbered::Numbered;
use crate::sort::Sort;
use crate::tally::Came;
use second::choice::{Document, Offer, Rule};
use second::form::Form;
use second::list::{listed, said};
use second::random::Random;
use second::reading::{Entry, Round, OPEN};
use second::review::list_bytes;
use second::steps::MOST_STEPS;
use tazbilk::{allot, Answer, Judgement, ANSWER_MOST, WORK_MOST};

/// A class of lists.
#[derive(Clone, Copy, Debug, PartialEq, Eq)]
pub enum Listed {
    /// The unit's own.
    Own,
    /// The unit's own with one to three seats changed.
    Seats,
    /// The unit's own with one to three steps changed.
    Steps,
    /// The unit's own with one to three bytes changed.
    Bytes,
    /// Seats that stand for entries of the rows, some of them with another step.
    Rows,
    /// Seats that the institutes give when they choose from entries of the rows.
    Given,
    /// Random institutes and steps.
    Random,
    /// Under policy 0, given ones with step 6 for one to three open entries.
    Six,
    /// With lists of steps, the unit's own with one to three steps that the institute does not list.
    Unlisted,
    /// With lists of steps, the unit's own with one to three steps changed to others of the same category.
    Same,
    /// Of the wide form, the unit's own with one to three last bytes changed, also those of 0 0.
    Last,
    /// Of the wide form, the unit's own with one to three institutes 256 numbers or more on or back.
    Apart,
}

impl Listed {
    /// The classes of all sorts.
    pub const EVERYWHERE: [Listed; 7] = [
        Listed::Own,
        Listed::Seats,
        Listed::Steps,
        Listed::Bytes,
        Listed::Rows,
        Listed::Given,
        Listed::Random,
    ];

    /// All classes of a sort.
    pub fn all(sort: Sort) -> Vec<Listed> {
        let of_steps: &[Listed] = match sort.own_steps {
            false => &[Listed::Six],
            true => &[Listed::Unlisted, Listed::Same],
        };
        let of_form: &[Listed] = match sort.form {
            Form::Narrow => &[],
            Form::Wide => &[Listed::Last, Listed::Apart],
        };
        [&Listed::EVERYWHERE, of_steps, of_form].concat()
    }

    /// What some lists of the class come to.
    pub fn due(self) -> &'static [Came] {
        match self {
            Listed::Own => &[Came::Accepted],
            Listed::Seats | Listed::Rows => &[Came::Accepted, Came::Seat, Came::Entry],
            Listed::Given => &[Came::Accepted, Came::Entry],
            Listed::Steps | Listed::Bytes | Listed::Random | Listed::Six => &[Came::Seat],
            Listed::Unlisted | Listed::Same | Listed::Last | Listed::Apart => &[Came::Seat],
        }
    }

    /// The name of the class.
    pub fn name(self) -> &'static str {
        match self {
            Listed::Own => "review, own",
            Listed::Seats => "review, seats changed",
            Listed::Steps => "review, steps changed",
            Listed::Bytes => "review, bytes changed",
            Listed::Rows => "review, of the rows",
            Listed::Given => "review, given",
            Listed::Random => "review, random",
            Listed::Six => "review, 6 of policy 0",
            Listed::Unlisted => "review, unlisted steps",
            Listed::Same => "review, same category",
            Listed::Last => "review, last bytes",
            Listed::Apart => "review, 256 apart",
        }
    }

    /// The round file that a list of this class is for, made of a lawful one.
    pub fn file(self, mut file: Vec<u8>) -> Vec<u8> {
        if self == Listed::Six {
            file[10] = 0;
        }
        file
    }

    /// A list for a round that was read from a file.
    pub fn list(self, random: &mut Random, round: &Round, file: &[u8]) -> Vec<u8> {
        let (n, steps) = (round.candidates.len(), &Numbered::of(round));
        let step_at = round.form.institute_bytes();
        match self {
            Listed::Own => own(file),
            Listed::Seats => changed(random, file, |random, list| {
                let candidate = random.from_to(0, n - 1);
                let seat = some_seat(random, round, steps, candidate);
                put(round.form, list, candidate, &seat);
            }),
            Listed::Steps => changed(random, file, |random, list| {
                if let Some(seat) = some_seated(random, round.form, list) {
                    seat[step_at] = some_step(random, steps.count(round.form.institute(seat)));
                }
            }),
            Listed::Bytes => changed(random, file, |random, list| {
                let at = random.from_to(0, list.len() - 1);
                let any = random.bits() as u8;
                list[at] = random.pick(&[any, list[at] ^ 1 << (any % 8)]);
            }),
            Listed::Rows => {
                let wrong = random.pick(&[3, 30, 300, 3_000]);
                of_rows(random, round, steps, wrong)
            }
            Listed::Given => {
                let mut list = of_rows(random, round, steps, usize::MAX);
                for institute in 0..round.institutes.len() {
                    settle(round, &mut list, institute, None);
                }
                list
            }
            Listed::Random => at_random(random, round, steps),
            Listed::Six => {
                let given = Listed::Given.list(random, round, file);
                six(random, round, given)
            }
            Listed::Unlisted => changed(random, file, |random, list| {
                if let Some(seat) = some_seated(random, round.form, list) {
                    let count = steps.count(round.form.institute(seat));
                    let any = random.from_to(count + 1, 255);
                    seat[step_at] = random.pick(&[count + 1, MOST_STEPS + 1, any]) as u8;
                }
            }),
            Listed::Same => changed(random, file, |random, list| {
                if let Some(seat) = some_seated(random, round.form, list) {
                    let others = steps.like(round.form.institute(seat), seat[step_at]);
                    if !others.is_empty() {
                        seat[step_at] = random.pick(&others);
                    }
                }
            }),
            Listed::Last => changed(random, file, |random, list| {
                let width = round.form.seat_bytes();
                let last = width * random.from_to(1, n) - 1;
                let any = random.from_to(1, 255) as u8;
                list[last] = random.pick(&[any, 1, 255]);
            }),
            Listed::Apart => changed(random, file, |random, list| {
                if let Some(seat) = some_seated(random, round.form, list) {
                    let high = random.from_to(0, 255) as u8;
                    seat[1] = random.pick(&[seat[1] ^ 1, seat[1] ^ 2, high]);
                }
            }),
        }
    }
}

/// The unit's own list; none of its bytes where the file is refused.
pub fn own(file: &[u8]) -> Vec<u8> {
    let (mut answer, mut work) = ([0; ANSWER_MOST], [0; WORK_MOST]);
    match allot(file, &mut answer, &mut work) {
        Answer::Allotted { .. } => answer[..form(file).seat_bytes() * candidates(file)].to_vec(),
        Answer::Refused(_) => Vec::new(),
    }
}

/// The number of candidates that the head of a file tells.
pub fn candidates(file: &[u8]) -> usize {
    usize::from(u16::from_le_bytes([file[4], file[5]]))
}

/// The form that the head of a file tells.
pub fn form(file: &[u8]) -> Form {
    let kind = u16::from_le_bytes([file[2], file[3]]);
    Form::told(usize::from(kind)).unwrap_or(Form::Narrow)
}

/// The unit's own list after one to three changes.
fn changed(
    random: &mut Random,
    file: &[u8],
    mut change: impl FnMut(&mut Random, &mut [u8]),
) -> Vec<u8> {
    let mut list = own(file);
    let changes = random.from_to(1, 3);
    for _ in 0..if list.is_empty() { 0 } else { changes } {
        change(random, &mut list);
    }
    list
}

/// The bytes of an institute, counted from 1, and a step in a form.
fn pair(form: Form, institute: usize, step: u8) -> Vec<u8> {
    let mut bytes = form.number(institute);
    bytes.push(step);
    bytes.resize(form.seat_bytes(), 0);
    bytes
}

/// Puts the bytes of a seat, or of none, to a candidate.
fn put(form: Form, list: &mut [u8], candidate: usize, seat: &[u8]) {
    let width = form.seat_bytes();
    list[width * candidate..width * (candidate + 1)].copy_from_slice(seat);
}

/// The bytes of a seat of the list, the first one from some candidate on, where there is any.
fn some_seated<'a>(random: &mut Random, form: Form, list: &'a mut [u8]) -> Option<&'a mut [u8]> {
    let width = form.seat_bytes();
    let n = list.len() / width;
    let first = random.from_to(0, n - 1);
    let found = (0..n)
        .map(|on| width * ((first + on) % n))
        .find(|&at| form.institute(&list[at..]) > 0)?;
    Some(&mut list[found..found + width])
}

/// A seat that stands for an entry, most often at the first step of its category; at step 1 where no step has it.
fn seat_of(random: &mut Random, form: Form, steps: &Numbered, entry: Entry) -> Vec<u8> {
    let step = match steps.of_entry(entry)[..] {
        [] => 1,
        [only] => only,
        [first, ref others @ ..] => random.pick(&[&[first; 3], others].concat()),
    };
    pair(form, entry.institute + 1, step)
}

/// A step, most often one of so many that there are.
fn some_step(random: &mut Random, count: usize) -> u8 {
    let (step, any) = (random.from_to(1, count), random.bits() as usize);
    random.pick(&[step, step, step, step, step, any, 0, count + 1]) as u8
}

/// A seat that stands for an entry of the row, another one, none, or what is no seat.
fn some_seat(random: &mut Random, round: &Round, steps: &Numbered, candidate: usize) -> Vec<u8> {
    let (form, row) = (round.form, &round.candidates[candidate].row);
    let institute = random.from_to(1, round.institutes.len());
    let count = steps.count(institute);
    match random.from_to(0, 9) {
        0..=4 if !row.is_empty() => {
            let entry = random.pick(row);
            seat_of(random, form, steps, entry)
        }
        5..=6 => pair(form, institute, random.from_to(1, count) as u8),
        7 => {
            let more = round.institutes.len() + 1;
            let no_seats = [
                (0, 1),
                (institute, 0),
                (institute, count as u8 + 1),
                (more, 1),
                (65_535, 255),
            ];
            let (institute, step) = random.pick(&no_seats);
            pair(form, institute, step)
        }
        _ => pair(form, 0, 0),
    }
}

/// A list of entries of the rows, in one of so many cases with another step; some have no seat.
fn of_rows(random: &mut Random, round: &Round, steps: &Numbered, wrong: usize) -> Vec<u8> {
    let none = random.pick(&[2, 4, 1_000]);
    let mut list = vec![0; list_bytes(round)];
    for (candidate, own) in round.candidates.iter().enumerate() {
        if own.row.is_empty() || random.one_in(none) {
            continue;
        }
        let entry = random.pick(&own.row);
        let mut seat = seat_of(random, round.form, steps, entry);
        if random.one_in(wrong) {
            let count = steps.count(entry.institute + 1);
            seat[round.form.institute_bytes()] = some_step(random, count);
        }
        put(round.form, &mut list, candidate, &seat);
    }
    list
}

/// A list of institutes and steps up to one too many, of any bytes, or with few seats.
fn at_random(random: &mut Random, round: &Round, steps: &Numbered) -> Vec<u8> {
    let (institutes, sparse) = (round.institutes.len(), random.pick(&[1, 1, 8, 64]));
    let all = random.one_in(4);
    let mut list = vec![0; list_bytes(round)];
    for seat in list.chunks_exact_mut(round.form.seat_bytes()) {
        if all {
            let bytes = random.bits().to_le_bytes();
            seat.copy_from_slice(&bytes[..seat.len()]);
        } else if random.one_in(sparse) {
            let institute = random.from_to(0, institutes + 1);
            let step = random.from_to(0, steps.count(institute) + 1) as u8;
            seat.copy_from_slice(&pair(round.form, institute, step));
        }
    }
    list
}

/// The list with step 6, at an open entry of the row, for one to three candidates who have one.
fn six(random: &mut Random, round: &Round, mut list: Vec<u8>) -> Vec<u8> {
    for _ in 0..random.from_to(1, 3) {
        let candidate = random.from_to(0, round.candidates.len() - 1);
        let open: Vec<Entry> = (round.candidates[candidate].row.iter().copied())
            .filter(|entry| entry.category == OPEN)
            .collect();
        if !open.is_empty() {
            let seat = pair(round.form, random.pick(&open).institute + 1, 6);
            put(round.form, &mut list, candidate, &seat);
        }
    }
    list
}

/// Lets an institute choose from its listed seats that are in their rows, and one offer more, and puts what it gives.
fn settle(round: &Round, list: &mut [u8], institute: usize, added: Option<Offer>) {
    let mut offers = listed(round, &said(round, list)).swap_remove(institute);
    offers.extend(added);
    let number = institute + 1;
    for seat in list.chunks_exact_mut(round.form.seat_bytes()) {
        if round.form.institute(seat) == number {
            seat.fill(0);
        }
    }
    for taken in Document.choose(round, institute, &offers) {
        let seat = pair(round.form, number, taken.step);
        put(round.form, list, taken.offer.candidate, &seat);
    }
}

/// Does what a board would do about a finding: the institute of a wrong seat gives its seats anew, and that of a better entry with this entry; whether there was a finding.
pub fn mend(round: &Round, list: &mut [u8], found: &Judgement) -> bool {
    match *found {
        Judgement::WrongSeat { candidate } => {
            let at = round.form.seat_bytes() * (candidate - 1);
            let institute = round.form.institute(&list[at..]);
            settle(round, list, institute - 1, None);
            true
        }
        Judgement::BetterEntry {
            candidate,
            institute,
            code,
        } => {
            let added = Offer {
                candidate: candidate - 1,
                category: code as u8,
            };
            settle(round, list, institute - 1, Some(added));
            true
        }
        Judgement::Passes | Judgement::Refused(_) => false,
    }
}

/// What is listed for one candidate in every list of a round: institutes and steps up to one too many, and in the wide form also no seat and seats with another last byte or the institute's high byte changed.
fn every_pair(round: &Round, steps: &Numbered) -> Vec<Vec<u8>> {
    let mut pairs: Vec<Vec<u8>> = (0..round.institutes.len() + 2)
        .flat_map(|institute| {
            let past = steps.count(institute) as u8 + 2;
            (0..past).map(move |step| (institute, step))
        })
        .map(|(institute, step)| pair(round.form, institute, step))
        .collect();
    if round.form == Form::Wide {
        pairs.extend([[0, 0, 0, 1], [1, 0, 1, 1], [1, 0, 4, 255], [1, 1, 1, 0]].map(Vec::from));
    }
    pairs
}

/// As many lists of a round are made at most.
const EVERY_MOST: usize = 40_000;

/// Every list of a round over such pairs; none where they are too many.
pub fn every(round: &Round) -> impl Iterator<Item = Vec<u8>> {
    let (n, pairs) = (
        round.candidates.len(),
        every_pair(round, &Numbered::of(round)),
    );
    let all = pairs.len().pow(n as u32);
    (0..if all <= EVERY_MOST { all } else { 0 }).map(move |mut number| {
        let mut list = Vec::new();
        for _ in 0..n {
            list.extend(&pairs[number % pairs.len()]);
            number /= pairs.len();
        }
        list
    })
}
