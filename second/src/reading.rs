//! Reading a round file: questions 1 to 13, put to each record in file order.

use crate::form::Form;
use crate::steps::{step_bytes, ListedStep, LISTED, MOST_STEPS};

/// The number of bytes of the longest lawful file of the narrow form.
pub const LONGEST: usize = 60_172;

/// The number of bytes of the longest lawful file of either form.
pub const LONGEST_WIDE: usize = 1_299_660;

/// The number of bytes of the longest lawful file of the narrow form under policies 0 and 1.
pub const LONGEST_WITHOUT_STEPS: usize = 55_372;

/// The number of bytes of the longest lawful file of either form under policies 0 and 1.
pub const LONGEST_WIDE_WITHOUT_STEPS: usize = 1_149_660;

/// The most positions of an institute.
const MOST_POSITIONS: usize = 1024;

/// The most candidates of a round.
pub const MOST_CANDIDATES: usize = 512;

/// The category code of open.
pub const OPEN: u8 = 0;

/// The category code of OBC.
pub const OBC: u8 = 3;

/// An institute, counted from 0, together with a category code.
#[derive(Clone, Copy, Debug, PartialEq, Eq, PartialOrd, Ord, Hash)]
pub struct Entry {
    pub institute: usize,
    pub category: u8,
}

/// What an institute's record says: under policies 0 and 1 the positions for each category code, in all and reserved for each type, under policy 2 the steps of its list; the others are empty.
#[derive(Clone, Debug, Default, PartialEq, Eq)]
pub struct Institute {
    pub positions: [usize; 5],
    pub reserved: [Vec<usize>; 5],
    pub steps: Vec<ListedStep>,
}

/// A candidate's code, marks and row of entries, best first.
#[derive(Clone, Debug, PartialEq, Eq)]
pub struct Candidate {
    pub code: u8,
    pub marks: u8,
    pub row: Vec<Entry>,
}

/// What a round file says, in either form; the merit lists hold candidates counted from 0, best first.
#[derive(Clone, Debug, PartialEq, Eq)]
pub struct Round {
    pub form: Form,
    pub types: usize,
    pub policy: u16,
    pub institutes: Vec<Institute>,
    pub candidates: Vec<Candidate>,
    pub merit: Vec<Vec<usize>>,
}

/// The number of the question that was answered no, and the byte it stands at.
#[derive(Clone, Copy, Debug, PartialEq, Eq)]
pub struct Refusal {
    pub number: u8,
    pub offset: usize,
}

/// The file and the place of the next record in it.
struct Reader<'a> {
    file: &'a [u8],
    at: usize,
}

/// A record's kind and body, and the offset of the record's first byte.
struct Record<'a> {
    kind: usize,
    body: &'a [u8],
    offset: usize,
}

impl Record<'_> {
    /// Goes on where the question is answered yes, else refuses with its number at this record.
    fn ask(&self, number: u8, yes: bool) -> Result<(), Refusal> {
        ask(number, self.offset, yes)
    }

    /// The two-byte numbers of the body.
    fn numbers(&self) -> Vec<usize> {
        self.body
            .chunks_exact(2)
            .map(|pair| two_bytes(pair, 0))
            .collect()
    }
}

/// Goes on where the question is answered yes, else refuses with its number at the offset.
fn ask(number: u8, offset: usize, yes: bool) -> Result<(), Refusal> {
    if yes {
        Ok(())
    } else {
        Err(Refusal { number, offset })
    }
}

/// The unsigned little-endian number in the two bytes at a place.
fn two_bytes(bytes: &[u8], at: usize) -> usize {
    usize::from(bytes[at]) + 256 * usize::from(bytes[at + 1])
}

/// Whether no value stands twice in the list.
fn all_different<T: PartialEq>(list: &[T]) -> bool {
    (0..list.len()).all(|here| !list[..here].contains(&list[here]))
}

impl<'a> Reader<'a> {
    /// Puts questions 1 to 4 to the record at this place and moves behind it.
    fn record(
        &mut self,
        due: impl Fn(usize) -> bool,
        allowed: impl Fn(usize) -> bool,
    ) -> Result<Record<'a>, Refusal> {
        let offset = self.at;
        let rest = &self.file[offset..];
        ask(1, offset, rest.len() >= 4)?;
        let (length, kind) = (two_bytes(rest, 0), two_bytes(rest, 2));
        ask(2, offset, due(kind))?;
        ask(3, offset, allowed(length))?;
        ask(4, offset, rest.len() - 4 >= length)?;
        self.at = offset + 4 + length;
        Ok(Record {
            kind,
            body: &rest[4..4 + length],
            offset,
        })
    }
}

/// Reads a whole file, or tells the first question that was answered no.
pub fn read(file: &[u8]) -> Result<Round, Refusal> {
    let mut reader = Reader { file, at: 0 };

    let head = reader.record(|kind| Form::told(kind).is_some(), |length| length == 8)?;
    let form = Form::told(head.kind).expect("a kind that was due");
    let numbers = head.numbers();
    let (n, m, types, policy) = (numbers[0], numbers[1], numbers[2], numbers[3]);
    let in_range = (1..=MOST_CANDIDATES).contains(&n)
        && (1..=form.most_institutes()).contains(&m)
        && types <= 8
        && policy <= usize::from(LISTED);
    head.ask(5, in_range)?;

    let mut institutes = Vec::new();
    for _ in 0..m {
        institutes.push(match policy as u16 {
            LISTED => read_steps(&mut reader, types)?,
            _ => read_institute(&mut reader, types)?,
        });
    }
    let mut candidates = Vec::new();
    for _ in 0..n {
        candidates.push(read_candidate(&mut reader, form, m, types)?);
    }
    let mut merit = Vec::new();
    for _ in 0..m {
        merit.push(read_merit(&mut reader, n)?);
    }
    ask(13, reader.at, reader.at == file.len())?;
    Ok(Round {
        form,
        types,
        policy: policy as u16,
        institutes,
        candidates,
        merit,
    })
}

/// Reads one institute's record.
fn read_institute(reader: &mut Reader, types: usize) -> Result<Institute, Refusal> {
    let record = reader.record(|kind| kind == 2, |length| length == 10 + 10 * types)?;
    let numbers = record.numbers();
    let mut institute = Institute::default();
    for (category, part) in numbers.chunks_exact(1 + types).enumerate() {
        institute.positions[category] = part[0];
        institute.reserved[category] = part[1..].to_vec();
    }
    let positions = institute.positions.iter();
    record.ask(6, positions.sum::<usize>() <= MOST_POSITIONS)?;
    let enough = (0..5).all(|category| {
        institute.reserved[category].iter().sum::<usize>() <= institute.positions[category]
    });
    record.ask(7, enough)?;
    Ok(institute)
}

/// Reads one institute's record under policy 2.
fn read_steps(reader: &mut Reader, types: usize) -> Result<Institute, Refusal> {
    let width = step_bytes(types);
    let record = reader.record(
        |kind| kind == 7,
        |length| (1..=MOST_STEPS).any(|steps| length == steps * width),
    )?;
    let steps: Vec<ListedStep> = record.body.chunks_exact(width).map(step_in).collect();
    let own = steps.iter().map(|step| step.positions);
    record.ask(6, own.sum::<usize>() <= MOST_POSITIONS)?;
    let enough = |step: &ListedStep| step.reserved.iter().sum::<usize>() <= step.positions;
    record.ask(7, steps.iter().all(enough))?;
    record.ask(17, steps.iter().all(|step| step.category <= 4))?;
    let later = |(place, step): (usize, &ListedStep)| {
        step.receiver == 0 || (place + 2..=steps.len()).contains(&usize::from(step.receiver))
    };
    record.ask(18, steps.iter().enumerate().all(later))?;
    Ok(Institute {
        steps,
        ..Institute::default()
    })
}

/// The step that the bytes of a list say: category, receiver, positions and reserved ones.
fn step_in(bytes: &[u8]) -> ListedStep {
    let number = |at: usize| two_bytes(bytes, at);
    ListedStep {
        category: bytes[0],
        receiver: bytes[1],
        positions: number(2),
        reserved: (4..bytes.len()).step_by(2).map(number).collect(),
    }
}

/// Reads one candidate's record.
fn read_candidate(
    reader: &mut Reader,
    form: Form,
    m: usize,
    types: usize,
) -> Result<Candidate, Refusal> {
    let record = reader.record(
        |kind| kind == form.candidate(),
        |length| form.allows(length),
    )?;
    let (code, marks) = (record.body[0], record.body[1]);
    let entries: Vec<&[u8]> = record.body[2..].chunks_exact(form.entry_bytes()).collect();
    let institute = |entry: &[u8]| form.institute(entry);
    let category = |entry: &[u8]| entry[form.institute_bytes()];
    record.ask(8, code <= 4 && usize::from(marks) < 1 << types)?;
    let lawful = entries.iter().all(|entry| {
        (1..=m).contains(&institute(entry)) && [OPEN, code].contains(&category(entry))
    });
    record.ask(9, lawful)?;
    record.ask(10, all_different(&entries))?;
    let row = entries
        .iter()
        .map(|entry| Entry {
            institute: institute(entry) - 1,
            category: category(entry),
        })
        .collect();
    Ok(Candidate { code, marks, row })
}

/// Reads one merit list's record.
fn read_merit(reader: &mut Reader, n: usize) -> Result<Vec<usize>, Refusal> {
    let record = reader.record(
        |kind| kind == 4,
        |length| length <= 2 * n && length % 2 == 0,
    )?;
    let numbers = record.numbers();
    record.ask(11, numbers.iter().all(|number| (1..=n).contains(number)))?;
    record.ask(12, all_different(&numbers))?;
    Ok(numbers.iter().map(|number| number - 1).collect())
}
