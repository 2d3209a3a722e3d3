//! The files that the unit and the second program are put to, each made from a class and a seed.

use crate::faults;
use crate::shapes;
use crate::some_steps::with_some_lists;
use crate::sort::Sort;
use crate::steps::{relisted, with_lists};
use second::form::Form;
use second::generate::{boundary, steps_boundary, wide_boundary};
use second::generate::{damaged, steps_damaged, wide_damaged, wide_steps_damaged};
use second::generate::{lawful, Class};
use second::generate::{steps_two_faults, two_faults, wide_steps_two_faults, wide_two_faults};
use second::random::Random;
use second::reading::{read, LONGEST, LONGEST_WIDE, OBC, OPEN};
use second::reading::{LONGEST_WIDE_WITHOUT_STEPS, LONGEST_WITHOUT_STEPS};
use second::steps::ListedStep;
use second::widening::widened;
use second::writing::write;

/// The bytes of file A.
pub const A: &[u8] = include_bytes!("../../rounds/a.round");

/// A narrow file of policy 0 or 1 in a form.
pub fn in_form(form: Form, file: &[u8]) -> Vec<u8> {
    match form {
        Form::Narrow => file.to_vec(),
        Form::Wide => widened(file),
    }
}

/// A narrow file of policy 0 or 1 in a sort, with lists of steps that say what the policy says.
pub fn in_sort(sort: Sort, file: &[u8]) -> Vec<u8> {
    let file = in_form(sort.form, file);
    if sort.own_steps {
        relisted(&file)
    } else {
        file
    }
}

/// A step with this category, receiver, positions, and those reserved for the one type.
fn step(category: u8, receiver: u8, positions: usize, reserved: usize) -> ListedStep {
    ListedStep {
        category,
        receiver,
        positions,
        reserved: vec![reserved],
    }
}

/// File A in a sort; with lists of steps, open and OBC hand their vacancies to a second open step, which hands on to a third, as EWS does.
pub fn a(sort: Sort) -> Vec<u8> {
    let file = in_form(sort.form, A);
    match read(&file) {
        Ok(round) if sort.own_steps => write(&with_lists(round, |_| {
            vec![
                step(OPEN, 3, 1, 1),
                step(OBC, 3, 1, 0),
                step(OPEN, 5, 0, 0),
                step(4, 5, 1, 0),
                step(OPEN, 0, 0, 0),
            ]
        })),
        _ => file,
    }
}

/// The longest lawful file of a sort.
fn longest(sort: Sort) -> usize {
    match (sort.form, sort.own_steps) {
        (Form::Narrow, false) => LONGEST_WITHOUT_STEPS,
        (Form::Narrow, true) => LONGEST,
        (Form::Wide, false) => LONGEST_WIDE_WITHOUT_STEPS,
        (Form::Wide, true) => LONGEST_WIDE,
    }
}

/// The files at the edge of each question in a sort.
pub fn at_edges(sort: Sort) -> Vec<Vec<u8>> {
    let wide = sort.form == Form::Wide;
    let mut files = match sort.form {
        _ if sort.own_steps => steps_boundary(),
        Form::Narrow => boundary(),
        Form::Wide => wide_boundary(),
    };
    if sort.own_steps {
        files.retain(|(name, _, _)| name.starts_with("wide-") == wide);
    }
    files.into_iter().map(|(_, file, _)| file).collect()
}

/// A class of made files.
#[derive(Clone, Copy, Debug, PartialEq, Eq)]
pub enum Made {
    /// A lawful class of the second program's generator.
    Lawful(Class),
    /// A lawful round of any size and shape.
    Mixed,
    /// A lawful round of many candidates with short rows.
    Broad,
    /// The contested round of so many candidates.
    Contested(usize),
    /// The contested round of 512 candidates with rows of so many entries at most.
    Rows(usize),
    /// A round of so many candidates that is hard on the placing search.
    Worst(usize),
    /// A round of so many candidates with several types each and every position reserved.
    Types(usize),
    /// The round of so many candidates with one row and one merit list.
    Alike(usize),
    /// Files of a class with some list of steps at each institute.
    Steps(&'static Made),
    /// Files of a sort made for one refusal.
    Refused(Sort, u8),
    /// Files of a sort with two faults.
    TwoFaults(Sort),
    /// Files of a form with lists of steps and two or three faults, most of them at one institute.
    Faults(Form),
    /// Lawful files of a sort with random bytes changed, cut off, put in or added.
    Torn(Sort),
}

impl Made {
    /// The name of the class.
    pub fn name(self) -> String {
        match self {
            Made::Lawful(class) => class.name().to_string(),
            Made::Mixed => "mixed".to_string(),
            Made::Broad => "broad".to_string(),
            Made::Contested(n) => format!("contested-{n}"),
            Made::Rows(entries) => format!("rows-{entries}"),
            Made::Worst(n) => format!("worst-{n}"),
            Made::Types(n) => format!("types-{n}"),
            Made::Alike(n) => format!("alike-{n}"),
            Made::Steps(class) => with_steps(&class.name()),
            Made::Refused(sort, number) => sort.of_files(&format!("refused-{number}")),
            Made::TwoFaults(sort) => sort.of_files("two-faults"),
            Made::Faults(form) => Sort::with_steps(form).of_files("faults"),
            Made::Torn(sort) => sort.of_files("torn"),
        }
    }

    /// How many of the first seeds stand for a shape of their own.
    pub fn fixed(self) -> u64 {
        match self {
            Made::Worst(_) => 4,
            Made::Types(_) => 2,
            Made::Steps(class) => class.fixed(),
            _ => 0,
        }
    }

    /// The file of this class for a seed.
    pub fn file(self, seed: u64) -> Vec<u8> {
        match self {
            Made::Lawful(class) => lawful(class, seed),
            Made::Mixed => write(&shapes::mixed(seed)),
            Made::Broad => write(&shapes::broad(seed)),
            Made::Contested(n) => write(&shapes::contested(n, seed)),
            Made::Rows(entries) => write(&shapes::short_rows(512, entries, seed)),
            Made::Worst(n) => write(&shapes::worst(n, seed)),
            Made::Types(n) => write(&shapes::types(n, seed)),
            Made::Alike(n) => write(&shapes::alike(n)),
            Made::Steps(class) => with_some_lists(&mut Random::new(!seed), &class.file(seed)),
            Made::Refused(sort, number) => match (sort.form, sort.own_steps) {
                (Form::Narrow, false) => damaged(number, seed).file,
                (Form::Wide, false) => wide_damaged(number, seed).file,
                (Form::Narrow, true) => steps_damaged(number, seed).file,
                (Form::Wide, true) => wide_steps_damaged(number, seed).file,
            },
            Made::TwoFaults(sort) => match (sort.form, sort.own_steps) {
                (Form::Narrow, false) => two_faults(seed).file,
                (Form::Wide, false) => wide_two_faults(seed).file,
                (Form::Narrow, true) => steps_two_faults(seed).file,
                (Form::Wide, true) => wide_steps_two_faults(seed).file,
            },
            Made::Faults(form) => faults::several(form, seed),
            Made::Torn(sort) => torn(sort, seed),
        }
    }
}

/// The name of a class of files whose institutes get lists of steps.
fn with_steps(name: &str) -> String {
    match name.strip_prefix("wide-") {
        Some(rest) => format!("wide-steps-{rest}"),
        None => format!("steps-{name}"),
    }
}

/// A lawful file of a sort with one to three random bytes changed, cut off, put in, or added.
fn torn(sort: Sort, seed: u64) -> Vec<u8> {
    let mut random = Random::new(seed);
    let [tiny, small, other] = match (sort.form, sort.own_steps) {
        (Form::Narrow, false) => [Class::Tiny, Class::Small, Class::Small],
        (Form::Wide, false) => [Class::WideTiny, Class::WideSmall, Class::WideMany],
        (Form::Narrow, true) => [Class::StepsTiny, Class::StepsSmall, Class::StepsSmall],
        (Form::Wide, true) => [
            Class::WideStepsTiny,
            Class::WideStepsSmall,
            Class::WideStepsMany,
        ],
    };
    let class = random.pick(&[tiny, tiny, small, other]);
    let mut file = lawful(class, random.bits());
    for _ in 0..random.from_to(1, 3) {
        let at = random.from_to(0, file.len().max(1) - 1);
        match random.from_to(0, 9) {
            0 => file.truncate(at),
            1 => file.insert(at, random.bits() as u8),
            2 if !file.is_empty() => drop(file.remove(at)),
            3 => file.extend((0..random.from_to(1, 40)).map(|_| random.bits() as u8)),
            4 | 5 if !file.is_empty() => file[at] ^= 1 << random.from_to(0, 7),
            6 if !file.is_empty() => file[at] = random.from_to(0, 9) as u8,
            _ if !file.is_empty() => file[at] = random.bits() as u8,
            _ => {}
        }
    }
    file
}

/// A file with each of its bytes changed to each other value.
pub fn one_byte_changed(file: &[u8]) -> impl Iterator<Item = Vec<u8>> + '_ {
    (0..file.len()).flat_map(move |at| {
        (0..=255u8)
            .filter(move |&value| value != file[at])
            .map(move |value| {
                let mut file = file.to_vec();
                file[at] = value;
                file
            })
    })
}

/// Files longer than any lawful one by this much are still tried.
const OVER_LONG: usize = 10_000;

/// File A of a sort cut after each of its bytes, with each byte added, and made longer by every length up to 300 and some up to past the longest lawful file of the sort.
pub fn cut_and_extended(sort: Sort) -> Vec<Vec<u8>> {
    let a = &a(sort)[..];
    let mut files: Vec<Vec<u8>> = (0..=a.len()).map(|kept| a[..kept].to_vec()).collect();
    files.extend((0..=255).map(|value| [a, &[value]].concat()));
    let longest = longest(sort);
    let more = [
        1024,
        65_535,
        65_536,
        longest - a.len() - 1,
        longest - a.len(),
        longest,
        longest + OVER_LONG,
    ];
    for more in (2..=300).chain(more) {
        files.push([a, &vec![0; more]].concat());
        files.push([a, &a.repeat(more / a.len() + 1)[..more]].concat());
    }
    files
}
