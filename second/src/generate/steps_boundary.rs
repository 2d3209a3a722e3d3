//! Files at the edge of each question about step lists, in both forms.

use super::boundary::{plain_round, refused, Expected, Expected::Passes, A};
use super::lawful::{lawful, Class};
use crate::form::Form;
use crate::reading::{Institute, Round, LONGEST, LONGEST_WIDE, OPEN};
use crate::step_lists::with_step_lists;
use crate::steps::{step_bytes, ListedStep, LISTED, MOST_STEPS};
use crate::widening::widened;
use crate::writing::{record, records, write};

/// The files of one part, each with its name.
type Files = Vec<(String, Vec<u8>, Expected)>;

/// A step of a category that hands its vacancies to nobody and has some positions.
fn step(category: u8, positions: usize, reserved: &[usize]) -> ListedStep {
    ListedStep {
        category,
        receiver: 0,
        positions,
        reserved: reserved.to_vec(),
    }
}

/// An open step without positions.
fn empty(types: usize) -> ListedStep {
    step(OPEN, 0, &vec![0; types])
}

/// An institute with a list.
fn listing(steps: Vec<ListedStep>) -> Institute {
    Institute {
        steps,
        ..Institute::default()
    }
}

/// One candidate listing open at the first of these institutes; the head takes 12 bytes and the institutes' records stand behind it.
fn round_of(form: Form, types: usize, lists: Vec<Vec<ListedStep>>) -> Round {
    Round {
        form,
        policy: LISTED,
        merit: vec![vec![0]; lists.len()],
        institutes: lists.into_iter().map(listing).collect(),
        ..plain_round(types)
    }
}

/// The file of one candidate and one institute with a list.
fn of(form: Form, types: usize, steps: Vec<ListedStep>) -> Vec<u8> {
    write(&round_of(form, types, vec![steps]))
}

/// A file with a two-byte number written at a place.
fn with_number(mut file: Vec<u8>, at: usize, number: usize) -> Vec<u8> {
    file[at..at + 2].copy_from_slice(&(number as u16).to_le_bytes());
    file
}

/// Passes, or the refusal by a number at the first institute.
fn unless(lawful: bool, number: u8) -> Expected {
    match lawful {
        true => Passes,
        false => refused(number, 12),
    }
}

/// File A with step lists, cut at every byte and with bytes more.
fn of_a(form: Form) -> Files {
    let (a, starts) = match form {
        Form::Narrow => (A.to_vec(), [0, 12, 52, 60, 70, 78]),
        Form::Wide => (widened(A), [0, 12, 52, 61, 73, 82]),
    };
    let a = with_step_lists(&a).unwrap_or_default();
    let mut files = Files::new();
    for kept in 0..a.len() {
        let before = starts.into_iter().rfind(|&start| start <= kept);
        let offset = before.unwrap_or(0);
        let number = if kept < offset + 4 { 1 } else { 4 };
        let name = format!("a-cut-{kept}");
        files.push((name, a[..kept].to_vec(), refused(number, offset)));
    }
    let more = [&a[..], &[0]].concat();
    files.push(("a-and-1-more".to_string(), more, refused(13, a.len())));
    files.push(("a".to_string(), a, Passes));
    files
}

/// Policies and kinds of institutes.
fn of_kinds(form: Form) -> Files {
    let mut files = Files::new();
    let file = of(form, 0, vec![step(OPEN, 1, &[])]);
    for policy in [0, 1, 2, 3, 4, 256, 258, 65_535] {
        let expected = match policy {
            0 | 1 => refused(2, 12),
            2 => Passes,
            _ => refused(5, 0),
        };
        let file = with_number(file.clone(), 10, policy);
        files.push((format!("policy-{policy}"), file, expected));
    }
    for kind in (0..=8).chain([258, 263, 1792, 65_535]) {
        let file = with_number(file.clone(), 14, kind);
        let expected = unless(kind == 7, 2);
        files.push((format!("institute-kind-{kind}"), file, expected));
    }
    let mut other = plain_round(0);
    other.form = form;
    let two = round_of(form, 0, vec![vec![empty(0)]; 2]);
    let mut mixed = records(&two);
    mixed[2] = records(&other)[1].clone();
    let name = "second-institute-kind-2".to_string();
    files.push((name, mixed.concat(), refused(2, 20)));
    files
}

/// The number of steps, and lengths that are no number of steps.
fn of_lengths(form: Form) -> Files {
    let mut files = Files::new();
    for types in 0..=8 {
        let width = step_bytes(types);
        for count in (0..=MOST_STEPS + 2).chain([24, 255]) {
            let file = of(form, types, vec![empty(types); count]);
            let expected = unless((1..=MOST_STEPS).contains(&count), 3);
            files.push((format!("steps-{count}-types-{types}"), file, expected));
        }
        let parts = records(&round_of(form, types, vec![vec![empty(types); MOST_STEPS]]));
        for length in (0..=width + 2).chain(MOST_STEPS * width - 2..=MOST_STEPS * width + 2) {
            let mut parts = parts.clone();
            parts[1] = record(7, &vec![0; length]);
            let expected = unless([width, MOST_STEPS * width].contains(&length), 3);
            let name = format!("length-{length}-types-{types}");
            files.push((name, parts.concat(), expected));
        }
        let mut parts = parts.clone();
        parts[1] = record(7, &vec![0; 10 + 10 * types]);
        let expected = unless((10 + 10 * types) % width == 0, 3);
        let name = format!("length-of-kind-2-types-{types}");
        files.push((name, parts.concat(), expected));
    }
    files
}

/// Sums of positions and of reserved ones.
fn of_positions(form: Form) -> Files {
    let mut files = Files::new();
    let mut add = |name: &str, types: usize, steps: Vec<ListedStep>, number: u8| {
        let file = of(form, types, steps);
        files.push((name.to_string(), file, unless(number == 0, number)));
    };
    let positions = |all: &[usize]| all.iter().map(|&own| step(OPEN, own, &[])).collect();
    add("positions-1024", 0, positions(&[1024]), 0);
    add("positions-1025", 0, positions(&[1025]), 6);
    let most = [[85; 11].to_vec(), vec![89]].concat();
    add("positions-1024-in-twelve", 0, positions(&most), 0);
    let more = [vec![90], [85; 11].to_vec()].concat();
    add("positions-1025-in-twelve", 0, positions(&more), 6);
    add("positions-1025-in-two", 0, positions(&[1024, 1]), 6);
    add("positions-sum-65536", 0, positions(&[65_535, 1]), 6);
    add("positions-sum-66560", 0, positions(&[65_535, 1025]), 6);
    add("positions-sum-786420", 0, positions(&[65_535; 12]), 6);
    let mut chain: Vec<ListedStep> = positions(&[512, 512, 0]);
    chain[0].receiver = 2;
    chain[1].receiver = 3;
    add("positions-1024-handed-on", 0, chain.clone(), 0);
    chain[2].positions = 1;
    add("positions-1025-handed-on", 0, chain, 6);
    add("reserved-all", 2, vec![step(OPEN, 3, &[1, 2])], 0);
    add("reserved-one-more", 2, vec![step(OPEN, 3, &[2, 2])], 7);
    let last = |own: ListedStep| [vec![empty(2); 11], vec![own]].concat();
    add("reserved-all-at-12", 2, last(step(4, 3, &[1, 2])), 0);
    add("reserved-one-more-at-12", 2, last(step(4, 3, &[2, 2])), 7);
    let wrapping = step(OPEN, 3, &[32_768, 32_768]);
    add("reserved-sum-65536", 2, vec![wrapping], 7);
    let mut handed = vec![step(3, 2, &[0]), step(OPEN, 0, &[1])];
    handed[0].receiver = 2;
    add("reserved-of-handed-ones", 1, handed, 7);
    let borrowed = vec![step(3, 2, &[0]), step(3, 1, &[2])];
    add("reserved-of-another-step", 1, borrowed, 7);
    files
}

/// Categories and receivers.
fn of_bytes(form: Form) -> Files {
    let mut files = Files::new();
    for category in (0..=6).chain([7, 127, 128, 255]) {
        for place in [0, 11] {
            let mut steps = vec![empty(1); 12];
            steps[place].category = category;
            let name = format!("category-{category}-at-{}", place + 1);
            files.push((name, of(form, 1, steps), unless(category <= 4, 17)));
        }
    }
    for count in [1, 2, 3, 7, 12] {
        for number in 1..=count {
            for receiver in (0..=13).chain([255]) {
                let mut steps = vec![empty(0); count];
                steps[number - 1].receiver = receiver as u8;
                let lawful = receiver == 0 || (number < receiver && receiver <= count);
                let name = format!("receiver-{receiver}-of-{number}-of-{count}");
                files.push((name, of(form, 0, steps), unless(lawful, 18)));
            }
        }
    }
    files
}

/// Several faults, of which the first decides.
fn of_order(form: Form) -> Files {
    let mut files = Files::new();
    for faults in 1..16u8 {
        let mut steps = vec![step(OPEN, 1, &[1]); 4];
        let made = |question: usize| faults >> question & 1 == 1;
        if made(0) {
            steps[3].positions = 1025;
        }
        if made(1) {
            steps[2].reserved[0] = 2;
        }
        if made(2) {
            steps[1].category = 5;
        }
        if made(3) {
            steps[0].receiver = 1;
        }
        let number = [6, 7, 17, 18][faults.trailing_zeros() as usize];
        let name = format!("faults-{faults}");
        files.push((name, of(form, 1, steps), refused(number, 12)));
    }
    let (mut category, mut receiver) = (empty(0), empty(0));
    category.category = 5;
    receiver.receiver = 1;
    let mut positions = empty(0);
    positions.positions = 1025;
    for (name, first, second, number) in [
        ("receiver-then-positions", &receiver, &positions, 18),
        ("receiver-then-category", &receiver, &category, 18),
        ("category-then-positions", &category, &positions, 17),
        ("positions-then-category", &positions, &category, 6),
    ] {
        let lists = vec![vec![first.clone()], vec![second.clone()]];
        let file = write(&round_of(form, 0, lists));
        files.push((name.to_string(), file, refused(number, 12)));
    }
    for (name, own, number) in [("category", &category, 17), ("receiver", &receiver, 18)] {
        let mut round = round_of(form, 0, vec![vec![own.clone()]]);
        round.candidates[0].code = 5;
        let name = format!("{name}-then-code");
        files.push((name, write(&round), refused(number, 12)));
    }
    files
}

/// The longest file, with a byte more and a byte less.
fn of_sizes(form: Form) -> Files {
    let (class, bytes) = match form {
        Form::Narrow => (Class::StepsMaximal, LONGEST),
        Form::Wide => (Class::WideStepsMaximal, LONGEST_WIDE),
    };
    let longest = lawful(class, 1);
    let more = [&longest[..], &[0]].concat();
    let less = longest[..longest.len() - 1].to_vec();
    let last = bytes - 4 - 2 * 512;
    vec![
        ("longest".to_string(), longest, Passes),
        ("longest-and-1-more".to_string(), more, refused(13, bytes)),
        ("longest-but-1".to_string(), less, refused(4, last)),
    ]
}

/// All boundary files with step lists, of both forms, with their names, and what each is expected to give whatever its length.
pub fn steps_boundary() -> Files {
    let mut all = Files::new();
    for (form, lead) in [(Form::Narrow, ""), (Form::Wide, "wide-")] {
        let parts = [
            of_a(form),
            of_kinds(form),
            of_lengths(form),
            of_positions(form),
            of_bytes(form),
            of_order(form),
            of_sizes(form),
        ];
        let files = parts.concat().into_iter();
        all.extend(files.map(|(name, file, expected)| (format!("{lead}{name}"), file, expected)));
    }
    all
}
