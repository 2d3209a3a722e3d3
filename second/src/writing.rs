//! Writing a round as a round file.

use crate::form::Form;
use crate::reading::{Candidate, Institute, Round};
use crate::steps::{ListedStep, LISTED};

/// The bytes of two-byte numbers.
pub fn two_bytes(numbers: &[usize]) -> Vec<u8> {
    numbers
        .iter()
        .flat_map(|&number| (number as u16).to_le_bytes())
        .collect()
}

/// A record of a kind with a body.
pub fn record(kind: usize, body: &[u8]) -> Vec<u8> {
    let mut bytes = two_bytes(&[body.len(), kind]);
    bytes.extend(body);
    bytes
}

/// The head's record of a form.
pub fn head(form: Form, n: usize, m: usize, types: usize, policy: usize) -> Vec<u8> {
    record(form.head(), &two_bytes(&[n, m, types, policy]))
}

/// An institute's record under policies 0 and 1.
pub fn institute(institute: &Institute) -> Vec<u8> {
    let mut numbers = Vec::new();
    for category in 0..5 {
        numbers.push(institute.positions[category]);
        numbers.extend(&institute.reserved[category]);
    }
    record(2, &two_bytes(&numbers))
}

/// An institute's record under policy 2.
pub fn step_list(steps: &[ListedStep]) -> Vec<u8> {
    let body: Vec<Vec<u8>> = steps.iter().map(step).collect();
    record(7, &body.concat())
}

/// The bytes of a step in a list.
pub fn step(step: &ListedStep) -> Vec<u8> {
    let mut bytes = vec![step.category, step.receiver];
    bytes.extend(two_bytes(&[step.positions]));
    bytes.extend(two_bytes(&step.reserved));
    bytes
}

/// A candidate's record of a form.
pub fn candidate(form: Form, candidate: &Candidate) -> Vec<u8> {
    let mut body = vec![candidate.code, candidate.marks];
    for entry in &candidate.row {
        body.extend(form.number(entry.institute.wrapping_add(1)));
        body.push(entry.category);
    }
    record(form.candidate(), &body)
}

/// A merit list's record, from candidates counted from 0.
pub fn merit(list: &[usize]) -> Vec<u8> {
    let numbers: Vec<usize> = list.iter().map(|candidate| candidate + 1).collect();
    record(4, &two_bytes(&numbers))
}

/// The records of a round in file order.
pub fn records(round: &Round) -> Vec<Vec<u8>> {
    let mut records = vec![head(
        round.form,
        round.candidates.len(),
        round.institutes.len(),
        round.types,
        usize::from(round.policy),
    )];
    records.extend(round.institutes.iter().map(|own| match round.policy {
        LISTED => step_list(&own.steps),
        _ => institute(own),
    }));
    let candidates = round.candidates.iter();
    records.extend(candidates.map(|one| candidate(round.form, one)));
    records.extend(round.merit.iter().map(|list| merit(list)));
    records
}

/// The file of a round.
pub fn write(round: &Round) -> Vec<u8> {
    records(round).concat()
}
