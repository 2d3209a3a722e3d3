//! Every round of a small family.

use crate::arrangements::arrangements;
use crate::tiny::lawful_entries;
use second::form::Form;
use second::reading::{Candidate, Institute, Round, OBC, OPEN};
use std::slice::from_ref;

/// Every candidate, general or OBC, with any marks and any row of one institute, an empty one for general only.
fn candidates(types: usize) -> Vec<Candidate> {
    let mut all = Vec::new();
    for code in [OPEN, OBC] {
        let rows = arrangements(&lawful_entries(code, 1));
        for row in rows.iter().filter(|row| code == OPEN || !row.is_empty()) {
            all.extend((0..1 << types).map(|marks| Candidate {
                code,
                marks,
                row: row.clone(),
            }));
        }
    }
    all
}

/// Every institute with at most one open and at most one OBC position, each reserved for the one type, if there is one, or not.
fn institutes(types: usize) -> Vec<Institute> {
    let mut all = Vec::new();
    let kinds = 2 + types;
    for (open, obc) in (0..kinds).flat_map(|open| (0..kinds).map(move |obc| (open, obc))) {
        let mut institute = Institute {
            positions: [0; 5],
            reserved: std::array::from_fn(|_| vec![0; types]),
            steps: Vec::new(),
        };
        for (category, kind) in [(OPEN, open), (OBC, obc)] {
            institute.positions[usize::from(category)] = kind.min(1);
            if kind == 2 {
                institute.reserved[usize::from(category)][0] = 1;
            }
        }
        all.push(institute);
    }
    all
}

/// All lists of so many values of a list.
fn tuples<T: Clone>(all: &[T], length: usize) -> Vec<Vec<T>> {
    let mut lists = vec![Vec::new()];
    for _ in 0..length {
        lists = lists
            .iter()
            .flat_map(|list: &Vec<T>| all.iter().map(|one| [&list[..], from_ref(one)].concat()))
            .collect();
    }
    lists
}

/// Every round of so many candidates and types, at most one, at one such institute, with any merit list and either policy.
pub fn every_round(people: usize, types: usize) -> Vec<Round> {
    let numbers: Vec<usize> = (0..people).collect();
    let mut rounds = Vec::new();
    for candidates in tuples(&candidates(types), people) {
        for merit in arrangements(&numbers) {
            for institute in institutes(types) {
                rounds.extend([0, 1].map(|policy| Round {
                    form: Form::Narrow,
                    types,
                    policy,
                    institutes: vec![institute.clone()],
                    candidates: candidates.clone(),
                    merit: vec![merit.clone()],
                }));
            }
        }
    }
    rounds
}
