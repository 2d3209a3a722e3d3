//! Small rounds in which most candidates hold several types and most positions are reserved.

use second::form::Form;
use second::random::Random;
use second::reading::{Candidate, Entry, Institute, Round, OBC, OPEN};

/// The round of a seed: 3 to 6 candidates, general or OBC, 1 or 2 institutes, 3 or 4 types, open and OBC positions.
pub fn several(seed: u64) -> Round {
    let mut random = Random::new(seed);
    let n = random.from_to(3, 6);
    let m = random.from_to(1, 2);
    let types = random.from_to(3, 4);
    let institutes = (0..m).map(|_| some_institute(&mut random, types)).collect();
    let candidates = (0..n)
        .map(|_| some_candidate(&mut random, m, types))
        .collect();
    let merit = (0..m)
        .map(|_| {
            let mut list: Vec<usize> = (0..n).collect();
            random.shuffle(&mut list);
            list
        })
        .collect();
    Round {
        form: Form::Narrow,
        types,
        policy: random.from_to(0, 1) as u16,
        institutes,
        candidates,
        merit,
    }
}

/// An institute with 2 to 4 open and 1 to 3 OBC positions, one in six of them not reserved.
fn some_institute(random: &mut Random, types: usize) -> Institute {
    let mut institute = Institute {
        positions: [0; 5],
        reserved: std::array::from_fn(|_| vec![0; types]),
        steps: Vec::new(),
    };
    for (category, least) in [(OPEN, 2), (OBC, 1)] {
        let category = usize::from(category);
        institute.positions[category] = random.from_to(least, least + 2);
        for _ in 0..institute.positions[category] {
            if !random.one_in(6) {
                institute.reserved[category][random.from_to(0, types - 1)] += 1;
            }
        }
    }
    institute
}

/// A candidate with any marks and a row of all lawful entries in any order.
fn some_candidate(random: &mut Random, m: usize, types: usize) -> Candidate {
    let code = random.pick(&[OPEN, OPEN, OBC]);
    let mut row: Vec<Entry> = Vec::new();
    for institute in 0..m {
        for category in [OPEN, OBC] {
            if category == OPEN || category == code {
                row.push(Entry {
                    institute,
                    category,
                });
            }
        }
    }
    random.shuffle(&mut row);
    Candidate {
        code,
        marks: random.from_to(0, (1 << types) - 1) as u8,
        row,
    }
}
