//! Tiny contested rounds: 2 to 5 candidates, 1 to 3 institutes, 0 to 3 types, few positions.

use second::form::Form;
use second::random::Random;
use second::reading::{Candidate, Entry, Institute, Round, OPEN};

/// All lawful entries of a candidate of this code.
pub fn lawful_entries(code: u8, institutes: usize) -> Vec<Entry> {
    let mut entries = Vec::new();
    for institute in 0..institutes {
        entries.push(Entry {
            institute,
            category: OPEN,
        });
        if code != OPEN {
            entries.push(Entry {
                institute,
                category: code,
            });
        }
    }
    entries
}

/// A row of some of these entries in some order, often of all.
pub fn some_row(random: &mut Random, mut entries: Vec<Entry>) -> Vec<Entry> {
    random.shuffle(&mut entries);
    if random.one_in(2) {
        entries.truncate(random.from_to(0, entries.len()));
    }
    entries
}

/// The codes in play in a round.
const CODES: [&[u8]; 4] = [&[0, 3], &[3], &[0, 3, 3, 1], &[0, 1, 2, 3, 4]];

/// The tiny round of a seed: for 0 a fixed one, for one in four of the others all open.
pub fn tiny(seed: u64) -> Round {
    let mut random = Random::new(seed);
    if seed == 0 {
        brought_back()
    } else if seed % 4 == 3 {
        all_open(&mut random)
    } else {
        of_several_categories(&mut random)
    }
}

/// A round in which candidate 2 is rejected and goes to the other institute, and would be brought back by candidate 4 if a marked candidate were taken first whose type has no positions.
fn brought_back() -> Round {
    let institute = |positions: usize, second: usize| Institute {
        positions: [positions, 0, 0, 0, 0],
        reserved: std::array::from_fn(|category| vec![0, if category == 0 { second } else { 0 }]),
        steps: Vec::new(),
    };
    let candidate = |marks: u8, entries: usize| Candidate {
        code: OPEN,
        marks,
        row: lawful_entries(OPEN, entries),
    };
    Round {
        form: Form::Narrow,
        types: 2,
        policy: 0,
        institutes: vec![institute(2, 1), institute(1, 0)],
        candidates: vec![
            candidate(1, 1),
            candidate(0, 2),
            candidate(2, 1),
            candidate(2, 1),
        ],
        merit: vec![vec![3, 1, 0, 2], vec![1]],
    }
}

/// A round of 4 or 5 candidates listing open at one or both of two institutes, the first having 2 or 3 positions with some reserved for one of two types.
fn all_open(random: &mut Random) -> Round {
    let n = random.from_to(4, 5);
    let mut institutes = Vec::new();
    for positions in [random.from_to(2, 3), random.from_to(0, 2)] {
        let mut institute = Institute {
            positions: [positions, 0, 0, 0, 0],
            reserved: std::array::from_fn(|_| vec![0; 2]),
            steps: Vec::new(),
        };
        institute.reserved[0][random.from_to(0, 1)] = random.from_to(0, positions);
        institutes.push(institute);
    }
    let candidates = (0..n)
        .map(|_| {
            let mut row = lawful_entries(OPEN, 2);
            if random.one_in(4) {
                row.reverse();
            }
            row.truncate(random.pick(&[1, 2, 2, 2]));
            Candidate {
                code: OPEN,
                marks: random.pick(&[0, 1, 2, 3]),
                row,
            }
        })
        .collect();
    let merit = (0..2)
        .map(|_| {
            let mut list: Vec<usize> = (0..n).collect();
            random.shuffle(&mut list);
            list
        })
        .collect();
    Round {
        form: Form::Narrow,
        types: 2,
        policy: 0,
        institutes,
        candidates,
        merit,
    }
}

/// A round of candidates of several categories, many listing open and their own at one institute.
fn of_several_categories(random: &mut Random) -> Round {
    let n = random.from_to(2, 5);
    let m = random.pick(&[1, 1, 2, 2, 3]);
    let types = random.pick(&[0, 1, 2, 2, 3]);
    let policy = random.pick(&[0, 1, 1]);
    let codes = random.pick(&CODES);
    let mut left = n;
    let institutes = (0..m)
        .map(|_| some_institute(random, types, codes, &mut left))
        .collect();
    let candidates = (0..n)
        .map(|_| some_candidate(random, m, types, codes))
        .collect();
    let mut common: Vec<usize> = (0..n).collect();
    random.shuffle(&mut common);
    let alike = random.one_in(3);
    let merit = (0..m)
        .map(|_| {
            let mut list = common.clone();
            if !alike {
                random.shuffle(&mut list);
            }
            list.retain(|_| !random.one_in(16));
            list
        })
        .collect();
    Round {
        form: Form::Narrow,
        types,
        policy,
        institutes,
        candidates,
        merit,
    }
}

/// An institute with 0 to 2 positions in open and in the categories in play, most of them reserved, no more than are left in the round.
fn some_institute(random: &mut Random, types: usize, codes: &[u8], left: &mut usize) -> Institute {
    let mut institute = Institute {
        positions: [0; 5],
        reserved: std::array::from_fn(|_| vec![0; types]),
        steps: Vec::new(),
    };
    for category in 0..5 {
        if category != 0 && !codes.contains(&(category as u8)) {
            continue;
        }
        let positions = random.pick(&[0, 1, 1, 2]).min(*left);
        *left -= positions;
        institute.positions[category] = positions;
        for _ in 0..positions {
            if types > 0 && !random.one_in(3) {
                institute.reserved[category][random.from_to(0, types - 1)] += 1;
            }
        }
    }
    institute
}

/// A candidate of one of these codes.
pub fn some_candidate(random: &mut Random, m: usize, types: usize, codes: &[u8]) -> Candidate {
    let code = random.pick(codes);
    Candidate {
        code,
        marks: random.from_to(0, (1 << types) - 1) as u8,
        row: some_row(random, lawful_entries(code, m)),
    }
}
