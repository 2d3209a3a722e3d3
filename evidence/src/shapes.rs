//! Lawful rounds of the narrow form, of shapes that the second program's generator does not make.

use second::form::Form;
use second::random::Random;
use second::reading::{Candidate, Entry, Institute, Round, OBC, OPEN};

/// The seats that a category of an institute has, of them reserved for each type.
fn put(institute: &mut Institute, category: usize, positions: usize, reserved: Vec<usize>) {
    institute.positions[category] = positions;
    institute.reserved[category] = reserved;
}

/// An institute without positions.
fn bare(types: usize) -> Institute {
    Institute {
        positions: [0; 5],
        reserved: std::array::from_fn(|_| vec![0; types]),
        steps: Vec::new(),
    }
}

/// So many positions spread over the types at random.
fn spread(random: &mut Random, types: usize, positions: usize) -> Vec<usize> {
    let mut reserved = vec![0; types];
    if types > 0 {
        for _ in 0..positions {
            reserved[random.from_to(0, types - 1)] += 1;
        }
    }
    reserved
}

/// The entries open to a candidate of this code at the first m institutes, institute by institute.
fn entries(m: usize, code: u8) -> Vec<Entry> {
    let codes = if code == OPEN {
        vec![OPEN]
    } else {
        vec![OPEN, code]
    };
    (0..m)
        .flat_map(|institute| {
            codes.iter().map(move |&category| Entry {
                institute,
                category,
            })
        })
        .collect()
}

/// Swaps some values of a list with near ones.
fn nearly_in_order<T>(random: &mut Random, list: &mut [T]) {
    for place in 0..list.len() {
        let other = (place + random.from_to(0, 3)).min(list.len() - 1);
        list.swap(place, other);
    }
}

/// A round of any number of candidates, small ones as often as large ones, with supply from scarce to ample.
pub fn mixed(seed: u64) -> Round {
    let mut random = Random::new(seed);
    let most = 1 << random.from_to(0, 9);
    let n = random.from_to(most / 2 + 1, most);
    let m = random.from_to(1, (n / 2).clamp(1, 32));
    let types = random.from_to(0, 8);
    let each = (n * random.from_to(1, 6) / (10 * m)).clamp(1, 204);
    let longest = random.from_to(1, 16);
    let thin = random.from_to(0, 3);
    let absent = random.pick(&[2, 10, 1000]);
    let against = random.one_in(2);
    let institutes = (0..m)
        .map(|_| {
            let mut institute = bare(types);
            for category in 0..5 {
                let positions = random.from_to(0, each);
                let held = random.from_to(0, positions);
                let reserved = spread(&mut random, types, held);
                put(&mut institute, category, positions, reserved);
            }
            institute
        })
        .collect();
    let candidates = (0..n)
        .map(|_| {
            let code = random.pick(&[0, 1, 2, 3, 3, 4]);
            let mut marks = random.from_to(0, (1 << types) - 1) as u8;
            for _ in 0..thin {
                marks &= random.bits() as u8;
            }
            let mut row = entries(m, code);
            if against {
                nearly_in_order(&mut random, &mut row);
            } else {
                random.shuffle(&mut row);
            }
            row.truncate(random.from_to(0, longest));
            Candidate { code, marks, row }
        })
        .collect();
    let merit = (0..m)
        .map(|_| {
            let mut list: Vec<usize> = (0..n).rev().collect();
            if against {
                nearly_in_order(&mut random, &mut list);
            } else {
                random.shuffle(&mut list);
            }
            list.retain(|_| !random.one_in(absent));
            list
        })
        .collect();
    Round {
        form: Form::Narrow,
        types,
        policy: random.from_to(0, 1) as u16,
        institutes,
        candidates,
        merit,
    }
}

/// A round of 257 to 512 candidates, 512 as often as not, with short rows, so that numbers and places of two bytes come often and cheaply.
pub fn broad(seed: u64) -> Round {
    let mut random = Random::new(seed);
    let n = random.pick(&[512, 0]).max(random.from_to(257, 512));
    let m = random.from_to(4, 32);
    let types = random.pick(&[0, 1, 2, 3, 8]);
    let each = random.from_to(1, 600 / m / 5 + 1);
    let longest = random.from_to(1, 4);
    let institutes = (0..m)
        .map(|_| {
            let mut institute = bare(types);
            for category in 0..5 {
                let positions = random.from_to(0, each);
                let held = random.from_to(0, positions / 2);
                let reserved = spread(&mut random, types, held);
                put(&mut institute, category, positions, reserved);
            }
            institute
        })
        .collect();
    let candidates = (0..n)
        .map(|_| {
            let code = random.pick(&[0, 1, 2, 3, 4]);
            let mut row = entries(m, code);
            random.shuffle(&mut row);
            row.truncate(random.from_to(0, longest));
            let all = random.from_to(0, (1 << types) - 1);
            Candidate {
                code,
                marks: all as u8 & random.bits() as u8,
                row,
            }
        })
        .collect();
    let merit = (0..m)
        .map(|_| {
            let mut list: Vec<usize> = (0..n).collect();
            random.shuffle(&mut list);
            list
        })
        .collect();
    Round {
        form: Form::Narrow,
        types,
        policy: random.pick(&[0, 1, 1]),
        institutes,
        candidates,
        merit,
    }
}

/// The contested shape at n candidates, a multiple of 64: eight institutes with n / 64 positions in each category, half of them reserved for 8 types, like rows of all entries, and merit against the order of going.
pub fn contested(n: usize, seed: u64) -> Round {
    let mut random = Random::new(seed);
    let positions = n / 64;
    let institutes = (0..8)
        .map(|_| {
            let mut institute = bare(8);
            for category in 0..5 {
                let reserved = spread(&mut random, 8, positions.div_ceil(2));
                put(&mut institute, category, positions, reserved);
            }
            institute
        })
        .collect();
    let candidates = (0..n)
        .map(|_| {
            let code = random.pick(&[0, 0, 1, 2, 3, 3, 3, 4]);
            let mut row = entries(8, code);
            nearly_in_order(&mut random, &mut row);
            Candidate {
                code,
                marks: random.bits() as u8,
                row,
            }
        })
        .collect();
    let merit = (0..8)
        .map(|_| {
            let mut list: Vec<usize> = (0..n).rev().collect();
            nearly_in_order(&mut random, &mut list);
            list
        })
        .collect();
    Round {
        form: Form::Narrow,
        types: 8,
        policy: 1,
        institutes,
        candidates,
        merit,
    }
}

/// The contested shape at n candidates with rows of so many entries at most.
pub fn short_rows(n: usize, entries: usize, seed: u64) -> Round {
    let mut round = contested(n, seed);
    for candidate in &mut round.candidates {
        candidate.row.truncate(entries);
    }
    round
}

/// The two neighbouring types, the last one's neighbour being the first.
fn two_types(first: usize) -> u8 {
    1 << (first % 8) | 1 << ((first + 1) % 8)
}

/// A round hard on the placing search: n OBC candidates, a multiple of 16, at one institute whose open and OBC positions are n / 2 each, all reserved for 8 types, so that those who find no open one search again; seed 0 gives the steep one, where everybody holds every type and nearly all positions are of type 8, so that a search in the order of types visits all eight and moves a holder of each; 1 the full one, where everybody holds every type and each has as many positions; 2 the chain; 3 the one behind, where who cannot move stands behind who can; others mix marks of the full one, the chain and pairs of types.
pub fn worst(n: usize, seed: u64) -> Round {
    let mut random = Random::new(seed);
    let half = n / 2;
    let each = half / 8;
    let marks = |place: usize, random: &mut Random| match seed {
        0 | 1 => 255,
        2 => chain_marks(place, each),
        3 => behind_marks(place % half, half),
        _ => {
            let two = two_types(random.from_to(0, 7));
            random.pick(&[chain_marks(place, each), two, 255])
        }
    };
    let reserved = match seed {
        0 => [vec![1; 7], vec![half - 7]].concat(),
        3 => behind_reserved(half),
        _ => vec![each; 8],
    };
    let mut institute = bare(8);
    put(&mut institute, usize::from(OPEN), half, reserved.clone());
    put(&mut institute, usize::from(OBC), half, reserved);
    // Merit goes against the numbers, so that everybody is displaced by those who offer later.
    let candidates = (0..n)
        .map(|number| Candidate {
            code: OBC,
            marks: marks(n - 1 - number, &mut random),
            row: entries(1, OBC),
        })
        .collect();
    Round {
        form: Form::Narrow,
        types: 8,
        policy: 0,
        institutes: vec![institute],
        candidates,
        merit: vec![(0..n).rev().collect()],
    }
}

/// The marks at a place of the one behind: a third holds every type and gets type 1, another, of types 2 to 7 alone, fills these, and each of the last third, of type 1 alone, moves one of the first, who tries types 2 to 7 in vain before type 8.
fn behind_marks(place: usize, places: usize) -> u8 {
    let third = places / 3;
    if place < third {
        255
    } else if place < places - third {
        1 << (1 + (place - third) % 6)
    } else {
        1
    }
}

/// The positions of the one behind: a third each of types 1 and 8, the others of the types between.
fn behind_reserved(places: usize) -> Vec<usize> {
    let third = places / 3;
    let mut reserved = vec![third; 8];
    for held in 1..7 {
        reserved[held] = (third..places - third)
            .filter(|&place| behind_marks(place, places) == 1 << held)
            .count();
    }
    reserved
}

/// A round of n candidates, a multiple of 32, whose reviews try many entries: all are OBC, list the open and the OBC entry of eight institutes in one order and stand on all merit lists in one order, and half of them get seats, the positions and marks of each step being like those of the one behind.
pub fn alike(n: usize) -> Round {
    let each = n / 32;
    let mut institute = bare(8);
    for category in [OPEN, OBC] {
        let reserved = behind_reserved(each);
        put(&mut institute, usize::from(category), each, reserved);
    }
    let candidates = (0..n)
        .map(|number| Candidate {
            code: OBC,
            marks: behind_marks((n - 1 - number) % each, each),
            row: entries(8, OBC),
        })
        .collect();
    Round {
        form: Form::Narrow,
        types: 8,
        policy: 1,
        institutes: vec![institute; 8],
        candidates,
        merit: vec![(0..n).rev().collect(); 8],
    }
}

/// A round of n candidates with empty rows at one institute with one open position.
pub fn empty_rows(n: usize) -> Round {
    let mut institute = bare(0);
    put(&mut institute, usize::from(OPEN), 1, Vec::new());
    let candidate = Candidate {
        code: OPEN,
        marks: 0,
        row: Vec::new(),
    };
    Round {
        form: Form::Narrow,
        types: 0,
        policy: 0,
        institutes: vec![institute],
        candidates: vec![candidate; n],
        merit: vec![(0..n).collect()],
    }
}

/// The marks at a merit place of the chain: as many as a type has positions of types 1 and 2, as many of types 2 and 3 and so on to type 8 fill types 1 to 7, half as many of types 8 and 1 half of type 8; then the other half, of type 1 alone, each move one holder of every type, and everybody behind them searches all eight in vain.
fn chain_marks(place: usize, each: usize) -> u8 {
    match 2 * place / each {
        half @ 0..=14 => two_types(half / 2),
        15 => 1,
        _ => two_types(place),
    }
}

/// A round of n candidates, a multiple of 16, with every position reserved for one of 8 types: seed 0 gives the one apart, where everybody holds half of all types and the institutes are n / 16; 1 the one in vain; others have fewer institutes and any marks.
pub fn types(n: usize, seed: u64) -> Round {
    let mut random = Random::new(seed);
    match seed {
        0 => all_reserved(&mut random, n, n / 16, 4),
        1 => in_vain(&mut random, n),
        _ => {
            let m = random.from_to(1, n / 16);
            let held = random.from_to(2, 8);
            all_reserved(&mut random, n, m, held)
        }
    }
}

/// A round of n candidates at m institutes with about n positions in all, each reserved, and so many types for each candidate.
fn all_reserved(random: &mut Random, n: usize, m: usize, held: usize) -> Round {
    let each = n / m;
    let institutes = (0..m)
        .map(|_| {
            let mut institute = bare(8);
            for (category, positions) in [(0, each / 2), (1, each / 8), (2, each / 8)]
                .into_iter()
                .chain([(3, each / 8), (4, each / 8)])
            {
                let reserved = spread(random, 8, positions);
                put(&mut institute, category, positions, reserved);
            }
            institute
        })
        .collect();
    let candidates = (0..n)
        .map(|_| {
            let code = random.pick(&[0, 0, 1, 2, 3, 4]);
            let mut row = entries(m, code);
            random.shuffle(&mut row);
            row.truncate(16);
            let marks = some_types(random, held);
            Candidate { code, marks, row }
        })
        .collect();
    let merit = (0..m)
        .map(|_| {
            let mut list: Vec<usize> = (0..n).collect();
            random.shuffle(&mut list);
            list
        })
        .collect();
    Round {
        form: Form::Narrow,
        types: 8,
        policy: 1,
        institutes,
        candidates,
        merit,
    }
}

/// So many of 8 types.
fn some_types(random: &mut Random, held: usize) -> u8 {
    let mut types: Vec<u8> = (0..8).collect();
    random.shuffle(&mut types);
    types[..held].iter().fold(0, |marks, one| marks | 1 << one)
}

/// A round of n candidates at one institute with n open positions, half of them for type 8: the better half of all candidates hold every type, and the others take up types 1 to 7, so that each of the better half tries these in vain.
fn in_vain(random: &mut Random, n: usize) -> Round {
    let mut reserved = vec![0; 8];
    reserved[7] = n / 2;
    let candidates = (0..n)
        .map(|number| {
            let mut marks = 255;
            if number >= n / 2 {
                let own = number % 7;
                reserved[own] += 1;
                marks = 1 << own | (random.bits() & random.bits() & 127) as u8;
            }
            Candidate {
                code: OPEN,
                marks,
                row: entries(1, OPEN),
            }
        })
        .collect();
    let mut institute = bare(8);
    put(&mut institute, usize::from(OPEN), n, reserved);
    Round {
        form: Form::Narrow,
        types: 8,
        policy: 0,
        institutes: vec![institute],
        candidates,
        merit: vec![(0..n).collect()],
    }
}
