//! All lists of a small round over some byte pairs.

use second::reading::{Round, OPEN};

/// The two bytes of a list for one candidate, institute and step.
pub type Pair = [u8; 2];

/// The pairs that are 0 0 or a seat in a candidate's row, at either step where that is open.
pub fn of_the_row(round: &Round, candidate: usize) -> Vec<Pair> {
    let mut pairs = vec![[0, 0]];
    for entry in &round.candidates[candidate].row {
        let institute = entry.institute as u8 + 1;
        pairs.push([institute, entry.category + 1]);
        if entry.category == OPEN {
            pairs.push([institute, 6]);
        }
    }
    pairs
}

/// The pairs of the row, and six that are not: no institute, no step, an institute and a step too many, all bits, and the first seat of institute 1 outside the row, if there is one.
pub fn and_some_more(round: &Round, candidate: usize) -> Vec<Pair> {
    let mut pairs = of_the_row(round, candidate);
    let outside = (1..=6).map(|step| [1, step]);
    pairs.extend(
        outside
            .filter(|pair| !pairs.contains(pair))
            .take(1)
            .collect::<Vec<_>>(),
    );
    let more = round.institutes.len() as u8 + 1;
    pairs.extend([[0, 1], [1, 0], [more, 1], [1, 7], [255, 255]]);
    pairs
}

/// Every pair up to one institute and one step too many, and all bits.
pub fn every_pair(round: &Round) -> Vec<Pair> {
    let institutes = 0..=round.institutes.len() as u8 + 1;
    let mut pairs: Vec<Pair> = institutes
        .flat_map(|institute| (0..=7).map(move |step| [institute, step]))
        .collect();
    pairs.push([255, 255]);
    pairs
}

/// How many lists there are over these pairs of each candidate.
pub fn how_many(pairs: &[Vec<Pair>]) -> usize {
    pairs.iter().map(Vec::len).product()
}

/// The list of a number below their count.
pub fn list_of(pairs: &[Vec<Pair>], mut number: usize) -> Vec<u8> {
    let mut list = Vec::new();
    for own in pairs {
        list.extend(own[number % own.len()]);
        number /= own.len();
    }
    list
}

/// The pairs of each candidate of a round: every pair where that gives at most so many lists, else those of the row and some more; none where these give more too.
pub fn pairs_of(round: &Round, most: usize) -> Option<Vec<Vec<Pair>>> {
    let people = 0..round.candidates.len();
    let every = people.clone().map(|_| every_pair(round)).collect();
    let some = people.map(|who| and_some_more(round, who)).collect();
    [every, some]
        .into_iter()
        .find(|pairs: &Vec<Vec<Pair>>| how_many(pairs) <= most)
}
