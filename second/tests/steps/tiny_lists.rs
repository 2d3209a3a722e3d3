//! Tiny rounds with step lists: 2 to 5 candidates, 1 or 2 institutes, 0 to 2 types, lists of up to six short steps and now and then of twelve.

use crate::tiny::some_candidate;
use second::form::Form;
use second::random::Random;
use second::reading::{Institute, Round};
use second::steps::ListedStep;

/// The codes in play in a round.
const CODES: [&[u8]; 5] = [&[0, 3], &[3], &[0, 1, 1], &[0, 3, 3, 4], &[0, 1, 2, 3, 4]];

/// The tiny round with step lists of a seed.
pub fn tiny_lists(seed: u64) -> Round {
    let random = &mut Random::new(!seed);
    let n = random.from_to(2, 5);
    let m = random.pick(&[1, 1, 2]);
    let types = random.pick(&[0, 0, 1, 2]);
    let codes = random.pick(&CODES);
    let institutes = (0..m)
        .map(|_| Institute {
            steps: some_list(random, types, codes),
            ..Institute::default()
        })
        .collect();
    let candidates = (0..n)
        .map(|_| some_candidate(random, m, types, codes))
        .collect();
    let merit = (0..m).map(|_| some_merit(random, n)).collect();
    Round {
        form: Form::Narrow,
        types,
        policy: 2,
        institutes,
        candidates,
        merit,
    }
}

/// A list of steps, half of them in which each hands to the next up to an open one, or of steps of any kind.
fn some_list(random: &mut Random, types: usize, codes: &[u8]) -> Vec<ListedStep> {
    let count = random.pick(&[1, 2, 3, 3, 4, 4, 5, 6, 12]);
    let chain = random.one_in(2);
    (1..=count)
        .map(|number| {
            let positions = match chain && number > 2 {
                true => random.pick(&[0, 0, 0, 1]),
                false => random.pick(&[0, 0, 1, 1, 2]),
            };
            ListedStep {
                category: match (chain, number == count) {
                    (true, true) => 0,
                    (true, false) => random.from_to(0, 4) as u8,
                    (false, _) if random.one_in(3) => 0,
                    (false, _) => random.pick(codes),
                },
                receiver: match (chain, number == count) {
                    (_, true) => 0,
                    (true, false) => some_later(random, number, (number + 2).min(count)),
                    (false, false) if random.one_in(3) => 0,
                    (false, false) => some_later(random, number, count),
                },
                positions,
                reserved: some_reserved(random, types, positions),
            }
        })
        .collect()
}

/// The number of a step behind one, up to another.
fn some_later(random: &mut Random, number: usize, last: usize) -> u8 {
    random.from_to(number + 1, last) as u8
}

/// About half of so many positions, each reserved for some type.
fn some_reserved(random: &mut Random, types: usize, positions: usize) -> Vec<usize> {
    let mut reserved = vec![0; types];
    for _ in 0..positions {
        if types > 0 && random.one_in(2) {
            reserved[random.from_to(0, types - 1)] += 1;
        }
    }
    reserved
}

/// A merit list, now and then without a candidate.
fn some_merit(random: &mut Random, n: usize) -> Vec<usize> {
    let mut list: Vec<usize> = (0..n).collect();
    random.shuffle(&mut list);
    list.retain(|_| !random.one_in(16));
    list
}
