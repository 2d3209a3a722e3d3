//! Made lists of steps.

use crate::steps::with_lists;
use second::random::Random;
use second::reading::{read, Institute, OPEN};
use second::steps::{ListedStep, LISTED, MOST_STEPS};
use second::writing::write;

/// A lawful file of policy 0 or 1 with some list at each institute, of as many positions; any other file stays.
pub fn with_some_lists(random: &mut Random, file: &[u8]) -> Vec<u8> {
    match read(file) {
        Ok(round) if round.policy != LISTED => {
            let types = round.types;
            write(&with_lists(round, |own| {
                let count = some_count(random);
                some_list(random, types, count, positions(own))
            }))
        }
        _ => file.to_vec(),
    }
}

/// All positions of an institute of policy 0 or 1.
fn positions(own: &Institute) -> usize {
    own.positions.iter().sum()
}

/// How many steps a list has: few, six, twelve, or any number.
pub fn some_count(random: &mut Random) -> usize {
    let any = random.from_to(1, MOST_STEPS);
    let few = random.from_to(2, 4);
    random.pick(&[1, few, few, 6, any, any, MOST_STEPS])
}

/// A list of so many steps with so many positions in all.
pub fn some_list(
    random: &mut Random,
    types: usize,
    count: usize,
    positions: usize,
) -> Vec<ListedStep> {
    let categories = some_categories(random, count);
    let receivers = some_receivers(random, &categories);
    let shares = some_shares(random, count, positions);
    let reserving = random.from_to(0, 2);
    (0..count)
        .map(|place| ListedStep {
            category: categories[place],
            receiver: receivers[place],
            positions: shares[place],
            reserved: some_reserved(random, types, shares[place], reserving),
        })
        .collect()
}

/// The categories of so many steps: any, one for all, open and another in turn, all five in turn, or others before open.
fn some_categories(random: &mut Random, count: usize) -> Vec<u8> {
    let mut five = [0, 1, 2, 3, 4];
    random.shuffle(&mut five);
    let other = random.pick(&[1, 2, 3, 3, 3, 4]);
    let way = random.from_to(0, 5);
    (0..count)
        .map(|place| match way {
            0 | 1 => random.from_to(0, 4) as u8,
            2 => random.pick(&[OPEN, OPEN, other]),
            3 => [OPEN, other][place % 2],
            4 => five[place % 5],
            _ if 2 * place < count => random.from_to(1, 4) as u8,
            _ => OPEN,
        })
        .collect()
}

/// Who gets the vacancies of each step: nobody, the next step, the last one, the next open one, any later one, or one of these drawn each time.
fn some_receivers(random: &mut Random, categories: &[u8]) -> Vec<u8> {
    let last = categories.len();
    let way = random.from_to(0, 6);
    (1..=last)
        .map(|step| {
            if step == last {
                return 0;
            }
            let open = (step + 1..=last).find(|&later| categories[later - 1] == OPEN);
            let any = random.from_to(step + 1, last);
            let drawn = random.pick(&[0, step + 1, last, any]);
            let to = match way {
                0 => 0,
                1 => step + 1,
                2 => last,
                3 => open.unwrap_or(0),
                4 => any,
                _ => drawn,
            };
            to as u8
        })
        .collect()
}

/// So many positions shared by so many steps: at random, among few of them, at the first one, or evenly.
fn some_shares(random: &mut Random, count: usize, positions: usize) -> Vec<usize> {
    let few = random.from_to(1, count);
    let way = random.from_to(0, 4);
    let mut shares = vec![0; count];
    for one in 0..positions {
        let place = match way {
            0 | 1 => random.from_to(0, count - 1),
            2 => random.from_to(0, few - 1),
            3 => 0,
            _ => one % count,
        };
        shares[place] += 1;
    }
    shares
}

/// The reserved ones of a step's positions: none, some or all, spread over the types.
fn some_reserved(random: &mut Random, types: usize, positions: usize, way: usize) -> Vec<usize> {
    let mut reserved = vec![0; types];
    let some = random.from_to(0, positions);
    let held = match (types, way) {
        (0, _) | (_, 0) => 0,
        (_, 1) => some,
        _ => positions,
    };
    for _ in 0..held {
        reserved[random.from_to(0, types - 1)] += 1;
    }
    reserved
}
