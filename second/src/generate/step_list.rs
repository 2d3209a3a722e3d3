//! Random step lists.

use super::lawful::Span;
use crate::random::Random;
use crate::steps::ListedStep;

/// How the categories of a list are drawn.
#[derive(Clone, Copy)]
enum Categories {
    /// Any for each step.
    Any,
    /// Open or one other for each step.
    Two,
    /// The same for all steps.
    One,
    /// Those of the codes in order, again and again.
    InOrder,
}

/// Which later steps get the vacancies.
#[derive(Clone, Copy)]
enum Receivers {
    /// The next step, so that vacancies go through the whole list.
    Next,
    /// One step, from all before it.
    One,
    /// Any later step or nobody.
    Any,
    /// Nobody.
    Nobody,
}

/// A list of so many steps, often of the fewest or the most, with positions in the span or none, a random part of them reserved.
pub(super) fn some_steps(
    random: &mut Random,
    types: usize,
    count: Span,
    positions: Span,
) -> Vec<ListedStep> {
    let count = some_count(random, count);
    let categories = some_categories(random, count);
    let receivers = some_receivers(random, count);
    let lists = categories.into_iter().zip(receivers);
    lists
        .map(|(category, receiver)| {
            let positions = match random.one_in(3) {
                true => 0,
                false => random.from_to(positions.0, positions.1),
            };
            ListedStep {
                category,
                receiver,
                positions,
                reserved: some_reserved(random, types, positions),
            }
        })
        .collect()
}

/// How many steps a list has.
fn some_count(random: &mut Random, (least, most): Span) -> usize {
    match random.from_to(1, 6) {
        1 => least,
        2 => most,
        _ => random.from_to(least, most),
    }
}

/// The categories of so many steps.
fn some_categories(random: &mut Random, count: usize) -> Vec<u8> {
    let manner = random.pick(&[
        Categories::Any,
        Categories::Any,
        Categories::Two,
        Categories::Two,
        Categories::One,
        Categories::InOrder,
    ]);
    let other = random.from_to(0, 4) as u8;
    (0..count)
        .map(|place| match manner {
            Categories::Any => random.from_to(0, 4) as u8,
            Categories::Two => random.pick(&[0, other]),
            Categories::One => other,
            Categories::InOrder => (place % 5) as u8,
        })
        .collect()
}

/// The numbers of the steps that get the vacancies of so many steps, 0 for nobody.
fn some_receivers(random: &mut Random, count: usize) -> Vec<u8> {
    let manner = random.pick(&[
        Receivers::Next,
        Receivers::Next,
        Receivers::One,
        Receivers::Any,
        Receivers::Any,
        Receivers::Nobody,
    ]);
    let one = random.from_to(1, count);
    (1..=count)
        .map(|number| {
            let receiver = match manner {
                _ if number == count => 0,
                Receivers::Next => number + 1,
                Receivers::One => one,
                Receivers::Any => random.from_to(number, count),
                Receivers::Nobody => 0,
            };
            if receiver > number {
                receiver as u8
            } else {
                0
            }
        })
        .collect()
}

/// A random part of so many positions, each reserved for some type.
pub(super) fn some_reserved(random: &mut Random, types: usize, positions: usize) -> Vec<usize> {
    let mut reserved = vec![0; types];
    if types > 0 {
        for _ in 0..random.from_to(0, positions) {
            reserved[random.from_to(0, types - 1)] += 1;
        }
    }
    reserved
}
