//! The choice from the words of the document, with nothing shared: the use by trying every way of giving positions.

use second::choice::{Offer, Rule, Taken, Way};
use second::reading::Round;

/// The choice from its words.
pub struct Words;

impl Rule for Words {
    fn choose(&self, round: &Round, institute: usize, offers: &[Offer]) -> Vec<Taken> {
        let mut taken: Vec<Taken> = Vec::new();
        for (step, category) in categories(round, institute) {
            let at = |step: u8| taken.iter().filter(|one| one.step == step).count();
            let (positions, reserved) = positions(round, institute, step, &at);
            let counts = |candidate: &usize| {
                let offer = Offer {
                    candidate: *candidate,
                    category: category as u8,
                };
                offers.contains(&offer)
                    && !taken.iter().any(|one| one.offer.candidate == *candidate)
            };
            let by_merit: Vec<usize> = round.merit[institute]
                .iter()
                .copied()
                .filter(counts)
                .collect();
            let using = |people: &[usize]| {
                let marks: Vec<u8> = people
                    .iter()
                    .map(|&who| round.candidates[who].marks)
                    .collect();
                by_definition(&marks, &mut reserved.clone())
            };
            let mut step_takes: Vec<usize> = Vec::new();
            for &candidate in &by_merit {
                let with = [step_takes.as_slice(), &[candidate]].concat();
                if using(&with) > using(&step_takes) {
                    step_takes = with;
                }
            }
            let users = step_takes.len();
            for &candidate in &by_merit {
                if step_takes.len() < positions && !step_takes.contains(&candidate) {
                    step_takes.push(candidate);
                }
            }
            for (number, &candidate) in step_takes.iter().enumerate() {
                taken.push(Taken {
                    offer: Offer {
                        candidate,
                        category: category as u8,
                    },
                    step,
                    way: if number < users {
                        Way::ForUse
                    } else {
                        Way::ByMerit
                    },
                });
            }
        }
        taken.sort();
        taken
    }
}

/// The numbers and categories of an institute's steps.
fn categories(round: &Round, institute: usize) -> Vec<(u8, usize)> {
    match round.policy {
        2 => {
            let steps = round.institutes[institute].steps.iter();
            let categories = steps.map(|step| usize::from(step.category));
            (1..).zip(categories).collect()
        }
        _ => vec![(1, 0), (2, 1), (3, 2), (4, 3), (5, 4), (6, 0)],
    }
}

/// The positions of a step, handed ones included, and its reserved ones, from how many the steps before it took.
fn positions(
    round: &Round,
    institute: usize,
    step: u8,
    at: &dyn Fn(u8) -> usize,
) -> (usize, Vec<usize>) {
    let own = &round.institutes[institute];
    let place = usize::from(step) - 1;
    if round.policy == 2 {
        let mut positions = own.steps[place].positions;
        for earlier in (1..step).filter(|&one| own.steps[usize::from(one) - 1].receiver == step) {
            positions += self::positions(round, institute, earlier, at).0 - at(earlier);
        }
        (positions, own.steps[place].reserved.clone())
    } else if step == 6 {
        let vacant = own.positions[3] - at(4);
        let positions = if round.policy == 1 { vacant } else { 0 };
        (positions, vec![0; round.types])
    } else {
        (own.positions[place], own.reserved[place].clone())
    }
}

/// The use by its definition: every way of giving each candidate a held type with a position left, or none.
fn by_definition(marks: &[u8], reserved: &mut [usize]) -> usize {
    let Some((&own, rest)) = marks.split_first() else {
        return 0;
    };
    let mut best = by_definition(rest, reserved);
    for held in 0..reserved.len() {
        if own >> held & 1 == 1 && reserved[held] > 0 {
            reserved[held] -= 1;
            best = best.max(1 + by_definition(rest, reserved));
            reserved[held] += 1;
        }
    }
    best
}
