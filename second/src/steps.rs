//! The steps of an institute: those of its list under policy 2, the six of document 01 under policies 0 and 1.

use crate::reading::{Institute, Round, OBC, OPEN};

/// The policy under which institutes list their steps.
pub const LISTED: u16 = 2;

/// The most steps of a list.
pub const MOST_STEPS: usize = 12;

/// How many closing places an institute has under policies 0 and 1.
const SIX: usize = 6;

/// A step: its category, the number of the later step that gets its vacancies, 0 for nobody, its own positions, and those of them reserved for each type.
#[derive(Clone, Debug, PartialEq, Eq)]
pub struct ListedStep {
    pub category: u8,
    pub receiver: u8,
    pub positions: usize,
    pub reserved: Vec<usize>,
}

/// The bytes of a step in a list, there being so many types.
pub fn step_bytes(types: usize) -> usize {
    4 + 2 * types
}

/// The steps of an institute, the first one first.
pub fn steps_of(round: &Round, institute: usize) -> Vec<ListedStep> {
    let own = &round.institutes[institute];
    match round.policy {
        LISTED => own.steps.clone(),
        policy => six_steps(own, policy, round.types),
    }
}

/// The six steps that an institute has under policy 0 or 1: step 6 has no positions of its own, and under policy 1 gets what step 4 leaves vacant.
pub fn six_steps(own: &Institute, policy: u16, types: usize) -> Vec<ListedStep> {
    let mut steps: Vec<ListedStep> = (OPEN..5)
        .map(|category| ListedStep {
            category,
            receiver: 0,
            positions: own.positions[usize::from(category)],
            reserved: own.reserved[usize::from(category)].clone(),
        })
        .collect();
    steps.push(ListedStep {
        category: OPEN,
        receiver: 0,
        positions: 0,
        reserved: vec![0; types],
    });
    if policy == 1 {
        steps[usize::from(OBC)].receiver = SIX as u8;
    }
    steps
}

/// The category of a step of an institute, if it has that step.
pub fn category_of(round: &Round, institute: usize, step: u8) -> Option<u8> {
    let place = usize::from(step).checked_sub(1)?;
    let steps = steps_of(round, institute);
    steps.get(place).map(|step| step.category)
}

/// How many closing places each institute of a round has.
pub fn closing_places(round: &Round) -> usize {
    match round.policy {
        LISTED => MOST_STEPS,
        _ => SIX,
    }
}
