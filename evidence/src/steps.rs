//! Rounds and files whose institutes list their own steps.

use second::reading::{Institute, Round};
use second::step_lists::with_step_lists;
use second::steps::{ListedStep, LISTED};

/// A round under policy 2, each institute replaced by the list made of it.
pub fn with_lists(mut round: Round, mut list: impl FnMut(&Institute) -> Vec<ListedStep>) -> Round {
    round.policy = LISTED;
    for own in &mut round.institutes {
        let steps = list(own);
        *own = Institute {
            steps,
            ..Institute::default()
        };
    }
    round
}

/// A file of policy 0 or 1 rewritten with lists that say what the policy says; any other file stays.
pub fn relisted(file: &[u8]) -> Vec<u8> {
    with_step_lists(file).unwrap_or_else(|| file.to_vec())
}
