//! Rounds and files under policies 0 and 1 rewritten under policy 2, with each institute's steps as a list.

use crate::form::Form;
use crate::reading::{Institute, Round, OBC};
use crate::steps::{six_steps, step_bytes, LISTED};
use crate::writing::{record, two_bytes};

/// The same round with step lists: five steps under policy 0, six under policy 1.
pub fn round_with_step_lists(round: &Round) -> Round {
    listing(round, if round.policy == 1 { 6 } else { 5 })
}

/// The same round with lists of six steps, the sixth of policy 0 having no positions.
pub fn round_with_six_steps(round: &Round) -> Round {
    listing(round, 6)
}

/// The same round with lists of its institutes' first so many steps; one under policy 2 as it is.
fn listing(round: &Round, count: usize) -> Round {
    let mut listed = round.clone();
    if round.policy != LISTED {
        listed.policy = LISTED;
        for own in &mut listed.institutes {
            let mut steps = six_steps(own, round.policy, round.types);
            steps.truncate(count);
            *own = Institute {
                steps,
                ..Institute::default()
            };
        }
    }
    listed
}

/// A file under policy 0 or 1 rewritten with step lists, five steps under policy 0 and six under policy 1; none where there is no whole head that says such a policy.
///
/// A refused file is refused by the same number at the same record: an institute's record that is cut stays cut, one of another length gets length 0, and a record of kind 7 gets kind 2, so that it is not of the kind due either.
pub fn with_step_lists(file: &[u8]) -> Option<Vec<u8>> {
    rewritten(file, |policy| if policy == 1 { 6 } else { 5 })
}

/// A file under policy 0 or 1 rewritten in the same way with lists of six steps, the sixth of policy 0 having no positions.
pub fn with_six_steps(file: &[u8]) -> Option<Vec<u8>> {
    rewritten(file, |_| 6)
}

/// What the head says that an institute's list depends on.
struct Told {
    types: usize,
    policy: usize,
    steps: usize,
}

/// A file rewritten with lists of as many steps as its policy asks for.
fn rewritten(file: &[u8], steps: impl Fn(usize) -> usize) -> Option<Vec<u8>> {
    let (length, kind) = lead(file)?;
    Form::told(kind)?;
    let body = file[4..].get(..length).filter(|_| length == 8)?;
    let (types, policy) = (number(body, 4)?, number(body, 6)?);
    if policy > 1 {
        return None;
    }
    let told = Told {
        types,
        policy,
        steps: steps(policy),
    };
    let listed_policy = two_bytes(&[usize::from(LISTED)]);
    let mut bytes = record(kind, &[&body[..6], &listed_policy].concat());
    let mut rest = &file[12..];
    while let Some((length, kind)) = lead(rest) {
        let (body, behind) = rest[4..].split_at(length.min(rest.len() - 4));
        bytes.extend(match kind {
            2 => listed(&told, length, body),
            7 => [&two_bytes(&[length, 2]), body].concat(),
            _ => [&rest[..4], body].concat(),
        });
        rest = behind;
    }
    bytes.extend(rest);
    Some(bytes)
}

/// The two-byte number at a place, if it is there.
fn number(bytes: &[u8], at: usize) -> Option<usize> {
    let pair = bytes.get(at..at + 2)?;
    Some(usize::from(pair[0]) + 256 * usize::from(pair[1]))
}

/// The length and the kind at the start of some bytes, if four are there.
fn lead(bytes: &[u8]) -> Option<(usize, usize)> {
    Some((number(bytes, 0)?, number(bytes, 2)?))
}

/// An institute's record of kind 2, of this length and with what is there of its body, as one of kind 7.
fn listed(told: &Told, length: usize, body: &[u8]) -> Vec<u8> {
    let width = step_bytes(told.types);
    if length != 5 * (width - 2) {
        return [&two_bytes(&[0, 7]), body].concat();
    }
    let mut bytes = two_bytes(&[told.steps * width, 7]);
    for (code, part) in (0..).zip(body.chunks(width - 2)) {
        let hands_on = told.policy == 1 && code == OBC;
        bytes.extend([code, if hands_on { 6 } else { 0 }]);
        bytes.extend(part);
    }
    if body.len() == length {
        bytes.resize(4 + told.steps * width, 0);
    }
    bytes
}
