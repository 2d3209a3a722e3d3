//! All lists of small narrow rounds over some byte pairs, with what the review says of them.

use crate::lists::{how_many, list_of, Pair};
use crate::looks::{Look, Over};
use crate::own_list::own_list;
use crate::remembered::Remembered;
use crate::stability::unstable;
use second::choice::Rule;
use second::offers::Seat;
use second::reading::Round;
use second::review::found;
use second::Review;

/// A round with some pairs for each candidate.
pub type Paired = (Round, Vec<Vec<Pair>>);

/// Rounds with some pairs for each candidate.
pub fn with_pairs(
    rounds: impl IntoIterator<Item = Round>,
    pairs: fn(&Round, usize) -> Vec<Pair>,
) -> impl Iterator<Item = Paired> {
    rounds.into_iter().map(move |round| {
        let people = 0..round.candidates.len();
        let pairs = people.map(|who| pairs(&round, who)).collect();
        (round, pairs)
    })
}

/// The seats of a list; none where some bytes are neither 0 0 nor an institute of the round and any step.
fn seats_of(round: &Round, list: &[u8]) -> Option<Vec<Option<Seat>>> {
    let seat = |pair: &[u8]| match (usize::from(pair[0]), pair[1]) {
        (0, 0) => Some(None),
        (institute, step) if (1..=round.institutes.len()).contains(&institute) => {
            Some(Some(Seat {
                institute: institute - 1,
                step,
            }))
        }
        _ => None,
    };
    list.chunks_exact(2).map(seat).collect()
}

/// Whether a list is stable in the words of demand 3, a step that its institute does not have being no seat of the row.
fn stable(round: &Round, rule: &impl Rule, list: &[u8]) -> bool {
    seats_of(round, list).is_some_and(|seats| unstable(round, rule, &seats).is_none())
}

/// How many rounds there were, how many lists, how many of them passed, had a wrong seat and left an entry that would be taken, and how many rounds had several lists that passed.
#[derive(Debug, Default, PartialEq, Eq)]
pub struct Counts {
    pub rounds: usize,
    pub lists: usize,
    pub passing: usize,
    pub seats: usize,
    pub entries: usize,
    pub several: usize,
}

/// Asserts of all lists over these pairs of each round that just the stable ones pass, the round's own among them, and that the review answers what the tests' own review does.
pub fn all_lists(rounds: impl Iterator<Item = Paired>) -> Counts {
    let mut counts = Counts::default();
    for (round, pairs) in rounds {
        let rule = &Remembered::default();
        let mut passing = Vec::new();
        for number in 0..how_many(&pairs) {
            let list = &list_of(&pairs, number)[..];
            let review = found(&round, list);
            let own = Over {
                look: Look::Right,
                round: &round,
                rule,
                list,
            };
            assert_eq!(review, own.answer(), "{list:?} of {round:?}");
            let passes = review == Review::Passes;
            assert_eq!(passes, stable(&round, rule, list), "{list:?} of {round:?}");
            match review {
                Review::Passes => passing.push(list.to_vec()),
                Review::Wrong(_) => counts.seats += 1,
                _ => counts.entries += 1,
            }
        }
        assert!(passing.contains(&own_list(&round)), "{round:?}");
        counts.rounds += 1;
        counts.lists += how_many(&pairs);
        counts.passing += passing.len();
        counts.several += usize::from(passing.len() > 1);
    }
    counts
}
