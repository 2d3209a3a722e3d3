//! The lists to which a wrong review gives another answer.

use crate::all_lists::Paired;
use crate::cases::cases;
use crate::lists::{how_many, list_of};
use crate::looks::{Look, Over};
use crate::remembered::Remembered;
use second::choice::Document;
use second::reading::{read, Round};
use second::review::found;
use second::Review;

/// In how many lists of these rounds a wrong review answers otherwise, and in how many of these it passes a list that does not pass or does not pass one that does.
pub fn counted(look: Look, rounds: impl Iterator<Item = Paired>) -> [usize; 2] {
    let mut counts = [0; 2];
    for (round, pairs) in rounds {
        let rule = &Remembered::default();
        for number in 0..how_many(&pairs) {
            let list = &list_of(&pairs, number)[..];
            let wrong = Over {
                look,
                round: &round,
                rule,
                list,
            };
            let both = [found(&round, list), wrong.answer()];
            let passes = both.map(|review| review == Review::Passes);
            counts[0] += usize::from(both[0] != both[1]);
            counts[1] += usize::from(passes[0] != passes[1]);
        }
    }
    counts
}

/// The worked lists, not refused, of the rounds that are so, in which a wrong review answers otherwise.
pub fn named(look: Look, so: fn(&Round) -> bool) -> Vec<String> {
    let mut cases = cases();
    cases.retain(|case| !case.expected.starts_with("refused"));
    cases.retain(|case| {
        let round = read(&case.file).expect("a lawful round");
        let wrong = Over {
            look,
            round: &round,
            rule: &Document,
            list: &case.list,
        };
        so(&round) && wrong.answer() != found(&round, &case.list)
    });
    cases.into_iter().map(|case| case.name).collect()
}
