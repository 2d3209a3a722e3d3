//! The choice from the words of the document, worked out once for each set of offers of a round.

use crate::words::Words;
use second::choice::{Offer, Rule, Taken};
use second::reading::Round;
use std::cell::RefCell;
use std::collections::HashMap;

/// An institute and a set of offers to it.
type Set = (usize, Vec<Offer>);

/// What each institute of one round chose from the sets met so far.
#[derive(Default)]
pub struct Remembered {
    chosen: RefCell<HashMap<Set, Vec<Taken>>>,
}

impl Rule for Remembered {
    fn choose(&self, round: &Round, institute: usize, offers: &[Offer]) -> Vec<Taken> {
        let mut set = offers.to_vec();
        set.sort();
        let mut chosen = self.chosen.borrow_mut();
        let known = chosen.entry((institute, set));
        known
            .or_insert_with_key(|(institute, set)| Words.choose(round, *institute, set))
            .clone()
    }
}
