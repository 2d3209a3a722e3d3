//! Wrong rules that go by who came first.

use second::choice::{Document, Offer, Rule, Taken};
use second::reading::Round;

/// Never gives up whom it holds: a new offer is taken where the choice from those held and the new one takes them all.
pub struct FirstServed;

impl Rule for FirstServed {
    fn choose(&self, round: &Round, institute: usize, offers: &[Offer]) -> Vec<Taken> {
        let mut kept: Vec<Offer> = Vec::new();
        for &offer in offers {
            kept.push(offer);
            if Document.choose(round, institute, &kept).len() < kept.len() {
                kept.pop();
            }
        }
        Document.choose(round, institute, &kept)
    }
}

/// Goes down the list of those who offer in the order in which they came, instead of by merit.
pub struct ByArrival;

impl Rule for ByArrival {
    fn choose(&self, round: &Round, institute: usize, offers: &[Offer]) -> Vec<Taken> {
        let mut other = round.clone();
        other.merit[institute].sort_by_key(|&candidate| {
            let came = offers.iter().position(|offer| offer.candidate == candidate);
            came.unwrap_or(offers.len())
        });
        Document.choose(&other, institute, offers)
    }
}

/// Leaves everybody it holds at the step that first took them.
pub struct StepKept;

impl Rule for StepKept {
    fn choose(&self, round: &Round, institute: usize, offers: &[Offer]) -> Vec<Taken> {
        let mut taken: Vec<Taken> = Vec::new();
        for count in 0..=offers.len() {
            let before = taken;
            taken = Document.choose(round, institute, &offers[..count]);
            for one in &mut taken {
                let earlier = before.iter().find(|held| held.offer == one.offer);
                one.step = earlier.map_or(one.step, |held| held.step);
            }
        }
        taken
    }
}
