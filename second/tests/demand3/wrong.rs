//! Wrong rules: the wrong turns of the document, each as a rule of its own.

use second::choice::{steps, Document, Earlier, Offer, Rule, Step, Taken};
use second::horizontal::use_of;
use second::reading::{Round, OBC, OPEN};

/// Gives each marked candidate the first type with a position left, once, and never moves anybody.
pub struct NeverMoved;

impl Rule for NeverMoved {
    fn for_use(&self, step: &Step) -> Vec<usize> {
        let mut room = step.reserved.to_vec();
        let mut taken = Vec::new();
        for place in 0..step.considered.len() {
            let held = |held: &usize| step.marks[place] >> held & 1 == 1;
            let free = (0..room.len()).filter(held).find(|&held| room[held] > 0);
            if let Some(free) = free {
                room[free] -= 1;
                taken.push(place);
            }
        }
        taken
    }
}

/// Lets step 6 keep every OBC position it once had, though OBC candidates arrive later and take them too.
pub struct PositionsKept;

impl Rule for PositionsKept {
    fn vacancies(&self, positions: usize, _taken: usize) -> usize {
        positions
    }
}

/// Lets step 6 keep the positions it has filled, so that OBC candidates who arrive later find them gone.
pub struct SeatsKept;

impl Rule for SeatsKept {
    fn choose(&self, round: &Round, institute: usize, offers: &[Offer]) -> Vec<Taken> {
        let obc = usize::from(OBC);
        let all = round.institutes[institute].positions[obc];
        let mut kept = 0;
        let mut taken = Vec::new();
        for count in 0..=offers.len() {
            let mut less = round.clone();
            less.institutes[institute].positions[obc] = all - kept;
            less.institutes[institute].reserved[obc] =
                fitting(&round.institutes[institute].reserved[obc], all - kept);
            taken = steps(
                &KeepsSome(kept),
                &less,
                institute,
                &offers[..count],
                Earlier::LeftOut,
            );
            kept = kept.max(taken.iter().filter(|one| one.step == 6).count());
        }
        taken
    }
}

/// The reserved positions that are left where there are no more than so many positions.
fn fitting(reserved: &[usize], positions: usize) -> Vec<usize> {
    let mut left = positions;
    reserved
        .iter()
        .map(|&count| {
            let fits = count.min(left);
            left -= fits;
            fits
        })
        .collect()
}

/// The document's rule with some positions more at step 6.
struct KeepsSome(usize);

impl Rule for KeepsSome {
    fn vacancies(&self, positions: usize, taken: usize) -> usize {
        positions - taken + self.0
    }
}

/// Considers for a category somebody already taken as open who offers both.
pub struct ConsideredTwice;

impl Rule for ConsideredTwice {
    fn choose(&self, round: &Round, institute: usize, offers: &[Offer]) -> Vec<Taken> {
        steps(self, round, institute, offers, Earlier::OfferLeftOut)
    }
}

/// Considers for OBC each OBC candidate already taken as open, by the code and whether or not they offer it, and counts the position as filled.
pub struct ConsideredByCode;

impl Rule for ConsideredByCode {
    fn choose(&self, round: &Round, institute: usize, offers: &[Offer]) -> Vec<Taken> {
        let open = Document.choose(round, institute, offers);
        let mut seen = offers.to_vec();
        for one in open.iter().filter(|one| one.step == 1) {
            let candidate = one.offer.candidate;
            let added = Offer {
                candidate,
                category: OBC,
            };
            if round.candidates[candidate].code == OBC && !seen.contains(&added) {
                seen.push(added);
            }
        }
        let mut taken = steps(self, round, institute, &seen, Earlier::OfferLeftOut);
        let first: Vec<Taken> = taken.iter().copied().filter(|one| one.step == 1).collect();
        taken.retain(|one| {
            one.step == 1
                || first
                    .iter()
                    .all(|open| open.offer.candidate != one.offer.candidate)
        });
        let category: Vec<Taken> = taken
            .iter()
            .copied()
            .filter(|one| one.offer.category != OPEN)
            .collect();
        taken.retain(|one| {
            one.step != 6
                || category
                    .iter()
                    .all(|other| other.offer.candidate != one.offer.candidate)
        });
        taken
    }
}

/// Takes the best marked candidate first, also where the type has no positions, as step 1.1 of document 000 reads by its letter.
pub struct MarkedFirst;

impl Rule for MarkedFirst {
    fn for_use(&self, step: &Step) -> Vec<usize> {
        let mut taken: Vec<usize> = (0..step.considered.len())
            .filter(|&place| step.marks[place] != 0)
            .take(step.positions.min(1))
            .collect();
        for place in 0..step.considered.len() {
            let marks: Vec<u8> = taken.iter().map(|&one| step.marks[one]).collect();
            let with = [marks.as_slice(), &[step.marks[place]]].concat();
            if !taken.contains(&place)
                && taken.len() < step.positions
                && use_of(&with, step.reserved) > use_of(&marks, step.reserved)
            {
                taken.push(place);
            }
        }
        taken
    }
}

/// Takes every marked candidate before those without marks, also where the types have no positions.
pub struct AllMarkedFirst;

impl Rule for AllMarkedFirst {
    fn for_use(&self, step: &Step) -> Vec<usize> {
        (0..step.considered.len())
            .filter(|&place| step.marks[place] != 0)
            .take(step.positions)
            .collect()
    }
}
