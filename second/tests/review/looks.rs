//! A review of the tests' own, which goes over a list in one of several ways.

use second::choice::{Offer, Rule};
use second::form::Form;
use second::reading::{Entry, Round};
use second::Review;

/// A way of going over a list.
#[allow(dead_code)]
#[derive(Clone, Copy, Debug, PartialEq, Eq)]
pub enum Look {
    /// That of the document.
    Right,
    /// Every list passes.
    PassesAll,
    /// Only the first entry of a row is looked at.
    FirstEntryOnly,
    /// An institute chooses from all listed seats, also those outside the rows.
    AllListed,
    /// Whatever the step, a seat is right where its holder is taken.
    NoSteps,
    /// The last candidate is named.
    LastNamed,
    /// All entries above the seat are added at once.
    AllAtOnce,
    /// Step 6 under policy 0 is not in the row.
    NoStep6,
    /// An entry would be taken where its candidate is taken at all.
    TakenAtAll,
    /// The worst entry of a candidate is named.
    WorstNamed,
    /// A candidate's own seat is taken away when an entry is added.
    OwnSeatAway,
    /// Seats outside the rows are looked for before any step.
    RowsFirst,
    /// The entries of a candidate are looked at before the seats of those behind.
    OneByOne,
    /// The entries below the seat are looked at too.
    BelowToo,
    /// Bytes that are no seat are read as 0 0.
    ReadAsNone,
    /// 0 0 is a seat outside the row.
    NoneAtFault,
    /// Steps have the categories of document 01 also where they are listed.
    FixedCategories,
    /// The steps of all institutes are those that the first one lists.
    ListOfFirst,
    /// A step beyond the list, up to step 12, stands for the open entry.
    BeyondAsOpen,
}

/// The categories of steps 1 to 6 where they are not listed.
const CATEGORIES: [u8; 6] = [0, 1, 2, 3, 4, 0];

/// A list that is gone over in a way.
pub struct Over<'a, R: Rule> {
    pub look: Look,
    pub round: &'a Round,
    pub rule: &'a R,
    pub list: &'a [u8],
}

impl<R: Rule> Over<'_, R> {
    /// The institute and the step that the list has for a candidate, and the byte behind them, 0 in the narrow form.
    fn bytes(&self, who: usize) -> (u16, u8, u8) {
        match (self.round.form, self.list) {
            (Form::Narrow, list) => (u16::from(list[2 * who]), list[2 * who + 1], 0),
            (Form::Wide, list) => {
                let own = &list[4 * who..4 * who + 4];
                (u16::from_le_bytes([own[0], own[1]]), own[2], own[3])
            }
        }
    }

    /// The category of a step of an institute.
    fn category(&self, institute: usize, step: u8) -> Option<u8> {
        let place = usize::from(step).checked_sub(1)?;
        if self.round.policy < 2 || self.look == Look::FixedCategories {
            return CATEGORIES.get(place).copied();
        }
        let own = match self.look {
            Look::ListOfFirst => 0,
            _ => institute,
        };
        let steps = &self.round.institutes[own].steps;
        match self.look {
            Look::BeyondAsOpen if (steps.len()..12).contains(&place) => Some(0),
            _ => steps.get(place).map(|step| step.category),
        }
    }

    /// The entry that the bytes of a candidate stand for, in the row or not.
    fn entry(&self, who: usize) -> Option<Entry> {
        let (institute, step, behind) = self.bytes(who);
        let institute = usize::from(institute).checked_sub(1)?;
        let none_at_6 = self.look == Look::NoStep6 && self.round.policy == 0 && step == 6;
        let there = institute < self.round.institutes.len() && behind == 0 && !none_at_6;
        let category = there.then(|| self.category(institute, step))??;
        Some(Entry {
            institute,
            category,
        })
    }

    /// Whether the bytes of a candidate say that there is no seat.
    fn none(&self, who: usize) -> bool {
        match self.look {
            Look::ReadAsNone => self.entry(who).is_none(),
            Look::NoneAtFault => false,
            _ => self.bytes(who) == (0, 0, 0),
        }
    }

    /// The place in the row of a candidate's seat.
    fn place(&self, who: usize) -> Option<usize> {
        let entry = self.entry(who)?;
        let row = &self.round.candidates[who].row;
        row.iter().position(|&own| own == entry)
    }

    /// The listed seats from which an institute chooses.
    fn set(&self, institute: usize) -> Vec<Offer> {
        let people = 0..self.round.candidates.len();
        let there = |&who: &usize| self.place(who).is_some() || self.look == Look::AllListed;
        people
            .filter(there)
            .filter_map(|candidate| {
                let entry = self.entry(candidate)?;
                (entry.institute == institute).then_some(Offer {
                    candidate,
                    category: entry.category,
                })
            })
            .collect()
    }

    /// Whether the institute of a candidate's seat gives another step, or none.
    fn at_another_step(&self, who: usize) -> bool {
        let Some(entry) = self.entry(who) else {
            return false;
        };
        let taken = self
            .rule
            .choose(self.round, entry.institute, &self.set(entry.institute));
        let own = taken.iter().find(|one| one.offer.candidate == who);
        match self.look {
            Look::NoSteps => own.is_none(),
            _ => own.map(|one| one.step) != Some(self.bytes(who).1),
        }
    }

    /// All candidates whose seat or step is wrong, the one to be named first.
    fn wrong(&self) -> Vec<usize> {
        let people = 0..self.round.candidates.len();
        let seated = people.filter(|&who| !self.none(who));
        let mut wrong: Vec<usize> = seated
            .filter(|&who| self.place(who).is_none() || self.at_another_step(who))
            .collect();
        match self.look {
            Look::LastNamed => wrong.reverse(),
            Look::RowsFirst => wrong.sort_by_key(|&who| self.place(who).is_some()),
            _ => {}
        }
        wrong
    }

    /// The entries of a candidate that are looked at, best first.
    fn above(&self, who: usize) -> Vec<Entry> {
        let mut row = self.round.candidates[who].row.clone();
        match (self.look, self.place(who)) {
            (_, None) => {}
            (Look::BelowToo, Some(place)) => {
                row.remove(place);
            }
            (_, Some(place)) => row.truncate(place),
        }
        if self.look == Look::FirstEntryOnly {
            row.truncate(1);
        }
        row
    }

    /// Whether an institute takes an entry of a candidate that is added to its listed seats.
    fn taken(&self, who: usize, entry: Entry) -> bool {
        let added = |entry: &Entry| Offer {
            candidate: who,
            category: entry.category,
        };
        let mut set = self.set(entry.institute);
        if self.look == Look::OwnSeatAway {
            set.retain(|offer| offer.candidate != who);
        }
        if self.look == Look::AllAtOnce {
            let here = self.above(who).into_iter();
            let here = here.filter(|one| one.institute == entry.institute);
            set.extend(here.map(|one| added(&one)));
        } else {
            set.push(added(&entry));
        }
        let taken = self.rule.choose(self.round, entry.institute, &set);
        taken.iter().any(|one| match self.look {
            Look::TakenAtAll => one.offer.candidate == who,
            _ => one.offer == added(&entry),
        })
    }

    /// The entries that would be taken, the one to be named first.
    fn would_take(&self) -> Vec<(usize, Entry)> {
        let mut people: Vec<usize> = (0..self.round.candidates.len()).collect();
        if self.look == Look::LastNamed {
            people.reverse();
        }
        let mut all = Vec::new();
        for who in people {
            let mut entries = self.above(who);
            entries.retain(|&entry| self.taken(who, entry));
            if self.look == Look::WorstNamed {
                entries.reverse();
            }
            all.extend(entries.into_iter().map(|entry| (who, entry)));
        }
        all
    }

    /// What the review answers.
    pub fn answer(&self) -> Review {
        if self.look == Look::PassesAll {
            return Review::Passes;
        }
        let wrong = self.wrong().first().copied();
        if let (Some(who), true) = (wrong, self.look != Look::OneByOne) {
            return Review::Wrong(who + 1);
        }
        let taken = self.would_take().first().copied();
        match (wrong, taken) {
            (Some(who), taken) if taken.is_none_or(|(other, _)| who <= other) => {
                Review::Wrong(who + 1)
            }
            (_, Some((who, entry))) => Review::WouldTake {
                candidate: who + 1,
                institute: entry.institute + 1,
                code: entry.category,
            },
            _ => Review::Passes,
        }
    }
}
