//! The steps of the institutes of a round, as they are numbered.

use second::reading::{Entry, Round};
use second::steps::steps_of;

/// The categories of the steps of each institute, in their order; under policies 0 and 1 those of steps 1 to 6.
pub struct Numbered {
    of: Vec<Vec<u8>>,
}

impl Numbered {
    /// Those of a round.
    pub fn of(round: &Round) -> Self {
        let categories = |institute| {
            let steps = steps_of(round, institute).into_iter();
            steps.map(|step| step.category).collect()
        };
        Numbered {
            of: (0..round.institutes.len()).map(categories).collect(),
        }
    }

    /// How many steps an institute, counted from 1, has; where there is no such institute, as many as the first one.
    pub fn count(&self, institute: usize) -> usize {
        let found = self.of.get(institute.wrapping_sub(1));
        found.unwrap_or(&self.of[0]).len()
    }

    /// The steps that an entry stands under.
    pub fn of_entry(&self, entry: Entry) -> Vec<u8> {
        let steps = self.of[entry.institute].iter().zip(1..);
        steps
            .filter(|&(&category, _)| category == entry.category)
            .map(|(_, step)| step)
            .collect()
    }

    /// The other steps of an institute that have the category of one, both counted from 1.
    pub fn like(&self, institute: usize, step: u8) -> Vec<u8> {
        let place = institute - 1;
        let Some(&category) = self.of[place].get(usize::from(step) - 1) else {
            return Vec::new();
        };
        let entry = Entry {
            institute: place,
            category,
        };
        let all = self.of_entry(entry).into_iter();
        all.filter(|&other| other != step).collect()
    }
}
