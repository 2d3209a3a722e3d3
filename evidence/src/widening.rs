//! The unit on a narrow file and on the same one rewritten in the wide form: both calls have to say the same.

use crate::call::needed;
use crate::classes::{worked, Run};
use crate::difference::Difference;
use crate::files::at_edges;
use crate::lists::Listed;
use crate::plan;
use crate::reviews::worked_lists;
use crate::rewritten::{self, Lent};
use crate::sort::Sort;
use crate::tally::{Came, Tally};
use second::form::Form;
use second::random::Random;
use second::reading::read;
use second::widening::{widened, widened_list};
use std::path::Path;
use tazbilk::list_size;

/// The name of the class of calls, and that of reviews.
pub const CALLS: &str = "widened";
pub const REVIEWS: &str = "widened, reviews";

/// The sorts of narrow rounds.
const NARROW: [Sort; 2] = [
    Sort::by_policy(Form::Narrow),
    Sort::with_steps(Form::Narrow),
];

/// What is asked where a call differs, and where a review does.
const ALLOT: &str = "allot a narrow file rewritten; \
    'second' is what the unit says of the narrow one";
const REVIEW: &str = "review of a narrow list and file rewritten; \
    'second' is what the unit says of the narrow one";

/// Allots a lawful narrow file and the same in the wide form, and compares offers, seats, steps, closing places and types.
fn compare(random: &mut Random, file: &[u8]) -> (Came, Option<Difference>) {
    let wide = widened(file);
    let (plain, own) = (Lent::new(random, file), Lent::new(random, &wide));
    let seats = list_size(plain.work.seen().len() / 8);
    rewritten::compare(ALLOT, plain, own, |answer| {
        let (seats, rest) = answer.split_at(seats);
        [&widened_list(seats), rest].concat()
    })
}

/// Reviews a list for a lawful narrow file and the same list and file in the wide form.
fn compare_review(random: &mut Random, file: &[u8], list: &[u8]) -> (Came, Option<Difference>) {
    let (wide, wide_list) = (widened(file), widened_list(list));
    rewritten::compare_review(REVIEW, random, (file, list), (&wide, &wide_list))
}

impl Run {
    /// Every lawful narrow file of the worked rounds, the edges and the lawful classes against the same in the wide form.
    pub fn widened(&self, folder: &Path) -> Tally {
        let mut random = self.random(CALLS);
        let classes: Vec<_> = NARROW
            .into_iter()
            .flat_map(|sort| plan::lawful(sort, self.long))
            .collect();
        let count = classes.iter().map(|(_, count)| count).sum();
        let mut tally = Tally::new(CALLS, count, self.long).with(&[Came::Accepted]);
        let made = (classes.into_iter()).flat_map(|(made, count)| self.made(made, count));
        let edges = NARROW.into_iter().flat_map(at_edges);
        let fixed = worked(folder).into_iter().chain(edges);
        for file in fixed.chain(made) {
            if read(&file).is_ok_and(|round| round.form == Form::Narrow) {
                let (came, difference) = compare(&mut random, &file);
                tally.count(came, difference);
            }
        }
        tally
    }

    /// The worked lists and lists of every class for narrow files against the same in the wide form.
    pub fn widened_reviews(&self, folder: &Path) -> Tally {
        let mut random = self.random(REVIEWS);
        let count = self.widened_count();
        let mut tally =
            Tally::new(REVIEWS, count, self.long).with(&[Came::Accepted, Came::Seat, Came::Entry]);
        for one in worked_lists(folder) {
            let whole = needed(&one.file).is_some_and(|least| 4 * one.list.len() == least.work);
            if whole && read(&one.file).is_ok_and(|round| round.form == Form::Narrow) {
                let (came, difference) = compare_review(&mut random, &one.file, &one.list);
                tally.count(came, difference);
            }
        }
        for sort in NARROW {
            for listed in Listed::all(sort) {
                let name = format!("{REVIEWS}, {}", listed.name());
                for counted in plan::widened_lists(sort, self.long) {
                    self.each_list(&name, &mut random, listed, counted, |random, file, list| {
                        let (came, difference) = compare_review(random, file, list);
                        tally.count(came, difference);
                    });
                }
            }
        }
        tally
    }

    /// How many made lists are rewritten.
    fn widened_count(&self) -> usize {
        let of_sort = |sort| -> usize {
            let each = plan::widened_lists(sort, self.long);
            let files: usize = each.iter().map(|(_, count)| count).sum();
            files * Listed::all(sort).len()
        };
        NARROW.into_iter().map(of_sort).sum()
    }
}
