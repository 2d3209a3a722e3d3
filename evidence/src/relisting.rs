//! The unit on a file of policy 0 or 1 and on the same one rewritten with lists of steps: both calls have to say the same.

use crate::area::Area;
use crate::classes::{worked, Run};
use crate::difference::Difference;
use crate::files::at_edges;
use crate::lists::Listed;
use crate::plan;
use crate::reviews::worked_lists;
use crate::rewritten::{self, compare_review, Lent};
use crate::sort::Sort;
use crate::tally::{Came, Tally};
use second::form::Form;
use second::random::Random;
use second::reading::{read, Round};
use second::step_lists::{with_six_steps, with_step_lists};
use std::path::Path;
use tazbilk::{steps_answer_size, wide_steps_answer_size};

/// The name of the class of calls, and that of reviews.
pub const CALLS: &str = "relisted";
pub const REVIEWS: &str = "relisted, reviews";

/// What is asked where a call differs, and where a review does.
const ALLOT: &str = "allot a file rewritten with lists of steps; \
    'second' is what the unit says of the one without lists";
const REVIEW: &str = "review for a file rewritten with lists of steps; \
    'second' is what the unit says of the one without lists";

/// The bytes of the six closing places of an institute, and of twelve.
const SIX: usize = 12;
const TWELVE: usize = 24;

/// The answer of a round without lists, with six closing places more for each institute.
fn with_twelve_places(round: &Round, answer: &[u8]) -> Vec<u8> {
    let seats = round.form.seat_bytes() * round.candidates.len();
    let (seats, rest) = answer.split_at(seats);
    let (closing, types) = rest.split_at(SIX * round.institutes.len());
    let mut bytes = seats.to_vec();
    for places in closing.chunks(SIX) {
        bytes.extend(places);
        bytes.resize(bytes.len() + TWELVE - SIX, 0);
    }
    bytes.extend(types);
    bytes
}

/// The bytes of the answer area that a round needs with lists.
fn size(round: &Round) -> usize {
    let (n, m) = (round.candidates.len(), round.institutes.len());
    match round.form {
        Form::Narrow => steps_answer_size(n, m),
        Form::Wide => wide_steps_answer_size(n, m),
    }
}

/// Allots a lawful file without lists and the same with lists, and compares offers, seats, steps, closing places and types.
fn compare(
    random: &mut Random,
    round: &Round,
    file: &[u8],
    listed: &[u8],
) -> (Came, Option<Difference>) {
    let plain = Lent::new(random, file);
    let own = Lent {
        file: listed,
        answer: Area::new(random, size(round)),
        work: plain.work.clone(),
    };
    rewritten::compare(ALLOT, plain, own, |answer| {
        with_twelve_places(round, answer)
    })
}

/// Whether a list has step 6 somewhere.
fn has_six(form: Form, list: &[u8]) -> bool {
    let mut seats = list.chunks_exact(form.seat_bytes());
    seats.any(|seat| seat[form.institute_bytes()] == 6)
}

/// A file rewritten for a review: with six steps where a list has the sixth of policy 0, which counts as a step though no institute gives it.
fn relisted_for(round: &Round, file: &[u8], list: &[u8]) -> Option<Vec<u8>> {
    match round.policy == 0 && has_six(round.form, list) {
        true => with_six_steps(file),
        false => with_step_lists(file),
    }
}

impl Run {
    /// Every lawful file without lists of the worked rounds, the edges and a third of the lawful classes, of both forms, against the same with lists, under policy 0 of five steps and of six.
    pub fn relisted(&self, folder: &Path) -> Tally {
        let mut random = self.random(CALLS);
        let classes = Form::BOTH
            .map(|form| plan::relisted(form, self.long))
            .concat();
        let count = classes.iter().map(|(_, count)| count).sum();
        let mut tally = Tally::new(CALLS, count, self.long).with(&[Came::Accepted]);
        let made = (classes.into_iter()).flat_map(|(made, count)| {
            self.made_for(&format!("{CALLS}, {}", made.name()), made, count)
        });
        let edges = (Form::BOTH.into_iter()).flat_map(|form| at_edges(Sort::by_policy(form)));
        for file in worked(folder).into_iter().chain(edges).chain(made) {
            let Ok(round) = read(&file) else { continue };
            let mut rewritten = vec![with_step_lists(&file), with_six_steps(&file)];
            rewritten.dedup();
            for listed in rewritten.into_iter().flatten() {
                let (came, difference) = compare(&mut random, &round, &file, &listed);
                tally.count(came, difference);
            }
        }
        tally
    }

    /// The worked lists and lists of every class for files without lists, of both forms, against the same with lists.
    pub fn relisted_reviews(&self, folder: &Path) -> Tally {
        let mut random = self.random(REVIEWS);
        let mut tally =
            Tally::new(REVIEWS, 0, self.long).with(&[Came::Accepted, Came::Seat, Came::Entry]);
        for one in worked_lists(folder) {
            relisted_review(&mut tally, &mut random, &one.file, &one.list);
        }
        for form in Form::BOTH {
            for listed in Listed::all(Sort::by_policy(form)) {
                let name = format!("{REVIEWS}, {}", listed.name());
                for counted in plan::relisted_lists(form, self.long) {
                    self.each_list(&name, &mut random, listed, counted, |random, file, list| {
                        relisted_review(&mut tally, random, file, list);
                    });
                }
            }
        }
        tally
    }
}

/// One list for a file, if that is lawful and has no lists.
fn relisted_review(tally: &mut Tally, random: &mut Random, file: &[u8], list: &[u8]) {
    let Ok(round) = read(file) else { return };
    if let Some(listed) = relisted_for(&round, file, list) {
        let (came, difference) = compare_review(REVIEW, random, (file, list), (&listed, list));
        tally.count(came, difference);
    }
}
