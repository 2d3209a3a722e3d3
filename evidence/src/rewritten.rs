//! The unit on a file and on the same one rewritten, which have to come to the same.

use crate::area::Area;
use crate::call::{self, areas};
use crate::difference::{area_text, Difference};
use crate::review;
use crate::tally::Came;
use second::random::Random;

/// A file with the areas that are lent for it.
pub struct Lent<'a> {
    pub file: &'a [u8],
    pub answer: Area,
    pub work: Area,
}

impl<'a> Lent<'a> {
    /// Areas of just the lengths that the round of a lawful file needs.
    pub fn new(random: &mut Random, file: &'a [u8]) -> Self {
        let (answer, work) = areas(random, file);
        Lent { file, answer, work }
    }
}

/// Allots a lawful file and the same rewritten, and compares what is said, the work areas, and the answer to the second with what that to the first has to turned.
pub fn compare(
    asked: &str,
    mut plain: Lent,
    mut own: Lent,
    turned: impl Fn(&[u8]) -> Vec<u8>,
) -> (Came, Option<Difference>) {
    let (mut due_answer, mut due_work) = (own.answer.clone(), own.work.clone());

    let due = tazbilk::allot(plain.file, plain.answer.lent(), plain.work.lent());
    let said = tazbilk::allot(own.file, own.answer.lent(), own.work.lent());

    let bytes = turned(plain.answer.seen());
    due_answer.lent().copy_from_slice(&bytes);
    due_work.lent().copy_from_slice(plain.work.seen());
    let (left, due_left) = ([&own.answer, &own.work], [&due_answer, &due_work]);
    let difference = (said != due || left != due_left).then(|| Difference {
        asked: asked.to_string(),
        input: own.file.to_vec(),
        list: None,
        unit: call::text(&said, left, due_left),
        second: call::text(&due, due_left, left),
    });
    (call::came(&due), difference)
}

/// Reviews a list for a lawful file and both rewritten, and compares the judgements and the work areas.
pub fn compare_review(
    asked: &str,
    random: &mut Random,
    (file, list): (&[u8], &[u8]),
    (own_file, own_list): (&[u8], &[u8]),
) -> (Came, Option<Difference>) {
    let (_, mut due_work) = areas(random, file);
    let mut work = due_work.clone();
    let due = tazbilk::review(file, list, due_work.lent());
    let said = tazbilk::review(own_file, own_list, work.lent());
    let difference = (said != due || work != due_work).then(|| Difference {
        asked: asked.to_string(),
        input: own_file.to_vec(),
        list: Some(own_list.to_vec()),
        unit: format!("{said}{}", area_text("work", &work, &due_work)),
        second: format!("{due}{}", area_text("work", &due_work, &work)),
    });
    (review::came(&due), difference)
}
