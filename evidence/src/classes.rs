//! The classes of comparisons, each run to its tally.

use crate::call::{self, needed, some_lengths, Lengths};
use crate::choice::{self, Case};
use crate::files::{a, at_edges, cut_and_extended, in_sort, one_byte_changed, Made};
use crate::plan;
use crate::sort::Sort;
use crate::tally::{Came, Tally};
use crate::verdict;
use second::orders::Order;
use second::random::Random;
use second::reading::read;
use std::path::Path;

/// What all classes are run with.
#[derive(Clone, Copy)]
pub struct Run {
    pub seed: u64,
    pub long: bool,
}

impl Run {
    /// The source of numbers for a class, another for each name and seed.
    pub fn random(&self, name: &str) -> Random {
        let mixed = name.bytes().fold(self.seed, |state, byte| {
            (state ^ u64::from(byte)).wrapping_mul(0x0100_0000_01b3)
        });
        Random::new(mixed)
    }

    /// Allotment calls on these files, with areas that suffice.
    pub fn calls(&self, name: &str, count: usize, files: impl Iterator<Item = Vec<u8>>) -> Tally {
        let mut random = self.random(name);
        let mut tally = Tally::new(name, count, self.long);
        for file in files {
            let lengths = some_lengths(&mut random, &file);
            let (came, difference) = call::compare(&mut random, &file, lengths);
            tally.count(came, difference);
        }
        tally
    }

    /// So many files of a class.
    pub fn made(&self, made: Made, count: usize) -> impl Iterator<Item = Vec<u8>> {
        self.made_for(&made.name(), made, count)
    }

    /// So many files of a class, others for each name.
    pub fn made_for(&self, name: &str, made: Made, count: usize) -> impl Iterator<Item = Vec<u8>> {
        let mut random = self.random(name);
        let fixed = made.fixed();
        (0..count as u64).map(move |number| {
            let seed = random.bits();
            made.file(if number < fixed { number } else { seed })
        })
    }

    /// The files of the folder of worked rounds.
    pub fn rounds(&self, folder: &Path) -> Tally {
        let files = worked(folder);
        self.calls("rounds", files.len(), files.into_iter())
    }

    /// The files at the edge of each question in a sort.
    pub fn boundary(&self, sort: Sort) -> Tally {
        let files = at_edges(sort);
        let name = sort.named("boundary");
        let tally = self.calls(&name, files.len(), files.into_iter());
        tally.with(plan::of_steps(sort))
    }

    /// Made files of a class.
    pub fn class(&self, made: Made, count: usize) -> Tally {
        self.calls(&made.name(), count, self.made(made, count))
    }

    /// Allotment calls on these files, the second program calling candidates up in each of the other orders in turn.
    fn called(&self, name: &str, count: usize, files: impl Iterator<Item = Vec<u8>>) -> Tally {
        let mut random = self.random(name);
        let mut tally = Tally::new(name, count, self.long);
        for (file, order) in files.zip(Order::OTHERS.into_iter().cycle()) {
            let lengths = some_lengths(&mut random, &file);
            let (came, difference) = call::compare_in_order(&mut random, &file, lengths, order);
            tally.count(came, difference);
        }
        tally
    }

    /// The worked rounds, each in every other order.
    pub fn rounds_in_order(&self, folder: &Path) -> Tally {
        let orders = Order::OTHERS.len();
        let files: Vec<Vec<u8>> = worked(folder)
            .into_iter()
            .flat_map(|file| vec![file; orders])
            .collect();
        self.called("orders, rounds", files.len(), files.into_iter())
    }

    /// Made files of a class, other ones than those of the class itself, in the other orders.
    pub fn class_in_order(&self, name: &str, made: Made, count: usize) -> Tally {
        self.called(name, count, self.made_for(name, made, count))
    }

    /// Every other value at every byte of file A in a sort.
    pub fn changed(&self, sort: Sort) -> Tally {
        let a = a(sort);
        let name = sort.named("a, one byte changed");
        let tally = self.calls(&name, 255 * a.len(), one_byte_changed(&a));
        tally.with(plan::of_steps(sort))
    }

    /// File A in a sort cut and extended.
    pub fn cut(&self, sort: Sort) -> Tally {
        let files = cut_and_extended(sort);
        let name = sort.named("a, cut and extended");
        self.calls(&name, files.len(), files.into_iter())
    }

    /// Areas of lengths around each bound and answer areas that lack one, two or three bytes for each candidate, or those of six closing places where twelve are due, on lawful files of a sort and on refused ones.
    pub fn lengths(&self, sort: Sort, folder: &Path) -> Tally {
        let name = sort.named("area lengths");
        let mut random = self.random(&name);
        let mut files = worked_in(sort, folder);
        for (made, count) in plan::area_lengths(sort, self.long) {
            files.extend(self.made(made, count));
        }
        let mut tally = Tally::new(&name, files.len() * 70, self.long).with(&[Came::Refused(14)]);
        for file in files {
            let least = needed(&file).unwrap_or(Lengths {
                answer: 21,
                work: 24,
            });
            let lacking = [1, 2, 3].map(|bytes| least.answer - bytes * least.work / 8);
            let places = six_places(sort, &file, least.answer);
            let answers = around(&mut random, least.answer).into_iter();
            for answer in answers.chain(lacking).chain(places) {
                for work in around(&mut random, least.work) {
                    let lengths = Lengths { answer, work };
                    let (came, difference) = call::compare(&mut random, &file, lengths);
                    tally.count(came, difference);
                }
            }
        }
        tally
    }

    /// Areas of every length up to past what it needs for file A in a sort.
    pub fn every_length(&self, sort: Sort) -> Tally {
        let name = sort.named("a, every area length");
        let mut random = self.random(&name);
        let mut tally = Tally::new(&name, 0, self.long);
        let file = a(sort);
        let Some(least) = needed(&file) else {
            return tally;
        };
        for answer in 0..=least.answer + 2 {
            for work in 0..=least.work + 2 {
                let lengths = Lengths { answer, work };
                let (came, difference) = call::compare(&mut random, &file, lengths);
                tally.count(came, difference);
            }
        }
        tally
    }

    /// Verdicts on damaged and lawful files of a sort.
    pub fn verdicts(&self, sort: Sort, folder: &Path) -> Tally {
        let classes = plan::verdicts(sort, self.long);
        let count = classes.iter().map(|(_, count)| count).sum();
        let mut tally =
            Tally::new(&sort.named("verdict"), count, self.long).with(plan::of_steps(sort));
        let made = classes
            .into_iter()
            .flat_map(|(made, count)| self.made(made, count));
        for file in worked_in(sort, folder)
            .into_iter()
            .chain(at_edges(sort))
            .chain(cut_and_extended(sort))
            .chain(one_byte_changed(&a(sort)))
            .chain(made)
        {
            let (came, difference) = verdict::compare(&file);
            tally.count(came, difference);
        }
        tally
    }

    /// Choices of one institute from the least to the most places.
    pub fn choices(&self, name: &str, places: (usize, usize), count: usize) -> Tally {
        self.chosen(name, places, count, Case::made)
    }

    /// Choices of one institute by a list of steps, from the least to the most places.
    pub fn choices_by_steps(&self, name: &str, places: (usize, usize), count: usize) -> Tally {
        self.chosen(name, places, count, Case::of_steps)
    }

    /// Choices of cases that are made in a way, from the least to the most places.
    fn chosen(
        &self,
        name: &str,
        (least, most): (usize, usize),
        count: usize,
        made: impl Fn(&mut Random, usize) -> Case,
    ) -> Tally {
        let mut random = self.random(name);
        let mut tally = Tally::new(name, count, self.long);
        for _ in 0..count {
            let places = random.from_to(least, most);
            let case = made(&mut random, places);
            let (came, difference) = choice::compare(&mut random, &case);
            tally.count(came, difference);
        }
        tally
    }

    /// Choices with marks above type L.
    pub fn stray(&self, count: usize) -> Tally {
        self.chosen("choose, stray marks", (0, 40), count, |random, places| {
            Case::made(random, places).with_stray_marks(random)
        })
    }

    /// Choices in which most candidates hold several types and every position is reserved.
    pub fn of_types(&self, count: usize) -> Tally {
        self.chosen("choose, types", (2, 24), count, Case::of_types)
    }
}

/// The lengths around a bound: none, one less, just so, one more, many more, and two below it.
pub fn around(random: &mut Random, bound: usize) -> [usize; 7] {
    [
        0,
        bound - 1,
        bound,
        bound + 1,
        bound + 5_000,
        bound / 2,
        random.from_to(0, bound - 1),
    ]
}

/// The length of an answer area that has room for six closing places only, where twelve are due.
fn six_places(sort: Sort, file: &[u8], least: usize) -> Option<usize> {
    let round = read(file).ok().filter(|_| sort.own_steps)?;
    Some(least - 12 * round.institutes.len())
}

/// The round files of a folder, by name, in a sort; those that are wide, or have lists of steps, stay so.
pub fn worked_in(sort: Sort, folder: &Path) -> Vec<Vec<u8>> {
    let files = worked(folder).into_iter();
    files.map(|file| in_sort(sort, &file)).collect()
}

/// The round files of a folder, by name.
pub fn worked(folder: &Path) -> Vec<Vec<u8>> {
    let mut paths: Vec<_> = std::fs::read_dir(folder)
        .into_iter()
        .flatten()
        .flatten()
        .map(|entry| entry.path())
        .filter(|path| path.extension().is_some_and(|end| end == "round"))
        .collect();
    paths.sort();
    paths
        .iter()
        .filter_map(|path| std::fs::read(path).ok())
        .collect()
}
