//! The classes of reviews, each run to its tally.

use crate::call::needed;
use crate::classes::{around, worked_in, Run};
use crate::difference::Difference;
use crate::files::{in_sort, Made};
use crate::lists::{every, mend, own, Listed};
use crate::plan;
use crate::review::{came, compare};
use crate::some_steps::with_some_lists;
use crate::sort::Sort;
use crate::tally::{Came, Tally};
use second::random::Random;
use second::reading::read;
use std::path::Path;
use tazbilk::{work_size, LIST_MOST, WORK_MOST};

/// A list of the folder of worked lists, with its round file and the line that is due.
pub struct Worked {
    pub name: String,
    pub file: Vec<u8>,
    pub list: Vec<u8>,
    pub line: String,
}

/// The lists that stand in the folder of worked rounds, by name.
pub fn worked_lists(folder: &Path) -> Vec<Worked> {
    let mut paths: Vec<_> = std::fs::read_dir(folder.join("lists"))
        .into_iter()
        .flatten()
        .flatten()
        .map(|entry| entry.path())
        .filter(|path| path.extension().is_some_and(|end| end == "list"))
        .collect();
    paths.sort();
    let text = |path: &Path, end: &str| {
        let text = std::fs::read_to_string(path.with_extension(end)).unwrap_or_default();
        text.trim_end().to_string()
    };
    paths
        .iter()
        .map(|path| Worked {
            name: path.display().to_string(),
            file: std::fs::read(folder.join(text(path, "of") + ".round")).unwrap_or_default(),
            list: std::fs::read(path).unwrap_or_default(),
            line: text(path, "expected"),
        })
        .collect()
}

/// A length for the work area: what the round needs or somewhat more, and any where the file is refused.
pub fn some_work(random: &mut Random, file: &[u8]) -> usize {
    match needed(file) {
        Some(least) => least.work + random.pick(&[0, 0, 1, 40]),
        None => random.pick(&[0, 40, WORK_MOST]),
    }
}

/// A list for a file that may be refused: its own, a part of it or more than it, or any bytes.
pub fn some_list(random: &mut Random, file: &[u8]) -> Vec<u8> {
    let mut list = own(file);
    if list.is_empty() || random.one_in(3) {
        let len = random.pick(&[0, 1, 6, 40, LIST_MOST]);
        list.resize(random.pick(&[len, list.len() + 1]), 1);
    }
    list
}

impl Run {
    /// Does something with a list of a class for each of so many files of a class, others for each name.
    pub fn each_list(
        &self,
        name: &str,
        random: &mut Random,
        listed: Listed,
        (made, count): (Made, usize),
        mut each: impl FnMut(&mut Random, &[u8], &[u8]),
    ) {
        for file in self.made_for(&format!("{name}, {}", made.name()), made, count) {
            let file = listed.file(file);
            let Ok(round) = read(&file) else { continue };
            let list = listed.list(random, &round, &file);
            each(random, &file, &list);
        }
    }

    /// Reviews of lists of a class for rounds of these classes of a sort, so many of each.
    pub fn lists(&self, sort: Sort, listed: Listed, rounds: &[(Made, usize)]) -> Tally {
        let name = sort.named(listed.name());
        let mut random = self.random(&name);
        let count = rounds.iter().map(|(_, count)| count).sum();
        let mut tally = Tally::new(&name, count, self.long).with(listed.due());
        for &counted in rounds {
            self.each_list(&name, &mut random, listed, counted, |random, file, list| {
                let work = some_work(random, file);
                let (judgement, difference) = compare(random, file, list, work);
                let came = came(&judgement);
                let not_own = || Difference {
                    asked: "review of the unit's own list, which has to pass".to_string(),
                    input: file.to_vec(),
                    list: Some(list.to_vec()),
                    unit: judgement.to_string(),
                    second: judgement.to_string(),
                };
                let wrong = listed == Listed::Own && came != Came::Accepted;
                tally.count(came, difference.or_else(|| wrong.then(not_own)));
            });
        }
        tally
    }

    /// Reviews of lists that are mended finding by finding, so many times at most, for rounds of these classes of a sort.
    pub fn mended(&self, sort: Sort, rounds: &[(Made, usize)]) -> Tally {
        let name = sort.named("review, mended");
        let mut random = self.random(&name);
        let mut tally =
            Tally::new(&name, 0, self.long).with(&[Came::Accepted, Came::Seat, Came::Entry]);
        for &(made, count) in rounds {
            for file in self.made_for(&format!("{name}, {}", made.name()), made, count) {
                let Ok(round) = read(&file) else { continue };
                let mut list = Listed::Given.list(&mut random, &round, &file);
                for _ in 0..plan::MENDED_MOST {
                    let work = some_work(&mut random, &file);
                    let (judgement, difference) = compare(&mut random, &file, &list, work);
                    tally.count(came(&judgement), difference);
                    if !mend(&round, &mut list, &judgement) {
                        break;
                    }
                }
            }
        }
        tally
    }

    /// The worked lists, against the lines that stand beside them too.
    pub fn worked_lists(&self, folder: &Path) -> Tally {
        let name = "review, worked";
        let mut random = self.random(name);
        let lists = worked_lists(folder);
        let mut tally = Tally::new(name, lists.len(), self.long).with(&[
            Came::Accepted,
            Came::Seat,
            Came::Entry,
            Came::Refused(15),
        ]);
        for one in lists {
            let work = some_work(&mut random, &one.file);
            let (judgement, difference) = compare(&mut random, &one.file, &one.list, work);
            let other = || Difference {
                asked: format!("review of the worked list {}: {}", one.name, one.line),
                input: one.file.clone(),
                list: Some(one.list.clone()),
                unit: judgement.to_string(),
                second: judgement.to_string(),
            };
            let wrong = judgement.to_string() != one.line;
            tally.count(came(&judgement), difference.or_else(|| wrong.then(other)));
        }
        tally
    }

    /// Every list, up to one institute and one step too many, for the rounds of at most three candidates and institutes that the worked lists are of, in a sort; with lists of steps, those that say what the policy says and some others.
    pub fn every_list(&self, sort: Sort, folder: &Path) -> Tally {
        let name = sort.named("review, every list");
        let mut random = self.random(&name);
        let mut files: Vec<Vec<u8>> = worked_lists(folder)
            .into_iter()
            .map(|one| in_sort(sort, &one.file))
            .collect();
        if sort.own_steps {
            let by_policy = Sort::by_policy(sort.form);
            for one in worked_lists(folder) {
                let file = in_sort(by_policy, &one.file);
                files.push(with_some_lists(&mut random, &file));
            }
        }
        files.sort();
        files.dedup();
        let mut tally =
            Tally::new(&name, 0, self.long).with(&[Came::Accepted, Came::Seat, Came::Entry]);
        for file in files {
            let Ok(round) = read(&file) else { continue };
            let (n, m) = (round.candidates.len(), round.institutes.len());
            if n > 3 || m > 3 || Sort::of(&round) != sort {
                continue;
            }
            for list in every(&round) {
                let (judgement, difference) = compare(&mut random, &file, &list, work_size(n));
                tally.count(came(&judgement), difference);
            }
        }
        tally
    }

    /// Damaged files of a sort with lists of right and wrong lengths, and work areas of all sizes.
    pub fn damaged_with_lists(&self, sort: Sort) -> Tally {
        let name = sort.named("review, damaged files");
        let mut random = self.random(&name);
        let classes = plan::damaged_with_lists(sort, self.long);
        let count = classes.iter().map(|(_, count)| count).sum();
        let mut due: Vec<Came> = (1..=15).map(Came::Refused).collect();
        due.extend(plan::of_steps(sort));
        let mut tally = Tally::new(&name, count, self.long).with(&due);
        for (made, count) in classes {
            for file in self.made_for(&format!("{name}, {}", made.name()), made, count) {
                let list = some_list(&mut random, &file);
                let enough = some_work(&mut random, &file);
                let work = random.pick(&[enough, enough, enough / 2]);
                let (judgement, difference) = compare(&mut random, &file, &list, work);
                tally.count(came(&judgement), difference);
            }
        }
        tally
    }

    /// Lists of lengths around 2n, in the wide form 4n, and work areas of lengths around 8n, on lawful files and on refused ones.
    pub fn list_lengths(&self, sort: Sort, folder: &Path) -> Tally {
        let name = sort.named("review, lengths");
        let mut random = self.random(&name);
        let mut files = worked_in(sort, folder);
        for (made, count) in plan::list_lengths(sort, self.long) {
            files.extend(self.made_for(&format!("{name}, {}", made.name()), made, count));
        }
        let mut tally = Tally::new(&name, files.len() * 77, self.long).with(&[
            Came::Accepted,
            Came::Refused(14),
            Came::Refused(15),
        ]);
        for file in files {
            let n = needed(&file).map_or(3, |least| least.work / 8);
            let whole = own(&file);
            for len in lengths(&mut random, sort.form.seat_bytes() * n) {
                let mut list = whole.clone();
                list.resize(len, random.bits() as u8);
                for work in around(&mut random, work_size(n)) {
                    let (judgement, difference) = compare(&mut random, &file, &list, work);
                    tally.count(came(&judgement), difference);
                }
            }
        }
        tally
    }
}

/// The lengths of lists around a bound: none, one, a half, two less to two more, twice, far more, and one below it.
fn lengths(random: &mut Random, bound: usize) -> [usize; 11] {
    [
        0,
        1,
        bound / 2,
        bound - 2,
        bound - 1,
        bound,
        bound + 1,
        bound + 2,
        2 * bound,
        bound + 70_000,
        random.from_to(0, bound - 1),
    ]
}
