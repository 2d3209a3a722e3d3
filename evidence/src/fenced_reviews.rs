//! Reviews on bytes beside pages that nothing may touch, made in a process of their own.

use crate::classes::Run;
use crate::difference::Difference;
use crate::fence::{Fence, Side};
use crate::files::in_sort;
use crate::lists::{own, Listed};
use crate::plan;
use crate::review::{came, judgement_of};
use crate::reviews::{some_list, some_work, worked_lists};
use crate::sort::Sort;
use crate::tally::{Came, Tally};
use crate::telling::Told;
use second::random::Random;
use second::reading::read;
use second::review::review;
use std::io::{self, Write};
use std::path::Path;

/// The name of the class.
pub const NAME: &str = "review, fenced";

/// A round file, a list, and the length of the work area.
struct Case {
    file: Vec<u8>,
    list: Vec<u8>,
    work: usize,
}

/// The cases reviewed, of all sorts: the worked lists, the unit's own cut at every length and with a byte more, and lists of all classes.
fn cases(run: &Run, folder: &Path) -> Vec<Case> {
    let mut random = run.random(NAME);
    let mut cases = Vec::new();
    for one in worked_lists(folder) {
        for sort in Sort::ALL {
            let file = in_sort(sort, &one.file);
            let whole = [own(&file), vec![0]].concat();
            cases.extend((0..=whole.len()).map(|len| Case {
                file: file.clone(),
                list: whole[..len].to_vec(),
                work: 24,
            }));
        }
        cases.push(Case {
            work: some_work(&mut random, &one.file),
            file: one.file,
            list: one.list,
        });
    }
    for sort in Sort::ALL {
        for (made, count) in plan::fenced_lists(sort, run.long) {
            for listed in Listed::all(sort).into_iter().cycle().take(count) {
                let file = made.file(random.bits());
                cases.push(made_case(&mut random, listed, file));
            }
        }
    }
    cases
}

/// A case of a class of lists for a file, which may be refused.
fn made_case(random: &mut Random, listed: Listed, mut file: Vec<u8>) -> Case {
    let list = match read(&file) {
        Ok(round) => {
            file = listed.file(file);
            listed.list(random, &round, &file)
        }
        Err(_) => some_list(random, &file),
    };
    let enough = some_work(random, &file);
    let work = random.pick(&[enough, enough, enough, enough / 2]);
    Case { file, list, work }
}

/// Makes the reviews; each case's number is printed before its call, and a word more where it differs.
pub fn alone(run: &Run, folder: &Path) -> io::Result<()> {
    let missing = || io::Error::other("no pages");
    let cases = cases(run, folder);
    let most = cases.iter().map(|case| case.file.len()).max().unwrap_or(0);
    let mut file_fence = Fence::new(most).ok_or_else(missing)?;
    let mut list_fence = Fence::new(8_192).ok_or_else(missing)?;
    let mut work_fence = Fence::new(8_192).ok_or_else(missing)?;
    let mut out = io::stdout().lock();
    for (number, case) in cases.iter().enumerate() {
        writeln!(out, "{number}")?;
        let mut work = vec![5; case.work];
        let due = judgement_of(review(&case.file, &case.list, &mut work));
        for side in [Side::Before, Side::Behind] {
            let file = file_fence.lend_to_read(&case.file, side);
            let list = list_fence.lend_to_read(&case.list, side);
            let lent = work_fence.lend(&vec![5; case.work], side);
            let said = tazbilk::review(file, list, lent);
            if said != due || *lent != work {
                writeln!(out, "{number} differs: {said}")?;
            }
        }
    }
    writeln!(out, "end")
}

/// Has this program make the reviews in a process of its own, and counts what it tells.
pub fn class(run: &Run, folder: &Path) -> Tally {
    let cases = cases(run, folder);
    let mut tally = Tally::new(NAME, cases.len(), run.long).with(&[
        Came::Accepted,
        Came::Seat,
        Came::Entry,
        Came::Refused(14),
        Came::Refused(15),
    ]);
    let told = Told::of(run, folder, NAME);
    for (number, case) in cases.iter().enumerate() {
        let difference = told.wrong(number).map(|unit| Difference {
            asked: "review of bytes beside pages that nothing may touch".to_string(),
            input: case.file.clone(),
            list: Some(case.list.clone()),
            unit,
            second: "as on any other bytes".to_string(),
        });
        let due = judgement_of(review(&case.file, &case.list, &mut vec![5; case.work]));
        tally.count(came(&due), difference);
    }
    tally
}
