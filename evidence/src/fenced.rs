//! Calls on bytes beside pages that nothing may touch, made in a process of their own, since one that strays ends it.

use crate::call::some_lengths;
use crate::choice::Case;
use crate::classes::{worked_in, Run};
use crate::difference::Difference;
use crate::fence::{Fence, Side};
use crate::files::{at_edges, cut_and_extended};
use crate::plan;
use crate::probe;
use crate::sort::Sort;
use crate::tally::{Came, Tally};
use crate::telling::Told;
use second::answer::{call_on, Outcome};
use second::reading::read;
use std::io::{self, Write};
use std::path::Path;
use tazbilk::{Answer, Refusal, ANSWER_MOST};

/// The name of the class.
pub const NAME: &str = "fenced";

/// The files called on, of all sorts.
fn files(run: &Run, folder: &Path) -> Vec<Vec<u8>> {
    let mut files = Vec::new();
    let mut random = run.random(NAME);
    for sort in Sort::ALL {
        files.extend(worked_in(sort, folder));
        files.extend(at_edges(sort));
        files.extend(cut_and_extended(sort).into_iter().take(400));
        for (made, count) in plan::fenced(sort, run.long) {
            files.extend((0..count).map(|_| made.file(random.bits())));
        }
    }
    files
}

/// The answer of the second program as the unit's.
fn due(outcome: Outcome) -> Answer {
    match outcome {
        Outcome::Allotted { offers, .. } => Answer::Allotted { offers },
        Outcome::Refused { number, offset } => Answer::Refused(Refusal {
            number: usize::from(number),
            offset,
        }),
    }
}

/// Makes the calls; each file's number is printed before its call, and a word more where it differs.
pub fn alone(run: &Run, folder: &Path) -> io::Result<()> {
    let missing = || io::Error::other("no pages");
    let files = files(run, folder);
    let most = files.iter().map(Vec::len).max().unwrap_or(0);
    let mut file_fence = Fence::new(most).ok_or_else(missing)?;
    let mut answer_fence = Fence::new(ANSWER_MOST + 4_096).ok_or_else(missing)?;
    let mut work_fence = Fence::new(ANSWER_MOST + 4_096).ok_or_else(missing)?;
    let mut random = run.random("fenced areas");
    let mut out = io::stdout().lock();
    for (number, file) in files.iter().enumerate() {
        writeln!(out, "{number}")?;
        let lengths = some_lengths(&mut random, file);
        let (mut answer, mut work) = (vec![3; lengths.answer], vec![5; lengths.work]);
        let due = due(call_on(file, &mut answer, &mut work));
        for side in [Side::Before, Side::Behind] {
            let given = file_fence.lend_to_read(file, side);
            let lent_answer = answer_fence.lend(&vec![3; lengths.answer], side);
            let lent_work = work_fence.lend(&vec![5; lengths.work], side);
            let said = tazbilk::allot(given, lent_answer, lent_work);
            let passes = probe::verdict(given).is_ok() == read(file).is_ok();
            if said != due || *lent_answer != answer || *lent_work != work || !passes {
                writeln!(out, "{number} differs: {said}")?;
            }
        }
    }
    writeln!(out, "choices")?;
    choices(run, &mut random)?;
    writeln!(out, "end")
}

/// Makes choices whose body, marks, offers, steps and types each touch a fence.
fn choices(run: &Run, random: &mut second::random::Random) -> io::Result<()> {
    let fence = || Fence::new(1_024).ok_or_else(|| io::Error::other("no pages"));
    let (mut of_body, mut of_marks) = (fence()?, fence()?);
    let (mut of_offers, mut of_steps, mut of_types) = (fence()?, fence()?, fence()?);
    for _ in 0..if run.long { 20_000 } else { 2_000 } {
        let places = random.from_to(0, 40);
        let case = match random.one_in(2) {
            true => Case::made(random, places),
            false => Case::of_steps(random, places),
        };
        let due = case.due();
        for side in [Side::Before, Side::Behind] {
            let body = of_body.lend_to_read(&case.body, side);
            let marks = of_marks.lend_to_read(&case.marks, side);
            let offers = of_offers.lend_to_read(&case.offers, side);
            let steps = of_steps.lend(&vec![9; places], side);
            let types = of_types.lend(&vec![9; places], side);
            probe::choose(body, case.types, case.policy, marks, offers, steps, types);
            if *steps != due.steps || *types != due.types {
                return Err(io::Error::other("a choice differs"));
            }
        }
    }
    Ok(())
}

/// Has this program make the calls in a process of its own, and counts what it tells.
pub fn class(run: &Run, folder: &Path) -> Tally {
    let files = files(run, folder);
    let mut tally = Tally::new(NAME, files.len(), run.long);
    let told = Told::of(run, folder, NAME);
    for (number, file) in files.iter().enumerate() {
        let came = match read(file) {
            Ok(_) => Came::Accepted,
            Err(refusal) => Came::Refused(usize::from(refusal.number)),
        };
        let difference = told.wrong(number).map(|unit| Difference {
            asked: "calls on bytes beside pages that nothing may touch".to_string(),
            input: file.clone(),
            list: None,
            unit,
            second: "as on any other bytes".to_string(),
        });
        tally.count(came, difference);
    }
    tally
}
