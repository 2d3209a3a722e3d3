//! The unit and the second program timed on the same files, and on the same lists.

use crate::files::Made;
use crate::lists::{candidates, own};
use crate::timing::{time, Time};
use second::generate::Class;
use second::list::{said, Said};
use second::reading::read;
use std::time::Duration;
use tazbilk::{Answer, ANSWER_MOST, WORK_MOST};

/// What was measured of a class: the means over its files of the offers made, or of the entries that a review tries, and of their medians and bests.
pub struct Measured {
    pub name: String,
    pub n: usize,
    pub files: usize,
    pub made: f64,
    pub unit: Time,
    pub second: Time,
}

impl Measured {
    /// How many times as long the second program takes.
    pub fn ratio(&self) -> f64 {
        self.second.median / self.unit.median
    }
}

/// The classes timed, with the seeds of their files.
pub fn classes() -> Vec<(String, Made, Vec<u64>)> {
    let named = |class: Class, seeds: Vec<u64>| {
        let made = Made::Lawful(class);
        (made.name(), made, seeds)
    };
    vec![
        named(Class::Tiny, (1..=20).collect()),
        named(Class::Mid, (1..=10).collect()),
        named(Class::Maximal, (1..=4).collect()),
        named(Class::Contested, (1..=3).collect()),
        named(Class::Crowded, (1..=3).collect()),
        ("worst, steep".to_string(), Made::Worst(512), vec![0]),
        ("worst, full".to_string(), Made::Worst(512), vec![1]),
        ("worst, chain".to_string(), Made::Worst(512), vec![2]),
        ("worst, behind".to_string(), Made::Worst(512), vec![3]),
        ("types, apart".to_string(), Made::Types(512), vec![0]),
        ("types, in vain".to_string(), Made::Types(512), vec![1]),
        named(Class::WideMaximal, (1..=2).collect()),
        named(Class::StepsMid, (1..=10).collect()),
        named(Class::StepsMaximal, (1..=4).collect()),
        named(Class::WideStepsMaximal, (1..=2).collect()),
    ]
}

/// Classes under their own names, with three files each.
fn series(classes: [Made; 4]) -> Vec<(String, Made, Vec<u64>)> {
    classes
        .map(|made| (made.name(), made, vec![1, 2, 3]))
        .into()
}

/// The contested shape at growing numbers of candidates.
pub fn growth() -> Vec<(String, Made, Vec<u64>)> {
    series([64, 128, 256, 512].map(Made::Contested))
}

/// The contested shape with rows of growing length.
pub fn lengthening() -> Vec<(String, Made, Vec<u64>)> {
    series([2, 4, 8, 16].map(Made::Rows))
}

/// The classes whose own lists are reviewed, with the seeds of their files.
pub fn reviews() -> Vec<(String, Made, Vec<u64>)> {
    let mut reviewed: Vec<_> = classes()
        .into_iter()
        .filter(|(name, _, _)| {
            [
                "mid",
                "maximal",
                "contested",
                "worst, behind",
                "types, apart",
                "wide-maximal",
                "steps-maximal",
                "wide-steps-maximal",
            ]
            .contains(&name.as_str())
        })
        .collect();
    reviewed.push(("alike".to_string(), Made::Alike(512), vec![0]));
    reviewed
}

/// The time given to the files of a class together, for each of the two.
const BUDGET: Duration = Duration::from_secs(2);

/// What was measured of one file.
struct Case {
    n: usize,
    made: usize,
    unit: Time,
    second: Time,
}

/// Measures the files of a class one after the other.
fn measured(
    name: &str,
    made: Made,
    seeds: &[u64],
    of: impl Fn(&[u8], Duration) -> Case,
) -> Measured {
    let budget = BUDGET / seeds.len() as u32;
    let cases: Vec<Case> = (seeds.iter())
        .map(|&seed| of(&made.file(seed), budget))
        .collect();
    let all = |of: fn(&Case) -> Time| mean(&cases.iter().map(of).collect::<Vec<_>>());
    Measured {
        name: name.to_string(),
        n: cases.iter().map(|case| case.n).max().unwrap_or(0),
        files: seeds.len(),
        made: cases.iter().map(|case| case.made).sum::<usize>() as f64 / seeds.len() as f64,
        unit: all(|case| case.unit),
        second: all(|case| case.second),
    }
}

/// Times the allotment of the files of a class, the unit and the second program in turn.
pub fn measure(name: &str, made: Made, seeds: &[u64]) -> Measured {
    measured(name, made, seeds, |file, budget| {
        let (mut answer, mut work) = ([0; ANSWER_MOST], [0; WORK_MOST]);
        Case {
            n: candidates(file),
            made: match tazbilk::allot(file, &mut answer, &mut work) {
                Answer::Allotted { offers } => offers,
                Answer::Refused(_) => 0,
            },
            unit: time(budget, || tazbilk::allot(file, &mut answer, &mut work)),
            second: time(budget, || second::call_on(file, &mut answer, &mut work)),
        }
    })
}

/// Times the review of the unit's own lists for the files of a class, the unit and the second program in turn.
pub fn measure_review(name: &str, made: Made, seeds: &[u64]) -> Measured {
    measured(name, made, seeds, |file, budget| {
        let mut work = [0; WORK_MOST];
        let list = own(file);
        Case {
            n: candidates(file),
            made: entries_above(file, &list),
            unit: time(budget, || tazbilk::review(file, &list, &mut work)),
            second: time(budget, || second::review(file, &list, &mut work)),
        }
    })
}

/// The entries that rank above the seats of a list, all of which are tried where it passes.
fn entries_above(file: &[u8], list: &[u8]) -> usize {
    let Ok(round) = read(file) else { return 0 };
    let rows = round.candidates.iter().map(|candidate| candidate.row.len());
    (said(&round, list).iter().zip(rows))
        .map(|(said, all)| match said {
            Said::InRow { place, .. } => *place,
            Said::NoSeat | Said::NotInRow => all,
        })
        .sum()
}

/// The means of medians and bests, and all calls together.
pub fn mean(times: &[Time]) -> Time {
    let count = times.len() as f64;
    Time {
        median: times.iter().map(|time| time.median).sum::<f64>() / count,
        best: times.iter().map(|time| time.best).sum::<f64>() / count,
        calls: times.iter().map(|time| time.calls).sum(),
    }
}
