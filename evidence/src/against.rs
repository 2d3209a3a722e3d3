//! An older archive of the unit and the new one, called in turn on the same files.

use crate::files::{Made, A};
use crate::lists::own;
use crate::measure::{classes, growth, lengthening, mean, reviews};
use crate::shapes;
use crate::shared::Shared;
use crate::timing::Time;
use crate::turns::in_turn;
use second::writing::write;
use std::time::Duration;
use tazbilk::{ANSWER_MOST, WORK_MOST};

/// What was measured of a class, of the older archive and of the new one, the means over its files and over the places of code, and on which of its files, counted from 1, their answers differ.
pub struct Compared {
    pub name: String,
    pub times: [Time; 2],
    pub differing: Vec<usize>,
}

/// What was measured of one file.
struct Case {
    times: [Time; 2],
    same: bool,
}

/// A class of files under its name.
type Files = (String, Vec<Vec<u8>>);

/// A call of both archives on a file, timed for so long.
type Call = fn(&Pair, &[u8], Duration) -> Case;

/// An older archive and the new one, their code at the same place.
pub type Pair = [Shared; 2];

/// How many bytes further on the code of an archive starts: the same code can take a sixth longer at another place.
pub const PLACES: [usize; 4] = [0, 16, 32, 48];

/// The time given to the files of a class together, for both archives at all places.
const BUDGET: Duration = Duration::from_secs(4);

/// What the answer area holds before a call whose answer is compared.
const FILLING: u8 = 0xa5;

/// Rounds in which little is allotted: file A, a file refused at once, and those that are read alone.
fn small() -> Vec<Files> {
    vec![
        ("file A".to_string(), vec![A.to_vec()]),
        ("empty file".to_string(), vec![Vec::new()]),
        ("empty row".to_string(), vec![write(&shapes::empty_rows(1))]),
        (
            "512 empty rows".to_string(),
            vec![write(&shapes::empty_rows(512))],
        ),
    ]
}

/// The files of timed classes.
fn made(classes: Vec<(String, Made, Vec<u64>)>) -> impl Iterator<Item = Files> {
    classes.into_iter().map(|(name, made, seeds)| {
        let files = seeds.into_iter().map(|seed| made.file(seed));
        (name, files.collect())
    })
}

/// Allots a file.
fn allot(archives: &Pair, file: &[u8], budget: Duration) -> Case {
    let (mut answer, mut work) = ([0; ANSWER_MOST], [0; WORK_MOST]);
    let [old, new] = archives.each_ref().map(|archive| {
        answer.fill(FILLING);
        (archive.allot(file, &mut answer, &mut work), answer)
    });
    Case {
        same: old == new,
        times: in_turn(budget, |which| {
            archives[which].allot(file, &mut answer, &mut work)
        }),
    }
}

/// Reviews the unit's own list for a file.
fn review(archives: &Pair, file: &[u8], budget: Duration) -> Case {
    let mut work = [0; WORK_MOST];
    let list = own(file);
    let [old, new] = archives
        .each_ref()
        .map(|archive| archive.review(file, &list, &mut work));
    Case {
        same: old == new,
        times: in_turn(budget, |which| {
            archives[which].review(file, &list, &mut work)
        }),
    }
}

/// Measures the files of a class one after the other, each at every place.
fn measured(pairs: &[Pair], (name, files): Files, call: Call) -> Compared {
    let budget = BUDGET / (files.len() * pairs.len()) as u32;
    let cases: Vec<Vec<Case>> = (files.iter())
        .map(|file| pairs.iter().map(|pair| call(pair, file, budget)).collect())
        .collect();
    let all = |which: usize| {
        let times = cases.iter().flatten().map(|case| case.times[which]);
        mean(&times.collect::<Vec<_>>())
    };
    let differing = (1..)
        .zip(&cases)
        .filter(|(_, of_file)| !of_file.iter().all(|case| case.same));
    Compared {
        name,
        times: [all(0), all(1)],
        differing: differing.map(|(number, _)| number).collect(),
    }
}

/// Measures every class, each as it is asked for: allotments of the small rounds and the timed classes, then reviews.
pub fn measure(pairs: &[Pair]) -> impl Iterator<Item = Compared> + '_ {
    let timed = [classes(), growth(), lengthening()].concat();
    let allotted = small().into_iter().chain(made(timed));
    let reviewed = made(reviews()).map(|(name, files)| (format!("review, {name}"), files));
    let allotted = allotted.map(|files| (files, allot as Call));
    let reviewed = reviewed.map(|files| (files, review as Call));
    (allotted.chain(reviewed)).map(|(files, call)| measured(pairs, files, call))
}
