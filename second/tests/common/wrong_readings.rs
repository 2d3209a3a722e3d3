//! The files of which a wrong reading gives another round or refusal.

use crate::own::{read_by, Way};
use crate::rounds::files;
use second::reading::{read, Refusal, Round};

/// A file with what it is read as.
pub type Read = (Vec<u8>, Result<Round, Refusal>);

/// The files of each set with what they are read as.
pub fn with_readings(sets: [Vec<Vec<u8>>; 3]) -> [Vec<Read>; 3] {
    sets.map(|files| {
        let files = files.into_iter();
        files.map(|file| (file.clone(), read(&file))).collect()
    })
}

/// The names of the worked rounds, lawful or not, of which something is so.
pub fn named(so: impl Fn(&[u8]) -> bool) -> Vec<String> {
    let files = files().into_iter();
    files
        .filter(|(_, file)| so(file))
        .map(|(name, _)| name)
        .collect()
}

/// A list of names.
pub fn names(names: &[&str]) -> Vec<String> {
    names.iter().map(|name| name.to_string()).collect()
}

/// Asserts in how many files of each set, and in which worked rounds, a wrong reading gives another round or refusal.
pub fn caught_in(sets: &[Vec<Read>; 3], way: Way, counts: [usize; 3], rounds: &[&str]) {
    let other = |(file, right): &&Read| read_by(way, file) != *right;
    let found = [0, 1, 2].map(|set| sets[set].iter().filter(other).count());
    let in_worked = named(|file| read_by(way, file) != read(file));
    assert_eq!((found, in_worked), (counts, names(rounds)), "{way:?}");
}
