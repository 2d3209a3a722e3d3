//! The rounds of `rounds/`.

use second::form::Form;
use second::reading::{read, Round};
use std::fs;
use std::path::PathBuf;

/// The folder of worked rounds.
pub fn folder() -> PathBuf {
    PathBuf::from(env!("CARGO_MANIFEST_DIR")).join("../rounds")
}

/// The round files of the folder, lawful or not, with their names.
pub fn files() -> Vec<(String, Vec<u8>)> {
    let mut files: Vec<(String, Vec<u8>)> = fs::read_dir(folder())
        .expect("the rounds stand beside this package")
        .map(|file| file.expect("a readable folder").path())
        .filter(|path| path.extension().is_some_and(|ending| ending == "round"))
        .map(|path| {
            let name = path.file_stem().and_then(|name| name.to_str());
            let name = name.expect("a name").to_string();
            (name, fs::read(path).expect("a round"))
        })
        .collect();
    files.sort();
    files
}

/// The lawful rounds of the folder of which something is so, with their names.
pub fn rounds_that(so: fn(&Round) -> bool) -> Vec<(String, Round)> {
    let files = files().into_iter();
    files
        .filter_map(|(name, file)| Some((name, read(&file).ok().filter(so)?)))
        .collect()
}

/// The lawful rounds of the folder that are narrow and without step lists, with their names.
pub fn worked() -> Vec<(String, Round)> {
    rounds_that(|round| round.form == Form::Narrow && round.policy < 2)
}
