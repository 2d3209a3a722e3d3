//! The lists of `rounds/lists/`.

use crate::rounds::folder;
use std::fs;
use std::path::{Path, PathBuf};

/// A worked list: its name, where the round file and the list stand, their bytes, the list in base sixteen, and the line expected.
pub struct Case {
    pub name: String,
    pub paths: [PathBuf; 2],
    pub file: Vec<u8>,
    pub list: Vec<u8>,
    pub hex: String,
    pub expected: String,
}

/// The text of a file.
fn text(path: &Path) -> String {
    fs::read_to_string(path).expect("a text")
}

/// The names of all lists, from the files of each of the four endings.
fn names() -> Vec<String> {
    let mut names: Vec<String> = fs::read_dir(folder().join("lists"))
        .expect("the lists stand beside the rounds")
        .map(|file| file.expect("a readable folder").path())
        .filter_map(|path| Some(path.file_stem()?.to_str()?.to_string()))
        .collect();
    names.sort();
    names.dedup();
    names
}

/// The worked lists.
pub fn cases() -> Vec<Case> {
    let read = |name: String| {
        let path = folder().join("lists").join(&name);
        let of = text(&path.with_extension("of"));
        let round = folder().join(of.trim_end()).with_extension("round");
        let list = path.with_extension("list");
        Case {
            name,
            file: fs::read(&round).expect("a round"),
            list: fs::read(&list).expect("a list"),
            paths: [round, list],
            hex: text(&path.with_extension("hex")),
            expected: text(&path.with_extension("expected")),
        }
    };
    names().into_iter().map(read).collect()
}
