//! Every round in `rounds/` prints what is expected, and its readable form agrees with its bytes.

use second::printing::print;
use std::fs;
use std::path::PathBuf;

/// The names of all rounds, from the files of each of the three endings.
fn names() -> Vec<PathBuf> {
    let folder = PathBuf::from(env!("CARGO_MANIFEST_DIR")).join("../rounds");
    let mut names: Vec<PathBuf> = fs::read_dir(folder)
        .expect("the rounds stand beside this package")
        .map(|file| file.expect("a readable folder").path())
        .filter(|path| path.extension().is_some_and(|ending| ending != "md"))
        .map(|path| path.with_extension(""))
        .collect();
    names.sort();
    names.dedup();
    names
}

/// The bytes written in base sixteen, one record a line.
fn from_hex(text: &str) -> Vec<u8> {
    text.split_whitespace()
        .map(|byte| u8::from_str_radix(byte, 16).expect("two digits in base sixteen"))
        .collect()
}

#[test]
fn all_rounds_are_there() {
    assert_eq!(names().len(), 85);
}

#[test]
fn each_round_prints_what_is_expected() {
    for name in names() {
        let file = fs::read(name.with_extension("round")).expect("a round");
        let expected = fs::read_to_string(name.with_extension("expected")).expect("a text");
        assert_eq!(print(&file), expected, "{}", name.display());
    }
}

#[test]
fn each_readable_form_agrees_with_its_round() {
    for name in names() {
        let file = fs::read(name.with_extension("round")).expect("a round");
        let text = fs::read_to_string(name.with_extension("hex")).expect("a text");
        assert_eq!(from_hex(&text), file, "{}", name.display());
    }
}

#[test]
fn each_line_of_a_readable_form_is_one_record() {
    for name in names() {
        let text = fs::read_to_string(name.with_extension("hex")).expect("a text");
        let whole = !["cut-71", "one-byte-more"]
            .iter()
            .any(|odd| name.ends_with(odd));
        for line in text.lines().filter(|_| whole) {
            let record = from_hex(line);
            let length = usize::from(record[0]) + 256 * usize::from(record[1]);
            assert_eq!(record.len(), 4 + length, "{}: {line}", name.display());
        }
    }
}
