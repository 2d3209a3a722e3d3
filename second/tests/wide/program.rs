//! The program and the most bytes that it reads.

use second::generate::{lawful, wide_boundary, wide_damaged, Class, Expected};
use second::printing::{print, print_round};
use second::{call, review, Outcome, Review};
use std::fs::{self, File};
use std::io::Write;
use std::path::PathBuf;
use std::process::{Command, Stdio};

const A: &[u8] = include_bytes!("../../../rounds/a.round");

/// The text of a refusal for too long an input.
const TOO_LONG: &str = "refused 16 at 0\n";

/// The text of an output.
fn text(bytes: Vec<u8>) -> String {
    String::from_utf8(bytes).expect("a text")
}

/// What the program prints for an input that comes through a pipe.
fn through_pipe(input: &[u8]) -> String {
    let mut child = Command::new(env!("CARGO_BIN_EXE_second"))
        .stdin(Stdio::piped())
        .stdout(Stdio::piped())
        .spawn()
        .expect("the program starts");
    let mut pipe = child.stdin.take().expect("a pipe");
    // The program may end before it has read everything.
    let _ = pipe.write_all(input);
    drop(pipe);
    text(child.wait_with_output().expect("an output").stdout)
}

/// A file of the tests with some bytes.
fn file_of(name: &str, bytes: &[u8]) -> PathBuf {
    let path = PathBuf::from(env!("CARGO_TARGET_TMPDIR")).join(name);
    fs::write(&path, bytes).expect("a file");
    path
}

/// What the program prints for an input that is a file.
fn through_file(name: &str, input: &[u8]) -> String {
    let path = file_of(name, input);
    let output = Command::new(env!("CARGO_BIN_EXE_second"))
        .stdin(File::open(path).expect("the file"))
        .output();
    text(output.expect("an output").stdout)
}

/// A file with zeros behind it up to a length.
fn filled(file: &[u8], length: usize) -> Vec<u8> {
    let mut bytes = file.to_vec();
    bytes.resize(length, 0);
    bytes
}

/// The lawful wide round of this many bytes.
fn of_bytes(bytes: usize) -> Vec<u8> {
    let name = format!("{bytes}-bytes");
    let mut files = wide_boundary().into_iter();
    let found = files.find(|(own, _, _)| *own == name);
    let (_, file, _) = found.expect("a boundary file");
    assert_eq!(file.len(), bytes);
    file
}

#[test]
fn an_input_of_65536_bytes_is_read_as_ever() {
    let lawful = of_bytes(65_536);
    let printed = print_round(&lawful);
    assert!(printed.starts_with("offers 1\n1 301 1 0\n2 0 0 0\n"));
    for (name, input, due) in [
        ("lawful", lawful, &printed[..]),
        ("a", filled(A, 65_536), "refused 13 at 72\n"),
        ("zeros", vec![0; 65_536], "refused 2 at 0\n"),
        ("empty", vec![], "refused 1 at 0\n"),
    ] {
        assert_eq!(print(&input), due, "{name}");
        assert_eq!(through_pipe(&input), due, "{name}");
        assert_eq!(through_file(&format!("most-{name}"), &input), due, "{name}");
    }
}

#[test]
fn a_longer_input_is_refused_before_the_first_question() {
    for (name, input) in [
        ("lawful", of_bytes(65_537)),
        ("a", filled(A, 65_537)),
        ("zeros", vec![0; 65_537]),
        ("one-more", vec![255; 65_538]),
        ("wide-a-longer", filled(&second::widened(A), 200_000)),
        ("longest", lawful(Class::WideMaximal, 1)),
    ] {
        assert_eq!(print(&input), TOO_LONG, "{name}");
        assert_eq!(through_pipe(&input), TOO_LONG, "{name}");
        assert_eq!(
            through_file(&format!("long-{name}"), &input),
            TOO_LONG,
            "{name}"
        );
    }
}

#[test]
fn the_library_never_says_16() {
    let outcome = call(&filled(A, 65_537), 1000, 1000);
    let behind = Outcome::Refused {
        number: 13,
        offset: 72,
    };
    assert_eq!(outcome, behind);
    for bytes in [65_535, 65_536, 65_537] {
        let outcome = call(&of_bytes(bytes), 5 * 64 + 12 * 500, 8 * 64);
        assert!(matches!(outcome, Outcome::Allotted { .. }));
    }
    for (name, file, expected) in wide_boundary() {
        let outcome = call(&file, 20_000, 5000);
        match expected {
            Expected::Passes => assert!(matches!(outcome, Outcome::Allotted { .. }), "{name}"),
            Expected::Refused { number, offset } => {
                assert_eq!(outcome, Outcome::Refused { number, offset }, "{name}")
            }
        }
    }
}

#[test]
fn the_program_reviews_rounds_of_any_length() {
    let file = lawful(Class::WideMaximal, 1);
    let Outcome::Allotted { answer, .. } = call(&file, 20_000, 5000) else {
        panic!("a lawful round");
    };
    let own = &answer[..4 * 512];
    assert_eq!(review(&file, own, &mut [7; 8 * 512]), Review::Passes);
    let round = file_of("longest.round", &file);
    let longer = file_of("longer.round", &filled(&file, file.len() + 70_000));
    let list = file_of("longest.list", own);
    let list_more = file_of("longer.list", &filled(own, 4 * 512 + 1));
    for (paths, due) in [
        ([&round, &list], "passes\n".to_string()),
        ([&round, &list_more], "refused 15 at 0\n".to_string()),
        ([&longer, &list], format!("refused 13 at {}\n", file.len())),
    ] {
        let mut command = Command::new(env!("CARGO_BIN_EXE_second"));
        let output = command.arg("review").args(paths).output();
        assert_eq!(text(output.expect("an output").stdout), due);
    }
}

#[test]
fn the_program_prints_what_the_library_gives() {
    for seed in 0..60 {
        let file = match seed % 4 {
            0 => lawful(Class::WideTiny, seed),
            1 => lawful(Class::WideMany, seed),
            2 => lawful(Class::WideMid, seed),
            _ => wide_damaged((seed % 13) as u8 + 1, seed).file,
        };
        assert_eq!(through_pipe(&file), print_round(&file), "{seed}");
    }
}
