//! Reads a round file from standard input and prints its allotment or its refusal; `review FILE LIST` prints the review of a list.

use second::form::Form;
use second::printing::{print, print_review, MOST_INPUT};
use second::reading::{LONGEST_WIDE, MOST_CANDIDATES};
use std::fs::File;
use std::io::{self, Read, Write};
use std::process::ExitCode;

const USAGE: &str = "second, with a round file on standard input
second review FILE LIST";

/// The bytes of an input, at most one more than the longest that are not refused for their length, which decides any input.
fn bytes(input: impl Read, longest: usize) -> io::Result<Vec<u8>> {
    let mut bytes = Vec::new();
    input.take(longest as u64 + 1).read_to_end(&mut bytes)?;
    Ok(bytes)
}

fn main() -> io::Result<ExitCode> {
    let words: Vec<String> = std::env::args().skip(1).collect();
    let words: Vec<&str> = words.iter().map(String::as_str).collect();
    let text = match words[..] {
        [] => print(&bytes(io::stdin(), MOST_INPUT)?),
        ["review", file, list] => print_review(
            &bytes(File::open(file)?, LONGEST_WIDE)?,
            &bytes(File::open(list)?, Form::Wide.seat_bytes() * MOST_CANDIDATES)?,
        ),
        _ => {
            eprintln!("{USAGE}");
            return Ok(ExitCode::FAILURE);
        }
    };
    io::stdout().write_all(text.as_bytes())?;
    Ok(ExitCode::SUCCESS)
}
