//! Reads the round file and the list named on the command line and prints the review of the list.

use std::process::ExitCode;
use tazbilk::{review, Judgement, WORK_MOST};

fn main() -> ExitCode {
    let mut names = std::env::args().skip(1);
    let mut bytes = || std::fs::read(names.next().unwrap_or_default());
    let (file, list) = match bytes().and_then(|file| Ok((file, bytes()?))) {
        Ok(read) => read,
        Err(error) => {
            eprintln!(
                "usage: review FILE LIST, a round file and a list that can be read ({error})"
            );
            return ExitCode::from(2);
        }
    };
    let said = review(&file, &list, &mut [0; WORK_MOST]);
    println!("{said}");
    if let Judgement::Refused(refusal) = said {
        eprintln!("{}", refusal.meaning());
    }
    ExitCode::SUCCESS
}
