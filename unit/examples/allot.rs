//! Reads the round file named on the command line and prints its allotment or its refusal.

use std::process::ExitCode;
use tazbilk::{allot, Answer, ANSWER_MOST, WORK_MOST};

/// The two-byte number at a place.
fn two_bytes(bytes: &[u8], at: usize) -> usize {
    usize::from(u16::from_le_bytes([bytes[at], bytes[at + 1]]))
}

/// The institute and the step of a seat: of four bytes in a wide round, the institute in two of them, and else of two.
fn seat_of(seat: &[u8]) -> (usize, u8) {
    match seat.len() {
        4 => (two_bytes(seat, 0), seat[2]),
        _ => (usize::from(seat[0]), seat[1]),
    }
}

/// The lines below the offers: candidate, institute, step, type; then each institute with its closing places, so many of them.
fn print_answer(answer: &[u8], wide: bool, places: usize, n: usize, m: usize) {
    let width = if wide { 4 } else { 2 };
    let (seats, rest) = answer.split_at(width * n);
    let (closing, types) = rest.split_at(2 * places * m);
    for (candidate, seat) in seats.chunks(width).enumerate() {
        let (institute, step) = seat_of(seat);
        println!("{} {institute} {step} {}", candidate + 1, types[candidate]);
    }
    for (institute, own) in closing.chunks(2 * places).enumerate() {
        print!("closing {}", institute + 1);
        for step in 0..places {
            print!(" {}", two_bytes(own, 2 * step));
        }
        println!();
    }
}

fn main() -> ExitCode {
    let name = std::env::args().nth(1).unwrap_or_default();
    let file = match std::fs::read(&name) {
        Ok(file) => file,
        Err(error) => {
            eprintln!("usage: allot FILE, a round file that can be read ({error})");
            return ExitCode::from(2);
        }
    };
    let (mut answer, mut work) = ([0; ANSWER_MOST], [0; WORK_MOST]);
    let said = allot(&file, &mut answer, &mut work);
    println!("{said}");
    match said {
        // The file passed, so its head tells the form, 5 for wide, n and m, and the policy, which is 2 where institutes list their steps.
        Answer::Allotted { .. } => {
            let [kind, n, m, policy] = [2, 4, 6, 10].map(|at| two_bytes(&file, at));
            let places = if policy == 2 { 12 } else { 6 };
            print_answer(&answer, kind == 5, places, n, m);
        }
        Answer::Refused(refusal) => eprintln!("{}", refusal.meaning()),
    }
    ExitCode::SUCCESS
}
