//! What the program prints for a round file, and for a hand-made list.

use crate::choice::Document;
use crate::offers::allot;
use crate::reading::{read, MOST_CANDIDATES};
use crate::review::{review, Review};
use std::fmt::Write;

/// The most bytes of an input that the program reads.
pub const MOST_INPUT: usize = 65_536;

/// The whole text that the program prints for an input: that of the round file, or the refusal of an input that is too long.
pub fn print(input: &[u8]) -> String {
    if input.len() > MOST_INPUT {
        return "refused 16 at 0\n".to_string();
    }
    print_round(input)
}

/// The whole text for a round file of any length: offers, seats with their types and closing places, or the refusal.
pub fn print_round(file: &[u8]) -> String {
    let round = match read(file) {
        Ok(round) => round,
        Err(refusal) => return format!("refused {} at {}\n", refusal.number, refusal.offset),
    };
    let allotment = allot(&round, &Document);
    let mut text = format!("offers {}\n", allotment.offers);
    let candidates = allotment.seats.iter().zip(&allotment.types);
    for (candidate, (seat, own)) in candidates.enumerate() {
        let (institute, step) = seat.map_or((0, 0), |seat| (seat.institute + 1, seat.step));
        let _ = writeln!(text, "{} {institute} {step} {own}", candidate + 1);
    }
    for (institute, places) in allotment.closing.iter().enumerate() {
        let _ = write!(text, "closing {}", institute + 1);
        for place in places {
            let _ = write!(text, " {place}");
        }
        text.push('\n');
    }
    text
}

/// The line printed for a list: that it passes, the candidate whose seat is wrong, the candidate and the entry that would be taken, or the refusal.
pub fn print_review(file: &[u8], list: &[u8]) -> String {
    match review(file, list, &mut [0; 8 * MOST_CANDIDATES]) {
        Review::Passes => "passes\n".to_string(),
        Review::Wrong(candidate) => format!("seat of {candidate}\n"),
        Review::WouldTake {
            candidate,
            institute,
            code,
        } => format!("entry of {candidate}: {institute} {code}\n"),
        Review::Refused { number, offset } => format!("refused {number} at {offset}\n"),
    }
}
