//! A refusal: the first question that is not answered yes, and the byte it stands at.

use std::fmt;

/// The meanings of the refusals; line N is that of number N.
const MEANINGS: &str = include_str!("../meanings.txt");

/// The number of the question, 1 to 15, 17 or 18, and the offset of the first byte of the record that it is about; for 13 it is that of
/// the first byte after the last record, for 14 and 15 it is 0. Number 16 is the program's alone, and no call answers it.
#[derive(Clone, Copy, Debug, PartialEq, Eq, Hash)]
pub struct Refusal {
    pub number: usize,
    pub offset: usize,
}

impl Refusal {
    /// What is wrong, in words.
    pub fn meaning(&self) -> &'static str {
        self.number
            .checked_sub(1)
            .and_then(|before| MEANINGS.lines().nth(before))
            .unwrap_or("no question has this number")
    }
}

impl fmt::Display for Refusal {
    /// The line that document 01 prints.
    fn fmt(&self, to: &mut fmt::Formatter) -> fmt::Result {
        write!(to, "refused {} at {}", self.number, self.offset)
    }
}

impl std::error::Error for Refusal {}
