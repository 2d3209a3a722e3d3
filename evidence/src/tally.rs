//! What was run of one class and what came of it.

use crate::difference::Difference;
use std::time::{Duration, Instant};

/// What a case came to: accepted, which for a list is that it passes; a wrong seat or a better entry found; or refused by a number.
#[derive(Clone, Copy, Debug, PartialEq, Eq)]
pub enum Came {
    Accepted,
    Seat,
    Entry,
    Refused(usize),
}

/// The numbers of refusals are below this.
const NUMBERS: usize = 19;

/// The counts of a class, the first case that differed, and the time taken.
pub struct Tally {
    pub name: String,
    pub compared: usize,
    pub accepted: usize,
    pub seats: usize,
    pub entries: usize,
    pub refused: [usize; NUMBERS],
    pub different: usize,
    pub first: Option<Difference>,
    started: Instant,
    taken: Duration,
    told: Instant,
    expected: usize,
    long: bool,
    due: Vec<Came>,
}

/// The time between two progress lines.
const BETWEEN: Duration = Duration::from_secs(10);

impl Tally {
    /// The tally of a class before its first case; so many cases are expected, and progress is told in the long form.
    pub fn new(name: &str, expected: usize, long: bool) -> Self {
        Tally {
            name: name.to_string(),
            compared: 0,
            accepted: 0,
            seats: 0,
            entries: 0,
            refused: [0; NUMBERS],
            different: 0,
            first: None,
            started: Instant::now(),
            taken: Duration::ZERO,
            told: Instant::now(),
            expected,
            long,
            due: Vec::new(),
        }
    }

    /// The same, of a class that is to have cases which come to each of these.
    pub fn with(mut self, due: &[Came]) -> Self {
        self.due = due.to_vec();
        self
    }

    /// Counts one case.
    pub fn count(&mut self, came: Came, difference: Option<Difference>) {
        self.compared += 1;
        self.taken = self.started.elapsed();
        match came {
            Came::Accepted => self.accepted += 1,
            Came::Seat => self.seats += 1,
            Came::Entry => self.entries += 1,
            Came::Refused(number) => self.refused[number.min(NUMBERS - 1)] += 1,
        }
        if difference.is_some() {
            self.different += 1;
        }
        if self.first.is_none() {
            self.first = difference;
        }
        if self.long && self.told.elapsed() >= BETWEEN {
            self.told = Instant::now();
            eprintln!("  {}: {} of {}", self.name, self.compared, self.expected);
        }
    }

    /// How many cases came to this.
    fn of(&self, came: Came) -> usize {
        match came {
            Came::Accepted => self.accepted,
            Came::Seat => self.seats,
            Came::Entry => self.entries,
            Came::Refused(number) => self.refused[number],
        }
    }

    /// What the class is to have and no case came to.
    pub fn lacking(&self) -> Vec<Came> {
        let due = self.due.iter().copied();
        due.filter(|&came| self.of(came) == 0).collect()
    }

    /// The line of the class: cases, accepted ones, differing ones, seconds, then findings, and refused ones by number.
    pub fn line(&self) -> String {
        let found = [("seat", self.seats), ("entry", self.entries)]
            .map(|(name, count)| (name.to_string(), count));
        let refused = (1..NUMBERS).map(|number| (number.to_string(), self.refused[number]));
        let others: Vec<String> = (found.into_iter().chain(refused))
            .filter(|&(_, count)| count > 0)
            .map(|(name, count)| format!("{name}:{count}"))
            .collect();
        format!(
            "{:<33} {:>8} {:>8} {:>9} {:>8.1}  {}",
            self.name,
            self.compared,
            self.accepted,
            self.different,
            self.taken.as_secs_f64(),
            others.join(" ")
        )
        .trim_end()
        .to_string()
    }

    /// The line above those of the classes.
    pub fn header() -> String {
        format!(
            "{:<33} {:>8} {:>8} {:>9} {:>8}  found, and refused by number",
            "class", "compared", "accepted", "different", "seconds"
        )
    }

    /// Whether the class has cases, those that it is to have among them, and none differed.
    pub fn passed(&self) -> bool {
        self.compared > 0 && self.different == 0 && self.lacking().is_empty()
    }
}
