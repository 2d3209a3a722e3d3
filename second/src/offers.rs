//! The offers: candidates held by no institute offer their untried entries, best first.

use crate::choice::{Offer, Rule, Taken};
use crate::reading::{Entry, Round};

/// An institute, counted from 0, and a step.
#[derive(Clone, Copy, Debug, PartialEq, Eq, Hash)]
pub struct Seat {
    pub institute: usize,
    pub step: u8,
}

/// What the offers end with: their number, each candidate's seat, each institute's closing places, and each candidate's type, 0 for none.
#[derive(Clone, Debug, PartialEq, Eq)]
pub struct Allotment {
    pub offers: usize,
    pub seats: Vec<Option<Seat>>,
    pub closing: Vec<Vec<usize>>,
    pub types: Vec<u8>,
}

/// The offers made so far to each institute, in the order made, what each took of them, and how many entries each candidate has tried.
pub struct Process<'a, R: Rule + ?Sized> {
    pub round: &'a Round,
    pub rule: &'a R,
    pub made: Vec<Vec<Offer>>,
    pub held: Vec<Vec<Taken>>,
    pub tried: Vec<usize>,
}

impl<'a, R: Rule + ?Sized> Process<'a, R> {
    /// The process before the first offer.
    pub fn new(round: &'a Round, rule: &'a R) -> Self {
        Process {
            round,
            rule,
            made: vec![Vec::new(); round.institutes.len()],
            held: vec![Vec::new(); round.institutes.len()],
            tried: vec![0; round.candidates.len()],
        }
    }

    /// The candidates held by no institute who have an untried entry, lowest number first.
    pub fn ready(&self) -> Vec<usize> {
        let mut ready: Vec<bool> = (0..self.tried.len())
            .map(|candidate| self.tried[candidate] < self.round.candidates[candidate].row.len())
            .collect();
        for taken in self.held.iter().flatten() {
            ready[taken.offer.candidate] = false;
        }
        (0..ready.len())
            .filter(|&candidate| ready[candidate])
            .collect()
    }

    /// One turn: the candidate offers the best untried entry, and that institute chooses anew from all offers ever made to it.
    pub fn turn(&mut self, candidate: usize) -> Entry {
        let entry = self.round.candidates[candidate].row[self.tried[candidate]];
        self.tried[candidate] += 1;
        let made = &mut self.made[entry.institute];
        made.push(Offer {
            candidate,
            category: entry.category,
        });
        self.held[entry.institute] = self.rule.choose(self.round, entry.institute, made);
        entry
    }

    /// The number of offers made, the seats held, and the closing places and types in what each institute took of all offers made to it.
    pub fn allotment(&self) -> Allotment {
        let mut seats = vec![None; self.tried.len()];
        let mut types = vec![0; self.tried.len()];
        let institutes = self.held.iter().enumerate();
        for (institute, held) in institutes.filter(|(_, held)| !held.is_empty()) {
            let given = self.rule.types(self.round, institute, held);
            for (taken, own) in held.iter().zip(given) {
                seats[taken.offer.candidate] = Some(Seat {
                    institute,
                    step: taken.step,
                });
                types[taken.offer.candidate] = own;
            }
        }
        let institutes = self.held.iter().enumerate();
        Allotment {
            offers: self.tried.iter().sum(),
            seats,
            closing: institutes
                .map(|(institute, held)| self.rule.closing(self.round, institute, held))
                .collect(),
            types,
        }
    }
}

/// Runs the offers to their end, the lowest-numbered ready candidate going next each time.
pub fn allot<R: Rule + ?Sized>(round: &Round, rule: &R) -> Allotment {
    let mut process = Process::new(round, rule);
    while let Some(&candidate) = process.ready().first() {
        process.turn(candidate);
    }
    process.allotment()
}
