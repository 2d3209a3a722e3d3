//! Orders of calling up: which of those ready goes next.

use crate::choice::Rule;
use crate::offers::{Allotment, Process};
use crate::random::Random;
use crate::reading::{Entry, Round};

/// A way of saying which of those ready goes next.
#[derive(Clone, Copy, Debug, PartialEq, Eq)]
pub enum Order {
    /// The lowest number.
    LowestFirst,
    /// The last number.
    LastFirst,
    /// Whoever stands first in a list of all candidates, drawn once for the round.
    BySurname,
    /// Anybody, drawn anew each time.
    AtRandom,
    /// Whoever the last turn left rejected, else anybody, drawn anew each time.
    RejectedNext,
    /// Whoever has been ready longest, the last number at the start, so that the one just rejected goes last.
    RejectedLast,
    /// Whoever has tried the fewest entries, of several the lowest number, so that everybody goes once before anybody goes twice.
    OnceEach,
}

impl Order {
    /// The orders other than that of document 01.
    pub const OTHERS: [Order; 6] = [
        Order::LastFirst,
        Order::BySurname,
        Order::AtRandom,
        Order::RejectedNext,
        Order::RejectedLast,
        Order::OnceEach,
    ];

    /// The name of the order.
    pub fn name(self) -> &'static str {
        match self {
            Order::LowestFirst => "lowest first",
            Order::LastFirst => "last first",
            Order::BySurname => "by surname",
            Order::AtRandom => "at random",
            Order::RejectedNext => "rejected next",
            Order::RejectedLast => "rejected last",
            Order::OnceEach => "once each",
        }
    }
}

/// Who offered which entry.
#[derive(Clone, Copy, Debug, PartialEq, Eq)]
pub struct Turn {
    pub candidate: usize,
    pub entry: Entry,
}

/// What the offers end with: the entries each candidate tried, in the order tried, and the allotment.
#[derive(Clone, Debug, PartialEq, Eq)]
pub struct Ended {
    pub tried: Vec<Vec<Entry>>,
    pub allotment: Allotment,
}

/// The offers in an order, the turns so far, and what the order goes by.
pub struct Calling<'a, R: Rule + ?Sized> {
    pub process: Process<'a, R>,
    pub turns: Vec<Turn>,
    order: Order,
    random: Random,
    /// The place of each candidate in the list drawn for the round.
    places: Vec<usize>,
    /// Those ready, in the order in which they became so.
    waiting: Vec<usize>,
    /// Those ready whom the last turn left rejected, lowest number first.
    rejected: Vec<usize>,
}

impl<'a, R: Rule + ?Sized> Calling<'a, R> {
    /// The offers before the first, with what the order draws being that of the seed.
    pub fn new(round: &'a Round, rule: &'a R, order: Order, seed: u64) -> Self {
        let process = Process::new(round, rule);
        let mut random = Random::new(seed);
        let mut places: Vec<usize> = (0..round.candidates.len()).collect();
        random.shuffle(&mut places);
        let mut waiting = process.ready();
        waiting.reverse();
        Calling {
            process,
            turns: Vec::new(),
            order,
            random,
            places,
            waiting,
            rejected: Vec::new(),
        }
    }

    /// Who goes next; nobody where nobody is ready.
    fn next(&mut self) -> Option<usize> {
        let ready = self.process.ready();
        let (&lowest, &last) = (ready.first()?, ready.last()?);
        let least = |key: &dyn Fn(usize) -> usize| {
            let least = ready.iter().min_by_key(|&&candidate| key(candidate));
            least.copied()
        };
        match self.order {
            Order::LowestFirst => Some(lowest),
            Order::LastFirst => Some(last),
            Order::BySurname => least(&|candidate| self.places[candidate]),
            Order::AtRandom => Some(self.random.pick(&ready)),
            Order::RejectedNext => match self.rejected.first() {
                Some(&rejected) => Some(rejected),
                None => Some(self.random.pick(&ready)),
            },
            Order::RejectedLast => self.waiting.first().copied(),
            Order::OnceEach => least(&|candidate| self.process.tried[candidate]),
        }
    }

    /// One turn of whoever goes next; none where nobody is ready.
    pub fn turn(&mut self) -> Option<Turn> {
        let candidate = self.next()?;
        let entry = self.process.turn(candidate);
        self.waiting.retain(|&other| other != candidate);
        self.wait();
        let turn = Turn { candidate, entry };
        self.turns.push(turn);
        Some(turn)
    }

    /// Lets those whom the last turn left rejected wait behind the others, and nobody wait who is not ready.
    fn wait(&mut self) {
        let mut left = vec![false; self.process.tried.len()];
        for candidate in self.process.ready() {
            left[candidate] = true;
        }
        self.waiting
            .retain(|&candidate| std::mem::take(&mut left[candidate]));
        self.rejected = (0..left.len()).filter(|&one| left[one]).collect();
        self.waiting.extend(&self.rejected);
    }

    /// What the turns so far come to.
    pub fn ended(&self) -> Ended {
        let mut tried = vec![Vec::new(); self.process.tried.len()];
        for turn in &self.turns {
            tried[turn.candidate].push(turn.entry);
        }
        Ended {
            tried,
            allotment: self.process.allotment(),
        }
    }
}

/// Runs the offers in an order to their end.
pub fn ended<R: Rule + ?Sized>(round: &Round, rule: &R, order: Order, seed: u64) -> Ended {
    let mut calling = Calling::new(round, rule, order, seed);
    while calling.turn().is_some() {}
    calling.ended()
}
