//! All orders of a round: every choice of who goes next, at every state.

use second::choice::{Document, Taken};
use second::offers::{Allotment, Process};
use second::reading::{Entry, Round};
use std::collections::HashMap;

/// How many entries each candidate has tried at an end, and the allotment.
pub type End = (Vec<usize>, Allotment);

/// What is known of a state once all orders from it have been gone through.
struct Known {
    held: Vec<Vec<Taken>>,
    orders: u128,
}

/// The states that the orders of a round pass through, by how many entries each candidate has tried, and those in which they end.
struct Search {
    known: HashMap<Vec<usize>, Known>,
    ends: Vec<End>,
    most: usize,
}

/// How many states the orders of a round pass through, how many orders there are, and the states in which they end.
pub struct Every {
    pub states: usize,
    pub orders: u128,
    pub ends: Vec<End>,
}

/// Goes through all orders of a round, depth first, unless they pass through more than so many states.
pub fn every_order(round: &Round, most: usize) -> Option<Every> {
    let mut search = Search {
        known: HashMap::new(),
        ends: Vec::new(),
        most,
    };
    let orders = search.from(&mut Process::new(round, &Document))?;
    Some(Every {
        states: search.known.len(),
        orders,
        ends: search.ends,
    })
}

impl Search {
    /// Goes through all orders from a state and tells how many they are; a state reached again holds the same at each institute.
    fn from(&mut self, process: &mut Process<Document>) -> Option<u128> {
        if let Some(known) = self.known.get(&process.tried) {
            assert_eq!(known.held, process.held, "{:?}", process.round);
            return Some(known.orders);
        }
        if self.known.len() >= self.most {
            return None;
        }
        sound(process);
        let ready = free(process);
        let mut orders = 0;
        for &candidate in &ready {
            let institute = untried(process, candidate).institute;
            let before = process.held[institute].clone();
            process.turn(candidate);
            orders += self.from(process)?;
            process.tried[candidate] -= 1;
            process.made[institute].pop();
            process.held[institute] = before;
        }
        if ready.is_empty() {
            let tried = process.tried.clone();
            self.ends.push((tried, process.allotment()));
            orders = 1;
        }
        let held = process.held.clone();
        let known = Known { held, orders };
        self.known.insert(process.tried.clone(), known);
        Some(orders)
    }
}

/// A candidate's best untried entry.
fn untried(process: &Process<Document>, candidate: usize) -> Entry {
    process.round.candidates[candidate].row[process.tried[candidate]]
}

/// The candidates whom no institute holds and who have an untried entry.
pub fn free(process: &Process<Document>) -> Vec<usize> {
    let holds = |held: &Vec<Taken>, candidate| {
        let mut all = held.iter();
        all.any(|one| one.offer.candidate == candidate)
    };
    (0..process.round.candidates.len())
        .filter(|&candidate| {
            let row = &process.round.candidates[candidate].row;
            let unheld = !process.held.iter().any(|held| holds(held, candidate));
            unheld && made_by(process, candidate) < row.len()
        })
        .collect()
}

/// How many offers a candidate has made.
fn made_by(process: &Process<Document>, candidate: usize) -> usize {
    let all = process.made.iter().flatten();
    all.filter(|offer| offer.candidate == candidate).count()
}

/// Asserts of a state that those ready are those free, that the offers made are the first entries of each row, and that nobody is held twice or at another entry than the last one tried.
pub fn sound(process: &Process<Document>) {
    let round = process.round;
    assert_eq!(process.ready(), free(process), "{round:?}");
    let mut holders = vec![0; round.candidates.len()];
    for (institute, held) in process.held.iter().enumerate() {
        for one in held {
            let Some(last) = process.tried[one.offer.candidate].checked_sub(1) else {
                panic!("held without an offer: {round:?}");
            };
            let tried = round.candidates[one.offer.candidate].row[last];
            let category = one.offer.category;
            let seat = Entry {
                institute,
                category,
            };
            assert_eq!(seat, tried, "{round:?}");
            holders[one.offer.candidate] += 1;
        }
    }
    assert!(holders.iter().all(|&count| count <= 1), "{round:?}");
    for (candidate, one) in round.candidates.iter().enumerate() {
        let tried = process.tried[candidate];
        assert!(tried <= one.row.len(), "{round:?}");
        assert_eq!(tried, made_by(process, candidate), "{round:?}");
        for entry in &one.row[..tried] {
            let mut made = process.made[entry.institute].iter();
            let same = (candidate, entry.category);
            assert!(made.any(|offer| (offer.candidate, offer.category) == same));
        }
    }
}
