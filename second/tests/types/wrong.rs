//! Wrong types, each as a way of giving types to a list of those taken for use, or as a rule of its own.

use crate::lists::all_fit;
use crate::naive::every_placing;
use second::choice::{reserved_of, used_by_merit, Document, Rule, Taken, Way};
use second::horizontal::first_placing;
use second::orders::{Calling, Order};
use second::reading::Round;

/// A way of giving types to candidates with these marks, read down the merit list, from the reserved positions.
pub type List = fn(&[u8], &[usize]) -> Vec<u8>;

/// Gives types in a way to those whom each step took for use.
pub struct Listed(pub List);

impl Rule for Listed {
    fn types(&self, round: &Round, institute: usize, taken: &[Taken]) -> Vec<u8> {
        given(round, institute, taken, &round.merit[institute], self.0)
    }
}

/// The types given in a way to those whom each step took for use, each step's read down a list of candidates.
fn given(round: &Round, institute: usize, taken: &[Taken], down: &[usize], list: List) -> Vec<u8> {
    let mut types = vec![0; taken.len()];
    for step in 1..=6 {
        let places = used_by_merit(down, taken, step);
        let marks: Vec<u8> = places
            .iter()
            .map(|&place| round.candidates[taken[place].offer.candidate].marks)
            .collect();
        let placing = list(&marks, &reserved_of(round, institute, step));
        for (place, own) in places.into_iter().zip(placing) {
            types[place] = own;
        }
    }
    types
}

/// The types that a candidate with these marks holds, from 0.
fn held(marks: u8, types: usize) -> impl Iterator<Item = usize> {
    (0..types).filter(move |one| marks >> one & 1 == 1)
}

/// A search that places one after another and moves others, and whether it looks for a type with a position left before it moves anybody.
struct Search<'a> {
    marks: &'a [u8],
    reserved: &'a [usize],
    at: Vec<Option<usize>>,
    free_first: bool,
}

impl Search<'_> {
    /// Those placed at a type, best first.
    fn holders(&self, one: usize) -> Vec<usize> {
        (0..self.at.len())
            .filter(|&who| self.at[who] == Some(one))
            .collect()
    }

    /// Places somebody at the first type that has a position left or whose holder can be moved to a type not yet visited.
    fn place(&mut self, who: usize, visited: &mut [bool]) -> bool {
        let own: Vec<usize> = held(self.marks[who], self.reserved.len()).collect();
        let is_free = |search: &Self, one: usize| search.holders(one).len() < search.reserved[one];
        if self.free_first {
            if let Some(&free) = own.iter().find(|&&one| is_free(self, one)) {
                self.at[who] = Some(free);
                return true;
            }
        }
        for one in own {
            if std::mem::replace(&mut visited[one], true) {
                continue;
            }
            let moved = is_free(self, one)
                || self
                    .holders(one)
                    .into_iter()
                    .any(|holder| self.place(holder, visited));
            if moved {
                self.at[who] = Some(one);
                return true;
            }
        }
        false
    }
}

/// The placing that a search ends with.
fn searched(marks: &[u8], reserved: &[usize], free_first: bool) -> Vec<u8> {
    let mut search = Search {
        marks,
        reserved,
        at: vec![None; marks.len()],
        free_first,
    };
    for who in 0..marks.len() {
        search.place(who, &mut vec![false; reserved.len()]);
    }
    let number = |one: &Option<usize>| one.map_or(0, |one| one as u8 + 1);
    search.at.iter().map(number).collect()
}

/// The placing found by moving, a type in its turn being taken or its holder moved.
pub fn moving(marks: &[u8], reserved: &[usize]) -> Vec<u8> {
    searched(marks, reserved, false)
}

/// The placing found by moving, a type with a position left being taken before anybody is moved.
pub fn moving_if_full(marks: &[u8], reserved: &[usize]) -> Vec<u8> {
    searched(marks, reserved, true)
}

/// The first placing with types numbered from 0.
pub fn from_0(marks: &[u8], reserved: &[usize]) -> Vec<u8> {
    let first = first_placing(marks, reserved);
    first.into_iter().map(|one| one.saturating_sub(1)).collect()
}

/// The smallest types from the last candidate up.
pub fn last_up(marks: &[u8], reserved: &[usize]) -> Vec<u8> {
    let mut up = marks.to_vec();
    up.reverse();
    let mut types = first_placing(&up, reserved);
    types.reverse();
    types
}

/// For each the smallest type held with a position left, without regard to the rest, 0 where there is none.
pub fn without_regard(marks: &[u8], reserved: &[usize]) -> Vec<u8> {
    let mut room = reserved.to_vec();
    let smallest = |&own: &u8| {
        let first = held(own, room.len()).find(|&one| room[one] > 0);
        if let Some(one) = first {
            room[one] -= 1;
        }
        first.map_or(0, |one| one as u8 + 1)
    };
    marks.iter().map(smallest).collect()
}

/// For each the smallest type held.
pub fn smallest_held(marks: &[u8], reserved: &[usize]) -> Vec<u8> {
    let smallest = |&own: &u8| {
        held(own, reserved.len())
            .next()
            .map_or(0, |one| one as u8 + 1)
    };
    marks.iter().map(smallest).collect()
}

/// The placing with the smallest sum of type numbers, of several the first.
pub fn smallest_sum(marks: &[u8], reserved: &[usize]) -> Vec<u8> {
    let sum = |placing: &Vec<u8>| placing.iter().map(|&one| usize::from(one)).sum::<usize>();
    every_placing(marks, reserved)
        .min_by_key(|placing| (sum(placing), placing.clone()))
        .unwrap_or_default()
}

/// Reads down the candidates by their numbers instead of the merit list.
pub struct ByNumber;

impl Rule for ByNumber {
    fn types(&self, round: &Round, institute: usize, taken: &[Taken]) -> Vec<u8> {
        let numbers: Vec<usize> = (0..round.candidates.len()).collect();
        given(round, institute, taken, &numbers, first_placing)
    }
}

/// Gives the marked in the fill by merit the smallest type they hold.
pub struct FillMarked;

impl Rule for FillMarked {
    fn types(&self, round: &Round, institute: usize, taken: &[Taken]) -> Vec<u8> {
        let mut types = Document.types(round, institute, taken);
        for (one, own) in taken.iter().zip(&mut types) {
            if one.way == Way::ByMerit {
                let marks = round.candidates[one.offer.candidate].marks;
                *own = smallest_held(&[marks], &vec![0; round.types])[0];
            }
        }
        types
    }
}

/// The type of each candidate where everybody taken for use has the type last given to them, if those behind can then all be placed, and else the smallest such type, candidates being called up in an order.
pub fn staying(round: &Round, order: Order) -> Vec<u8> {
    let mut calling = Calling::new(round, &Document, order, 0);
    let mut types = vec![0; round.candidates.len()];
    while let Some(turn) = calling.turn() {
        let at = turn.entry.institute;
        for step in 1..=6 {
            stay(round, at, step, &calling.process.held[at], &mut types);
        }
    }
    let taken = calling.process.held.iter().flatten();
    let used: Vec<usize> = taken
        .filter(|one| one.way == Way::ForUse)
        .map(|one| one.offer.candidate)
        .collect();
    let of = |who: usize| if used.contains(&who) { types[who] } else { 0 };
    (0..types.len()).map(of).collect()
}

/// Gives types to those whom a step takes for use, to each the one last given where that can be.
fn stay(round: &Round, at: usize, step: u8, held: &[Taken], types: &mut [u8]) {
    let users: Vec<usize> = used_by_merit(&round.merit[at], held, step)
        .into_iter()
        .map(|place| held[place].offer.candidate)
        .collect();
    let marks: Vec<u8> = users
        .iter()
        .map(|&who| round.candidates[who].marks)
        .collect();
    let mut room = reserved_of(round, at, step);
    for (place, &who) in users.iter().enumerate() {
        let before = usize::from(types[who]).checked_sub(1);
        let own: Vec<usize> = before.into_iter().chain(0..room.len()).collect();
        for one in own {
            if marks[place] >> one & 1 == 0 || room[one] == 0 {
                continue;
            }
            room[one] -= 1;
            if all_fit(&marks[place + 1..], &room) {
                types[who] = one as u8 + 1;
                break;
            }
            room[one] += 1;
        }
    }
}
