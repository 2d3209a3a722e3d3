//! A placing search made from the words of document 01, which carries the positions left of each type along, and the wrong ways of doing that.

/// One step as its merit list: the marks of each candidate, whether the step considers them, and the positions reserved for each type.
#[derive(Debug)]
pub struct Listing {
    pub marks: Vec<u8>,
    pub considered: Vec<bool>,
    pub reserved: Vec<usize>,
}

/// How the values are carried along.
#[derive(Clone, Copy, Debug, PartialEq, Eq)]
pub enum Carry {
    /// Who is placed takes a position, and who leaves a type gives one back.
    Right,
    /// Each move takes one more position of the type where the moves end, and gives none back.
    TakenAtEveryMove,
    /// Who leaves a type gives no position back.
    NotGivenBack,
    /// Who comes for somebody that moved takes no position.
    NotTakenByTheNext,
    /// Who finds no smaller type goes back without taking the position again.
    NotTakenAgain,
    /// The value of the next type is asked.
    AnotherAsked,
    /// The value of the next type is lowered.
    AnotherLowered,
    /// A step starts with the values with which the one before ended.
    NotReset,
}

/// What was seen of the values, and of the moves.
#[derive(Clone, Copy, Debug, Default, PartialEq, Eq)]
pub struct Seen {
    /// How often the values were compared with the positions less those placed, counted afresh.
    pub compared: usize,
    /// How often one of them differed.
    pub broken: usize,
    /// How many calls of the search changed the values otherwise than by one position taken where the moves end and one given back where the candidate was before.
    pub odd: usize,
    /// How deep the calls of the search went, a candidate who is not moved being at 0.
    pub deepest: usize,
    /// The most moves with which somebody was placed.
    pub most_moves: usize,
}

impl Seen {
    /// Adds what was seen elsewhere.
    pub fn add(&mut self, other: Seen) {
        self.compared += other.compared;
        self.broken += other.broken;
        self.odd += other.odd;
        self.deepest = self.deepest.max(other.deepest);
        self.most_moves = self.most_moves.max(other.most_moves);
    }
}

/// Where a search ends: the type that still had a position, and how many moves it took.
#[derive(Clone, Copy)]
struct End {
    one: usize,
    moves: usize,
}

/// A step being filled: the type of each candidate placed, and the positions left of each type.
pub struct Filling<'a> {
    listing: &'a Listing,
    carry: Carry,
    pub at: Vec<Option<usize>>,
    pub left: Vec<i32>,
    /// Those before this place in the merit list are not moved any more.
    settled: usize,
    pub seen: Seen,
}

impl<'a> Filling<'a> {
    /// The step with nobody placed; the values of the step before are given where there was one.
    pub fn new(listing: &'a Listing, carry: Carry, before: Option<Vec<i32>>) -> Self {
        let all = listing.reserved.iter().map(|&one| one as i32).collect();
        Filling {
            listing,
            carry,
            at: vec![None; listing.marks.len()],
            left: match before {
                Some(values) if carry == Carry::NotReset => values,
                _ => all,
            },
            settled: 0,
            seen: Seen::default(),
        }
    }

    /// Goes down the merit list and takes each candidate considered whom the search can place.
    pub fn take_for_use(&mut self) {
        for who in 0..self.at.len() {
            self.compare();
            if self.listing.considered[who] {
                self.search_for(who);
            }
            self.compare();
        }
    }

    /// Searches a type for a candidate who has none.
    pub fn search_for(&mut self, who: usize) {
        let mut unvisited = vec![true; self.left.len()];
        if let Some(end) = self.search(who, &mut unvisited, 0) {
            self.seen.most_moves = self.seen.most_moves.max(end.moves);
        }
    }

    /// Goes down the merit list and gives everybody placed the smallest type with which those behind stay placed.
    pub fn make_smallest(&mut self) {
        for who in 0..self.at.len() {
            self.compare();
            self.settled = who + 1;
            if let Some(own) = self.at[who] {
                let smaller: Vec<usize> = self.held(who).filter(|&one| one < own).collect();
                let _ = smaller.into_iter().any(|one| self.change(who, own, one));
            }
            self.compare();
        }
    }

    /// Those placed, as places in the merit list.
    pub fn taken(&self) -> Vec<usize> {
        (0..self.at.len())
            .filter(|&who| self.at[who].is_some())
            .collect()
    }

    /// The types of those placed, from 1.
    pub fn types(&self) -> Vec<u8> {
        self.at.iter().flatten().map(|&one| one as u8 + 1).collect()
    }

    /// The types that a candidate holds, from 0.
    fn held(&self, who: usize) -> impl Iterator<Item = usize> {
        let marks = self.listing.marks[who];
        (0..self.left.len()).filter(move |one| marks >> one & 1 == 1)
    }

    /// Those placed at a type who may be moved, best first.
    fn holders(&self, one: usize) -> Vec<usize> {
        (self.settled..self.at.len())
            .filter(|&who| self.at[who] == Some(one))
            .collect()
    }

    /// The search, with the values compared as it starts and as it ends.
    fn search(&mut self, who: usize, unvisited: &mut [bool], deep: usize) -> Option<End> {
        self.compare();
        self.seen.deepest = self.seen.deepest.max(deep);
        let mut due = self.left.clone();
        let from = self.at[who];
        let found = self.search_on(who, unvisited, deep);
        if let Some(end) = found {
            due[end.one] -= 1;
            if let Some(from) = from {
                due[from] += 1;
            }
        }
        self.seen.odd += usize::from(self.left != due);
        self.compare();
        found
    }

    /// Places somebody at the first unvisited type held that still has a position or one of whose holders can be moved on.
    fn search_on(&mut self, who: usize, unvisited: &mut [bool], deep: usize) -> Option<End> {
        for one in self.held(who) {
            if !std::mem::replace(&mut unvisited[one], false) {
                continue;
            }
            if self.has_position(one) {
                let end = End { one, moves: 0 };
                self.put(who, one, end);
                return Some(end);
            }
            for holder in self.holders(one) {
                if let Some(further) = self.search(holder, unvisited, deep + 1) {
                    let end = End {
                        one: further.one,
                        moves: further.moves + 1,
                    };
                    self.put(who, one, end);
                    return Some(end);
                }
            }
        }
        None
    }

    /// Gives somebody a smaller type where that has a position or one of its holders can be moved, and tells whether it could be done.
    fn change(&mut self, who: usize, own: usize, smaller: usize) -> bool {
        self.at[who] = None;
        if self.carry != Carry::NotGivenBack {
            self.left[own] += 1;
        }
        self.compare();
        if self.has_position(smaller) {
            let end = End {
                one: smaller,
                moves: 0,
            };
            self.put(who, smaller, end);
            return true;
        }
        let mut unvisited = vec![true; self.left.len()];
        unvisited[smaller] = false;
        for holder in self.holders(smaller) {
            if let Some(end) = self.search(holder, &mut unvisited, 1) {
                self.put(who, smaller, end);
                return true;
            }
        }
        self.at[who] = Some(own);
        if ![Carry::NotGivenBack, Carry::NotTakenAgain].contains(&self.carry) {
            self.left[own] -= 1;
        }
        false
    }

    /// Whether a type still has a position, by its value.
    fn has_position(&self, one: usize) -> bool {
        match self.carry {
            Carry::AnotherAsked => self.left[self.next(one)] > 0,
            _ => self.left[one] > 0,
        }
    }

    /// Places somebody at a type, or moves them there, when the moves have ended somewhere.
    fn put(&mut self, who: usize, to: usize, end: End) {
        if let Some(from) = self.at[who].replace(to) {
            if ![Carry::NotGivenBack, Carry::TakenAtEveryMove].contains(&self.carry) {
                self.left[from] += 1;
            }
        }
        match self.carry {
            Carry::TakenAtEveryMove => self.left[end.one] -= 1,
            Carry::NotTakenByTheNext if to != end.one => {}
            Carry::AnotherLowered => {
                let next = self.next(to);
                self.left[next] -= 1;
            }
            _ => self.left[to] -= 1,
        }
    }

    /// The type behind a type, after the last the first.
    fn next(&self, one: usize) -> usize {
        (one + 1) % self.left.len()
    }

    /// Compares each value with the type's positions less those then placed there, counted afresh.
    fn compare(&mut self) {
        let placed = |one: usize| self.at.iter().filter(|&&at| at == Some(one)).count();
        let holds = |one: usize| {
            let due = self.listing.reserved[one].checked_sub(placed(one));
            due.is_some_and(|due| self.left[one] == due as i32)
        };
        let all_hold = (0..self.left.len()).all(holds);
        self.seen.compared += 1;
        self.seen.broken += usize::from(!all_hold);
    }
}
