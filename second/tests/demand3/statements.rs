//! Demand 3 and what it rests on, as statements about one round; each tells the counterexample it finds.

use crate::arrangements::arrangements;
use crate::stability::{offers_of, rank, subset, unstable};
use crate::tiny::{lawful_entries, some_row};
use crate::words::Words;
use second::choice::{Offer, Rule, Taken};
use second::offers::{Process, Seat};
use second::orders::{ended, Order};
use second::random::Random;
use second::reading::{Entry, Round, OBC};

/// Nothing where the statement holds of the round, else the counterexample.
pub type Found = Result<(), String>;

/// The list an allotment of a round gives: each candidate's seat.
pub type Lister<'a> = &'a dyn Fn(&Round) -> Vec<Option<Seat>>;

/// The rows a candidate might give instead: all of them where there are at most four entries, else some.
fn other_rows(random: &mut Random, code: u8, institutes: usize) -> Vec<Vec<Entry>> {
    let entries = lawful_entries(code, institutes);
    if entries.len() <= 4 {
        arrangements(&entries)
    } else {
        (0..40).map(|_| some_row(random, entries.clone())).collect()
    }
}

/// Statement 1: judged by the round's row, no candidate is seated better for giving another row.
pub fn truthful(round: &Round, list: Lister, random: &mut Random) -> Found {
    let first = list(round);
    for (number, candidate) in round.candidates.iter().enumerate() {
        let own = rank(round, &candidate.row, first[number]);
        for row in other_rows(random, candidate.code, round.institutes.len()) {
            let mut other = round.clone();
            other.candidates[number].row = row;
            let second = list(&other);
            if rank(round, &candidate.row, second[number]) < own {
                return Err(format!(
                    "candidate {} gains by {:?}: {round:?}",
                    number + 1,
                    other.candidates[number].row
                ));
            }
        }
    }
    Ok(())
}

/// Statement 2: the list is stable.
pub fn stable<R: Rule + ?Sized>(round: &Round, rule: &R, seats: &[Option<Seat>]) -> Found {
    match unstable(round, rule, seats) {
        None => Ok(()),
        Some(why) => Err(format!("{why}: {round:?}")),
    }
}

/// Statement 3: any order of going gives the same offers, seats, steps, closing places and types.
pub fn any_order<R: Rule + ?Sized>(round: &Round, rule: &R, random: &mut Random) -> Found {
    let due = ended(round, rule, Order::LowestFirst, 0);
    for _ in 0..8 {
        if ended(round, rule, Order::AtRandom, random.bits()) != due {
            return Err(format!("another order ends otherwise: {round:?}"));
        }
    }
    Ok(())
}

/// Statement 4: at every turn, what the institute chooses from the offers it holds and the new one is what it chooses from all ever made to it, for use and by merit alike.
pub fn held_and_new_suffice<R: Rule + ?Sized>(round: &Round, rule: &R) -> Found {
    let mut process = Process::new(round, rule);
    while let Some(&candidate) = process.ready().first() {
        let before = process.held.clone();
        let entry = process.turn(candidate);
        let new = Offer {
            candidate,
            category: entry.category,
        };
        let mut offers = offers_of(&before[entry.institute]);
        offers.push(new);
        if rule.choose(round, entry.institute, &offers) != process.held[entry.institute] {
            return Err(format!("held and new do not suffice: {round:?}"));
        }
    }
    Ok(())
}

/// That at every turn nobody is held twice, by two institutes or by one.
pub fn held_once<R: Rule + ?Sized>(round: &Round, rule: &R) -> Found {
    let mut process = Process::new(round, rule);
    while let Some(&candidate) = process.ready().first() {
        process.turn(candidate);
        let mut holding: Vec<usize> = process
            .held
            .iter()
            .flatten()
            .map(|taken| taken.offer.candidate)
            .collect();
        holding.sort();
        if holding.windows(2).any(|pair| pair[0] == pair[1]) {
            return Err(format!("somebody is held twice: {round:?}"));
        }
    }
    Ok(())
}

/// Makes a turn, and tells whether the institute gives somebody up.
pub fn gives_up<R: Rule + ?Sized>(process: &mut Process<R>, candidate: usize) -> bool {
    let before = process.held.clone();
    let at = process.turn(candidate).institute;
    let now = &process.held[at];
    let kept = |who: usize| now.iter().any(|one| one.offer.candidate == who);
    !before[at].iter().all(|one| kept(one.offer.candidate))
}

/// Statement 5 in the run of the offers: at every turn, the completion takes from all offers made the same offers at the same steps and in the same way as the choice.
pub fn completion_agrees_in_the_run<R: Rule + ?Sized>(round: &Round, rule: &R) -> Found {
    let mut process = Process::new(round, rule);
    while let Some(&candidate) = process.ready().first() {
        let at = process.turn(candidate).institute;
        if rule.complete(round, at, &process.made[at]) != process.held[at] {
            return Err(format!("the completion takes others: {round:?}"));
        }
    }
    Ok(())
}

/// Every lawful offer to an institute, in a row or not, at most eight of them.
fn lawful_offers(round: &Round, institute: usize, random: &mut Random) -> Vec<Offer> {
    let mut offers = Vec::new();
    for (candidate, one) in round.candidates.iter().enumerate() {
        for entry in lawful_entries(one.code, institute + 1) {
            if entry.institute == institute {
                offers.push(Offer {
                    candidate,
                    category: entry.category,
                });
            }
        }
    }
    random.shuffle(&mut offers);
    offers.truncate(8);
    offers.sort();
    offers
}

/// Whether the list has two offers of one candidate.
fn twice(offers: &[Offer]) -> bool {
    (1..offers.len()).any(|place| offers[place].candidate == offers[place - 1].candidate)
}

/// Statement 5 on any sets: where the completion takes at most one offer of each candidate, the choice takes the same; an offer the completion rejects from a set it rejects from each larger one; and it does not take fewer from a larger one.
pub fn completion_is_one<R: Rule + ?Sized>(round: &Round, rule: &R, random: &mut Random) -> Found {
    for institute in 0..round.institutes.len() {
        let all = lawful_offers(round, institute, random);
        let taken: Vec<Vec<Taken>> = (0..1 << all.len())
            .map(|bits| rule.complete(round, institute, &subset(&all, bits)))
            .collect();
        for bits in 0..1usize << all.len() {
            let set = subset(&all, bits);
            let complete = offers_of(&taken[bits]);
            if !twice(&complete) && rule.choose(round, institute, &set) != taken[bits] {
                return Err(format!("the choice takes others from {set:?}: {round:?}"));
            }
            for (place, more) in all.iter().enumerate() {
                let larger = &taken[bits | 1 << place];
                if larger.len() < complete.len() {
                    return Err(format!("fewer taken with {more:?} to {set:?}: {round:?}"));
                }
                let back =
                    |one: &&Taken| set.contains(&one.offer) && !complete.contains(&one.offer);
                if larger.iter().any(|one| back(&one)) {
                    return Err(format!("{more:?} brings one back to {set:?}: {round:?}"));
                }
            }
        }
    }
    Ok(())
}

/// Whether no step has more than its positions: those of step 6 are positions of step 4; those of a list are at most its own and what the steps that hand to it, one through another, had and did not take.
fn fits(round: &Round, institute: usize, taken: &[Taken]) -> bool {
    let own = &round.institutes[institute];
    let at = |step: usize| {
        let here = taken.iter().filter(|one| usize::from(one.step) == step);
        here.count()
    };
    if round.policy != 2 {
        return (1..=5).all(|step| at(step) <= own.positions[step - 1])
            && at(4) + at(6) <= own.positions[usize::from(OBC)];
    }
    let reaches = |mut from: usize, to: usize| {
        while from != 0 && from != to {
            from = usize::from(own.steps[from - 1].receiver);
        }
        from == to
    };
    (1..=own.steps.len()).all(|step| {
        let before = (1..=step).filter(|&other| reaches(other, step));
        let (had, took) = before.fold((0, 0), |(had, took), other| {
            (had + own.steps[other - 1].positions, took + at(other))
        });
        took <= had
    })
}

/// The choice is one: from any set of listed offers it takes offers of the set, at most one of each candidate, and no more at a step than its positions.
pub fn choice_is_one<R: Rule + ?Sized>(round: &Round, rule: &R, random: &mut Random) -> Found {
    for institute in 0..round.institutes.len() {
        let all = lawful_offers(round, institute, random);
        for bits in 0..1usize << all.len() {
            let set = subset(&all, bits);
            let taken = rule.choose(round, institute, &set);
            let offers = offers_of(&taken);
            let fits = fits(round, institute, &taken);
            if twice(&offers) || !fits || !offers.iter().all(|offer| set.contains(offer)) {
                return Err(format!("{taken:?} from {set:?}: {round:?}"));
            }
        }
    }
    Ok(())
}

/// That a rule chooses from sets of offers what the words of the documents give.
pub fn same_choice<R: Rule + ?Sized>(round: &Round, rule: &R, random: &mut Random) -> Found {
    for institute in 0..round.institutes.len() {
        let all = lawful_offers(round, institute, random);
        for bits in 0..1usize << all.len() {
            let set = subset(&all, bits);
            if rule.choose(round, institute, &set) != Words.choose(round, institute, &set) {
                return Err(format!("another choice from {set:?}: {round:?}"));
            }
        }
    }
    Ok(())
}
