//! The types in other words, with nothing shared: every function from candidates to types is tried.

use crate::tried::by_trying;
use second::choice::Offer;
use second::reading::Round;

/// Every function from so many candidates to so many types, each as the list of its values, from 1.
pub fn every_function(people: usize, types: usize) -> impl Iterator<Item = Vec<u8>> {
    (0..types.pow(people as u32)).map(move |number| {
        (0..people)
            .map(|who| (number / types.pow(who as u32) % types) as u8 + 1)
            .collect()
    })
}

/// Whether a function gives each candidate a type held, and no type to more candidates than it has positions.
pub fn is_placing(function: &[u8], marks: &[u8], reserved: &[usize]) -> bool {
    let given = |held: usize| {
        let own = |&&one: &&u8| usize::from(one) == held + 1;
        function.iter().filter(own).count()
    };
    let holds = |who: usize| marks[who] >> (function[who] - 1) & 1 == 1;
    (0..marks.len()).all(holds) && (0..reserved.len()).all(|held| given(held) <= reserved[held])
}

/// Every placing of all of these candidates.
pub fn every_placing<'a>(
    marks: &'a [u8],
    reserved: &'a [usize],
) -> impl Iterator<Item = Vec<u8>> + 'a {
    every_function(marks.len(), reserved.len())
        .filter(move |function| is_placing(function, marks, reserved))
}

/// The first of all placings of these candidates, where there is one: the least in the order of lists, in which the first value that differs decides.
pub fn first_of_all(marks: &[u8], reserved: &[usize]) -> Option<Vec<u8>> {
    every_placing(marks, reserved).min()
}

/// The type that an institute gives to each candidate of the round from a set of offers to it, 0 for none.
pub fn types_by_trying(round: &Round, institute: usize, offers: &[Offer]) -> Vec<u8> {
    let merit = &round.merit[institute];
    let mut types = vec![0; round.candidates.len()];
    let steps = by_trying(round, institute, offers);
    for (step, reserved) in steps.iter().zip(&round.institutes[institute].reserved) {
        let users: Vec<usize> = step.for_use.iter().map(|&place| merit[place]).collect();
        let marks: Vec<u8> = users
            .iter()
            .map(|&who| round.candidates[who].marks)
            .collect();
        let placing = first_of_all(&marks, reserved).expect("all taken for use can be placed");
        for (who, given) in users.into_iter().zip(placing) {
            types[who] = given;
        }
    }
    assert!(steps[5].for_use.is_empty(), "{round:?}");
    types
}
