//! The positions left of each type, carried along while a step is filled (document 02, Point 4), and the wrong values that are caught.

mod cases;
mod search;
#[path = "../closing/worked.rs"]
mod worked;

use cases::{cases_of, some_case, step_of};
use search::{Carry, Filling, Listing, Seen};
use second::choice::raising;
use second::horizontal::first_placing;
use second::random::Random;
use worked::worked;

/// How many made cases are run.
const CASES: usize = 20_000;

/// The made cases.
fn made() -> impl Iterator<Item = Vec<Listing>> {
    let mut random = Random::new(4);
    (0..CASES).map(move |_| some_case(&mut random))
}

/// By what a way of carrying the values is caught: by the values themselves, by those taken for use, or by the types of the same candidates.
#[derive(Clone, Copy, Debug, Default, PartialEq, Eq)]
struct Caught {
    values: bool,
    taken: bool,
    types: bool,
}

/// Fills the steps of a case one after another, and tells by what the values are caught and what was seen of them.
fn filled(case: &[Listing], carry: Carry) -> (Caught, Seen) {
    let (mut caught, mut seen) = (Caught::default(), Seen::default());
    let mut before = None;
    for listing in case {
        let step = step_of(listing, 0);
        let places = raising(&step);
        let due: Vec<usize> = places.iter().map(|&place| step.considered[place]).collect();
        let marks: Vec<u8> = due.iter().map(|&who| listing.marks[who]).collect();
        let mut filling = Filling::new(listing, carry, before);
        filling.take_for_use();
        filling.make_smallest();
        if filling.taken() != due {
            caught.taken = true;
        } else if filling.types() != first_placing(&marks, &listing.reserved) {
            caught.types = true;
        }
        seen.add(filling.seen);
        before = Some(filling.left);
    }
    caught.values = seen.broken > 0;
    (caught, seen)
}

#[test]
fn each_value_is_the_positions_less_those_placed_at_every_candidate_and_search() {
    let (mut lists, mut all) = (0, Seen::default());
    for case in made() {
        let (_, seen) = filled(&case, Carry::Right);
        assert_eq!((seen.broken, seen.odd), (0, 0), "{case:?}");
        lists += case.len();
        all.add(seen);
    }
    assert_eq!((lists, all.compared), (40_154, 1_762_480));
}

#[test]
fn those_taken_and_their_types_are_those_of_the_second_program() {
    for case in made() {
        let (caught, _) = filled(&case, Carry::Right);
        assert_eq!(caught, Caught::default(), "{case:?}");
    }
}

#[test]
fn no_search_is_more_than_eight_deep() {
    let mut all = Seen::default();
    for case in made() {
        all.add(filled(&case, Carry::Right).1);
    }
    assert_eq!((all.deepest, all.most_moves), (8, 7));
}

#[test]
fn worked_rounds_are_filled_alike() {
    let mut longest = Vec::new();
    for (name, round) in worked() {
        for case in cases_of(&round) {
            let (caught, seen) = filled(&case, Carry::Right);
            assert_eq!(caught, Caught::default(), "{name}");
            assert_eq!(seen.odd, 0, "{name}");
            assert!(seen.deepest <= 8, "{name}");
            if seen.most_moves == 7 {
                longest.push(name.clone());
            }
        }
    }
    assert_eq!(longest, ["all-eight-types", "longest-chain"]);
}

/// The list of one step of the first institute of a worked round.
fn step_of_worked(name: &str, step: usize) -> Listing {
    let (_, round) = worked()
        .into_iter()
        .find(|(other, _)| other == name)
        .expect("a worked round");
    cases_of(&round).swap_remove(0).swap_remove(step - 1)
}

/// After each candidate of a list, the types of those placed and the positions left of each type.
fn told(listing: &Listing) -> Vec<(Vec<u8>, Vec<i32>)> {
    let mut filling = Filling::new(listing, Carry::Right, None);
    (0..listing.marks.len())
        .map(|who| {
            filling.search_for(who);
            (filling.types(), filling.left.clone())
        })
        .collect()
}

#[test]
fn longest_chain_goes_as_told() {
    let listing = step_of_worked("longest-chain", 1);
    let told = told(&listing);
    assert_eq!(
        told[6],
        (vec![5, 3, 7, 1, 4, 6, 2], vec![0, 0, 0, 0, 0, 0, 0, 1])
    );
    for after in &told[7..] {
        assert_eq!(*after, (vec![6, 4, 8, 2, 5, 7, 3, 1], vec![0; 8]));
    }
}

#[test]
fn one_left_after_moves_goes_as_told() {
    let listing = step_of_worked("one-left-after-moves", 3);
    let told = told(&listing);
    assert_eq!(told[3], (vec![3, 1, 2], vec![0, 0, 0, 2]));
    assert_eq!(told[4], (vec![4, 2, 3, 1], vec![0, 0, 0, 1]));
    for after in &told[5..] {
        assert_eq!(*after, (vec![4, 2, 3, 1, 4], vec![0; 4]));
    }
}

#[test]
fn given_back_goes_as_told() {
    let listing = step_of_worked("given-back", 2);
    let mut filling = Filling::new(&listing, Carry::Right, None);
    filling.take_for_use();
    assert_eq!(filling.types(), [3, 2, 1, 4, 5]);
    filling.make_smallest();
    assert_eq!(filling.types(), [1, 3, 2, 4, 5]);
    assert_eq!(filling.left, [0; 5]);
}

/// In how many made cases a way of carrying the values is caught by the values, by those taken for use and by the types, and in which worked rounds by one of the last two.
fn caught_by(carry: Carry) -> ([usize; 3], Vec<String>) {
    let mut counts = [0; 3];
    for case in made() {
        let (caught, _) = filled(&case, carry);
        for (count, by) in counts
            .iter_mut()
            .zip([caught.values, caught.taken, caught.types])
        {
            *count += usize::from(by);
        }
    }
    let differs = |case: &Vec<Listing>| {
        let (caught, _) = filled(case, carry);
        caught.taken || caught.types
    };
    let names = worked()
        .into_iter()
        .filter(|(_, round)| cases_of(round).iter().any(differs))
        .map(|(name, _)| name)
        .collect();
    (counts, names)
}

/// The counts and the names of the worked rounds by which wrong values are caught.
fn by(counts: [usize; 3], names: &[&str]) -> ([usize; 3], Vec<String>) {
    (counts, names.iter().map(|name| name.to_string()).collect())
}

#[test]
fn a_position_taken_at_every_move_is_caught() {
    let names = [
        "down-again",
        "equal-marks",
        "given-back",
        "one-left-after-moves",
        "pushed-up",
    ];
    assert_eq!(
        caught_by(Carry::TakenAtEveryMove),
        by([4399, 911, 1742], &names)
    );
}

#[test]
fn a_position_not_given_back_is_caught() {
    let names = ["down-again", "equal-marks", "given-back", "pushed-up"];
    assert_eq!(caught_by(Carry::NotGivenBack), by([9145, 0, 2302], &names));
}

#[test]
fn a_position_not_taken_by_who_comes_is_caught() {
    let names = [
        "all-eight-types",
        "down-again",
        "equal-marks",
        "found-by-moving",
        "given-back",
        "longest-chain",
        "moved-between-types",
        "no-types-at-6",
        "one-left-after-moves",
        "pushed-up",
    ];
    assert_eq!(
        caught_by(Carry::NotTakenByTheNext),
        by([4399, 2467, 2226], &names)
    );
}

#[test]
fn a_position_not_taken_again_is_caught() {
    let names = [
        "all-eight-types",
        "found-by-moving",
        "given-back",
        "longest-chain",
        "one-left-after-moves",
        "pushed-up",
    ];
    assert_eq!(caught_by(Carry::NotTakenAgain), by([9145, 0, 1417], &names));
}

#[test]
fn asking_the_value_of_another_type_is_caught() {
    let names = [
        "all-eight-types",
        "all-for-use",
        "down-again",
        "equal-marks",
        "filled-though-marked",
        "found-by-moving",
        "given-back",
        "longest-chain",
        "marked-and-rejected",
        "marked-by-merit",
        "moved-between-types",
        "no-types-at-6",
        "one-left-after-moves",
        "pushed-up",
    ];
    assert_eq!(
        caught_by(Carry::AnotherAsked),
        by([13_217, 12_621, 3586], &names)
    );
}

#[test]
fn lowering_the_value_of_another_type_is_caught() {
    let names = [
        "all-eight-types",
        "all-for-use",
        "down-again",
        "equal-marks",
        "found-by-moving",
        "given-back",
        "longest-chain",
        "marked-and-rejected",
        "marked-by-merit",
        "moved-between-types",
        "no-types-at-6",
        "one-left-after-moves",
        "pushed-up",
    ];
    assert_eq!(
        caught_by(Carry::AnotherLowered),
        by([15_767, 8458, 2530], &names)
    );
}

#[test]
fn values_not_reset_at_the_next_step_are_caught() {
    let names = [
        "all-eight-types",
        "all-for-use",
        "every-step",
        "found-by-moving",
        "given-back",
        "no-types-at-6",
        "one-left-after-moves",
    ];
    assert_eq!(caught_by(Carry::NotReset), by([12_986, 7537, 528], &names));
}
