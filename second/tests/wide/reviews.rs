//! Reviews of wide lists.

use crate::own_list::own_list;
use crate::spread::spread;
use crate::stability::unstable;
use crate::tiny::tiny;
use second::choice::Document;
use second::generate::{lawful, lawful_round, wide_damaged, Class};
use second::list::seat_bytes;
use second::offers::Seat;
use second::random::Random;
use second::reading::{Round, OPEN};
use second::review::found;
use second::widening::{wide, widened, widened_list};
use second::writing::write;
use second::{review, Review};

const A: &[u8] = include_bytes!("../../../rounds/a.round");

/// The bytes of a seat of a round, institute counted from 0.
pub fn seat(round: &Round, institute: usize, step: u8) -> Vec<u8> {
    seat_bytes(round.form, Some(Seat { institute, step }))
}

/// Bytes for a candidate in a list: 0 0, a seat of the row at a step that considers its entry or, now and then, at any, or a seat of any institute.
fn some_seat(round: &Round, who: usize, random: &mut Random) -> Vec<u8> {
    let row = &round.candidates[who].row;
    if row.is_empty() || random.one_in(4) {
        return vec![0; round.form.seat_bytes()];
    }
    if random.one_in(8) {
        let institute = random.from_to(0, round.institutes.len() - 1);
        return seat(round, institute, random.from_to(0, 7) as u8);
    }
    let entry = row[random.from_to(0, row.len() - 1)];
    let step = match entry.category {
        OPEN if random.one_in(4) => 6,
        category => category + 1,
    };
    seat(round, entry.institute, step)
}

/// The list of a round's allotment with some candidates' bytes replaced.
pub fn changed(round: &Round, random: &mut Random) -> Vec<u8> {
    let mut list = own_list(round);
    let width = round.form.seat_bytes();
    for _ in 0..random.from_to(0, 2) {
        let who = random.from_to(0, round.candidates.len() - 1);
        list[width * who..width * (who + 1)].copy_from_slice(&some_seat(round, who, random));
    }
    list
}

/// Small narrow rounds with changed lists of each.
fn narrow_lists() -> impl Iterator<Item = (Round, Vec<u8>)> {
    let small = (0..500).map(|seed| lawful_round(Class::Small, seed));
    let rounds = (0..3000).map(tiny).chain(small);
    let mut random = Random::new(6);
    rounds.flat_map(move |round| {
        let lists: Vec<Vec<u8>> = (0..8).map(|_| changed(&round, &mut random)).collect();
        lists.into_iter().map(move |list| (round.clone(), list))
    })
}

#[test]
fn reviews_of_widened_lists_say_the_same() {
    let mut counts = [0; 3];
    for (round, list) in narrow_lists() {
        let said = found(&round, &list);
        assert_eq!(found(&wide(&round), &widened_list(&list)), said);
        counts[match said {
            Review::Passes => 0,
            Review::Wrong(_) => 1,
            _ => 2,
        }] += 1;
    }
    assert!(counts.iter().all(|&count| count > 2000), "{counts:?}");
}

#[test]
fn widened_files_are_reviewed_as_their_lists_say() {
    for seed in 0..1000 {
        let round = tiny(seed);
        let (file, n) = (write(&round), round.candidates.len());
        let list = changed(&round, &mut Random::new(seed));
        let (mut work, mut wide_work) = (vec![7; 8 * n + 5], vec![7; 8 * n + 5]);
        let said = review(&file, &list, &mut work);
        let wide = review(&widened(&file), &widened_list(&list), &mut wide_work);
        assert_eq!((wide, wide_work), (said, work));
    }
}

#[test]
fn the_list_of_a_wide_allotment_passes() {
    let made = |class: Class, count: u64| (0..count).map(move |seed| lawful_round(class, seed));
    let mut rounds = 0;
    for round in made(Class::WideTiny, 1000)
        .chain(made(Class::WideSmall, 500))
        .chain(made(Class::WideMany, 200))
        .chain(made(Class::WideMid, 20))
        .chain(made(Class::WideState, 5))
        .chain(made(Class::WideMaximal, 1))
        .chain((0..500).map(|seed| spread(&tiny(seed))))
    {
        assert_eq!(found(&round, &own_list(&round)), Review::Passes);
        rounds += 1;
    }
    assert_eq!(rounds, 2226);
}

#[test]
fn a_seat_with_another_last_byte_counts_as_not_in_the_row() {
    let mut random = Random::new(7);
    let mut without = 0;
    for (round, list) in narrow_lists() {
        let wide = wide(&round);
        let who = random.from_to(0, round.candidates.len() - 1);
        let last = random.pick(&[1, 1, 6, 128, 255]);
        let mut marked = widened_list(&list);
        marked[4 * who + 3] = last;
        let mut outside = list.clone();
        outside[2 * who..2 * who + 2].copy_from_slice(&[255, 255]);
        let said = found(&wide, &marked);
        assert_eq!(said, found(&round, &outside), "{list:?} of {round:?}");
        let named = matches!(said, Review::Wrong(named) if named <= who + 1);
        assert!(named, "{said:?}");
        without += usize::from(list[2 * who..2 * who + 2] == [0, 0]);
    }
    assert!(without > 5000, "{without}");
}

#[test]
fn no_institute_and_no_step_with_another_last_byte_is_named() {
    let file = widened(A);
    for last in 1..=255 {
        let list = [0, 0, 0, last, 1, 0, 4, 0, 1, 0, 1, 0];
        assert_eq!(review(&file, &list, &mut [7; 24]), Review::Wrong(1));
    }
    let list = [0, 0, 0, 0, 1, 0, 4, 0, 1, 0, 1, 0];
    assert_eq!(review(&file, &list, &mut [7; 24]), Review::Passes);
}

#[test]
fn an_institute_of_another_high_byte_counts_as_not_in_the_row() {
    for seed in 0..500 {
        let round = lawful_round(Class::WideSmall, seed);
        let own = own_list(&round);
        for who in 0..round.candidates.len() {
            let mut list = own.clone();
            list[4 * who + 1] = 1 + (seed % 255) as u8;
            let mut outside = own.clone();
            outside[4 * who..4 * who + 4].copy_from_slice(&[255, 255, 1, 0]);
            let said = found(&round, &list);
            assert_eq!(said, found(&round, &outside), "{seed}");
            assert!(matches!(said, Review::Wrong(named) if named <= who + 1));
        }
    }
}

/// The seats of a wide list; none where some bytes are neither all 0 nor an institute, a step and a zero byte.
fn seats_of(m: usize, list: &[u8]) -> Option<Vec<Option<Seat>>> {
    let seat = |bytes: &[u8]| {
        let institute = u16::from_le_bytes([bytes[0], bytes[1]]);
        match (usize::from(institute), bytes[2], bytes[3]) {
            (0, 0, 0) => Some(None),
            (institute, step @ 1..=6, 0) if (1..=m).contains(&institute) => Some(Some(Seat {
                institute: institute - 1,
                step,
            })),
            _ => None,
        }
    };
    list.chunks_exact(4).map(seat).collect()
}

#[test]
fn just_the_stable_lists_of_institutes_far_apart_pass() {
    let mut random = Random::new(8);
    let mut counts = [0; 2];
    for seed in 0..600 {
        let round = spread(&tiny(seed));
        for _ in 0..8 {
            let mut list = changed(&round, &mut random);
            let who = random.from_to(0, round.candidates.len() - 1);
            match random.from_to(0, 5) {
                0 => list[4 * who + 3] = random.pick(&[1, 255]),
                1 => list[4 * who + 1] = random.from_to(0, 3) as u8,
                _ => {}
            }
            let stable = seats_of(round.institutes.len(), &list)
                .is_some_and(|seats| unstable(&round, &Document, &seats).is_none());
            let passes = found(&round, &list) == Review::Passes;
            assert_eq!(passes, stable, "{list:?} of {seed}");
            counts[usize::from(passes)] += 1;
        }
    }
    assert!(counts.iter().all(|&count| count > 1000), "{counts:?}");
}

#[test]
fn a_wide_list_of_any_length_but_4n_is_refused() {
    let refused = |number| Review::Refused { number, offset: 0 };
    for seed in 0..100 {
        let file = lawful(Class::WideSmall, seed);
        let n = lawful_round(Class::WideSmall, seed).candidates.len();
        for length in (0..=4 * n + 5).filter(|&length| length != 4 * n) {
            for work_len in [0, 8 * n] {
                let said = review(&file, &vec![0; length], &mut vec![7; work_len]);
                assert_eq!(said, refused(15), "{length}");
            }
        }
        let list = vec![0; 4 * n];
        let said = review(&file, &list, &mut vec![7; 8 * n - 1]);
        assert_eq!(said, refused(14));
        let said = review(&file, &list, &mut vec![7; 8 * n]);
        assert!(!matches!(said, Review::Refused { .. }));
    }
}

#[test]
fn a_wide_file_that_is_not_allotted_is_not_reviewed() {
    for seed in 0..520 {
        let made = wide_damaged((seed % 13) as u8 + 1, seed);
        let due = Review::Refused {
            number: made.number,
            offset: made.offset,
        };
        for (length, work_len) in [(0, 0), (12, 24), (96, 192), (2048, 4096)] {
            let mut work = vec![7; work_len];
            assert_eq!(review(&made.file, &vec![0; length], &mut work), due);
            assert_eq!(work, vec![7; work_len]);
        }
    }
}

#[test]
fn a_list_of_the_other_form_is_refused() {
    let refused = Review::Refused {
        number: 15,
        offset: 0,
    };
    for seed in 0..300 {
        let round = tiny(seed);
        let (file, list) = (write(&round), own_list(&round));
        let work = &mut [7; 100];
        assert_eq!(review(&file, &widened_list(&list), work), refused);
        assert_eq!(review(&widened(&file), &list, work), refused);
    }
}
