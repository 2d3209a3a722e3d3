//! Lists of marks and reserved positions, for the first placing.

use crate::naive::first_of_all;
use second::horizontal::first_placing;
use second::random::Random;

/// The marks of a list, best first, and the positions reserved for each type.
pub struct Listing {
    pub marks: Vec<u8>,
    pub reserved: Vec<usize>,
}

/// All lists of so many types and candidates with at most so many positions for each type.
pub fn all_lists(types: usize, people: usize, most: usize) -> impl Iterator<Item = Listing> {
    let digits = |number: usize, base: usize, count: usize| -> Vec<usize> {
        (0..count)
            .map(|place| number / base.pow(place as u32) % base)
            .collect()
    };
    let sets = 1usize << types;
    (0..sets.pow(people as u32)).flat_map(move |marks| {
        (0..(most + 1).pow(types as u32)).map(move |reserved| Listing {
            marks: digits(marks, sets, people)
                .into_iter()
                .map(|own| own as u8)
                .collect(),
            reserved: digits(reserved, most + 1, types),
        })
    })
}

/// A list of up to so many candidates and of so many types, the marks thin or not.
pub fn some_list(random: &mut Random, people: usize, types: usize, most: usize) -> Listing {
    let thin = random.from_to(0, 2);
    let all = (1u64 << types) - 1;
    let people = random.from_to(1, people);
    let marks = (0..people)
        .map(|_| {
            let bits = (0..thin).fold(random.bits(), |bits, _| bits & random.bits());
            (bits & all) as u8
        })
        .collect();
    let reserved = (0..types).map(|_| random.from_to(0, most)).collect();
    Listing { marks, reserved }
}

/// Asserts of those lists that can be placed whole that the first placing is the first of all, and tells how many they are.
pub fn first_of_each(lists: impl Iterator<Item = Listing>) -> usize {
    let mut whole = 0;
    for Listing { marks, reserved } in lists {
        if let Some(first) = first_of_all(&marks, &reserved) {
            assert_eq!(
                first_placing(&marks, &reserved),
                first,
                "{marks:?} {reserved:?}"
            );
            whole += 1;
        }
    }
    whole
}

/// Whether candidates with these marks can all be given positions, as no set of types is held alone by more of them than it has positions.
pub fn all_fit(marks: &[u8], room: &[usize]) -> bool {
    (0..1u32 << room.len()).all(|set| {
        let positions: usize = (0..room.len())
            .filter(|one| set >> one & 1 == 1)
            .map(|one| room[one])
            .sum();
        let within = |own: &&u8| u32::from(**own) & !set == 0;
        marks.iter().filter(within).count() <= positions
    })
}
