//! The use of a set against its definition and against the smallest cut.

use second::horizontal::use_of;
use second::random::Random;

/// The use by its definition: every way of giving each candidate a held type with a position left, or none.
fn by_definition(marks: &[u8], reserved: &mut [usize]) -> usize {
    let Some((&own, rest)) = marks.split_first() else {
        return 0;
    };
    let mut best = by_definition(rest, reserved);
    for held in 0..reserved.len() {
        if own >> held & 1 == 1 && reserved[held] > 0 {
            reserved[held] -= 1;
            best = best.max(1 + by_definition(rest, reserved));
            reserved[held] += 1;
        }
    }
    best
}

/// The use as the smallest cut: over every set of types, their positions and the candidates who hold a type outside.
fn by_cut(marks: &[u8], reserved: &[usize]) -> usize {
    (0..1u32 << reserved.len())
        .map(|cut| {
            let positions: usize = (0..reserved.len())
                .filter(|held| cut >> held & 1 == 1)
                .map(|held| reserved[held])
                .sum();
            let outside = marks
                .iter()
                .filter(|&&own| u32::from(own) & !cut != 0)
                .count();
            positions + outside
        })
        .min()
        .unwrap_or(0)
}

#[test]
fn use_agrees_with_the_definition_and_the_cut_on_all_small_cases() {
    for types in 0..=2 {
        let all = 1u8 << types;
        for people in 0..=4u32 {
            for pick in 0..u32::from(all).pow(people) {
                let marks: Vec<u8> = (0..people)
                    .map(|who| (pick / u32::from(all).pow(who)) as u8 % all)
                    .collect();
                for counts in 0..3usize.pow(types) {
                    let mut reserved: Vec<usize> = (0..types)
                        .map(|held| counts / 3usize.pow(held) % 3)
                        .collect();
                    let defined = by_definition(&marks, &mut reserved);
                    assert_eq!(use_of(&marks, &reserved), defined);
                    assert_eq!(by_cut(&marks, &reserved), defined);
                }
            }
        }
    }
}

#[test]
fn moves_may_go_through_all_eight_types() {
    let marks = [
        0b11, 0b110, 0b1100, 0b11000, 0b110000, 0b1100000, 0b11000000, 1,
    ];
    for missing in 0..8 {
        let mut reserved = vec![1; 8];
        assert_eq!(use_of(&marks, &reserved), 8);
        reserved[missing] = 0;
        assert_eq!(use_of(&marks, &reserved), by_cut(&marks, &reserved));
    }
}

#[test]
fn use_agrees_with_the_definition_on_some_cases_of_four_types() {
    let mut random = Random::new(4);
    for _ in 0..3000 {
        let people = random.from_to(0, 7);
        let marks: Vec<u8> = (0..people).map(|_| random.from_to(0, 15) as u8).collect();
        let mut reserved: Vec<usize> = (0..4).map(|_| random.from_to(0, 2)).collect();
        let defined = by_definition(&marks, &mut reserved);
        assert_eq!(use_of(&marks, &reserved), defined);
        assert_eq!(by_cut(&marks, &reserved), defined);
    }
}

#[test]
fn use_agrees_with_the_cut_on_some_cases_of_eight_types() {
    let mut random = Random::new(8);
    for _ in 0..3000 {
        let people = random.from_to(0, 60);
        let sparse = random.one_in(2);
        let marks: Vec<u8> = (0..people)
            .map(|_| {
                let all = random.bits();
                (if sparse {
                    all & all >> 8 & all >> 16
                } else {
                    all
                }) as u8
            })
            .collect();
        let reserved: Vec<usize> = (0..8).map(|_| random.from_to(0, 9)).collect();
        assert_eq!(use_of(&marks, &reserved), by_cut(&marks, &reserved));
    }
}
