//! Generated files give what they are made for.

use second::choice::{Document, Rule};
use second::generate::{
    boundary, damaged, lawful, lawful_round, steps_boundary, steps_damaged, steps_two_faults,
    two_faults, wide_boundary, wide_damaged, wide_steps_damaged, wide_steps_two_faults,
    wide_two_faults, Class, Damaged, Expected, STEPS_QUESTIONS,
};
use second::offers::Process;
use second::reading::{
    read, Refusal, Round, LONGEST, LONGEST_WIDE, LONGEST_WIDE_WITHOUT_STEPS, LONGEST_WITHOUT_STEPS,
};
use second::writing::write;
use second::{call, call_on, Form, Outcome};

/// Asserts that a damaged file gives the refusal it is made for.
fn assert_refused(made: &Damaged, seed: u64) {
    let due = Refusal {
        number: made.number,
        offset: made.offset,
    };
    assert_eq!(read(&made.file), Err(due), "seed {seed}");
}

/// How many offers there are in all and how many of them take a seat from somebody held.
fn offers_and_displaced(round: &Round) -> (usize, usize) {
    let mut process = Process::new(round, &Document);
    let mut offers = 0;
    let mut displaced = 0;
    while let Some(&candidate) = process.ready().first() {
        let institute = round.candidates[candidate].row[process.tried[candidate]].institute;
        let before: Vec<usize> = process.held[institute]
            .iter()
            .map(|taken| taken.offer.candidate)
            .collect();
        process.turn(candidate);
        offers += 1;
        let held = &process.held[institute];
        if before
            .iter()
            .any(|&earlier| held.iter().all(|taken| taken.offer.candidate != earlier))
        {
            displaced += 1;
        }
    }
    (offers, displaced)
}

#[test]
fn each_refusal_is_reached_by_its_class_at_its_byte() {
    for number in 1..=13 {
        for seed in 0..300 {
            let made = damaged(number, seed);
            assert_eq!(made.number, number);
            assert_refused(&made, seed);
        }
    }
}

#[test]
fn each_refusal_of_a_wide_file_is_reached_by_its_class_at_its_byte() {
    let mut told_narrow = 0;
    for number in 1..=13 {
        for seed in 0..300 {
            let made = wide_damaged(number, seed);
            told_narrow += u64::from((number, made.number) == (2, 5));
            assert!(made.number == number || (number, made.number) == (2, 5));
            assert_refused(&made, seed);
        }
    }
    assert!(told_narrow < 5, "{told_narrow}");
}

#[test]
fn each_refusal_of_a_file_with_step_lists_is_reached_by_its_class_at_its_byte() {
    let mut told_narrow = 0;
    for number in STEPS_QUESTIONS {
        for seed in 0..300 {
            let made = steps_damaged(number, seed);
            assert_eq!(made.number, number);
            assert_refused(&made, seed);
            let made = wide_steps_damaged(number, seed);
            told_narrow += u64::from((number, made.number) == (2, 5));
            assert!(made.number == number || (number, made.number) == (2, 5));
            assert_refused(&made, seed);
        }
    }
    assert!(told_narrow < 5, "{told_narrow}");
}

#[test]
fn refusal_14_is_reached_by_each_area_too_small() {
    let classes = [
        (Class::Small, 3, 12),
        (Class::WideSmall, 5, 12),
        (Class::WideMany, 5, 12),
        (Class::StepsSmall, 3, 24),
        (Class::WideStepsSmall, 5, 24),
        (Class::WideStepsMany, 5, 24),
    ];
    for (seed, (class, each, own)) in (0..300).flat_map(|seed| classes.map(|class| (seed, class))) {
        let file = lawful(class, seed);
        let round = lawful_round(class, seed);
        let (n, m) = (round.candidates.len(), round.institutes.len());
        let (answer, work) = (each * n + own * m, 8 * n);
        let refused = Outcome::Refused {
            number: 14,
            offset: 0,
        };
        assert_eq!(call(&file, answer - 1, work), refused);
        assert_eq!(call(&file, (each - 1) * n + own * m, work), refused);
        assert_eq!(call(&file, answer, work - 1), refused);
        assert!(matches!(
            call(&file, answer, work),
            Outcome::Allotted { .. }
        ));
    }
}

#[test]
fn the_first_of_two_faults_decides() {
    for seed in 0..3000 {
        assert_refused(&two_faults(seed), seed);
        assert_refused(&wide_two_faults(seed), seed);
        assert_refused(&steps_two_faults(seed), seed);
        assert_refused(&wide_steps_two_faults(seed), seed);
    }
}

#[test]
fn boundary_files_give_what_they_are_made_for() {
    let files = [boundary(), wide_boundary(), steps_boundary()].concat();
    for (name, file, expected) in files {
        match expected {
            Expected::Passes => assert!(read(&file).is_ok(), "{name}"),
            Expected::Refused { number, offset } => {
                assert_eq!(read(&file), Err(Refusal { number, offset }), "{name}")
            }
        }
    }
}

#[test]
fn lawful_files_are_lawful_and_read_back() {
    for (class, seeds) in [
        (Class::Tiny, 2000),
        (Class::Small, 1000),
        (Class::Mid, 50),
        (Class::Maximal, 3),
        (Class::Contested, 3),
        (Class::Crowded, 5),
        (Class::WideTiny, 2000),
        (Class::WideSmall, 1000),
        (Class::WideMid, 50),
        (Class::WideMany, 200),
        (Class::WideState, 20),
        (Class::WideMaximal, 1),
        (Class::WideContested, 1),
        (Class::StepsTiny, 2000),
        (Class::StepsSmall, 1000),
        (Class::StepsMid, 50),
        (Class::StepsMaximal, 3),
        (Class::StepsContested, 3),
        (Class::StepsCrowded, 5),
        (Class::WideStepsTiny, 2000),
        (Class::WideStepsSmall, 1000),
        (Class::WideStepsMid, 50),
        (Class::WideStepsMany, 200),
        (Class::WideStepsMaximal, 1),
    ] {
        for seed in 0..seeds {
            let round = lawful_round(class, seed);
            assert_eq!(round.form, class.form());
            assert_eq!(round.policy == 2, class.has_step_lists());
            assert_eq!(read(&write(&round)), Ok(round));
        }
    }
}

#[test]
fn maximal_files_are_the_longest_lawful_ones() {
    for (class, longest) in [
        (Class::Maximal, LONGEST_WITHOUT_STEPS),
        (Class::Contested, LONGEST_WITHOUT_STEPS),
        (Class::WideMaximal, LONGEST_WIDE_WITHOUT_STEPS),
        (Class::WideContested, LONGEST_WIDE_WITHOUT_STEPS),
        (Class::StepsMaximal, LONGEST),
        (Class::StepsContested, LONGEST),
        (Class::WideStepsMaximal, LONGEST_WIDE),
    ] {
        assert_eq!(lawful(class, 7).len(), longest, "{}", class.name());
    }
}

#[test]
fn contested_rounds_have_thousands_of_offers_and_displacements() {
    for seed in 0..3 {
        let round = lawful_round(Class::Contested, seed);
        let (offers, displaced) = offers_and_displaced(&round);
        assert!(offers > 5000, "{offers}");
        assert!(displaced > 2000, "{displaced}");
    }
}

#[test]
fn contested_wide_rounds_have_thousands_of_offers_and_displacements() {
    let round = lawful_round(Class::WideContested, 0);
    let (offers, displaced) = offers_and_displaced(&round);
    assert!(offers > 5000, "{offers}");
    assert!(displaced > 2000, "{displaced}");
}

#[test]
fn wide_rounds_are_contested_at_institutes_256_apart() {
    let (mut above, mut apart, mut lost) = (0, 0, 0);
    for seed in 0..300 {
        let round = lawful_round(Class::WideMany, seed);
        let rows = round.candidates.iter().map(|candidate| &candidate.row);
        let named: Vec<usize> = rows.flatten().map(|entry| entry.institute).collect();
        above += u64::from(named.iter().any(|&one| one >= 255));
        apart += u64::from(named.iter().any(|&one| named.contains(&(one + 256))));
        lost += u64::from(offers_and_displaced(&round).1 > 0);
    }
    assert!(above > 250, "{above}");
    assert!(apart > 200, "{apart}");
    assert!(lost > 30, "{lost}");
}

#[test]
fn step_lists_are_of_every_kind() {
    let mut counts = [0; 7];
    for round in (0..400).map(|seed| lawful_round(Class::StepsSmall, seed)) {
        for own in &round.institutes {
            let steps = &own.steps;
            let hands_to = |number: usize| {
                let receivers = steps
                    .iter()
                    .filter(|step| usize::from(step.receiver) == number);
                receivers.count()
            };
            let through = |place: usize| {
                let next = usize::from(steps[place].receiver);
                next > 0 && steps[next - 1].receiver > 0
            };
            let again = |place: usize| {
                let earlier = &steps[..place];
                earlier
                    .iter()
                    .any(|step| step.category == steps[place].category)
            };
            let all = 0..steps.len();
            let so = [
                steps.len() == 1,
                steps.len() == 12,
                all.clone().any(through),
                (1..=steps.len()).any(|number| hands_to(number) > 1),
                all.clone().any(again),
                steps.iter().any(|step| step.positions == 0),
                all.clone()
                    .any(|place| steps[place].positions == 0 && hands_to(place + 1) > 0),
            ];
            for (count, so) in counts.iter_mut().zip(so) {
                *count += usize::from(so);
            }
        }
    }
    assert!(counts.iter().all(|&count| count > 200), "{counts:?}");
}

#[test]
fn rounds_with_step_lists_are_contested() {
    for seed in 0..3 {
        let round = lawful_round(Class::StepsContested, seed);
        let (offers, displaced) = offers_and_displaced(&round);
        assert!(offers > 4000, "{offers}");
        assert!(displaced > 1000, "{displaced}");
    }
}

#[test]
fn files_of_many_institutes_are_not_too_long_for_the_program() {
    assert!((0..300).all(|seed| lawful(Class::WideMany, seed).len() <= 65_536));
    assert!((0..300).all(|seed| lawful(Class::WideStepsMany, seed).len() <= 65_536));
    assert!((0..50).all(|seed| lawful(Class::WideMid, seed).len() <= 65_536));
}

#[test]
fn the_bytes_up_to_one_more_than_the_longest_decide() {
    for (class, longest) in [
        (Class::Maximal, LONGEST_WITHOUT_STEPS),
        (Class::WideMaximal, LONGEST_WIDE_WITHOUT_STEPS),
        (Class::StepsMaximal, LONGEST),
        (Class::WideStepsMaximal, LONGEST_WIDE),
    ] {
        let mut file = lawful(class, 1);
        file.extend(vec![4; 10_000]);
        assert_eq!(read(&file), read(&file[..longest + 1]));
    }
}

/// A number in which any change of the files shows.
fn digest(files: impl Iterator<Item = Vec<u8>>) -> u64 {
    let mut number: u64 = 0xcbf2_9ce4_8422_2325;
    for byte in files.flatten() {
        number = (number ^ u64::from(byte)).wrapping_mul(0x100_0000_01b3);
    }
    number
}

#[test]
fn narrow_files_are_the_same_for_the_same_seed() {
    let made = |class: Class, seeds: u64| digest((0..seeds).map(move |seed| lawful(class, seed)));
    let digests = [
        made(Class::Tiny, 100),
        made(Class::Small, 100),
        made(Class::Mid, 10),
        made(Class::Maximal, 2),
        made(Class::Contested, 2),
        made(Class::Crowded, 2),
        digest((0..1300).map(|seed| damaged((seed % 13) as u8 + 1, seed).file)),
        digest((0..1000).map(|seed| two_faults(seed).file)),
        digest(boundary().into_iter().map(|(_, file, _)| file)),
    ];
    let due = [
        8_814_154_516_140_452_013,
        9_700_811_924_532_064_459,
        12_069_310_563_641_351_842,
        11_967_666_898_973_958_572,
        2_992_941_131_480_379_609,
        10_399_848_015_002_328_829,
        8_081_933_901_668_218_381,
        18_337_283_116_005_150_244,
        16_897_060_029_321_468_606,
    ];
    assert_eq!(digests, due);
}

#[test]
fn areas_hold_what_the_document_says_for_any_file() {
    for seed in 0..2000 {
        let file = match seed % 10 {
            0 => lawful(Class::Small, seed),
            1 => damaged((seed % 13) as u8 + 1, seed).file,
            2 => lawful(Class::Tiny, seed),
            3 => lawful(Class::WideSmall, seed),
            4 => wide_damaged((seed % 13) as u8 + 1, seed).file,
            5 => lawful(Class::StepsSmall, seed),
            6 => lawful(Class::WideStepsTiny, seed),
            7 => steps_damaged(STEPS_QUESTIONS[(seed / 10 % 15) as usize], seed).file,
            8 => wide_steps_damaged(STEPS_QUESTIONS[(seed / 10 % 15) as usize], seed).file,
            _ => lawful(Class::WideTiny, seed),
        };
        let mut answer = vec![0xa5; 1100];
        let mut work = vec![0x5a; 200];
        match call_on(&file, &mut answer, &mut work) {
            Outcome::Refused { .. } => {
                assert_eq!(answer, vec![0xa5; 1100]);
                assert_eq!(work, vec![0x5a; 200]);
            }
            Outcome::Allotted {
                answer: bytes,
                offers,
            } => {
                let round = read(&file).expect("an allotted file is lawful");
                let (n, m) = (round.candidates.len(), round.institutes.len());
                let each = if round.form == Form::Wide { 5 } else { 3 };
                let own = if round.policy == 2 { 24 } else { 12 };
                assert_eq!(bytes.len(), each * n + own * m);
                assert_eq!(answer[..bytes.len()], bytes);
                assert!(answer[bytes.len()..].iter().all(|&byte| byte == 0xa5));
                assert!(work[..8 * n].iter().all(|&byte| byte == 0));
                assert!(work[8 * n..].iter().all(|&byte| byte == 0x5a));
                assert!(offers <= round.candidates.iter().map(|one| one.row.len()).sum());
            }
        }
    }
}

#[test]
fn the_order_of_the_offers_in_a_set_does_not_matter() {
    for seed in 0..300 {
        let round = lawful_round(Class::Small, seed);
        let mut process = Process::new(&round, &Document);
        while let Some(&candidate) = process.ready().first() {
            process.turn(candidate);
        }
        for institute in 0..round.institutes.len() {
            let mut offers = process.made[institute].clone();
            offers.reverse();
            let chosen = Document.choose(&round, institute, &offers);
            assert_eq!(chosen, process.held[institute]);
        }
    }
}
