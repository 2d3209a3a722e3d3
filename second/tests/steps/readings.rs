//! The reading of files with step lists against one of the tests' own, and the wrong readings that are caught.

use crate::own::{read_by, Way};
use crate::rounds::files;
use crate::wrong_readings::{caught_in, with_readings, Read};
use second::generate::{
    lawful, steps_boundary, steps_damaged, steps_two_faults, wide_steps_damaged,
    wide_steps_two_faults, Class, STEPS_QUESTIONS,
};
use second::random::Random;
use second::reading::read;
use std::sync::LazyLock;

const STEPS_A: &[u8] = include_bytes!("../../../rounds/steps-a.round");
const KIND_7_POLICY_1: &[u8] = include_bytes!("../../../rounds/kind-7-policy-1.round");

/// Lawful files with step lists.
fn lawful_files() -> Vec<Vec<u8>> {
    let made = |class: Class, count: u64| (0..count).map(move |seed| lawful(class, seed));
    made(Class::StepsTiny, 500)
        .chain(made(Class::StepsSmall, 500))
        .chain(made(Class::StepsMid, 10))
        .chain(made(Class::WideStepsTiny, 300))
        .chain(made(Class::WideStepsSmall, 200))
        .chain(made(Class::WideStepsMany, 20))
        .collect()
}

/// Damaged files with step lists, 100 of each form for each question and 1,000 of each form with two faults.
fn damaged_files() -> Vec<Vec<u8>> {
    let one = STEPS_QUESTIONS.into_iter().flat_map(|number| {
        let narrow = (0..100).map(move |seed| steps_damaged(number, seed).file);
        narrow.chain((0..100).map(move |seed| wide_steps_damaged(number, seed).file))
    });
    let two = (0..1000).map(|seed| steps_two_faults(seed).file);
    let wide = (0..1000).map(|seed| wide_steps_two_faults(seed).file);
    one.chain(two).chain(wide).collect()
}

/// The files at the edges, but for the longest.
fn edge_files() -> Vec<Vec<u8>> {
    let files = steps_boundary().into_iter();
    files
        .filter(|(name, _, _)| !name.contains("longest"))
        .map(|(_, file, _)| file)
        .collect()
}

/// The lawful, the damaged and the edge files.
static FILES: LazyLock<[Vec<Read>; 3]> =
    LazyLock::new(|| with_readings([lawful_files(), damaged_files(), edge_files()]));

#[test]
fn the_reading_is_that_of_the_tests_own() {
    let counts = [0, 1, 2].map(|set| {
        for (file, right) in &FILES[set] {
            assert_eq!(&read_by(Way::Right, file), right);
        }
        FILES[set].len()
    });
    assert_eq!(counts, [1530, 5000, 1782]);
    for (name, file) in files() {
        assert_eq!(read_by(Way::Right, &file), read(&file), "{name}");
    }
}

#[test]
fn files_with_any_byte_changed_are_read_as_the_tests_own_reading_does() {
    let mut random = Random::new(9);
    for seed in 0..3000 {
        let class = random.pick(&[Class::StepsTiny, Class::WideStepsTiny]);
        let mut file = lawful(class, seed);
        for _ in 0..random.from_to(1, 3) {
            let at = random.from_to(0, file.len().min(120) - 1);
            let any = random.bits() as u8;
            file[at] = random.pick(&[0, 1, 2, 5, 7, any]);
        }
        assert_eq!(read(&file), read_by(Way::Right, &file), "{file:?}");
    }
}

/// Asserts in how many lawful, damaged and edge files, and in which worked rounds, a wrong reading gives another round or refusal.
fn caught(way: Way, counts: [usize; 3], rounds: &[&str]) {
    caught_in(&FILES, way, counts, rounds);
}

#[test]
fn wrong_heads_are_caught() {
    caught(Way::Policy3, [0, 41, 2], &["policy-3"]);
}

#[test]
fn wrong_kinds_and_lengths_are_caught() {
    caught(Way::EitherInstitute, [0, 11, 4], &["steps-kind-2"]);
    caught(Way::OneStepMore, [0, 21, 18], &["steps-thirteen"]);
    caught(Way::NoSteps, [0, 26, 36], &["steps-none"]);
    assert_ne!(
        read_by(Way::AlwaysLists, KIND_7_POLICY_1),
        read(KIND_7_POLICY_1)
    );
}

#[test]
fn wrong_sums_are_caught() {
    caught(Way::HandedAtSix, [0, 0, 2], &["steps-positions-1024"]);
    caught(
        Way::SummedAtSeven,
        [0, 178, 4],
        &[
            "steps-reserved-2-of-1-category-5",
            "steps-reserved-of-handed",
        ],
    );
    caught(
        Way::HandedAtSeven,
        [0, 70, 2],
        &["steps-reserved-of-handed"],
    );
}

#[test]
fn wrong_categories_and_receivers_are_caught() {
    caught(
        Way::Category5,
        [0, 105, 12],
        &["steps-category-5", "steps-category-5-to-itself"],
    );
    caught(Way::ToItself, [0, 166, 58], &["steps-to-itself"]);
    caught(
        Way::ToEarlier,
        [0, 228, 240],
        &["steps-to-earlier", "steps-to-itself"],
    );
    caught(Way::BeyondTheList, [0, 75, 186], &["steps-beyond"]);
    for way in [Way::NobodyRefused, Way::BytesTurned] {
        assert_ne!(read_by(way, STEPS_A), read(STEPS_A));
    }
}

#[test]
fn wrong_orders_of_questions_are_caught() {
    caught(
        Way::ReceiversFirst,
        [0, 37, 2],
        &["steps-category-5-to-itself"],
    );
    caught(
        Way::BytesFirst,
        [0, 233, 18],
        &["steps-reserved-2-of-1-category-5"],
    );
    caught(Way::StepByStep, [0, 45, 8], &["steps-category-5-to-itself"]);
}
