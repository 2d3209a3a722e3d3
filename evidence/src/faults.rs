//! Files with lists of steps that have two or three faults, most of them at one institute.

use second::form::Form;
use second::generate::{lawful_round, Class};
use second::random::Random;
use second::reading::Round;
use second::steps::{step_bytes, ListedStep, MOST_STEPS};
use second::writing::records;

/// A round of a form with lists of steps and at least one type.
fn some_round(random: &mut Random, form: Form) -> Round {
    let classes = match form {
        Form::Narrow => [Class::StepsTiny, Class::StepsSmall, Class::StepsSmall],
        Form::Wide => [
            Class::WideStepsTiny,
            Class::WideStepsSmall,
            Class::WideStepsMany,
        ],
    };
    loop {
        let round = lawful_round(random.pick(&classes), random.bits());
        if round.types > 0 {
            return round;
        }
    }
}

/// The first institute, the last one, or any.
fn some_place(random: &mut Random, round: &Round) -> usize {
    let last = round.institutes.len() - 1;
    let any = random.from_to(0, last);
    random.pick(&[0, last, any])
}

/// The file of a form for a seed.
pub fn several(form: Form, seed: u64) -> Vec<u8> {
    let mut random = Random::new(seed);
    let mut round = some_round(&mut random, form);
    let mut place = some_place(&mut random, &round);
    for _ in 0..random.from_to(2, 3) {
        damage(&mut random, &mut round.institutes[place].steps);
        if random.one_in(4) {
            place = some_place(&mut random, &round);
        }
    }
    let mut records = records(&round);
    if random.one_in(8) {
        let width = step_bytes(round.types);
        damage_lead(&mut random, width, &mut records[1 + place]);
    }
    records.concat()
}

/// Makes one fault in a list: too many positions, too many reserved ones, a category, a receiver, or the number of steps.
fn damage(random: &mut Random, steps: &mut Vec<ListedStep>) {
    if steps.is_empty() {
        return;
    }
    let place = random.from_to(0, steps.len() - 1);
    match random.from_to(0, 10) {
        0 => {
            let others: usize = steps.iter().map(|step| step.positions).sum();
            let more = 1_025_usize.saturating_sub(others - steps[place].positions);
            steps[place].positions = random.pick(&[more, 1_025, 65_535]);
        }
        1 | 2 => {
            let held = random.from_to(0, steps[place].reserved.len() - 1);
            let more = (steps[place].positions + 1).min(65_535);
            steps[place].reserved[held] = random.pick(&[more, 65_535]);
        }
        3..=5 => {
            let any = random.from_to(5, 255) as u8;
            steps[place].category = random.pick(&[5, 6, any]);
        }
        6..=8 => {
            let earlier = random.from_to(1, place + 1);
            let beyond = random.from_to(steps.len() + 1, 255);
            let wrong = [place + 1, earlier, steps.len() + 1, beyond];
            steps[place].receiver = random.pick(&wrong) as u8;
        }
        9 if steps.len() > 1 => {
            // The step that gets the vacancies of another is taken off the list.
            let last = steps.len();
            steps[place.min(last - 2)].receiver = last as u8;
            steps.pop();
        }
        _ => {
            let count = random.pick(&[0, MOST_STEPS + 1, MOST_STEPS + 2]);
            let all = steps.iter().cloned().cycle();
            *steps = all.take(count).collect();
        }
    }
}

/// Makes the kind that of an institute without a list, or the length that of a step more or less.
fn damage_lead(random: &mut Random, width: usize, record: &mut [u8]) {
    let length = record.len() - 4;
    if random.one_in(2) {
        record[2] = 2;
    } else {
        let other = random.pick(&[length + width, length.max(width) - width]);
        record[..2].copy_from_slice(&(other as u16).to_le_bytes());
    }
}
