//! Lawful rounds of several sizes.

use super::step_list::{some_reserved, some_steps};
use crate::form::Form;
use crate::random::Random;
use crate::reading::{Candidate, Entry, Institute, Round, OPEN};
use crate::steps::{LISTED, MOST_STEPS};
use crate::writing::write;

/// The sizes of lawful rounds.
#[derive(Clone, Copy, Debug, PartialEq, Eq)]
pub enum Class {
    /// 2 to 5 candidates, 1 to 3 institutes, 0 to 3 types, few positions.
    Tiny,
    /// Up to 24 candidates and 6 institutes.
    Small,
    /// 60 to 200 candidates and 6 to 16 institutes.
    Mid,
    /// 512 candidates, 32 institutes, 16 entries, 8 types, whole merit lists: the longest files.
    Maximal,
    /// As maximal, with like rows and merit against the order of going, so that held candidates are displaced in long chains.
    Contested,
    /// 512 candidates at 1 or 2 institutes with hundreds of positions, most of them reserved for 8 types.
    Crowded,
    /// Wide, 2 to 5 candidates and 1 to 40 institutes, 3 of them named in the rows.
    WideTiny,
    /// Wide, up to 24 candidates and 60 institutes, 6 of them named in the rows.
    WideSmall,
    /// Wide, 60 to 200 candidates and 33 to 60 institutes.
    WideMid,
    /// Wide, 2 to 8 candidates and 257 to 1,000 institutes, 4 of them named in the rows; no file above 65,536 bytes.
    WideMany,
    /// Wide, 60 to 200 candidates and 257 to 1,000 institutes, 24 of them named in the rows.
    WideState,
    /// Wide, 512 candidates, 1,000 institutes, 64 of them named in the rows, 16 entries, 8 types, whole merit lists: the longest files.
    WideMaximal,
    /// As wide and maximal, with like rows of 32 institutes and merit against the order of going.
    WideContested,
    /// As tiny, with step lists.
    StepsTiny,
    /// As small, with step lists.
    StepsSmall,
    /// As mid, with step lists.
    StepsMid,
    /// As maximal, with twelve steps at each institute: the longest files.
    StepsMaximal,
    /// As contested, with twelve steps at each institute.
    StepsContested,
    /// As crowded, with step lists.
    StepsCrowded,
    /// As wide and tiny, with step lists.
    WideStepsTiny,
    /// As wide and small, with step lists.
    WideStepsSmall,
    /// As wide and mid, with step lists.
    WideStepsMid,
    /// As wide with many institutes, up to 480 of them, with step lists; no file above 65,536 bytes.
    WideStepsMany,
    /// As wide and maximal, with twelve steps at each institute: the longest files.
    WideStepsMaximal,
}

impl Class {
    /// All classes.
    pub const ALL: [Class; 24] = [
        Class::Tiny,
        Class::Small,
        Class::Mid,
        Class::Maximal,
        Class::Contested,
        Class::Crowded,
        Class::WideTiny,
        Class::WideSmall,
        Class::WideMid,
        Class::WideMany,
        Class::WideState,
        Class::WideMaximal,
        Class::WideContested,
        Class::StepsTiny,
        Class::StepsSmall,
        Class::StepsMid,
        Class::StepsMaximal,
        Class::StepsContested,
        Class::StepsCrowded,
        Class::WideStepsTiny,
        Class::WideStepsSmall,
        Class::WideStepsMid,
        Class::WideStepsMany,
        Class::WideStepsMaximal,
    ];

    /// The form of the rounds of the class.
    pub fn form(self) -> Form {
        shape(self).form
    }

    /// Whether the rounds of the class have step lists.
    pub fn has_step_lists(self) -> bool {
        shape(self).steps.1 > 0
    }

    /// The name of the class.
    pub fn name(self) -> &'static str {
        match self {
            Class::Tiny => "tiny",
            Class::Small => "small",
            Class::Mid => "mid",
            Class::Maximal => "maximal",
            Class::Contested => "contested",
            Class::Crowded => "crowded",
            Class::WideTiny => "wide-tiny",
            Class::WideSmall => "wide-small",
            Class::WideMid => "wide-mid",
            Class::WideMany => "wide-many",
            Class::WideState => "wide-state",
            Class::WideMaximal => "wide-maximal",
            Class::WideContested => "wide-contested",
            Class::StepsTiny => "steps-tiny",
            Class::StepsSmall => "steps-small",
            Class::StepsMid => "steps-mid",
            Class::StepsMaximal => "steps-maximal",
            Class::StepsContested => "steps-contested",
            Class::StepsCrowded => "steps-crowded",
            Class::WideStepsTiny => "wide-steps-tiny",
            Class::WideStepsSmall => "wide-steps-small",
            Class::WideStepsMid => "wide-steps-mid",
            Class::WideStepsMany => "wide-steps-many",
            Class::WideStepsMaximal => "wide-steps-maximal",
        }
    }
}

/// From the least to the most of something.
pub(super) type Span = (usize, usize);

/// What a class fixes about its rounds.
struct Shape {
    form: Form,
    candidates: Span,
    institutes: Span,
    types: Span,
    /// Positions of one category, or of one step of a list, at one institute.
    positions: Span,
    /// Steps of a list; 0 where the rounds have none.
    steps: Span,
    /// How many institutes the rows of a round name, where there are as many; 0 for all.
    named: usize,
    /// Entries of a row, where as many different ones are lawful.
    entries: Span,
    /// One in so many candidates is absent from a merit list; 0 for none.
    absent: usize,
    /// Whether rows are alike and merit goes against the order of going.
    against: bool,
}

/// The shape of a class.
fn shape(class: Class) -> Shape {
    match class {
        Class::Tiny => Shape {
            form: Form::Narrow,
            candidates: (2, 5),
            institutes: (1, 3),
            types: (0, 3),
            positions: (0, 2),
            steps: (0, 0),
            named: 0,
            entries: (0, 6),
            absent: 10,
            against: false,
        },
        Class::Small => Shape {
            form: Form::Narrow,
            candidates: (1, 24),
            institutes: (1, 6),
            types: (0, 8),
            positions: (0, 3),
            steps: (0, 0),
            named: 0,
            entries: (0, 12),
            absent: 8,
            against: false,
        },
        Class::Mid => Shape {
            form: Form::Narrow,
            candidates: (60, 200),
            institutes: (6, 16),
            types: (0, 8),
            positions: (0, 6),
            steps: (0, 0),
            named: 0,
            entries: (2, 16),
            absent: 12,
            against: false,
        },
        Class::Maximal => Shape {
            form: Form::Narrow,
            candidates: (512, 512),
            institutes: (32, 32),
            types: (8, 8),
            positions: (0, 6),
            steps: (0, 0),
            named: 0,
            entries: (16, 16),
            absent: 0,
            against: false,
        },
        Class::Contested => Shape {
            form: Form::Narrow,
            candidates: (512, 512),
            institutes: (32, 32),
            types: (8, 8),
            positions: (1, 2),
            steps: (0, 0),
            named: 0,
            entries: (16, 16),
            absent: 0,
            against: true,
        },
        Class::Crowded => Shape {
            form: Form::Narrow,
            candidates: (512, 512),
            institutes: (1, 2),
            types: (8, 8),
            positions: (20, 200),
            steps: (0, 0),
            named: 0,
            entries: (1, 4),
            absent: 50,
            against: false,
        },
        Class::WideTiny => Shape {
            form: Form::Wide,
            institutes: (1, 40),
            named: 3,
            ..shape(Class::Tiny)
        },
        Class::WideSmall => Shape {
            form: Form::Wide,
            institutes: (1, 60),
            named: 6,
            ..shape(Class::Small)
        },
        Class::WideMid => Shape {
            form: Form::Wide,
            institutes: (33, 60),
            positions: (0, 1),
            ..shape(Class::Mid)
        },
        Class::WideMany => Shape {
            form: Form::Wide,
            candidates: (2, 8),
            institutes: (257, 1000),
            types: (0, 2),
            positions: (0, 1),
            named: 4,
            ..shape(Class::Small)
        },
        Class::WideState => Shape {
            form: Form::Wide,
            institutes: (257, 1000),
            positions: (0, 2),
            named: 24,
            ..shape(Class::Mid)
        },
        Class::WideMaximal => Shape {
            form: Form::Wide,
            institutes: (1000, 1000),
            positions: (0, 2),
            named: 64,
            ..shape(Class::Maximal)
        },
        Class::WideContested => Shape {
            form: Form::Wide,
            institutes: (1000, 1000),
            named: 32,
            ..shape(Class::Contested)
        },
        Class::StepsTiny => with_lists(1, Class::Tiny),
        Class::StepsSmall => with_lists(1, Class::Small),
        Class::StepsMid => with_lists(1, Class::Mid),
        Class::StepsMaximal => with_lists(MOST_STEPS, Class::Maximal),
        Class::StepsContested => with_lists(MOST_STEPS, Class::Contested),
        Class::StepsCrowded => Shape {
            positions: (20, 85),
            ..with_lists(1, Class::Crowded)
        },
        Class::WideStepsTiny => with_lists(1, Class::WideTiny),
        Class::WideStepsSmall => with_lists(1, Class::WideSmall),
        Class::WideStepsMid => with_lists(1, Class::WideMid),
        Class::WideStepsMany => Shape {
            institutes: (257, 480),
            ..with_lists(1, Class::WideMany)
        },
        Class::WideStepsMaximal => with_lists(MOST_STEPS, Class::WideMaximal),
    }
}

/// The shape of a class with lists of at least so many steps.
fn with_lists(least: usize, class: Class) -> Shape {
    Shape {
        steps: (least, MOST_STEPS),
        ..shape(class)
    }
}

/// The file of a lawful round of a class.
pub fn lawful(class: Class, seed: u64) -> Vec<u8> {
    write(&lawful_round(class, seed))
}

/// A lawful round of a class.
pub fn lawful_round(class: Class, seed: u64) -> Round {
    let mut random = Random::new(seed);
    let shape = shape(class);
    let mut span = |(low, high): Span| random.from_to(low, high);
    let n = span(shape.candidates);
    let m = span(shape.institutes);
    let types = span(shape.types);
    let policy = match (span((0, 1)), shape.steps) {
        (drawn, (0, 0)) => drawn as u16,
        _ => LISTED,
    };
    let thin = span((0, 3));
    let named = match shape.named {
        0 => (0..m).collect(),
        count => some_named(&mut random, m, count),
    };
    Round {
        form: shape.form,
        types,
        policy,
        institutes: (0..m)
            .map(|_| some_institute(&mut random, types, &shape))
            .collect(),
        candidates: (0..n)
            .map(|_| some_candidate(&mut random, &named, types, thin, &shape))
            .collect(),
        merit: (0..m).map(|_| some_merit(&mut random, n, &shape)).collect(),
    }
}

/// So many institutes of m, where there are as many: each drawn one is followed by the one 256 numbers on or back, where there is one.
fn some_named(random: &mut Random, m: usize, count: usize) -> Vec<usize> {
    let mut named: Vec<usize> = Vec::new();
    while named.len() < count.min(m) {
        let drawn = random.from_to(0, m - 1);
        let like = [drawn, drawn + 256, drawn.wrapping_sub(256)];
        for institute in like.into_iter().filter(|&one| one < m) {
            if !named.contains(&institute) {
                named.push(institute);
            }
        }
    }
    named.truncate(count);
    named
}

/// An institute with positions in the span, a random part of them reserved, or with a step list.
fn some_institute(random: &mut Random, types: usize, shape: &Shape) -> Institute {
    let mut institute = Institute::default();
    if shape.steps.1 > 0 {
        institute.steps = some_steps(random, types, shape.steps, shape.positions);
        return institute;
    }
    for category in 0..5 {
        let positions = random.from_to(shape.positions.0, shape.positions.1);
        institute.positions[category] = positions;
        institute.reserved[category] = some_reserved(random, types, positions);
    }
    if institute.positions[0] == 0 && !random.one_in(4) {
        institute.positions[0] = 1;
    }
    institute
}

/// A candidate, OBC more often than another category, with fewer marks the thinner they are, and with a row of these institutes that may list open and own category of one.
fn some_candidate(
    random: &mut Random,
    named: &[usize],
    types: usize,
    thin: usize,
    shape: &Shape,
) -> Candidate {
    let code = random.pick(&[0, 0, 1, 2, 3, 3, 3, 4]);
    let mut marks = random.from_to(0, (1 << types) - 1) as u8;
    for _ in 0..thin {
        marks &= random.bits() as u8;
    }
    let mut entries: Vec<Entry> = Vec::new();
    for &institute in named {
        for category in if code == OPEN {
            vec![OPEN]
        } else {
            vec![OPEN, code]
        } {
            entries.push(Entry {
                institute,
                category,
            });
        }
    }
    if shape.against {
        nearly_in_order(random, &mut entries);
    } else {
        random.shuffle(&mut entries);
    }
    let most = shape.entries.1.min(entries.len());
    let least = shape.entries.0.min(most);
    entries.truncate(random.from_to(least, most));
    Candidate {
        code,
        marks,
        row: entries,
    }
}

/// A merit list, now and then without a candidate.
fn some_merit(random: &mut Random, n: usize, shape: &Shape) -> Vec<usize> {
    let mut list: Vec<usize> = (0..n).rev().collect();
    if shape.against {
        nearly_in_order(random, &mut list);
    } else {
        random.shuffle(&mut list);
    }
    list.retain(|_| shape.absent == 0 || !random.one_in(shape.absent));
    list
}

/// Swaps some values of a list with near ones.
fn nearly_in_order<T>(random: &mut Random, list: &mut [T]) {
    for place in 0..list.len() {
        let other = (place + random.from_to(0, 3)).min(list.len() - 1);
        list.swap(place, other);
    }
}
