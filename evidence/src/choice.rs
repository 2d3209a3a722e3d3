//! One institute's choice by the unit against the second program's, on made cases.

use crate::area::Area;
use crate::difference::{area_text, hex, Difference};
use crate::probe;
use crate::some_steps::{some_count, some_list};
use crate::tally::Came;
use second::choice::{Document, Offer, Rule};
use second::form::Form;
use second::random::Random;
use second::reading::{read, Candidate, Round, OBC, OPEN};
use second::writing::{candidate, head, merit, record, step_list, two_bytes};

/// Sets of offers, by the bits of their codes, that the places of a case draw from: at most one offer each, then also the open
/// entry with that of the own category, then with bits that stand for no category.
const OFFERS: [&[u8]; 10] = [
    &[0, 1, 1, 2, 4, 8, 8, 16],
    &[1],
    &[1, 8],
    &[1, 1, 1, 8],
    &[0, 1, 2, 4, 8, 16],
    &[9],
    &[1, 8, 9],
    &[3, 5, 9, 17],
    &[0, 1, 1, 2, 3, 4, 5, 8, 9, 9, 16, 17],
    &[32, 33, 72, 137, 228],
];

/// The body of an institute's record, with at each merit place the marks and the offers of the candidate there.
pub struct Case {
    pub body: Vec<u8>,
    pub types: usize,
    pub policy: usize,
    pub marks: Vec<u8>,
    pub offers: Vec<u8>,
}

/// What is due at each merit place: the step, 0 for none, and the type that the step uses for the candidate, 0 for none.
pub struct Due {
    pub steps: Vec<u8>,
    pub types: Vec<u8>,
}

impl Case {
    /// A made case of so many places.
    pub fn made(random: &mut Random, places: usize) -> Self {
        let types = random.from_to(0, 8);
        let policy = random.from_to(0, 1);
        let most = random
            .pick(&[1, 3, places / 8 + 1, places / 4 + 1, 204])
            .min(204);
        let body = body(&some_institute(random, types, most));
        Case::with_body(random, body, types, policy, places)
    }

    /// A made case of so many places whose institute has a list of steps.
    pub fn of_steps(random: &mut Random, places: usize) -> Self {
        let types = random.from_to(0, 8);
        let most = random.pick(&[1, 5, places / 2 + 1, places + 1, 2 * places + 1]);
        let (count, positions) = (some_count(random), random.from_to(0, most.min(1_024)));
        let body = step_list(&some_list(random, types, count, positions)).split_off(4);
        Case::with_body(random, body, types, 2, places)
    }

    /// A case with this body and some marks and offers at so many places.
    fn with_body(
        random: &mut Random,
        body: Vec<u8>,
        types: usize,
        policy: usize,
        places: usize,
    ) -> Self {
        let thin = random.from_to(0, 2);
        let near = random.one_in(3);
        let marks = (0..places)
            .map(|_| some_marks(random, types, thin, near))
            .collect();
        let sets = random.pick(&OFFERS);
        let offers = (0..places).map(|_| random.pick(sets)).collect();
        Case {
            body,
            types,
            policy,
            marks,
            offers,
        }
    }

    /// A made case of so many places in which everybody offers open, OBC or both, most hold several types, and every position is reserved.
    pub fn of_types(random: &mut Random, places: usize) -> Self {
        let types = random.from_to(3, 8);
        let mut institute = some_institute(random, types, 0);
        for category in [usize::from(OPEN), usize::from(OBC)] {
            let positions = random.from_to(1, places + 1);
            institute[category][0] = positions;
            for _ in 0..positions {
                institute[category][random.from_to(1, types)] += 1;
            }
        }
        let thin = random.from_to(0, 1);
        let marks = (0..places)
            .map(|_| some_marks(random, types, thin, false))
            .collect();
        let offers = (0..places).map(|_| random.pick(&[1, 1, 8, 9])).collect();
        Case {
            body: body(&institute),
            types,
            policy: random.from_to(0, 1),
            marks,
            offers,
        }
    }

    /// The same case with marks above type L, which stand for no type.
    pub fn with_stray_marks(mut self, random: &mut Random) -> Self {
        for own in &mut self.marks {
            let stray = random.bits() & random.bits() & 255;
            *own |= ((stray >> self.types) << self.types) as u8;
        }
        self
    }

    /// The round with this one institute, its merit list in file order; where there is no place, one candidate who is absent from it.
    fn round(&self) -> Round {
        let places = self.marks.len();
        let nobody = Candidate {
            code: OPEN,
            marks: 0,
            row: Vec::new(),
        };
        let n = places.max(1);
        let kind = if self.policy == 2 { 7 } else { 2 };
        let file = [
            head(Form::Narrow, n, 1, self.types, self.policy),
            record(kind, &self.body),
            candidate(Form::Narrow, &nobody).repeat(n),
            merit(&(0..places).collect::<Vec<_>>()),
        ];
        let mut round = read(&file.concat()).expect("a lawful round");
        for (one, &marks) in round.candidates.iter_mut().zip(&self.marks) {
            one.marks = marks;
        }
        round
    }

    /// What the second program chooses.
    pub fn due(&self) -> Due {
        let round = self.round();
        let offers: Vec<Offer> = (0..self.offers.len())
            .flat_map(|candidate| {
                (0..5).map(move |category| Offer {
                    candidate,
                    category,
                })
            })
            .filter(|offer| self.offers[offer.candidate] >> offer.category & 1 == 1)
            .collect();
        let mut due = Due {
            steps: vec![0; self.offers.len()],
            types: vec![0; self.offers.len()],
        };
        let taken = Document.choose(&round, 0, &offers);
        let types = Document.types(&round, 0, &taken);
        for (one, own) in taken.iter().zip(types) {
            due.steps[one.offer.candidate] = one.step;
            due.types[one.offer.candidate] = own;
        }
        due
    }
}

/// For each category code the positions of an institute, at most so many, and behind them those reserved for each type, a random part of them.
fn some_institute(random: &mut Random, types: usize, most: usize) -> Vec<Vec<usize>> {
    let mut institute = vec![vec![0; 1 + types]; 5];
    for numbers in &mut institute {
        let positions = random.from_to(0, most);
        numbers[0] = positions;
        let kinds = random.from_to(0, types);
        if kinds > 0 {
            for _ in 0..random.from_to(positions / 2, positions) {
                numbers[random.from_to(1, kinds)] += 1;
            }
        }
    }
    institute
}

/// The body of the record of such an institute.
fn body(institute: &[Vec<usize>]) -> Vec<u8> {
    two_bytes(&institute.concat())
}

/// Marks of lawful types: thinner ones, or two neighbouring types, so that one move makes another.
fn some_marks(random: &mut Random, types: usize, thin: usize, near: bool) -> u8 {
    let all = (1usize << types) - 1;
    if near && types > 1 && !random.one_in(6) {
        let first = random.from_to(0, types - 1);
        return (1 << first | 1 << ((first + 1) % types)) as u8;
    }
    let mut marks = random.bits() as usize & all;
    for _ in 0..thin {
        marks &= random.bits() as usize;
    }
    marks as u8
}

/// Lets each choose and compares the steps and the types, and the bytes around them.
pub fn compare(random: &mut Random, case: &Case) -> (Came, Option<Difference>) {
    let mut steps = Area::new(random, case.offers.len());
    let mut types = Area::new(random, case.offers.len());
    let (mut due_steps, mut due_types) = (steps.clone(), types.clone());
    probe::choose(
        &case.body,
        case.types,
        case.policy,
        &case.marks,
        &case.offers,
        steps.lent(),
        types.lent(),
    );
    let due = case.due();
    due_steps.lent().copy_from_slice(&due.steps);
    due_types.lent().copy_from_slice(&due.types);
    if steps == due_steps && types == due_types {
        return (Came::Accepted, None);
    }
    let text = |name: &str, own: &Area, other: &Area| {
        let place = area_text(name, own, other);
        format!("{name} {}{place}", hex(own.seen()))
    };
    let both = |steps: &Area, types: &Area, others: (&Area, &Area)| {
        let (of_steps, of_types) = others;
        let steps = text("steps", steps, of_steps);
        format!("{steps}; {}", text("types", types, of_types))
    };
    let difference = Difference {
        asked: format!(
            "choose, types {}, policy {}, {} places; the input is the body, the marks, the offers",
            case.types,
            case.policy,
            case.offers.len()
        ),
        input: [&case.body[..], &case.marks, &case.offers].concat(),
        list: None,
        unit: both(&steps, &types, (&due_steps, &due_types)),
        second: both(&due_steps, &due_types, (&steps, &types)),
    };
    (Came::Accepted, Some(difference))
}
