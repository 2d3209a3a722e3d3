//! Policies 0 and 1 written as step lists.

use crate::rounds::worked;
use crate::several::several;
use crate::tiny::tiny;
use second::choice::Document;
use second::generate::{
    boundary, damaged, lawful_round, two_faults, wide_boundary, wide_damaged, wide_two_faults,
    Class,
};
use second::offers::{allot, Allotment};
use second::orders::{ended, Order};
use second::random::Random;
use second::reading::{read, Refusal, Round};
use second::review::found;
use second::step_lists::{round_with_six_steps, round_with_step_lists};
use second::widening::wide;
use second::writing::write;
use second::{call, with_six_steps, with_step_lists, Form, Outcome};

/// Lawful rounds under policies 0 and 1, of both forms.
fn rounds() -> impl Iterator<Item = Round> {
    let made = |class: Class, count: u64| (0..count).map(move |seed| lawful_round(class, seed));
    (0..2000)
        .map(tiny)
        .chain((0..500).map(several))
        .chain(made(Class::Tiny, 1000))
        .chain(made(Class::Small, 1000))
        .chain(made(Class::Mid, 20))
        .chain(made(Class::Maximal, 1))
        .chain(made(Class::Crowded, 1))
        .chain(made(Class::WideSmall, 300))
        .chain(made(Class::WideMany, 50))
        .chain(worked().into_iter().map(|(_, round)| round))
}

#[test]
fn a_rewritten_file_is_the_round_with_step_lists() {
    for round in rounds() {
        let file = write(&round);
        let listed = with_step_lists(&file).expect("a lawful file");
        assert_eq!(read(&listed), Ok(round_with_step_lists(&round)));
        assert_eq!(listed, write(&round_with_step_lists(&round)));
        let six = with_six_steps(&file).expect("a lawful file");
        assert_eq!(read(&six), Ok(round_with_six_steps(&round)));
        assert_eq!(with_step_lists(&listed), None);
    }
}

/// An allotment with so many closing places for each institute, 0 beyond those it has.
fn with_places(mut allotment: Allotment, places: usize) -> Allotment {
    for own in &mut allotment.closing {
        own.resize(places, 0);
    }
    allotment
}

#[test]
fn everyone_is_seated_alike() {
    let mut policies = [0; 2];
    for round in rounds() {
        let due = with_places(allot(&round, &Document), 12);
        assert_eq!(allot(&round_with_step_lists(&round), &Document), due);
        assert_eq!(allot(&round_with_six_steps(&round), &Document), due);
        policies[usize::from(round.policy)] += 1;
    }
    assert!(policies.iter().all(|&count| count > 1500), "{policies:?}");
}

#[test]
fn answers_differ_in_the_closing_places_alone() {
    for round in (0..1000).map(tiny).flat_map(|round| [wide(&round), round]) {
        let (n, m) = (round.candidates.len(), round.institutes.len());
        let seats = if round.form == Form::Wide {
            4 * n
        } else {
            2 * n
        };
        let file = write(&round);
        let Outcome::Allotted { offers, answer } = call(&file, 5 * n + 12 * m, 8 * n) else {
            panic!("{round:?}");
        };
        let (seats, rest) = answer.split_at(seats);
        let (closing, types) = rest.split_at(12 * m);
        let longer = closing.chunks(12).map(|own| [own, &[0; 12]].concat());
        let closing: Vec<u8> = longer.collect::<Vec<_>>().concat();
        let due = Outcome::Allotted {
            offers,
            answer: [seats, &closing, types].concat(),
        };
        let listed = with_step_lists(&file).expect("a lawful file");
        assert_eq!(call(&listed, due_bytes(&round), 8 * n), due);
    }
}

/// The bytes of the answer area of a round with step lists.
fn due_bytes(round: &Round) -> usize {
    let each = if round.form == Form::Wide { 5 } else { 3 };
    each * round.candidates.len() + 24 * round.institutes.len()
}

#[test]
fn orders_end_alike() {
    for seed in 0..300 {
        let round = tiny(seed);
        let listed = round_with_step_lists(&round);
        for order in Order::OTHERS {
            let mut due = ended(&round, &Document, order, seed);
            due.allotment = with_places(due.allotment, 12);
            assert_eq!(ended(&listed, &Document, order, seed), due);
        }
    }
}

#[test]
fn any_list_is_reviewed_alike_with_six_steps() {
    let mut random = Random::new(6);
    for seed in 0..3000 {
        let round = tiny(seed);
        let six = round_with_six_steps(&round);
        let five = round_with_step_lists(&round);
        for _ in 0..20 {
            let mut list = Vec::new();
            for _ in &round.candidates {
                let institute = random.from_to(0, round.institutes.len() + 1) as u8;
                let none = random.one_in(3);
                let step = random.pick(&[0, 1, 1, 1, 2, 3, 4, 4, 5, 6, 6, 7]);
                list.extend(if none { [0, 0] } else { [institute, step] });
            }
            let due = found(&round, &list);
            assert_eq!(found(&six, &list), due, "{list:?}: {round:?}");
            let at_six = list.chunks(2).any(|seat| seat[1] == 6);
            if round.policy == 1 || !at_six {
                assert_eq!(found(&five, &list), due, "{list:?}: {round:?}");
            }
        }
    }
}

/// The offset in the rewritten file of the record at an offset of a file.
fn moved(file: &[u8], offset: usize) -> usize {
    let number = |at: usize| usize::from(u16::from_le_bytes([file[at], file[at + 1]]));
    let (m, types, policy) = (number(6), number(8), number(10));
    let institute = 14 + 10 * types;
    let list = 4 + (5 + policy) * (4 + 2 * types);
    let before = offset.saturating_sub(12) / institute;
    offset + before.min(m) * (list - institute)
}

/// Asserts that a rewritten file is refused by the number of the file, at the same record, or passes as it does; tells whether it could be rewritten.
fn alike(file: &[u8]) -> bool {
    let Some(listed) = with_step_lists(file) else {
        return false;
    };
    let due = match read(file) {
        Err(Refusal { number, offset }) => Err(Refusal {
            number,
            offset: moved(file, offset),
        }),
        Ok(round) => Ok(round_with_step_lists(&round)),
    };
    assert_eq!(read(&listed), due, "{file:?}");
    true
}

#[test]
fn damaged_files_are_refused_alike() {
    let mut rewritten = 0;
    for seed in 0..3000 {
        let number = (seed % 13) as u8 + 1;
        for made in [
            damaged(number, seed),
            wide_damaged(number, seed),
            two_faults(seed),
            wide_two_faults(seed),
        ] {
            rewritten += u64::from(alike(&made.file));
        }
    }
    assert!(rewritten > 11_000, "{rewritten}");
}

#[test]
fn files_at_the_edges_are_refused_alike() {
    let files = [boundary(), wide_boundary()].concat();
    let rewritten = files.iter().filter(|(_, file, _)| alike(file)).count();
    assert!(rewritten > 350, "{rewritten}");
}

#[test]
fn any_bytes_can_be_asked_for() {
    let mut random = Random::new(7);
    for seed in 0..3000 {
        let mut file = write(&tiny(seed));
        for _ in 0..random.from_to(1, 4) {
            let at = random.from_to(0, file.len() - 1);
            file[at] = random.bits() as u8;
        }
        file.truncate(random.from_to(0, 3 * file.len()));
        with_step_lists(&file);
        with_six_steps(&file);
    }
    assert_eq!(with_step_lists(&[]), None);
}
