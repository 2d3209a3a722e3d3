//! One allotment call of the unit against one of the second program, both areas byte by byte.

use crate::area::Area;
use crate::difference::{area_text, Difference};
use crate::tally::Came;
use second::answer::{answer_bytes, call_in_order_on, call_on, work_bytes, Outcome};
use second::orders::Order;
use second::random::Random;
use second::reading::read;
use tazbilk::{Answer, Refusal, ANSWER_MOST, WORK_MOST};

/// The lengths of the two lent areas.
#[derive(Clone, Copy)]
pub struct Lengths {
    pub answer: usize,
    pub work: usize,
}

/// The lengths that the round of a file needs, where it is read without refusal.
pub fn needed(file: &[u8]) -> Option<Lengths> {
    let round = read(file).ok()?;
    Some(Lengths {
        answer: answer_bytes(&round),
        work: work_bytes(&round),
    })
}

/// Both areas, of just the lengths that the round of a lawful file needs.
pub fn areas(random: &mut Random, file: &[u8]) -> (Area, Area) {
    let least = needed(file).expect("a lawful file");
    (
        Area::new(random, least.answer),
        Area::new(random, least.work),
    )
}

/// Lengths for a call: what the round needs or somewhat more, and any where the file is refused.
pub fn some_lengths(random: &mut Random, file: &[u8]) -> Lengths {
    let any = [0, 40, ANSWER_MOST, WORK_MOST];
    match needed(file) {
        Some(least) => Lengths {
            answer: least.answer + random.pick(&[0, 0, 1, 40]),
            work: least.work + random.pick(&[0, 0, 1, 40]),
        },
        None => Lengths {
            answer: random.pick(&any),
            work: random.pick(&any),
        },
    }
}

/// The second program's outcome as the unit's answer.
fn answer_of(outcome: &Outcome) -> Answer {
    match *outcome {
        Outcome::Allotted { offers, .. } => Answer::Allotted { offers },
        Outcome::Refused { number, offset } => Answer::Refused(Refusal {
            number: usize::from(number),
            offset,
        }),
    }
}

/// What a call came to.
pub fn came(answer: &Answer) -> Came {
    match answer {
        Answer::Allotted { .. } => Came::Accepted,
        Answer::Refused(refusal) => Came::Refused(refusal.number),
    }
}

/// What a call said, and where its answer and work areas differ from those of another.
pub fn text(said: &Answer, [answer, work]: [&Area; 2], others: [&Area; 2]) -> String {
    let answer = area_text("answer", answer, others[0]);
    format!("{said}{answer}{}", area_text("work", work, others[1]))
}

/// Makes one call of each on like areas and compares the answers, all bytes of both areas, their guards, and the file.
pub fn compare(random: &mut Random, file: &[u8], lengths: Lengths) -> (Came, Option<Difference>) {
    compare_with(random, file, lengths, "", call_on)
}

/// The same, the second program calling candidates up in an order.
pub fn compare_in_order(
    random: &mut Random,
    file: &[u8],
    lengths: Lengths,
    order: Order,
) -> (Came, Option<Difference>) {
    let seed = random.bits();
    let called = format!("; the second program goes {}, seed {seed}", order.name());
    compare_with(random, file, lengths, &called, |file, answer, work| {
        call_in_order_on(order, seed, file, answer, work)
    })
}

/// Makes one call of the unit and this one of the second program.
fn compare_with(
    random: &mut Random,
    file: &[u8],
    lengths: Lengths,
    called: &str,
    call: impl FnOnce(&[u8], &mut [u8], &mut [u8]) -> Outcome,
) -> (Came, Option<Difference>) {
    let mut answer = Area::new(random, lengths.answer);
    let mut work = Area::new(random, lengths.work);
    let (mut due_answer, mut due_work) = (answer.clone(), work.clone());
    let given = file.to_vec();

    let said = tazbilk::allot(&given, answer.lent(), work.lent());
    let due = answer_of(&call(file, due_answer.lent(), due_work.lent()));

    let kept = given == file;
    let came = came(&due);
    if said == due && answer == due_answer && work == due_work && kept {
        return (came, None);
    }
    let (left, due_left) = ([&answer, &work], [&due_answer, &due_work]);
    let mut unit = text(&said, left, due_left);
    if !kept {
        unit.push_str("; the file was written to");
    }
    let difference = Difference {
        asked: format!(
            "allot, answer area {}, work area {}{called}",
            lengths.answer, lengths.work
        ),
        input: file.to_vec(),
        list: None,
        unit,
        second: text(&due, due_left, left),
    };
    (came, Some(difference))
}
