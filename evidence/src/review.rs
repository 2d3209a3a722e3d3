//! One review of the unit against one of the second program, the work area byte by byte.

use crate::area::Area;
use crate::difference::{area_text, Difference};
use crate::tally::Came;
use second::random::Random;
use second::review::{review, Review};
use tazbilk::{Judgement, Refusal};

/// The second program's review as the unit's judgement.
pub fn judgement_of(review: Review) -> Judgement {
    match review {
        Review::Passes => Judgement::Passes,
        Review::Wrong(candidate) => Judgement::WrongSeat { candidate },
        Review::WouldTake {
            candidate,
            institute,
            code,
        } => Judgement::BetterEntry {
            candidate,
            institute,
            code: usize::from(code),
        },
        Review::Refused { number, offset } => Judgement::Refused(Refusal {
            number: usize::from(number),
            offset,
        }),
    }
}

/// What a review came to.
pub fn came(judgement: &Judgement) -> Came {
    match judgement {
        Judgement::Passes => Came::Accepted,
        Judgement::WrongSeat { .. } => Came::Seat,
        Judgement::BetterEntry { .. } => Came::Entry,
        Judgement::Refused(refusal) => Came::Refused(refusal.number),
    }
}

/// Makes one review of each on like work areas of a length and compares the judgements, all bytes of the work area, its guards, the file and the list; the judgement is the second program's.
pub fn compare(
    random: &mut Random,
    file: &[u8],
    list: &[u8],
    lent: usize,
) -> (Judgement, Option<Difference>) {
    let mut work = Area::new(random, lent);
    let mut due_work = work.clone();
    let given = (file.to_vec(), list.to_vec());

    let said = tazbilk::review(&given.0, &given.1, work.lent());
    let due = judgement_of(review(file, list, due_work.lent()));

    let kept = given.0 == file && given.1 == list;
    if said == due && work == due_work && kept {
        return (due, None);
    }
    let mut unit = format!("{said}{}", area_text("work", &work, &due_work));
    if !kept {
        unit.push_str("; the file or the list was written to");
    }
    let difference = Difference {
        asked: format!("review, work area {lent}"),
        input: file.to_vec(),
        list: Some(list.to_vec()),
        unit,
        second: format!("{due}{}", area_text("work", &due_work, &work)),
    };
    (due, Some(difference))
}
