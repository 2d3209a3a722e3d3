//! A reading of round files of the tests' own, in one of several ways.

use second::form::Form;
use second::reading::{Candidate, Entry, Institute, Refusal, Round};
use second::steps::ListedStep;
use std::collections::HashSet;

/// A way of reading round files.
#[allow(dead_code)]
#[derive(Clone, Copy, Debug, PartialEq, Eq)]
pub enum Way {
    /// That of the documents.
    Right,
    /// The entries of a wide file have two bytes, institute and code.
    TwoByteEntries,
    /// The low byte alone of an institute's number is used.
    LowByte,
    /// The high byte of an institute's number comes first.
    HighFirst,
    /// 1,001 institutes pass.
    OneInstituteMore,
    /// No more than 255 institutes pass.
    InstitutesOfAByte,
    /// No more than 32 institutes pass in either form.
    NarrowBound,
    /// Up to 1,000 institutes pass in either form.
    WideBound,
    /// Candidates of either kind pass in a wide file, each read by its kind.
    EitherCandidate,
    /// 17 entries pass.
    OneEntryMore,
    /// No length above 34 passes.
    NarrowLength,
    /// Any length from 2 to 50 passes, bytes that are no entry being left.
    AnyLength,
    /// A head of kind 6 passes for one of kind 5.
    HeadOfKind6,
    /// Policy 3 passes and is read as policy 2.
    Policy3,
    /// Records of kind 2 pass under policy 2 too.
    EitherInstitute,
    /// Records of kind 7 are due under every policy.
    AlwaysLists,
    /// A list of thirteen steps passes.
    OneStepMore,
    /// A list without steps passes.
    NoSteps,
    /// Question 6 counts the positions that would be handed on, too.
    HandedAtSix,
    /// Question 7 is put to the sums over the list.
    SummedAtSeven,
    /// Question 7 counts the positions that could be handed to a step, too.
    HandedAtSeven,
    /// A category of 5 passes.
    Category5,
    /// A step may hand to itself.
    ToItself,
    /// A step may hand to an earlier one.
    ToEarlier,
    /// A step may hand to one beyond the list, up to step 12.
    BeyondTheList,
    /// The last step has to name a step, and 0 is refused elsewhere too.
    NobodyRefused,
    /// Receivers are looked at before categories.
    ReceiversFirst,
    /// Categories and receivers are looked at before the sums.
    BytesFirst,
    /// All questions are put to one step after another.
    StepByStep,
    /// The receiver's byte comes before the category's.
    BytesTurned,
}

/// A file that is read in a way, the place reached, and whether the head tells the wide form.
struct Reading<'a> {
    way: Way,
    file: &'a [u8],
    at: usize,
    wide: bool,
}

/// The refusal by a number at an offset.
fn no<T>(number: u8, offset: usize) -> Result<T, Refusal> {
    Err(Refusal { number, offset })
}

/// The two-byte numbers of some bytes.
fn numbers(bytes: &[u8]) -> Vec<usize> {
    let pairs = bytes.chunks_exact(2);
    pairs
        .map(|pair| usize::from(u16::from_le_bytes([pair[0], pair[1]])))
        .collect()
}

/// Whether some value stands twice in a list.
fn twice<T: std::hash::Hash + Eq>(list: &[T]) -> bool {
    list.iter().collect::<HashSet<_>>().len() < list.len()
}

impl Reading<'_> {
    /// The record at the place reached, of one of these kinds and a lawful length: its offset, kind and body.
    fn record(
        &mut self,
        kinds: &[usize],
        lawful: impl Fn(usize, usize) -> bool,
    ) -> Result<(usize, usize, Vec<u8>), Refusal> {
        let here = self.at;
        let Some(lead) = self.file.get(here..here + 4) else {
            return no(1, here);
        };
        let (length, kind) = (numbers(lead)[0], numbers(lead)[1]);
        if !kinds.contains(&kind) {
            return no(2, here);
        }
        if !lawful(kind, length) {
            return no(3, here);
        }
        let Some(body) = self.file.get(here + 4..here + 4 + length) else {
            return no(4, here);
        };
        self.at += 4 + length;
        Ok((here, kind, body.to_vec()))
    }

    /// The most institutes that pass.
    fn most_institutes(&self) -> usize {
        match (self.way, self.wide) {
            (Way::NarrowBound, _) => 32,
            (Way::WideBound, _) => 1000,
            (_, false) => 32,
            (Way::OneInstituteMore, _) => 1001,
            (Way::InstitutesOfAByte, _) => 255,
            (_, true) => 1000,
        }
    }

    /// The head: candidates, institutes, types and policy.
    fn head(&mut self) -> Result<Vec<usize>, Refusal> {
        let kinds: &[usize] = match self.way {
            Way::HeadOfKind6 => &[1, 5, 6],
            _ => &[1, 5],
        };
        let (here, kind, body) = self.record(kinds, |_, length| length == 8)?;
        self.wide = kind != 1;
        let head = numbers(&body);
        let most = [512, self.most_institutes(), 8, self.most_policy()];
        let in_range = (0..4).all(|place| head[place] <= most[place]);
        if !in_range || head[0] == 0 || head[1] == 0 {
            return no(5, here);
        }
        Ok(head)
    }

    /// The largest policy that passes.
    fn most_policy(&self) -> usize {
        match self.way {
            Way::Policy3 => 3,
            _ => 2,
        }
    }

    /// Whether the next institute is read as a list.
    fn is_list(&self, policy: usize) -> bool {
        match self.way {
            Way::AlwaysLists => true,
            Way::EitherInstitute => policy >= 2 && self.file.get(self.at + 2) != Some(&2),
            _ => policy >= 2,
        }
    }

    /// The next institute under policy 2.
    fn list(&mut self, types: usize) -> Result<Institute, Refusal> {
        let part = 4 + 2 * types;
        let (least, most) = match self.way {
            Way::OneStepMore => (1, 13),
            Way::NoSteps => (0, 12),
            _ => (1, 12),
        };
        let lawful = |_, length| (least..=most).any(|count| length == count * part);
        let (here, _, body) = self.record(&[7], lawful)?;
        let turned = self.way == Way::BytesTurned;
        let steps: Vec<ListedStep> = body
            .chunks_exact(part)
            .map(|bytes| ListedStep {
                category: bytes[usize::from(turned)],
                receiver: bytes[usize::from(!turned)],
                positions: numbers(&bytes[2..4])[0],
                reserved: numbers(&bytes[4..]),
            })
            .collect();
        match self.fault(&steps) {
            Some(number) => no(number, here),
            None => Ok(Institute {
                steps,
                ..Institute::default()
            }),
        }
    }

    /// The number by which a list is refused, if it is.
    fn fault(&self, steps: &[ListedStep]) -> Option<u8> {
        let order: [u8; 4] = match self.way {
            Way::ReceiversFirst => [6, 7, 18, 17],
            Way::BytesFirst => [17, 18, 6, 7],
            _ => [6, 7, 17, 18],
        };
        let all = 0..steps.len();
        let faulty = |number: u8, place: usize| match number {
            6 => self.too_many(steps),
            7 => self.over_reserved(steps, place),
            17 => steps[place].category > if self.way == Way::Category5 { 5 } else { 4 },
            _ => self.wrong_receiver(steps, place),
        };
        if self.way == Way::StepByStep {
            let mut asked = all.flat_map(|place| order.map(|number| (number, place)));
            return asked
                .find(|&(number, place)| faulty(number, place))
                .map(|(number, _)| number);
        }
        order
            .into_iter()
            .find(|&number| all.clone().any(|place| faulty(number, place)))
    }

    /// Whether the positions of a list are more than 1,024.
    fn too_many(&self, steps: &[ListedStep]) -> bool {
        let handed = |place: usize| match self.way {
            Way::HandedAtSix => could_get(steps, place),
            _ => 0,
        };
        let all = (0..steps.len()).map(|place| steps[place].positions + handed(place));
        all.sum::<usize>() > 1024
    }

    /// Whether a step has more reserved positions than positions.
    fn over_reserved(&self, steps: &[ListedStep], place: usize) -> bool {
        let reserved = |step: &ListedStep| step.reserved.iter().sum::<usize>();
        let own = &steps[place];
        match self.way {
            Way::SummedAtSeven => {
                let positions: usize = steps.iter().map(|step| step.positions).sum();
                steps.iter().map(reserved).sum::<usize>() > positions
            }
            Way::HandedAtSeven => reserved(own) > own.positions + could_get(steps, place),
            _ => reserved(own) > own.positions,
        }
    }

    /// Whether a step hands to one that cannot get its vacancies.
    fn wrong_receiver(&self, steps: &[ListedStep], place: usize) -> bool {
        let (own, receiver) = (place + 1, usize::from(steps[place].receiver));
        let most = match self.way {
            Way::BeyondTheList => 12,
            _ => steps.len(),
        };
        let least = match self.way {
            Way::ToItself => own,
            Way::ToEarlier => 1,
            _ => own + 1,
        };
        match receiver {
            0 => self.way == Way::NobodyRefused,
            _ => !(least..=most).contains(&receiver),
        }
    }

    /// The next institute.
    fn institute(&mut self, types: usize) -> Result<Institute, Refusal> {
        let (here, _, body) = self.record(&[2], |_, length| length == 10 + 10 * types)?;
        let all = numbers(&body);
        let positions: [usize; 5] = std::array::from_fn(|code| all[code * (1 + types)]);
        let reserved: [Vec<usize>; 5] =
            std::array::from_fn(|code| all[code * (1 + types)..][1..=types].to_vec());
        if positions.iter().sum::<usize>() > 1024 {
            return no(6, here);
        }
        if (0..5).any(|code| reserved[code].iter().sum::<usize>() > positions[code]) {
            return no(7, here);
        }
        Ok(Institute {
            positions,
            reserved,
            steps: Vec::new(),
        })
    }

    /// Whether a candidate's record of a kind may have a length.
    fn lawful(&self, kind: usize, length: usize) -> bool {
        let part = if kind == 6 { 3 } else { 2 };
        let most = match self.way {
            Way::OneEntryMore if kind == 6 => 17,
            _ => 16,
        };
        let due = (0..=most).any(|entries| length == 2 + part * entries);
        match self.way {
            Way::NarrowLength => due && length <= 34,
            Way::AnyLength if kind == 6 => (2..=50).contains(&length),
            _ => due,
        }
    }

    /// The institute's number of a wide entry.
    fn number(&self, entry: &[u8]) -> usize {
        let (low, high) = (usize::from(entry[0]), usize::from(entry[1]));
        match self.way {
            Way::LowByte => low,
            Way::HighFirst => 256 * low + high,
            _ => low + 256 * high,
        }
    }

    /// The entries behind code and marks, institutes counted from 1.
    fn entries(&self, kind: usize, bytes: &[u8]) -> Vec<(usize, u8)> {
        if kind == 3 || self.way == Way::TwoByteEntries {
            let pairs = bytes.chunks_exact(2);
            pairs
                .map(|entry| (usize::from(entry[0]), entry[1]))
                .collect()
        } else {
            let threes = bytes.chunks_exact(3);
            threes.map(|entry| (self.number(entry), entry[2])).collect()
        }
    }

    /// The next candidate.
    fn candidate(&mut self, m: usize, types: usize) -> Result<Candidate, Refusal> {
        let kinds: &[usize] = match (self.wide, self.way) {
            (true, Way::EitherCandidate) => &[3, 6],
            (true, _) => &[6],
            (false, _) => &[3],
        };
        let reading = Reading { ..*self };
        let (here, kind, body) = self.record(kinds, |kind, length| reading.lawful(kind, length))?;
        let (code, marks) = (body[0], body[1]);
        if code > 4 || (types..8).any(|above| marks >> above & 1 == 1) {
            return no(8, here);
        }
        let entries = self.entries(kind, &body[2..]);
        let named = |&(institute, own): &(usize, u8)| {
            institute >= 1 && institute <= m && (own == 0 || own == code)
        };
        if !entries.iter().all(named) {
            return no(9, here);
        }
        if twice(&entries) {
            return no(10, here);
        }
        let row = entries.into_iter().map(|(institute, category)| Entry {
            institute: institute - 1,
            category,
        });
        Ok(Candidate {
            code,
            marks,
            row: row.collect(),
        })
    }

    /// The next merit list.
    fn merit(&mut self, n: usize) -> Result<Vec<usize>, Refusal> {
        let (here, _, body) = self.record(&[4], |_, length| length % 2 == 0 && length <= 2 * n)?;
        let all = numbers(&body);
        if all.iter().any(|&number| number == 0 || number > n) {
            return no(11, here);
        }
        if twice(&all) {
            return no(12, here);
        }
        Ok(all.into_iter().map(|number| number - 1).collect())
    }
}

/// The most positions that the steps before a place could hand to its step, one through another.
fn could_get(steps: &[ListedStep], place: usize) -> usize {
    (0..place)
        .filter(|&other| usize::from(steps[other].receiver) == place + 1)
        .map(|other| steps[other].positions + could_get(steps, other))
        .sum()
}

/// What a file says, or its refusal, read in a way.
pub fn read_by(way: Way, file: &[u8]) -> Result<Round, Refusal> {
    let (at, wide) = (0, false);
    let mut reading = Reading {
        way,
        file,
        at,
        wide,
    };
    let head = reading.head()?;
    let (n, m, types) = (head[0], head[1], head[2]);
    let policy = head[3].min(2);
    let institutes = (0..m).map(|_| match reading.is_list(policy) {
        true => reading.list(types),
        false => reading.institute(types),
    });
    let institutes = institutes.collect::<Result<_, _>>()?;
    let candidates = (0..n).map(|_| reading.candidate(m, types));
    let candidates = candidates.collect::<Result<_, _>>()?;
    let merit = (0..m).map(|_| reading.merit(n));
    let merit = merit.collect::<Result<_, _>>()?;
    if reading.at < file.len() {
        return no(13, reading.at);
    }
    let form = match reading.wide {
        false => Form::Narrow,
        true => Form::Wide,
    };
    Ok(Round {
        form,
        types,
        policy: policy as u16,
        institutes,
        candidates,
        merit,
    })
}
