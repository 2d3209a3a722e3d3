//! One verdict of the unit against the second program's reading.

use crate::difference::Difference;
use crate::probe;
use crate::tally::Came;
use second::reading::read;
use tazbilk::Refusal;

/// Puts questions 1 to 13 to a file with each and compares what they answer.
pub fn compare(file: &[u8]) -> (Came, Option<Difference>) {
    let said = probe::verdict(file);
    let due = match read(file) {
        Ok(_) => Ok(()),
        Err(refusal) => Err(Refusal {
            number: usize::from(refusal.number),
            offset: refusal.offset,
        }),
    };
    let came = match due {
        Ok(()) => Came::Accepted,
        Err(refusal) => Came::Refused(refusal.number),
    };
    let text = |verdict: Result<(), Refusal>| match verdict {
        Ok(()) => "passes".to_string(),
        Err(refusal) => refusal.to_string(),
    };
    let difference = (said != due).then(|| Difference {
        asked: "verdict".to_string(),
        input: file.to_vec(),
        list: None,
        unit: text(said),
        second: text(due),
    });
    (came, difference)
}
