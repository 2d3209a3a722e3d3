//! The list that an allotment gives.

use second::answer::answer_of;
use second::choice::Document;
use second::offers::allot;
use second::reading::Round;
use second::review::list_bytes;

/// The list of a round's allotment.
pub fn own_list(round: &Round) -> Vec<u8> {
    let mut answer = answer_of(round, &allot(round, &Document));
    answer.truncate(list_bytes(round));
    answer
}
