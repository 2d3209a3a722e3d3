//! The review call.

use crate::boundary::tazbilk_review;
use crate::judgement::Judgement;

/// Reviews a list of seats for a round file of either form; the judgement and what the work area holds afterwards are fixed for every
/// file and list by requests 5, 6 and 7 of document 02.
pub fn review(file: &[u8], list: &[u8], work: &mut [u8]) -> Judgement {
    let mut result = [0; 4];
    // SAFETY: the unit reads the file and the list and writes the work area and the result within the lengths given, keeps none of them, and asks for nothing else.
    unsafe {
        tazbilk_review(
            file.as_ptr(),
            file.len(),
            list.as_ptr(),
            list.len(),
            work.as_mut_ptr(),
            work.len(),
            &mut result,
        );
    }
    Judgement::of(result)
}
