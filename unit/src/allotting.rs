//! The allotment call.

use crate::answer::Answer;
use crate::boundary::tazbilk_allot;

/// Allots the seats of a round file of either form; what both areas hold afterwards is fixed for every file by document 01, and by
/// requests 1, 3, 6 and 7 of document 02 for the closing places, the types, wide rounds and institutes that list their own steps.
pub fn allot(file: &[u8], answer: &mut [u8], work: &mut [u8]) -> Answer {
    let mut result = [0; 3];
    // SAFETY: the unit reads the file and writes the areas and the result within the lengths given, keeps none of them, and asks for nothing else.
    unsafe {
        tazbilk_allot(
            file.as_ptr(),
            file.len(),
            answer.as_mut_ptr(),
            answer.len(),
            work.as_mut_ptr(),
            work.len(),
            &mut result,
        );
    }
    Answer::of(result)
}
