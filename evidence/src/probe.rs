//! The unit's reader and its one institute's choice, each by itself.

use tazbilk::Refusal;

extern "C" {
    /// Questions 1 to 13; the result is number, offset, or 0, 0 where the file passes.
    fn tazbilk_verdict(file: *const u8, file_len: usize, result: *mut [u64; 2]);

    /// One institute's choice, in merit places; nothing happens where the lengths do not fit together.
    fn tazbilk_choose(
        body: *const u8,
        body_len: usize,
        types: usize,
        policy: usize,
        marks: *const u8,
        marks_len: usize,
        offers: *const u8,
        offers_len: usize,
        steps: *mut u8,
        steps_len: usize,
        used: *mut u8,
        used_len: usize,
    );
}

/// Puts questions 1 to 13 to a file.
pub fn verdict(file: &[u8]) -> Result<(), Refusal> {
    let mut result = [0; 2];
    // SAFETY: the reader reads the file within the length given, writes the result only, and asks for nothing else.
    unsafe { tazbilk_verdict(file.as_ptr(), file.len(), &mut result) };
    match result.map(|number| number as usize) {
        [0, 0] => Ok(()),
        [number, offset] => Err(Refusal { number, offset }),
    }
}

/// What an institute chooses: the body is that of its record; at each merit place, best first, stand the marks and the offers (a bit for each category code) of the candidate there, and the step (0 for none) and the type that the step used for the candidate (0 where the candidate was taken by merit or not at all) are written.
pub fn choose(
    body: &[u8],
    types: usize,
    policy: usize,
    marks: &[u8],
    offers: &[u8],
    steps: &mut [u8],
    used: &mut [u8],
) {
    // SAFETY: the choice reads and writes within the lengths given, keeps nothing, and asks for nothing else.
    unsafe {
        tazbilk_choose(
            body.as_ptr(),
            body.len(),
            types,
            policy,
            marks.as_ptr(),
            marks.len(),
            offers.as_ptr(),
            offers.len(),
            steps.as_mut_ptr(),
            steps.len(),
            used.as_mut_ptr(),
            used.len(),
        );
    }
}
