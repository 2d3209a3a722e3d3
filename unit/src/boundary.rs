//! The functions that the archive holds, as Rust sees them; a slice is handed over as its first byte's place and its length.

extern "C" {
    /// One allotment call; the result is 0, offers, 0 or 1, number, offset.
    pub fn tazbilk_allot(
        file: *const u8,
        file_len: usize,
        answer: *mut u8,
        answer_len: usize,
        work: *mut u8,
        work_len: usize,
        result: *mut [u64; 3],
    );

    /// One review; the result is 0, 0, 0, 0 where the list passes, 1, number, offset, 0 where it is refused, 2, candidate, 0, 0 for a
    /// wrong seat, and 3, candidate, institute, code for an entry that would be chosen.
    pub fn tazbilk_review(
        file: *const u8,
        file_len: usize,
        list: *const u8,
        list_len: usize,
        work: *mut u8,
        work_len: usize,
        result: *mut [u64; 4],
    );
}
