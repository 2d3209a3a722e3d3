//! The sizes of the lent areas and of a list under review, for rounds of both forms and all policies.

/// The bytes of the longest lawful file, which is a wide one; the longest narrow one has 60,172.
pub const FILE_MOST: usize = 1_299_660;

/// The bytes of the answer area that suffice for every round of both forms and all policies.
pub const ANSWER_MOST: usize = wide_steps_answer_size(512, 1000);

/// The bytes of the work area that suffice for every round of both forms and all policies.
pub const WORK_MOST: usize = work_size(512);

/// The bytes of the longest list that a review can take.
pub const LIST_MOST: usize = wide_list_size(512);

/// The bytes of the answer area that a narrow round of n candidates and m institutes needs under policies 0 and 1.
pub const fn answer_size(n: usize, m: usize) -> usize {
    3 * n + 12 * m
}

/// The bytes of the answer area that a wide round of n candidates and m institutes needs under policies 0 and 1.
pub const fn wide_answer_size(n: usize, m: usize) -> usize {
    5 * n + 12 * m
}

/// The bytes of the answer area that a narrow round of n candidates and m institutes needs under policy 2.
pub const fn steps_answer_size(n: usize, m: usize) -> usize {
    3 * n + 24 * m
}

/// The bytes of the answer area that a wide round of n candidates and m institutes needs under policy 2.
pub const fn wide_steps_answer_size(n: usize, m: usize) -> usize {
    5 * n + 24 * m
}

/// The bytes of the work area that a round of n candidates needs, in either form and under every policy.
pub const fn work_size(n: usize) -> usize {
    8 * n
}

/// The bytes of a list under review for a narrow round of n candidates.
pub const fn list_size(n: usize) -> usize {
    2 * n
}

/// The bytes of a list under review for a wide round of n candidates.
pub const fn wide_list_size(n: usize) -> usize {
    4 * n
}
