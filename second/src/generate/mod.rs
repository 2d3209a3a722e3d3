//! Round files made from a seed.

mod boundary;
mod damaged;
mod lawful;
mod step_list;
mod steps_boundary;
mod wide_boundary;

pub use boundary::{boundary, Expected};
pub use damaged::{
    damaged, steps_damaged, steps_two_faults, two_faults, wide_damaged, wide_steps_damaged,
    wide_steps_two_faults, wide_two_faults, Damaged, QUESTIONS, STEPS_QUESTIONS,
};
pub use lawful::{lawful, lawful_round, Class};
pub use steps_boundary::steps_boundary;
pub use wide_boundary::wide_boundary;
