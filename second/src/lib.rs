//! The second program: seats, types and offers of a round file, and the review of a hand-made list, made from the documents without sight of the unit's code.

pub mod answer;
pub mod choice;
pub mod findings;
pub mod form;
pub mod generate;
pub mod horizontal;
pub mod list;
pub mod offers;
pub mod orders;
pub mod printing;
pub mod random;
pub mod reading;
pub mod review;
pub mod step_lists;
pub mod steps;
pub mod widening;
pub mod writing;

pub use answer::{call, call_on, call_without_answer, call_without_answer_on, Outcome};
pub use form::Form;
pub use review::{review, Review};
pub use step_lists::{with_six_steps, with_step_lists};
pub use widening::{widened, widened_list};
