//! The seat-allotment unit, called from Rust: a round file goes in, seats, offers, closing places and types come out. The
//! closing place of a step is the largest merit place among those whom it seated in its fill by merit, 0 if nobody. The type of
//! a candidate is the horizontal type under which the candidate is seated, 0 for those seated in the fill by merit and for those
//! without a seat. The answer area has two bytes for each candidate, institute and step, then six closing places of two bytes
//! for each institute, then one byte for each candidate, the type.
//!
//! ```
//! let file = std::fs::read("../rounds/a.round")?;
//! let (mut answer, mut work) = ([0; tazbilk::ANSWER_MOST], [0; tazbilk::WORK_MOST]);
//! let said = tazbilk::allot(&file, &mut answer, &mut work);
//! println!("{said}"); // offers 4
//! let types = &answer[2 * 3 + 12..]; // behind the seats of 3 candidates and the closing places of 1 institute
//! println!("candidate 3: institute {}, step {}, type {}", answer[4], answer[5], types[2]); // institute 1, step 1, type 1
//! # assert_eq!((said.to_string().as_str(), &answer[4..6], types[2]), ("offers 4", &[1, 1][..], 1));
//! # Ok::<(), std::io::Error>(())
//! ```
//!
//! A round file whose head has kind 5 is a wide one, with up to 1,000 institutes. A seat then has four bytes: a two-byte
//! institute, the low byte first, the step and a zero byte; four zero bytes stand for no seat. The closing places follow from byte
//! 4n on and the types from byte 4n + 12m on, for n candidates and m institutes.
//!
//! ```
//! let file = std::fs::read("../rounds/wide-institute-300.round")?;
//! let (mut answer, mut work) = ([0; tazbilk::ANSWER_MOST], [0; tazbilk::WORK_MOST]);
//! println!("{}", tazbilk::allot(&file, &mut answer, &mut work)); // offers 3
//! let seat = &answer[..4]; // that of candidate 1
//! let institute = u16::from_le_bytes([seat[0], seat[1]]);
//! println!("candidate 1: institute {institute}, step {}", seat[2]); // institute 300, step 6
//! # assert_eq!((institute, seat[2], seat[3]), (300, 6, 0));
//! # Ok::<(), std::io::Error>(())
//! ```
//!
//! Under policy 2 each institute lists its own steps, up to twelve, and steps are numbered as listed. Each institute then has twelve
//! closing places, 0 beyond its steps, in both forms: the types stand 24m bytes behind the seats, for m institutes.
//!
//! ```
//! let file = [
//!     8, 0, 1, 0, 1, 0, 1, 0, 0, 0, 2, 0, // a candidate, an institute, no types, policy 2
//!     8, 0, 7, 0, 4, 2, 1, 0, 0, 0, 0, 0, // EWS with one position, its vacancies to step 2; open with none of its own
//!     4, 0, 3, 0, 0, 0, 1, 0, // the candidate, general, lists open at institute 1
//!     2, 0, 4, 0, 1, 0, // and stands on its merit list
//! ];
//! let mut answer = [0; tazbilk::steps_answer_size(1, 1)];
//! println!("{}", tazbilk::allot(&file, &mut answer, &mut [0; 8])); // offers 1
//! println!("candidate 1: institute {}, step {}", answer[0], answer[1]); // institute 1, step 2
//! let places = answer[2..26].chunks(2).map(|two| u16::from_le_bytes([two[0], two[1]]));
//! println!("closing places: {places:?}", places = places.collect::<Vec<_>>()); // 0, 1, and ten more that are 0
//! # assert_eq!((&answer[..2], &answer[2..6], &answer[6..]), (&[1, 2][..], &[0, 0, 1, 0][..], &[0; 21][..]));
//! ```
//!
//! A list of seats that was made elsewhere, two bytes for each candidate, institute and step (0 0 for none), can be reviewed: it passes
//! just where it is stable, and otherwise what is found first is named. For a wide round the list has four bytes for each candidate,
//! as the seats in its answer area; a seat with another last byte than 0 counts as not in the row. Under policy 2 so does a seat whose
//! step the institute does not list.
//!
//! ```
//! use tazbilk::Judgement;
//!
//! let file = std::fs::read("../rounds/a.round")?;
//! let list = [1, 6, 0, 0, 1, 1]; // candidate 1: institute 1, step 6; 2: no seat; 3: institute 1, step 1
//! let said = tazbilk::review(&file, &list, &mut [0; tazbilk::WORK_MOST]);
//! println!("{said}"); // entry of 2: 1 3, so institute 1 would take candidate 2 under code 3
//! # assert_eq!(said.to_string(), "entry of 2: 1 3");
//! assert_eq!(said, Judgement::BetterEntry { candidate: 2, institute: 1, code: 3 });
//! # Ok::<(), std::io::Error>(())
//! ```

mod allotting;
mod answer;
mod boundary;
mod judgement;
mod refusal;
mod reviewing;
mod sizes;

pub use allotting::allot;
pub use answer::Answer;
pub use judgement::Judgement;
pub use refusal::Refusal;
pub use reviewing::review;
pub use sizes::{answer_size, list_size, steps_answer_size, work_size};
pub use sizes::{wide_answer_size, wide_list_size, wide_steps_answer_size};
pub use sizes::{ANSWER_MOST, FILE_MOST, LIST_MOST, WORK_MOST};
