//! Statements 3 to 5 and the choice of the words, of every round that the tests around this file run.

use super::holds_always;
use crate::statements::{
    any_order, completion_agrees_in_the_run, completion_is_one, held_and_new_suffice, same_choice,
};
use second::choice::Document;

#[test]
fn statement_3_any_order() {
    holds_always(|round, random| any_order(round, &Document, random));
}

#[test]
fn statement_4_held_and_new_suffice() {
    holds_always(|round, _| held_and_new_suffice(round, &Document));
}

#[test]
fn statement_5_completion_agrees_in_the_run() {
    holds_always(|round, _| completion_agrees_in_the_run(round, &Document));
}

#[test]
fn statement_5_completion_is_one() {
    holds_always(|round, random| completion_is_one(round, &Document, random));
}

#[test]
fn the_choice_is_that_of_the_words() {
    holds_always(|round, random| same_choice(round, &Document, random));
}
