//! Document 02, Point 7: rounds with step lists, and the wrong ways that are caught.

#[path = "../common/all_lists.rs"]
mod all_lists;
mod areas;
#[path = "../demand3/arrangements.rs"]
mod arrangements;
#[allow(dead_code)]
#[path = "../review/cases.rs"]
mod cases;
mod demands;
#[allow(dead_code)]
#[path = "../review/lists.rs"]
mod lists;
#[path = "../review/looks.rs"]
mod looks;
#[path = "../wide/own.rs"]
mod own;
#[path = "../common/own_list.rs"]
mod own_list;
mod readings;
#[path = "../review/remembered.rs"]
mod remembered;
mod reviews;
mod rewritten;
#[path = "../closing/worked.rs"]
mod rounds;
#[path = "../types/several.rs"]
mod several;
#[path = "../demand3/stability.rs"]
mod stability;
#[path = "../demand3/statements.rs"]
mod statements;
#[path = "../demand3/tiny.rs"]
mod tiny;
mod tiny_lists;
#[path = "../demand3/words.rs"]
mod words;
mod wrong;
#[path = "../common/wrong_readings.rs"]
mod wrong_readings;
#[path = "../common/wrong_reviews.rs"]
mod wrong_reviews;
