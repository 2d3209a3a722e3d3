//! How many cases of each class have lists of steps.

use crate::files::Made;
use crate::plan::{counted, faulty, times, Counted};
use crate::sort::Sort;
use second::form::Form;
use second::generate::Class;

/// The classes of the second program's generator.
const TINY: Made = Made::Lawful(Class::StepsTiny);
const SMALL: Made = Made::Lawful(Class::StepsSmall);
const MID: Made = Made::Lawful(Class::StepsMid);
const MAXIMAL: Made = Made::Lawful(Class::StepsMaximal);
const CONTESTED: Made = Made::Lawful(Class::StepsContested);
const CROWDED: Made = Made::Lawful(Class::StepsCrowded);
const WIDE_TINY: Made = Made::Lawful(Class::WideStepsTiny);
const WIDE_SMALL: Made = Made::Lawful(Class::WideStepsSmall);
const WIDE_MID: Made = Made::Lawful(Class::WideStepsMid);
const WIDE_MANY: Made = Made::Lawful(Class::WideStepsMany);
const WIDE_MAXIMAL: Made = Made::Lawful(Class::WideStepsMaximal);

/// Other shapes with some lists.
const MIXED: Made = Made::Steps(&Made::Mixed);
const TYPES_16: Made = Made::Steps(&Made::Types(16));
const WIDE_STATE: Made = Made::Steps(&Made::Lawful(Class::WideState));

/// The classes of lawful files.
pub fn lawful(form: Form, long: bool) -> Vec<Counted> {
    let narrow = [
        (TINY, 8_000, 60_000),
        (SMALL, 4_000, 30_000),
        (MID, 200, 4_000),
        (MIXED, 80, 1_500),
        (Made::Steps(&Made::Broad), 0, 500),
        (TYPES_16, 600, 10_000),
        (Made::Steps(&Made::Types(64)), 20, 500),
        (Made::Steps(&Made::Worst(16)), 400, 5_000),
        (Made::Steps(&Made::Contested(64)), 20, 300),
        (MAXIMAL, 2, 60),
        (CONTESTED, 1, 10),
        (CROWDED, 2, 40),
    ];
    let wide = [
        (WIDE_TINY, 2_000, 30_000),
        (WIDE_SMALL, 1_000, 15_000),
        (WIDE_MID, 30, 1_000),
        (WIDE_MANY, 150, 4_000),
        (WIDE_STATE, 8, 300),
        (WIDE_MAXIMAL, 1, 12),
    ];
    match form {
        Form::Narrow => counted(long, &narrow),
        Form::Wide => counted(long, &wide),
    }
}

/// The classes of lawful files on which the second program goes in other orders.
pub fn orders(form: Form, long: bool) -> Vec<Counted> {
    let narrow = [
        (TINY, 1_800, 18_000),
        (SMALL, 900, 9_000),
        (MID, 60, 600),
        (CROWDED, 0, 12),
    ];
    let wide = [
        (WIDE_TINY, 600, 6_000),
        (WIDE_MANY, 30, 600),
        (WIDE_MID, 0, 120),
    ];
    match form {
        Form::Narrow => counted(long, &narrow),
        Form::Wide => counted(long, &wide),
    }
}

/// The classes of damaged files.
pub fn damaged(form: Form, long: bool) -> Vec<Counted> {
    let sort = Sort::with_steps(form);
    match (form, long) {
        (Form::Narrow, false) => faulty(sort, 1_500, 8_000, 6_000),
        (Form::Narrow, true) => faulty(sort, 20_000, 150_000, 120_000),
        (Form::Wide, false) => faulty(sort, 300, 2_000, 2_000),
        (Form::Wide, true) => faulty(sort, 5_000, 30_000, 30_000),
    }
}

/// The classes of files for verdicts.
pub fn verdicts(form: Form, long: bool) -> Vec<Counted> {
    let sort = Sort::with_steps(form);
    let classes = match form {
        Form::Narrow => [
            vec![(TINY, 2_000), (SMALL, 1_000), (MID, 40), (MAXIMAL, 2)],
            faulty(sort, 1_000, 4_000, 6_000),
        ],
        Form::Wide => [
            vec![
                (WIDE_TINY, 600),
                (WIDE_SMALL, 300),
                (WIDE_MANY, 60),
                (WIDE_MAXIMAL, 1),
            ],
            faulty(sort, 150, 1_000, 1_000),
        ],
    };
    times(if long { 10 } else { 1 }, classes.concat())
}

/// The classes of lawful files for each class of lists.
pub fn lists(form: Form, long: bool) -> Vec<Counted> {
    let narrow = [
        (TINY, 1_000, 5_000),
        (SMALL, 600, 3_000),
        (TYPES_16, 150, 800),
        (MID, 20, 300),
        (MIXED, 10, 200),
        (Made::Steps(&Made::Alike(64)), 3, 30),
        (MAXIMAL, 1, 10),
    ];
    let wide = [
        (WIDE_TINY, 400, 3_000),
        (WIDE_SMALL, 200, 1_500),
        (WIDE_MID, 4, 60),
        (WIDE_MANY, 30, 400),
        (WIDE_STATE, 1, 30),
        (WIDE_MAXIMAL, 0, 2),
    ];
    match form {
        Form::Narrow => counted(long, &narrow),
        Form::Wide => counted(long, &wide),
    }
}

/// The classes of lawful narrow files for each class of lists that is rewritten in the wide form.
pub fn widened_lists(long: bool) -> Vec<Counted> {
    let classes = [
        (TINY, 300, 3_000),
        (SMALL, 150, 1_500),
        (MID, 4, 60),
        (MAXIMAL, 0, 2),
    ];
    counted(long, &classes)
}

/// The classes of lawful files whose lists are mended.
pub fn mended(form: Form, long: bool) -> Vec<Counted> {
    let narrow = [(TINY, 400, 3_000), (SMALL, 100, 800), (TYPES_16, 20, 120)];
    let wide = [(WIDE_TINY, 100, 1_000), (WIDE_SMALL, 30, 300)];
    match form {
        Form::Narrow => counted(long, &narrow),
        Form::Wide => counted(long, &wide),
    }
}

/// The classes of files, most of them damaged, for reviews.
pub fn damaged_with_lists(form: Form, long: bool) -> Vec<Counted> {
    let sort = Sort::with_steps(form);
    let classes = match form {
        Form::Narrow => [vec![(TINY, 200)], faulty(sort, 80, 400, 600)],
        Form::Wide => [vec![(WIDE_TINY, 100)], faulty(sort, 20, 100, 200)],
    };
    times(if long { 8 } else { 1 }, classes.concat())
}

/// The classes of files for lists and work areas of all lengths.
pub fn list_lengths(form: Form, long: bool) -> Vec<Counted> {
    let faults = Made::Faults(form);
    let narrow = [(TINY, 10, 60), (SMALL, 4, 20), (faults, 4, 20)];
    let wide = [
        (WIDE_TINY, 6, 40),
        (WIDE_SMALL, 2, 20),
        (WIDE_MANY, 1, 10),
        (faults, 4, 20),
    ];
    match form {
        Form::Narrow => counted(long, &narrow),
        Form::Wide => counted(long, &wide),
    }
}

/// The classes of files whose calls get areas of all lengths.
pub fn area_lengths(form: Form, long: bool) -> Vec<Counted> {
    let faults = Made::Faults(form);
    let narrow = [
        (TINY, 100, 1_000),
        (SMALL, 40, 400),
        (MID, 2, 20),
        (faults, 10, 100),
    ];
    let wide = [
        (WIDE_TINY, 30, 500),
        (WIDE_SMALL, 10, 200),
        (WIDE_MANY, 4, 60),
        (WIDE_STATE, 0, 4),
        (faults, 10, 100),
    ];
    match form {
        Form::Narrow => counted(long, &narrow),
        Form::Wide => counted(long, &wide),
    }
}

/// The classes of files whose calls are fenced.
pub fn fenced(form: Form, long: bool) -> Vec<Counted> {
    let sort = Sort::with_steps(form);
    let classes = match form {
        Form::Narrow => [
            vec![(TINY, 200), (SMALL, 150), (MID, 2)],
            faulty(sort, 60, 200, 300),
        ],
        Form::Wide => [
            vec![(WIDE_TINY, 60), (WIDE_SMALL, 30), (WIDE_MANY, 6)],
            faulty(sort, 15, 60, 100),
        ],
    };
    times(if long { 20 } else { 1 }, classes.concat())
}

/// The classes of files whose reviews are fenced.
pub fn fenced_lists(form: Form, long: bool) -> Vec<Counted> {
    let sort = Sort::with_steps(form);
    let classes = match form {
        Form::Narrow => [
            vec![(TINY, 300), (SMALL, 150), (MID, 4)],
            faulty(sort, 20, 60, 150),
        ],
        Form::Wide => [
            vec![(WIDE_TINY, 100), (WIDE_SMALL, 50), (WIDE_MANY, 10)],
            faulty(sort, 5, 20, 50),
        ],
    };
    times(if long { 8 } else { 1 }, classes.concat())
}

/// The classes of files that the program is run on.
pub fn printed(form: Form, long: bool) -> Vec<Counted> {
    let sort = Sort::with_steps(form);
    let narrow = [
        (TINY, 60, 600),
        (SMALL, 60, 600),
        (MID, 6, 60),
        (MAXIMAL, 1, 6),
        (Made::Faults(form), 40, 400),
        (Made::Torn(sort), 30, 300),
    ];
    let wide = [
        (WIDE_TINY, 30, 300),
        (WIDE_SMALL, 20, 200),
        (WIDE_MANY, 20, 200),
        (Made::Faults(form), 20, 200),
        (Made::Torn(sort), 10, 100),
    ];
    match form {
        Form::Narrow => counted(long, &narrow),
        Form::Wide => counted(long, &wide),
    }
}

/// The classes of choices by a list of steps: a name, the least and the most places, and how many cases.
pub fn choices(long: bool) -> Vec<(&'static str, (usize, usize), usize)> {
    let times = if long { 10 } else { 1 };
    vec![
        ("choose, steps, up to 12", (0, 12), 12_000 * times),
        ("choose, steps, up to 80", (13, 80), 1_000 * times),
        ("choose, steps, up to 512", (81, 512), 200 * times),
        ("choose, steps, 512", (512, 512), 50 * times),
    ]
}
