//! How many cases of each class are run.

use crate::files::Made;
use crate::sort::Sort;
use crate::steps_plan;
use crate::tally::Came;
use second::form::Form;
use second::generate::{Class, QUESTIONS, STEPS_QUESTIONS};

/// A class of files with how many of it.
pub type Counted = (Made, usize);

/// The classes with how many of each, in the short or the long form; those that the short form has none of are left out.
pub fn counted(long: bool, classes: &[(Made, usize, usize)]) -> Vec<Counted> {
    classes
        .iter()
        .map(|&(made, short, more)| (made, if long { more } else { short }))
        .filter(|&(_, count)| count > 0)
        .collect()
}

/// So many times as many of each class.
pub fn times(times: usize, classes: Vec<Counted>) -> Vec<Counted> {
    let classes = classes.into_iter();
    classes.map(|(made, count)| (made, count * times)).collect()
}

/// The refusals that lists of steps alone can have, where a class of this sort is to have cases of each.
pub fn of_steps(sort: Sort) -> &'static [Came] {
    match sort.own_steps {
        true => &[Came::Refused(17), Came::Refused(18)],
        false => &[],
    }
}

/// The classes made for each refusal, so many of each, and those with several faults and with random bytes changed.
pub fn faulty(sort: Sort, each: usize, several: usize, torn: usize) -> Vec<Counted> {
    let numbers: &[u8] = match sort.own_steps {
        true => &STEPS_QUESTIONS,
        false => &QUESTIONS,
    };
    let mut classes: Vec<Counted> = (numbers.iter())
        .map(|&number| (Made::Refused(sort, number), each))
        .collect();
    classes.push((Made::TwoFaults(sort), several));
    if sort.own_steps {
        classes.push((Made::Faults(sort.form), several));
    }
    classes.push((Made::Torn(sort), torn));
    classes
}

/// The classes of lawful files; the short form has none of the slowest.
pub fn lawful(sort: Sort, long: bool) -> Vec<Counted> {
    if sort.own_steps {
        return steps_plan::lawful(sort.form, long);
    }
    let narrow = [
        (Made::Lawful(Class::Tiny), 20_000, 60_000),
        (Made::Lawful(Class::Small), 8_000, 30_000),
        (Made::Lawful(Class::Mid), 1_000, 10_000),
        (Made::Mixed, 400, 6_000),
        (Made::Broad, 300, 6_000),
        (Made::Contested(64), 60, 1_000),
        (Made::Contested(128), 12, 200),
        (Made::Contested(256), 3, 40),
        (Made::Lawful(Class::Maximal), 10, 400),
        (Made::Lawful(Class::Contested), 3, 100),
        (Made::Lawful(Class::Crowded), 6, 200),
        (Made::Worst(16), 2_000, 20_000),
        (Made::Worst(48), 200, 2_000),
        (Made::Worst(128), 20, 400),
        (Made::Worst(256), 4, 40),
        (Made::Worst(512), 0, 12),
        (Made::Types(16), 3_000, 30_000),
        (Made::Types(32), 1_000, 10_000),
        (Made::Types(64), 200, 2_000),
        (Made::Types(512), 1, 20),
    ];
    let wide = [
        (Made::Lawful(Class::WideTiny), 6_000, 60_000),
        (Made::Lawful(Class::WideSmall), 3_000, 30_000),
        (Made::Lawful(Class::WideMid), 200, 4_000),
        (Made::Lawful(Class::WideMany), 600, 10_000),
        (Made::Lawful(Class::WideState), 40, 1_000),
        (Made::Lawful(Class::WideMaximal), 2, 40),
        (Made::Lawful(Class::WideContested), 1, 12),
    ];
    match sort.form {
        Form::Narrow => counted(long, &narrow),
        Form::Wide => counted(long, &wide),
    }
}

/// The classes of lawful files on which the second program goes in other orders, the six orders in turn.
pub fn orders(sort: Sort, long: bool) -> Vec<Counted> {
    if sort.own_steps {
        return steps_plan::orders(sort.form, long);
    }
    let narrow = [
        (Made::Lawful(Class::Tiny), 12_000, 60_000),
        (Made::Lawful(Class::Small), 6_000, 30_000),
        (Made::Lawful(Class::Mid), 600, 6_000),
        (Made::Mixed, 240, 3_000),
        (Made::Broad, 300, 3_000),
        (Made::Contested(64), 240, 1_200),
        (Made::Contested(128), 60, 180),
        (Made::Contested(256), 12, 36),
        (Made::Lawful(Class::Maximal), 18, 240),
        (Made::Lawful(Class::Contested), 6, 36),
        (Made::Lawful(Class::Crowded), 6, 48),
        (Made::Worst(128), 24, 120),
        (Made::Worst(256), 0, 18),
        (Made::Types(16), 1_200, 12_000),
        (Made::Types(32), 600, 3_000),
        (Made::Types(64), 60, 600),
    ];
    let wide = [
        (Made::Lawful(Class::WideTiny), 3_000, 30_000),
        (Made::Lawful(Class::WideSmall), 1_200, 12_000),
        (Made::Lawful(Class::WideMid), 60, 1_200),
        (Made::Lawful(Class::WideMany), 180, 3_000),
        (Made::Lawful(Class::WideState), 12, 300),
        (Made::Lawful(Class::WideMaximal), 0, 12),
        (Made::Lawful(Class::WideContested), 0, 6),
    ];
    match sort.form {
        Form::Narrow => counted(long, &narrow),
        Form::Wide => counted(long, &wide),
    }
}

/// The classes of damaged files.
pub fn damaged(sort: Sort, long: bool) -> Vec<Counted> {
    if sort.own_steps {
        return steps_plan::damaged(sort.form, long);
    }
    match (sort.form, long) {
        (Form::Narrow, false) => faulty(sort, 3_000, 6_000, 10_000),
        (Form::Narrow, true) => faulty(sort, 40_000, 180_000, 300_000),
        (Form::Wide, false) => faulty(sort, 800, 3_000, 5_000),
        (Form::Wide, true) => faulty(sort, 20_000, 90_000, 150_000),
    }
}

/// The classes of files for verdicts.
pub fn verdicts(sort: Sort, long: bool) -> Vec<Counted> {
    if sort.own_steps {
        return steps_plan::verdicts(sort.form, long);
    }
    let lawful = match sort.form {
        Form::Narrow => vec![
            (Made::Lawful(Class::Tiny), 4_000),
            (Made::Lawful(Class::Small), 2_000),
            (Made::Lawful(Class::Mid), 200),
            (Made::Mixed, 300),
            (Made::Lawful(Class::Maximal), 10),
        ],
        Form::Wide => vec![
            (Made::Lawful(Class::WideTiny), 2_000),
            (Made::Lawful(Class::WideSmall), 1_000),
            (Made::Lawful(Class::WideMid), 40),
            (Made::Lawful(Class::WideMany), 200),
            (Made::Lawful(Class::WideState), 10),
            (Made::Lawful(Class::WideMaximal), 1),
        ],
    };
    let faulty = match sort.form {
        Form::Narrow => faulty(sort, 2_000, 8_000, 14_000),
        Form::Wide => faulty(sort, 500, 2_000, 4_000),
    };
    times(if long { 10 } else { 1 }, [lawful, faulty].concat())
}

/// The classes of lawful files for each class of lists.
pub fn lists(sort: Sort, long: bool) -> Vec<Counted> {
    if sort.own_steps {
        return steps_plan::lists(sort.form, long);
    }
    let narrow = [
        (Made::Lawful(Class::Tiny), 2_000, 6_000),
        (Made::Lawful(Class::Small), 1_500, 4_000),
        (Made::Types(16), 400, 1_200),
        (Made::Worst(16), 200, 600),
        (Made::Lawful(Class::Mid), 200, 1_500),
        (Made::Mixed, 100, 1_000),
        (Made::Broad, 100, 1_000),
        (Made::Types(64), 20, 200),
        (Made::Contested(64), 10, 100),
        (Made::Alike(64), 10, 60),
        (Made::Alike(512), 1, 4),
        (Made::Worst(128), 3, 30),
        (Made::Lawful(Class::Maximal), 3, 40),
        (Made::Lawful(Class::Crowded), 1, 8),
        (Made::Lawful(Class::Contested), 1, 8),
    ];
    let wide = [
        (Made::Lawful(Class::WideTiny), 1_000, 5_000),
        (Made::Lawful(Class::WideSmall), 500, 3_000),
        (Made::Lawful(Class::WideMid), 20, 300),
        (Made::Lawful(Class::WideMany), 100, 1_000),
        (Made::Lawful(Class::WideState), 6, 100),
        (Made::Lawful(Class::WideMaximal), 0, 4),
        (Made::Lawful(Class::WideContested), 0, 1),
    ];
    match sort.form {
        Form::Narrow => counted(long, &narrow),
        Form::Wide => counted(long, &wide),
    }
}

/// The classes of lawful narrow files for each class of lists that is rewritten in the wide form.
pub fn widened_lists(sort: Sort, long: bool) -> Vec<Counted> {
    if sort.own_steps {
        return steps_plan::widened_lists(long);
    }
    let classes = [
        (Made::Lawful(Class::Tiny), 600, 6_000),
        (Made::Lawful(Class::Small), 300, 3_000),
        (Made::Types(16), 100, 1_000),
        (Made::Worst(16), 50, 500),
        (Made::Lawful(Class::Mid), 20, 300),
        (Made::Mixed, 20, 300),
        (Made::Broad, 20, 300),
        (Made::Alike(64), 2, 20),
        (Made::Lawful(Class::Maximal), 1, 10),
        (Made::Lawful(Class::Contested), 0, 4),
    ];
    counted(long, &classes)
}

/// The classes of lawful files of a form that are rewritten with lists of steps.
pub fn relisted(form: Form, long: bool) -> Vec<Counted> {
    let classes = lawful(Sort::by_policy(form), long).into_iter();
    classes
        .map(|(made, count)| (made, count.div_ceil(3)))
        .collect()
}

/// The classes of lawful files of a form for each class of lists whose files are rewritten with lists of steps.
pub fn relisted_lists(form: Form, long: bool) -> Vec<Counted> {
    let narrow = [
        (Made::Lawful(Class::Tiny), 400, 4_000),
        (Made::Lawful(Class::Small), 200, 2_000),
        (Made::Types(16), 60, 600),
        (Made::Lawful(Class::Mid), 10, 150),
        (Made::Lawful(Class::Maximal), 1, 6),
    ];
    let wide = [
        (Made::Lawful(Class::WideTiny), 100, 1_500),
        (Made::Lawful(Class::WideSmall), 50, 700),
        (Made::Lawful(Class::WideMany), 10, 150),
    ];
    match form {
        Form::Narrow => counted(long, &narrow),
        Form::Wide => counted(long, &wide),
    }
}

/// As many reviews of a list that is mended are made at most.
pub const MENDED_MOST: usize = 200;

/// The classes of lawful files whose lists are mended.
pub fn mended(sort: Sort, long: bool) -> Vec<Counted> {
    if sort.own_steps {
        return steps_plan::mended(sort.form, long);
    }
    let narrow = [
        (Made::Lawful(Class::Tiny), 800, 4_800),
        (Made::Lawful(Class::Small), 200, 1_200),
        (Made::Types(16), 40, 240),
        (Made::Lawful(Class::Mid), 4, 24),
    ];
    let wide = [
        (Made::Lawful(Class::WideTiny), 300, 3_000),
        (Made::Lawful(Class::WideSmall), 100, 1_000),
        (Made::Lawful(Class::WideMany), 40, 400),
        (Made::Lawful(Class::WideMid), 1, 12),
    ];
    match sort.form {
        Form::Narrow => counted(long, &narrow),
        Form::Wide => counted(long, &wide),
    }
}

/// The classes of damaged files for reviews.
pub fn damaged_with_lists(sort: Sort, long: bool) -> Vec<Counted> {
    if sort.own_steps {
        return steps_plan::damaged_with_lists(sort.form, long);
    }
    let times = if long { 8 } else { 1 };
    match sort.form {
        Form::Narrow => faulty(sort, 150 * times, 400 * times, 2_000 * times),
        Form::Wide => faulty(sort, 60 * times, 200 * times, 1_000 * times),
    }
}

/// The classes of files for lists and work areas of all lengths.
pub fn list_lengths(sort: Sort, long: bool) -> Vec<Counted> {
    if sort.own_steps {
        return steps_plan::list_lengths(sort.form, long);
    }
    let narrow = [
        (Made::Lawful(Class::Tiny), 20, 100),
        (Made::Lawful(Class::Small), 6, 30),
        (Made::Lawful(Class::Mid), 1, 5),
        (Made::TwoFaults(sort), 6, 30),
    ];
    let wide = [
        (Made::Lawful(Class::WideTiny), 12, 100),
        (Made::Lawful(Class::WideSmall), 4, 30),
        (Made::Lawful(Class::WideMany), 2, 20),
        (Made::Lawful(Class::WideState), 0, 3),
        (Made::TwoFaults(sort), 6, 30),
    ];
    match sort.form {
        Form::Narrow => counted(long, &narrow),
        Form::Wide => counted(long, &wide),
    }
}

/// The classes of files whose calls get areas of all lengths.
pub fn area_lengths(sort: Sort, long: bool) -> Vec<Counted> {
    if sort.own_steps {
        return steps_plan::area_lengths(sort.form, long);
    }
    let narrow = [
        (Made::Lawful(Class::Tiny), 150, 1_500),
        (Made::Lawful(Class::Small), 50, 500),
        (Made::Lawful(Class::Mid), 4, 40),
        (Made::TwoFaults(sort), 20, 200),
    ];
    let wide = [
        (Made::Lawful(Class::WideTiny), 60, 1_000),
        (Made::Lawful(Class::WideSmall), 20, 300),
        (Made::Lawful(Class::WideMany), 6, 100),
        (Made::Lawful(Class::WideState), 0, 6),
        (Made::TwoFaults(sort), 20, 200),
    ];
    match sort.form {
        Form::Narrow => counted(long, &narrow),
        Form::Wide => counted(long, &wide),
    }
}

/// The classes of files whose calls are fenced.
pub fn fenced(sort: Sort, long: bool) -> Vec<Counted> {
    if sort.own_steps {
        return steps_plan::fenced(sort.form, long);
    }
    let times = if long { 20 } else { 1 };
    let (lawful, faulty) = match sort.form {
        Form::Narrow => (
            vec![
                (Made::Lawful(Class::Tiny), 300 * times),
                (Made::Lawful(Class::Small), 300 * times),
                (Made::Lawful(Class::Mid), 6 * times),
                (Made::Types(32), 30 * times),
            ],
            faulty(sort, 200 * times, 200 * times, 1_000 * times),
        ),
        Form::Wide => (
            vec![
                (Made::Lawful(Class::WideTiny), 200 * times),
                (Made::Lawful(Class::WideSmall), 100 * times),
                (Made::Lawful(Class::WideMid), 2 * times),
                (Made::Lawful(Class::WideMany), 20 * times),
                (Made::Lawful(Class::WideState), times),
            ],
            faulty(sort, 60 * times, 100 * times, 400 * times),
        ),
    };
    [lawful, faulty].concat()
}

/// The classes of files whose reviews are fenced.
pub fn fenced_lists(sort: Sort, long: bool) -> Vec<Counted> {
    if sort.own_steps {
        return steps_plan::fenced_lists(sort.form, long);
    }
    let times = if long { 8 } else { 1 };
    let (lawful, faulty) = match sort.form {
        Form::Narrow => (
            vec![
                (Made::Lawful(Class::Tiny), 800 * times),
                (Made::Lawful(Class::Small), 400 * times),
                (Made::Types(32), 40 * times),
                (Made::Lawful(Class::Mid), 16 * times),
                (Made::Lawful(Class::Maximal), 2),
            ],
            faulty(sort, 60 * times, 0, 400 * times),
        ),
        Form::Wide => (
            vec![
                (Made::Lawful(Class::WideTiny), 400 * times),
                (Made::Lawful(Class::WideSmall), 200 * times),
                (Made::Lawful(Class::WideMid), 2 * times),
                (Made::Lawful(Class::WideMany), 40 * times),
            ],
            faulty(sort, 20 * times, 0, 200 * times),
        ),
    };
    [lawful, faulty].concat()
}

/// The classes of files that the program is run on.
pub fn printed(sort: Sort, long: bool) -> Vec<Counted> {
    if sort.own_steps {
        return steps_plan::printed(sort.form, long);
    }
    let narrow = [
        (Made::Lawful(Class::Tiny), 100, 1_000),
        (Made::Lawful(Class::Small), 100, 1_000),
        (Made::Lawful(Class::Mid), 10, 100),
        (Made::Lawful(Class::Maximal), 1, 10),
        (Made::Types(32), 20, 200),
        (Made::TwoFaults(sort), 40, 400),
        (Made::Torn(sort), 60, 600),
    ];
    let wide = [
        (Made::Lawful(Class::WideTiny), 60, 800),
        (Made::Lawful(Class::WideSmall), 40, 400),
        (Made::Lawful(Class::WideMany), 40, 400),
        (Made::Lawful(Class::WideMid), 2, 20),
        (Made::Lawful(Class::WideState), 2, 20),
        (Made::TwoFaults(sort), 20, 300),
        (Made::Torn(sort), 40, 400),
    ];
    match sort.form {
        Form::Narrow => counted(long, &narrow),
        Form::Wide => counted(long, &wide),
    }
}

/// The classes of choices: a name, the least and the most places, and how many cases.
pub fn choices(long: bool) -> Vec<(&'static str, (usize, usize), usize)> {
    let times = if long { 10 } else { 1 };
    vec![
        ("choose, up to 12", (0, 12), 20_000 * times),
        ("choose, up to 80", (13, 80), 2_000 * times),
        ("choose, up to 512", (81, 512), 2_000 * times),
        ("choose, 512", (512, 512), 1_000 * times),
    ]
}
