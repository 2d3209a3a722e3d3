//! Compares the unit with the second program, class by class.

use evidence::classes::Run;
use evidence::lists::Listed;
use evidence::program::Program;
use evidence::sort::Sort;
use evidence::tally::Tally;
use evidence::{fenced, fenced_reviews, relisting, widening};
use evidence::{plan, steps_plan};
use std::path::{Path, PathBuf};
use std::process::ExitCode;

const USAGE: &str = "compare [--long] [--seed S] [--only NAMES] [--rounds DIR] [--keep DIR] [--program PATH]
--long runs 646,000 lawful rounds, 209,000 of them wide, 197,000 with lists of steps and 200,000 in other orders; 2,385,000 damaged files,
665,000 of them wide and 885,000 with lists of steps; 290,000 narrow rounds rewritten in the wide form, 94,000 rounds rewritten with
lists of steps, and over 1,000,000 reviews; --seed takes other
made files; --only runs the classes whose names begin with one of these, parted by commas; --rounds is the folder of worked rounds;
--keep is the folder that gets the first differing input of a class; --program is the unit's program, run on files and pipes.";

/// The words of the command.
struct Words {
    run: Run,
    only: Vec<String>,
    rounds: PathBuf,
    keep: PathBuf,
    program: Option<PathBuf>,
    alone: Option<String>,
}

/// Reads the words of the command.
fn words() -> Option<Words> {
    let mut words = Words {
        run: Run {
            seed: 1,
            long: false,
        },
        only: vec![String::new()],
        rounds: PathBuf::from("rounds"),
        keep: PathBuf::from("target/compare"),
        program: None,
        alone: None,
    };
    let mut given = std::env::args().skip(1);
    while let Some(word) = given.next() {
        match word.as_str() {
            "--long" => words.run.long = true,
            "--seed" => words.run.seed = given.next()?.parse().ok()?,
            "--only" => words.only = given.next()?.split(',').map(str::to_string).collect(),
            "--rounds" => words.rounds = given.next()?.into(),
            "--keep" => words.keep = given.next()?.into(),
            "--program" => words.program = Some(given.next()?.into()),
            "--alone" => words.alone = Some(given.next()?),
            _ => return None,
        }
    }
    Some(words)
}

/// The classes run so far.
struct Book {
    only: Vec<String>,
    keep: PathBuf,
    compared: usize,
    passed: usize,
    failed: usize,
}

impl Book {
    /// Runs a class if it is asked for, and prints its line and its first differing case, whose input is kept.
    fn class(&mut self, name: &str, run: impl FnOnce() -> Tally) {
        if !self.only.iter().any(|wanted| name.starts_with(wanted)) {
            return;
        }
        let tally = run();
        println!("{}", tally.line());
        self.compared += tally.compared;
        if tally.passed() {
            self.passed += 1;
            return;
        }
        self.failed += 1;
        for came in tally.lacking() {
            println!("  no case came to {came:?}");
        }
        let Some(difference) = tally.first else {
            println!("  no case differed, of {}", tally.compared);
            return;
        };
        print!("{}", difference.text());
        self.kept(name, "round", &difference.input);
        if let Some(list) = difference.list {
            self.kept(name, "list", &list);
        }
    }

    /// Keeps bytes of the first differing case of a class, and says where.
    fn kept(&self, name: &str, end: &str, bytes: &[u8]) {
        let name = name.replace(", ", "-").replace(' ', "-");
        let path = self.keep.join(name).with_extension(end);
        let kept = std::fs::create_dir_all(&self.keep).and_then(|()| std::fs::write(&path, bytes));
        if kept.is_ok() {
            println!("  the {end} is kept in {}", path.display());
        }
    }
}

/// The classes of allotment calls and verdicts on files of a sort.
fn calls(book: &mut Book, run: &Run, sort: Sort, rounds: &Path) {
    book.class(&sort.named("boundary"), || run.boundary(sort));
    let made = plan::lawful(sort, run.long)
        .into_iter()
        .chain(plan::damaged(sort, run.long));
    for (made, count) in made {
        book.class(&made.name(), || run.class(made, count));
    }
    if sort == Sort::ALL[0] {
        book.class("orders, rounds", || run.rounds_in_order(rounds));
    }
    for (made, count) in plan::orders(sort, run.long) {
        let name = format!("orders, {}", made.name());
        book.class(&name, || run.class_in_order(&name, made, count));
    }
    book.class(&sort.named("a, one byte changed"), || run.changed(sort));
    book.class(&sort.named("a, cut and extended"), || run.cut(sort));
    let name = sort.named("a, every area length");
    book.class(&name, || run.every_length(sort));
    book.class(&sort.named("area lengths"), || run.lengths(sort, rounds));
    book.class(&sort.named("verdict"), || run.verdicts(sort, rounds));
}

/// The classes of reviews for rounds of a sort.
fn reviews(book: &mut Book, run: &Run, sort: Sort, rounds: &Path) {
    let name = sort.named("review, every list");
    book.class(&name, || run.every_list(sort, rounds));
    for listed in Listed::all(sort) {
        let files = plan::lists(sort, run.long);
        book.class(&sort.named(listed.name()), || {
            run.lists(sort, listed, &files)
        });
    }
    let files = plan::mended(sort, run.long);
    book.class(&sort.named("review, mended"), || run.mended(sort, &files));
    let name = sort.named("review, damaged files");
    book.class(&name, || run.damaged_with_lists(sort));
    let name = sort.named("review, lengths");
    book.class(&name, || run.list_lengths(sort, rounds));
}

fn main() -> ExitCode {
    let Some(words) = words() else {
        eprintln!("{USAGE}");
        return ExitCode::from(2);
    };
    let (run, rounds) = (words.run, words.rounds);
    if let Some(class) = words.alone {
        let made = match class.as_str() {
            fenced_reviews::NAME => fenced_reviews::alone(&run, &rounds),
            _ => fenced::alone(&run, &rounds),
        };
        return match made {
            Ok(()) => ExitCode::SUCCESS,
            Err(_) => ExitCode::FAILURE,
        };
    }
    let mut book = Book {
        only: words.only,
        keep: words.keep.clone(),
        compared: 0,
        passed: 0,
        failed: 0,
    };
    println!(
        "the unit against the second program, seed {}, {} form",
        run.seed,
        if run.long { "long" } else { "short" }
    );
    println!("{}", Tally::header());
    book.class("rounds", || run.rounds(&rounds));
    for sort in Sort::ALL {
        calls(&mut book, &run, sort, &rounds);
    }
    book.class(widening::CALLS, || run.widened(&rounds));
    book.class(relisting::CALLS, || run.relisted(&rounds));
    for (name, places, count) in plan::choices(run.long) {
        book.class(name, || run.choices(name, places, count));
    }
    for (name, places, count) in steps_plan::choices(run.long) {
        book.class(name, || run.choices_by_steps(name, places, count));
    }
    let times = if run.long { 10 } else { 1 };
    book.class("choose, stray marks", || run.stray(2_000 * times));
    book.class("choose, types", || run.of_types(8_000 * times));
    book.class(fenced::NAME, || fenced::class(&run, &rounds));
    book.class("review, worked", || run.worked_lists(&rounds));
    for sort in Sort::ALL {
        reviews(&mut book, &run, sort, &rounds);
    }
    book.class(widening::REVIEWS, || run.widened_reviews(&rounds));
    book.class(relisting::REVIEWS, || run.relisted_reviews(&rounds));
    book.class(fenced_reviews::NAME, || {
        fenced_reviews::class(&run, &rounds)
    });
    if let Some(path) = words.program {
        let program = Program {
            path,
            scratch: words.keep,
        };
        for (name, class) in program.classes() {
            book.class(name, || class(&program, &run, &rounds));
        }
    }
    println!(
        "{} comparisons in all; a class counts as one below",
        book.compared
    );
    println!("{} passed, {} failed", book.passed, book.failed);
    if book.failed == 0 && book.passed > 0 {
        ExitCode::SUCCESS
    } else {
        ExitCode::FAILURE
    }
}
