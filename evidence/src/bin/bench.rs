//! Times the unit and the second program on the same files: `bench PAGE PLOT`, `bench --stack` for the stack alone,
//! `bench --file CLASS SEED`, which writes a file of a class to standard output, or `bench --against FOLDER`, which times an older
//! archive and the new one, linked as the shared objects of a folder.

use evidence::against::{self, Pair, PLACES};
use evidence::files::Made;
use evidence::measure::{classes, growth, lengthening, reviews};
use evidence::measure::{measure, measure_review, Measured};
use evidence::shared::Shared;
use evidence::{plot, stack, table};
use std::io::Write;
use std::path::Path;
use std::process::ExitCode;

/// Measures classes one after the other in a way, and tells each.
fn measured(
    classes: Vec<(String, Made, Vec<u64>)>,
    measure: fn(&str, Made, &[u64]) -> Measured,
) -> Vec<Measured> {
    classes
        .into_iter()
        .map(|(name, made, seeds)| {
            let row = measure(&name, made, &seeds);
            println!(
                "{name}: unit {:.1} µs (best {:.1}), second {:.1} µs (best {:.1}), ratio {:.1}",
                row.unit.median,
                row.unit.best,
                row.second.median,
                row.second.best,
                row.ratio()
            );
            row
        })
        .collect()
}

/// The file of a timed class, by the class's name and a seed.
fn file_of(name: &str, seed: &str) -> Option<Vec<u8>> {
    let seed = seed.parse().ok()?;
    let timed = [classes(), growth(), lengthening(), reviews()].concat();
    let (_, made, _) = timed.into_iter().find(|(known, _, _)| known == name)?;
    Some(made.file(seed))
}

/// Opens a shared object, or says why it cannot be.
fn opened(path: &str) -> Option<Shared> {
    Shared::open(path)
        .inspect_err(|reason| eprintln!("not opened: {path} ({reason})"))
        .ok()
}

/// The older archive and the new one at each place.
fn pairs(folder: &str) -> Option<Vec<Pair>> {
    let at = |name, place| opened(&format!("{folder}/{name}-{place}.so"));
    (PLACES.iter())
        .map(|place| Some([at("old", place)?, at("new", place)?]))
        .collect()
}

/// Times an older archive and the new one, tells each class and where the answers differ, and whether they nowhere do.
fn alike(pairs: &[Pair]) -> bool {
    println!("{}", table::AGAINST);
    let mut differing = 0;
    for row in against::measure(pairs) {
        println!("{}", table::against(&row));
        for number in &row.differing {
            eprintln!("the answers differ: {}, file {number}", row.name);
        }
        differing += row.differing.len();
    }
    println!("\nfiles on which the answers differ: {differing}");
    differing == 0
}

/// Writes a file, says where, and tells whether it could.
fn put(path: &str, text: &str) -> bool {
    let written = std::fs::write(path, text);
    match &written {
        Ok(()) => println!("written: {path}"),
        Err(error) => eprintln!("not written: {path} ({error})"),
    }
    written.is_ok()
}

fn main() -> ExitCode {
    let words: Vec<String> = std::env::args().skip(1).collect();
    let words: Vec<&str> = words.iter().map(String::as_str).collect();
    let done = match words[..] {
        ["--stack"] => {
            print!("{}", stack::text());
            true
        }
        ["--file", name, seed] => match file_of(name, seed) {
            Some(file) => std::io::stdout().write_all(&file).is_ok(),
            None => {
                eprintln!("no such class or seed: {name} {seed}");
                false
            }
        },
        ["--against", folder] => pairs(folder).is_some_and(|pairs| alike(&pairs)),
        [page, picture] => {
            let (classes, growth) = (measured(classes(), measure), measured(growth(), measure));
            let lengthening = measured(lengthening(), measure);
            println!("reviews of the unit's own lists");
            let reviews = measured(reviews(), measure_review);
            let name = Path::new(picture).file_name().unwrap_or_default();
            let name = name.to_string_lossy();
            let stack = stack::text();
            let text = table::page(&classes, &growth, &lengthening, &reviews, &stack, &name);
            put(page, &text) && put(picture, &plot::plot(&growth))
        }
        _ => {
            eprintln!("bench PAGE PLOT | bench --stack | bench --file CLASS SEED | bench --against FOLDER");
            return ExitCode::from(2);
        }
    };
    if done {
        ExitCode::SUCCESS
    } else {
        ExitCode::FAILURE
    }
}
