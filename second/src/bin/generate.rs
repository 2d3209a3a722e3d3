//! Writes generated round files: `generate CLASS SEED [COUNT] [--into DIR]`.

use second::generate::{
    boundary, damaged, lawful, steps_boundary, steps_damaged, steps_two_faults, two_faults,
    wide_boundary, wide_damaged, wide_steps_damaged, wide_steps_two_faults, wide_two_faults, Class,
    Damaged, Expected, QUESTIONS, STEPS_QUESTIONS,
};
use std::io::{self, Write};
use std::path::Path;
use std::process::ExitCode;

const USAGE: &str = "generate CLASS SEED [COUNT] [--into DIR]
CLASS is tiny, small, mid, maximal, contested, crowded, refused-1 to refused-13, damaged (any of these), two-faults or boundary;
or, for wide rounds, wide-tiny, wide-small, wide-mid, wide-many, wide-state, wide-maximal, wide-contested, wide-refused-1 to
wide-refused-13, wide-damaged, wide-two-faults or wide-boundary;
or, for rounds with step lists, steps- and tiny, small, mid, maximal, contested, crowded, refused-1 to refused-13, refused-17,
refused-18, damaged, two-faults or boundary (of both forms), or wide-steps- and tiny, small, mid, many, maximal, refused-1 to
refused-13, refused-17, refused-18, damaged or two-faults.
Without --into, one file goes to standard output. With it, COUNT files for SEED and the seeds after it go to DIR,
beside each refused one the line it is made for. The files of the boundaries are fixed: SEED is the number of the first, and all are COUNT.";

/// A file with its name and, where it is made for a refusal, that refusal.
struct Made {
    name: String,
    file: Vec<u8>,
    refusal: Option<(u8, usize)>,
}

/// The damaged file as a made one.
fn from_damaged(class: &str, seed: u64, made: Damaged) -> Made {
    Made {
        name: format!("{class}-{seed}"),
        file: made.file,
        refusal: Some((made.number, made.offset)),
    }
}

/// The file of a class for a seed.
fn make(class: &str, seed: u64) -> Option<Made> {
    if let Some(&known) = Class::ALL.iter().find(|known| known.name() == class) {
        return Some(Made {
            name: format!("{class}-{seed}"),
            file: lawful(known, seed),
            refusal: None,
        });
    }
    if let Some(ways) = WAYS.iter().find(|ways| class == ways.of("damaged")) {
        let number = ways.numbers[seed as usize % ways.numbers.len()];
        return Some(from_damaged(class, seed, (ways.damaged)(number, seed)));
    }
    if let Some(ways) = WAYS.iter().find(|ways| class == ways.of("two-faults")) {
        return Some(from_damaged(class, seed, (ways.two_faults)(seed)));
    }
    match fixed(class) {
        Some(files) => Some(from_fixed(class, files.into_iter().nth(seed as usize)?)),
        None => refused(class, seed),
    }
}

/// How the files of classes whose names begin alike are damaged, and for which questions.
struct Ways {
    lead: &'static str,
    damaged: fn(u8, u64) -> Damaged,
    two_faults: fn(u64) -> Damaged,
    numbers: &'static [u8],
}

impl Ways {
    /// The name of a class.
    fn of(&self, name: &str) -> String {
        format!("{}{name}", self.lead)
    }
}

/// The ways for files of both forms, without step lists and with them.
const WAYS: [Ways; 4] = [
    Ways {
        lead: "",
        damaged,
        two_faults,
        numbers: &QUESTIONS,
    },
    Ways {
        lead: "wide-",
        damaged: wide_damaged,
        two_faults: wide_two_faults,
        numbers: &QUESTIONS,
    },
    Ways {
        lead: "steps-",
        damaged: steps_damaged,
        two_faults: steps_two_faults,
        numbers: &STEPS_QUESTIONS,
    },
    Ways {
        lead: "wide-steps-",
        damaged: wide_steps_damaged,
        two_faults: wide_steps_two_faults,
        numbers: &STEPS_QUESTIONS,
    },
];

/// A file with its name and what it is expected to give.
type Fixed = (String, Vec<u8>, Expected);

/// The files of a class that are fixed.
fn fixed(class: &str) -> Option<Vec<Fixed>> {
    match class {
        "boundary" => Some(boundary()),
        "wide-boundary" => Some(wide_boundary()),
        "steps-boundary" => Some(steps_boundary()),
        _ => None,
    }
}

/// The fixed file as a made one.
fn from_fixed(class: &str, (name, file, expected): Fixed) -> Made {
    let refusal = match expected {
        Expected::Passes => None,
        Expected::Refused { number, offset } => Some((number, offset)),
    };
    Made {
        name: format!("{class}-{name}"),
        file,
        refusal,
    }
}

/// The file of a class that is named by the question it is made for.
fn refused(class: &str, seed: u64) -> Option<Made> {
    let ways = WAYS.iter().find_map(|ways| {
        let number = class.strip_prefix(&ways.of("refused-"))?;
        Some((ways, number.parse().ok()?))
    });
    let (ways, number) = ways.filter(|(ways, number)| ways.numbers.contains(number))?;
    Some(from_damaged(class, seed, (ways.damaged)(number, seed)))
}

/// Writes a made file, and the refusal it is made for, to a folder, which is made where it is missing.
fn put(folder: &Path, made: &Made) -> io::Result<()> {
    std::fs::create_dir_all(folder)?;
    std::fs::write(folder.join(format!("{}.round", made.name)), &made.file)?;
    if let Some((number, offset)) = made.refusal {
        let line = format!("refused {number} at {offset}\n");
        std::fs::write(folder.join(format!("{}.expected", made.name)), line)?;
    }
    Ok(())
}

/// Carries out the command; tells whether it was understood.
fn run(mut words: Vec<String>) -> io::Result<bool> {
    let mut into = None;
    if let Some(place) = words.iter().position(|word| word == "--into") {
        if place + 1 >= words.len() {
            return Ok(false);
        }
        into = Some(words.remove(place + 1));
        words.remove(place);
    }
    let (Some(class), Some(Ok(seed))) =
        (words.first(), words.get(1).map(|word| word.parse::<u64>()))
    else {
        return Ok(false);
    };
    let count = match words.get(2).map(|word| word.parse::<u64>()) {
        None => match fixed(class) {
            Some(files) if into.is_some() => files.len() as u64 - seed,
            _ => 1,
        },
        Some(Ok(count)) => count,
        Some(Err(_)) => return Ok(false),
    };
    for seed in seed..seed + count {
        let Some(made) = make(class, seed) else {
            return Ok(false);
        };
        match &into {
            Some(folder) => put(Path::new(folder), &made)?,
            None => {
                io::stdout().write_all(&made.file)?;
                break;
            }
        }
    }
    Ok(true)
}

fn main() -> io::Result<ExitCode> {
    if run(std::env::args().skip(1).collect())? {
        Ok(ExitCode::SUCCESS)
    } else {
        eprintln!("{USAGE}");
        Ok(ExitCode::FAILURE)
    }
}
