//! The unit's program: what it prints for a round file on standard input, against what the second program prints.

use crate::classes::{worked_in, Run};
use crate::difference::Difference;
use crate::files::{at_edges, in_form, Made, A};
use crate::plan;
use crate::sort::Sort;
use crate::tally::{Came, Tally};
use second::form::Form;
use second::generate::Class as Size;
use second::printing::{print, MOST_INPUT};
use second::random::Random;
use std::fs::File;
use std::io::{self, Read, Write};
use std::path::{Path, PathBuf};
use std::process::{ChildStdin, Command, Stdio};
use std::time::Duration;

/// How the file reaches the program.
#[derive(Clone, Copy, PartialEq, Eq)]
enum Way {
    /// As a file.
    File,
    /// Through a pipe, whole.
    Pipe,
    /// Through a pipe, a few bytes at a time.
    Dribbled,
}

/// A class of runs of the program over the folder of worked rounds.
pub type Class = fn(&Program, &Run, &Path) -> Tally;

/// The program and the folder in which an input file is left for it.
pub struct Program {
    pub path: PathBuf,
    pub scratch: PathBuf,
}

/// The parts into which at most a dribbled file falls, and the time between two.
const PARTS: usize = 40;
const BETWEEN: Duration = Duration::from_micros(300);

/// Writes a file a few bytes at a time, each part after a pause in which the reader can take the one before.
fn dribble(random: &mut Random, mut to: ChildStdin, file: &[u8]) {
    let most = (2 * file.len() / PARTS).max(1);
    let mut rest = file;
    while !rest.is_empty() {
        let (part, behind) = rest.split_at(random.from_to(1, most.min(rest.len())));
        // A program that has read enough may close its end.
        if to.write_all(part).is_err() {
            return;
        }
        std::thread::sleep(BETWEEN);
        rest = behind;
    }
}

impl Program {
    /// What the program prints for a file that reaches it in a way, and behind it what it says on standard error: nothing where all is
    /// well.
    fn printed(&self, random: &mut Random, file: &[u8], way: Way) -> io::Result<String> {
        let mut command = Command::new(&self.path);
        command.stdout(Stdio::piped()).stderr(Stdio::piped());
        if way == Way::File {
            std::fs::create_dir_all(&self.scratch)?;
            let path = self.scratch.join("input");
            std::fs::write(&path, file)?;
            command.stdin(File::open(&path)?);
        } else {
            command.stdin(Stdio::piped());
        }
        let mut child = command.spawn()?;
        let mut printed = Vec::new();
        let input = child.stdin.take();
        let output = child.stdout.take();
        std::thread::scope(|scope| {
            scope.spawn(|| match (input, way) {
                (Some(to), Way::Dribbled) => dribble(random, to, file),
                (Some(mut to), _) => drop(to.write_all(file)),
                (None, _) => {}
            });
            output.map(|mut from| from.read_to_end(&mut printed))
        })
        .transpose()?;
        let mut text = String::from_utf8_lossy(&printed).into_owned();
        if let Some(mut from) = child.stderr.take() {
            from.read_to_string(&mut text)?;
        }
        let status = child.wait()?;
        if !status.success() {
            text.push_str(&format!("({status})\n"));
        }
        Ok(text)
    }

    /// Runs the program on one file and compares the whole text.
    fn compare(&self, random: &mut Random, tally: &mut Tally, file: &[u8], way: Way) {
        let said = self
            .printed(random, file, way)
            .unwrap_or_else(|error| format!("(not run: {error})\n"));
        let due = print(file);
        let difference = (said != due).then(|| Difference {
            asked: match way {
                Way::File => "the program, its input a file".to_string(),
                Way::Pipe => "the program, its input a pipe".to_string(),
                Way::Dribbled => {
                    "the program, its input a pipe with a few bytes at a time".to_string()
                }
            },
            input: file.to_vec(),
            list: None,
            unit: first_other_line(&said, &due),
            second: first_other_line(&due, &said),
        });
        tally.count(came(&due), difference);
    }

    /// The tally of one file in three, a few bytes at a time, which takes long.
    fn dribbled(&self, run: &Run, name: &str, files: Vec<Vec<u8>>) -> Tally {
        let files: Vec<Vec<u8>> = files.into_iter().step_by(3).collect();
        self.class(run, name, &files, Way::Dribbled)
    }

    /// The tally of these files in a way.
    fn class(&self, run: &Run, name: &str, files: &[Vec<u8>], way: Way) -> Tally {
        let mut random = run.random(name);
        let mut tally = Tally::new(name, files.len(), run.long);
        for file in files {
            self.compare(&mut random, &mut tally, file, way);
        }
        tally
    }

    /// The classes of the program, by name: the lines expected; files, pipes and short reads of narrow and of wide rounds; files of rounds with lists of steps; none and too much.
    pub fn classes(&self) -> [(&'static str, Class); 12] {
        [
            ("program, expected", |program, run, folder| {
                program.expected(run, folder)
            }),
            ("program, file", |program, run, folder| {
                let files = files(Sort::by_policy(Form::Narrow), run, folder);
                program.class(run, "program, file", &files, Way::File)
            }),
            ("program, pipe", |program, run, folder| {
                let files = files(Sort::by_policy(Form::Narrow), run, folder);
                program.class(run, "program, pipe", &files, Way::Pipe)
            }),
            ("program, dribbled", |program, run, folder| {
                let files = files(Sort::by_policy(Form::Narrow), run, folder);
                program.dribbled(run, "program, dribbled", files)
            }),
            ("program, wide file", |program, run, folder| {
                let files = files(Sort::by_policy(Form::Wide), run, folder);
                program.class(run, "program, wide file", &files, Way::File)
            }),
            ("program, wide pipe", |program, run, folder| {
                let files = files(Sort::by_policy(Form::Wide), run, folder);
                program.class(run, "program, wide pipe", &files, Way::Pipe)
            }),
            ("program, wide dribbled", |program, run, folder| {
                let files = files(Sort::by_policy(Form::Wide), run, folder);
                program.dribbled(run, "program, wide dribbled", files)
            }),
            ("program, steps", |program, run, folder| {
                let files = files(Sort::with_steps(Form::Narrow), run, folder);
                program.class(run, "program, steps", &files, Way::File)
            }),
            ("program, wide steps", |program, run, folder| {
                let files = files(Sort::with_steps(Form::Wide), run, folder);
                program.class(run, "program, wide steps", &files, Way::File)
            }),
            ("program, over-long", |program, run, _| {
                program.too_long(run, "program, over-long", Way::Pipe)
            }),
            ("program, over-long file", |program, run, _| {
                program.too_long(run, "program, over-long file", Way::File)
            }),
            ("program, over-long dribbled", |program, run, _| {
                program.too_long(run, "program, over-long dribbled", Way::Dribbled)
            }),
        ]
    }

    /// Inputs about the most bytes that are read, and none, in a way.
    fn too_long(&self, run: &Run, name: &str, way: Way) -> Tally {
        let due = [1, 13, 16].map(Came::Refused);
        self.class(run, name, &over_long(), way)
            .with(&[&due[..], &[Came::Accepted]].concat())
    }

    /// The worked rounds against the lines that stand beside them.
    fn expected(&self, run: &Run, folder: &Path) -> Tally {
        let name = "program, expected";
        let mut random = run.random(name);
        let mut tally = Tally::new(name, 0, run.long);
        for entry in std::fs::read_dir(folder).into_iter().flatten().flatten() {
            let path = entry.path();
            let Ok(due) = std::fs::read_to_string(path.with_extension("expected")) else {
                continue;
            };
            if path.extension().is_none_or(|end| end != "round") {
                continue;
            }
            let file = std::fs::read(&path).unwrap_or_default();
            let said = self
                .printed(&mut random, &file, Way::File)
                .unwrap_or_else(|error| format!("(not run: {error})\n"));
            let difference = (said != due).then(|| Difference {
                asked: format!("the program, the worked round {}", path.display()),
                input: file.clone(),
                list: None,
                unit: first_other_line(&said, &due),
                second: first_other_line(&due, &said),
            });
            tally.count(came(&due), difference);
        }
        tally
    }
}

/// What a printed text tells.
fn came(text: &str) -> Came {
    let number = text.strip_prefix("refused ").and_then(|rest| {
        let word = rest.split(' ').next()?;
        word.parse().ok()
    });
    number.map_or(Came::Accepted, Came::Refused)
}

/// The files of a sort that the program is run on: worked rounds, boundary files, of those with lists of steps one in forty, and made ones.
fn files(sort: Sort, run: &Run, folder: &Path) -> Vec<Vec<u8>> {
    let mut files = worked_in(sort, folder);
    let one_in = if sort.own_steps { 40 } else { 1 };
    files.extend(at_edges(sort).into_iter().step_by(one_in));
    let mut random = run.random("program");
    for (made, count) in plan::printed(sort, run.long) {
        files.extend((0..count).map(|_| made.file(random.bits())));
    }
    files
}

/// Nothing at all, the longest lawful files, and inputs about the length of the narrow one, about the most bytes that are read, and far longer.
fn over_long() -> Vec<Vec<u8>> {
    let longest = Made::Lawful(Size::Maximal).file(1);
    let wide = Made::Lawful(Size::WideMaximal).file(1);
    let twelve = Made::Lawful(Size::StepsMaximal).file(1);
    let wide_twelve = Made::Lawful(Size::WideStepsMaximal).file(1);
    let filled = |file: &[u8], len: usize| {
        let mut file = file.to_vec();
        file.resize(len, 0);
        file
    };
    let mut files = vec![Vec::new(), longest.clone(), wide.clone()];
    files.extend([twelve.clone(), wide_twelve]);
    files.extend([1, 4_096].map(|more| filled(&twelve, twelve.len() + more)));
    files.extend([1, 4_096].map(|more| filled(&longest, longest.len() + more)));
    files.extend([0, 1].map(|more| filled(A, longest.len() + more)));
    for len in [
        MOST_INPUT - 1,
        MOST_INPUT,
        MOST_INPUT + 1,
        70_000,
        3_000_000,
    ] {
        files.extend([A, &in_form(Form::Wide, A), &longest, &[]].map(|file| filled(file, len)));
        files.push(filled(&twelve, len));
        files.push(wide[..len.min(wide.len())].to_vec());
        files.push(vec![255; len]);
    }
    files
}

/// The first line of a text that another has not at its place, with its number.
fn first_other_line(text: &str, other: &str) -> String {
    let mut others = other.lines();
    for (number, line) in text.lines().enumerate() {
        if others.next() != Some(line) {
            return format!("line {}: {line}", number + 1);
        }
    }
    format!("ends after {} lines", text.lines().count())
}
