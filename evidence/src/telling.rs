//! What this program tells of its cases when it makes calls in a process of its own, since one that strays ends it.

use crate::classes::Run;
use std::collections::BTreeMap;
use std::path::Path;
use std::process::{Command, Stdio};

/// What was told of the cases that went wrong, by their numbers.
pub struct Told {
    wrong: BTreeMap<usize, String>,
}

impl Told {
    /// Has this program make the calls of a class, by the word `--alone`; it tells each case's number before its call, a word more where it differs, and `end` last.
    pub fn of(run: &Run, folder: &Path, class: &str) -> Self {
        let told = std::env::current_exe().and_then(|path| {
            let mut command = Command::new(path);
            command.args(["--alone", class, "--seed", &run.seed.to_string()]);
            command.arg("--rounds").arg(folder);
            if run.long {
                command.arg("--long");
            }
            command.stderr(Stdio::inherit()).output()
        });
        let (text, status) = match told {
            Ok(output) => (
                String::from_utf8_lossy(&output.stdout).into_owned(),
                output.status.to_string(),
            ),
            Err(error) => (String::new(), error.to_string()),
        };
        let mut wrong = BTreeMap::new();
        let (mut last, mut ended) = (0, false);
        for line in text.lines() {
            let mut words = line.splitn(2, ' ');
            last = words
                .next()
                .and_then(|word| word.parse().ok())
                .unwrap_or(last);
            if words.next().is_some() {
                wrong.entry(last).or_insert_with(|| line.to_string());
            }
            ended = line == "end";
        }
        if !ended {
            wrong.insert(
                last,
                format!("the process ended ({status}) in this call or behind it"),
            );
        }
        Told { wrong }
    }

    /// What went wrong in a case.
    pub fn wrong(&self, number: usize) -> Option<String> {
        self.wrong.get(&number).cloned()
    }
}
