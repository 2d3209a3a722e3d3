//! Narrow files and lists rewritten in the wide form.

use crate::form::Form;
use crate::reading::Round;
use crate::writing::record;

/// The same round in the wide form.
pub fn wide(round: &Round) -> Round {
    Round {
        form: Form::Wide,
        ..round.clone()
    }
}

/// A lawful narrow file rewritten as a wide one, record by record; bytes that are no whole record stay.
pub fn widened(file: &[u8]) -> Vec<u8> {
    let mut bytes = Vec::new();
    let mut rest = file;
    while let Some((kind, body)) = first_record(rest) {
        rest = &rest[4 + body.len()..];
        bytes.extend(match kind {
            1 => record(Form::Wide.head(), body),
            3 => record(Form::Wide.candidate(), &widened_body(body)),
            _ => record(kind, body),
        });
    }
    bytes.extend(rest);
    bytes
}

/// The kind and the body of the record at the start of some bytes, if a whole one is there.
fn first_record(bytes: &[u8]) -> Option<(usize, &[u8])> {
    let number =
        |at: usize| Some(usize::from(*bytes.get(at)?) + 256 * usize::from(*bytes.get(at + 1)?));
    let (length, kind) = (number(0)?, number(2)?);
    Some((kind, bytes.get(4..4 + length)?))
}

/// A narrow candidate's body with its entries widened.
fn widened_body(body: &[u8]) -> Vec<u8> {
    let (start, entries) = body.split_at(body.len().min(2));
    let mut wide = start.to_vec();
    for entry in entries.chunks(2) {
        wide.push(entry[0]);
        wide.push(0);
        wide.extend(&entry[1..]);
    }
    wide
}

/// A narrow list rewritten as a wide one: each institute in two bytes, and a zero byte behind each step.
pub fn widened_list(list: &[u8]) -> Vec<u8> {
    list.chunks_exact(2)
        .flat_map(|seat| [seat[0], 0, seat[1], 0])
        .collect()
}
