//! A case in which the unit and the second program differ.

use crate::area::Area;
use std::fmt::Write;

/// What was asked, the bytes it was asked of, with the list that a review was asked of, and what each gave.
pub struct Difference {
    pub asked: String,
    pub input: Vec<u8>,
    pub list: Option<Vec<u8>>,
    pub unit: String,
    pub second: String,
}

/// As many bytes of an input or a list are printed; a longer one is whole in its file only.
const PRINTED: usize = 4096;

impl Difference {
    /// The whole case as text.
    pub fn text(&self) -> String {
        let mut text = format!(
            "  asked:  {}\n  unit:   {}\n  second: {}\n",
            self.asked, self.unit, self.second
        );
        put_bytes(&mut text, "input", &self.input);
        if let Some(list) = &self.list {
            put_bytes(&mut text, "list", list);
        }
        text
    }
}

/// Adds bytes under their name to a text.
fn put_bytes(text: &mut String, name: &str, bytes: &[u8]) {
    let shown = &bytes[..bytes.len().min(PRINTED)];
    let _ = writeln!(text, "  {name}, {} bytes:", bytes.len());
    for line in shown.chunks(32) {
        let _ = writeln!(text, "    {}", hex(line));
    }
    if shown.len() < bytes.len() {
        let _ = writeln!(text, "    .. and {} more", bytes.len() - shown.len());
    }
}

/// Bytes in base sixteen.
pub fn hex(bytes: &[u8]) -> String {
    let pairs: Vec<String> = bytes.iter().map(|byte| format!("{byte:02x}")).collect();
    pairs.join(" ")
}

/// Where an area differs from another, and by which bytes; nothing where they agree.
pub fn area_text(name: &str, own: &Area, other: &Area) -> String {
    let places = own.differing(other);
    let Some(&first) = places.first() else {
        return String::new();
    };
    let side = match usize::try_from(first) {
        Err(_) => " (before the area)",
        Ok(place) if place >= own.seen().len() => " (beyond the area)",
        Ok(_) => "",
    };
    format!(
        "; {name} area of {} bytes differs at {} places, first at {first}{side}: {:02x}",
        own.seen().len(),
        places.len(),
        own.at(first)
    )
}
