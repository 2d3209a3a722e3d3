//! What was measured, as a Markdown page.

use crate::against::Compared;
use crate::measure::Measured;
use std::fmt::Write;

/// A number with three leading digits and no more.
fn short(number: f64) -> String {
    match number {
        n if n >= 100.0 => format!("{n:.0}"),
        n if n >= 10.0 => format!("{n:.1}"),
        n if n >= 1.0 => format!("{n:.2}"),
        n => format!("{n:.3}"),
    }
}

/// The lines of a table of calls that make these.
fn table(made: &str, rows: &[Measured]) -> String {
    let mut text = format!(
        "| class | n | {made} | calls timed, unit / second | unit, median µs | unit, best µs | unit, {made} a second | second, median µs | second, best µs | second, {made} a second | second / unit |\n\
         |---|---:|---:|---:|---:|---:|---:|---:|---:|---:|---:|\n",
    );
    for row in rows {
        let rate = |median: f64| short(row.made / median * 1e6);
        let _ = writeln!(
            text,
            "| {} | {} | {} | {} / {} | {} | {} | {} | {} | {} | {} | {} |",
            row.name,
            row.n,
            short(row.made),
            row.unit.calls,
            row.second.calls,
            short(row.unit.median),
            short(row.unit.best),
            rate(row.unit.median),
            short(row.second.median),
            short(row.second.best),
            rate(row.second.median),
            short(row.ratio())
        );
    }
    text
}

/// The head of the table of an older archive and the new one.
pub const AGAINST: &str =
    "| class | old, best µs | new, best µs | new / old | old, median µs | new, median µs | new / old |\n\
     |---|---:|---:|---:|---:|---:|---:|";

/// The line of a class in that table.
pub fn against(row: &Compared) -> String {
    let [old, new] = row.times;
    let both = |old: f64, new: f64| format!("{} | {} | {:.3}", short(old), short(new), new / old);
    format!(
        "| {} | {} | {} |",
        row.name,
        both(old.best, new.best),
        both(old.median, new.median)
    )
}

/// The name of the processor, where the system tells it.
fn processor() -> String {
    std::fs::read_to_string("/proc/cpuinfo")
        .ok()
        .and_then(|text| {
            let line = text.lines().find(|line| line.starts_with("model name"))?;
            Some(line.split(':').nth(1)?.trim().to_string())
        })
        .unwrap_or_else(|| "an unnamed processor".to_string())
}

/// The whole page; the plot stands under this name beside it.
pub fn page(
    classes: &[Measured],
    growth: &[Measured],
    lengthening: &[Measured],
    reviews: &[Measured],
    stack: &str,
    plot: &str,
) -> String {
    format!(
        "# What a call costs\n\n\
         Written by `./bench`: one process, one core of {}, both built for release, the same files for the unit and the second\n\
         program. A class has 1 to 20 files; each time is the mean over them of the median, or the best, of the calls timed, three\n\
         of each file at least. n is the largest number of candidates. The worst ones are hard on the\n\
         placing search: one institute, half of all candidates too many for its 8 types. In those of types every position is reserved\n\
         and most candidates hold several types: apart, at 32 institutes, or together at one, where half of all candidates try seven types in\n\
         vain before their own (`evidence/src/shapes.rs`). The wide maximal ones have 1,000 institutes, 512 candidates of 16 entries, 8\n\
         types and whole merit lists, 1,149,660 bytes, nine tenths of them merit lists, which are read through for questions 11 and 12.\n\
         In those of steps each institute lists its own, twelve in the maximal ones, which have 60,172 bytes, or 1,299,660 in the wide\n\
         form. All others are narrow rounds of policies 0 and 1.\n\n\
         {}\n## Cost over n\n\nThe contested shape, all but n and the positions equal.\n\n{}\n![cost over n]({plot})\n\n\
         ## Cost over offers\n\nThe contested shape at 512 candidates, the rows cut to so many entries: an institute holds at most 40, however many offers are\n\
         made to it.\n\n{}\n\
         ## Reviews\n\nThe review of the unit's own lists, which pass: every entry that ranks above its candidate's seat is tried, and every entry of\n\
         those without a seat. In the one alike everybody lists the same 16 entries in the same order, and half of all candidates get\n\
         seats.\n\n{}\n\
         ## Stack\n\n{stack}",
        processor(),
        table("offers", classes),
        table("offers", growth),
        table("offers", lengthening),
        table("entries", reviews)
    )
}
