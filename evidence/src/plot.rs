//! The cost over n as a plot, both scales logarithmic.

use crate::measure::Measured;
use std::fmt::Write;

/// The size of the picture and the frame of the plot in it.
const WIDTH: f64 = 640.0;
const HEIGHT: f64 = 420.0;
const LEFT: f64 = 80.0;
const RIGHT: f64 = 610.0;
const TOP: f64 = 40.0;
const BOTTOM: f64 = 360.0;

/// From the least to the most of a scale.
struct Scale {
    least: f64,
    most: f64,
    from: f64,
    to: f64,
}

impl Scale {
    /// The place of a value on the picture.
    fn place(&self, value: f64) -> f64 {
        let part = (value / self.least).ln() / (self.most / self.least).ln();
        self.from + part * (self.to - self.from)
    }
}

/// A line of measured points in a colour, with its name at its end.
fn line(points: &[(f64, f64)], colour: &str, name: &str) -> String {
    let joined: Vec<String> = points
        .iter()
        .map(|(x, y)| format!("{x:.1},{y:.1}"))
        .collect();
    let mut text = format!(
        "<polyline points=\"{}\" fill=\"none\" stroke=\"{colour}\" stroke-width=\"2\"/>\n",
        joined.join(" ")
    );
    for (x, y) in points {
        let _ = writeln!(
            text,
            "<circle cx=\"{x:.1}\" cy=\"{y:.1}\" r=\"4\" fill=\"{colour}\"/>"
        );
    }
    if let Some((x, y)) = points.last() {
        let _ = writeln!(
            text,
            "<text x=\"{x:.1}\" y=\"{:.1}\" text-anchor=\"end\" fill=\"{colour}\">{name}</text>",
            y - 10.0
        );
    }
    text
}

/// The picture: median microseconds of a call over n, the unit and the second program.
pub fn plot(growth: &[Measured]) -> String {
    let across = Scale {
        least: 56.0,
        most: 590.0,
        from: LEFT,
        to: RIGHT,
    };
    let times = || {
        growth
            .iter()
            .flat_map(|row| [row.unit.median, row.second.median])
    };
    let least = 10f64.powf(times().fold(f64::MAX, f64::min).log10().floor());
    let most = 10f64.powf(times().fold(0.0, f64::max).log10().ceil());
    let up = Scale {
        least,
        most,
        from: BOTTOM,
        to: TOP,
    };
    let mut text = format!(
        "<svg xmlns=\"http://www.w3.org/2000/svg\" viewBox=\"0 0 {WIDTH} {HEIGHT}\" font-family=\"sans-serif\" font-size=\"13\">\n\
         <rect width=\"{WIDTH}\" height=\"{HEIGHT}\" fill=\"white\"/>\n\
         <text x=\"{LEFT}\" y=\"24\" font-size=\"15\">Microseconds of a call over n, contested rounds (median)</text>\n"
    );
    let mut tick = least;
    while tick <= most * 1.01 {
        let y = up.place(tick);
        let _ = writeln!(
            text,
            "<line x1=\"{LEFT}\" y1=\"{y:.1}\" x2=\"{RIGHT}\" y2=\"{y:.1}\" stroke=\"#ddd\"/>\n\
             <text x=\"{}\" y=\"{:.1}\" text-anchor=\"end\">{tick}</text>",
            LEFT - 8.0,
            y + 4.0
        );
        tick *= 10.0;
    }
    for row in growth {
        let x = across.place(row.n as f64);
        let _ = writeln!(
            text,
            "<line x1=\"{x:.1}\" y1=\"{TOP}\" x2=\"{x:.1}\" y2=\"{BOTTOM}\" stroke=\"#ddd\"/>\n\
             <text x=\"{x:.1}\" y=\"{}\" text-anchor=\"middle\">{}</text>",
            BOTTOM + 20.0,
            row.n
        );
    }
    let _ = writeln!(
        text,
        "<text x=\"{}\" y=\"{}\" text-anchor=\"middle\">candidates n</text>",
        (LEFT + RIGHT) / 2.0,
        BOTTOM + 44.0
    );
    let points = |of: fn(&Measured) -> f64| -> Vec<(f64, f64)> {
        growth
            .iter()
            .map(|row| (across.place(row.n as f64), up.place(of(row))))
            .collect()
    };
    text.push_str(&line(
        &points(|row| row.second.median),
        "#b5483a",
        "second program",
    ));
    text.push_str(&line(&points(|row| row.unit.median), "#1f5f99", "unit"));
    text.push_str("</svg>\n");
    text
}
