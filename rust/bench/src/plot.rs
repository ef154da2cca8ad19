//! The plot docs/benchmark.svg: the ratio over the size, both axes logarithmic, a curve for each shape; comparison and hash side by side.

use std::fmt::Write;

use crate::cases::{SIZES, Shape, two_fit};
use crate::fragments::Row;

const WIDTH: f64 = 1100.0;
const HEIGHT: f64 = 620.0;
const TOP: f64 = 100.0;
const BOTTOM: f64 = 470.0;
/// The left edges of the two panels, and how wide each is.
const LEFT: [f64; 2] = [90.0, 630.0];
const PANEL: f64 = 420.0;

/// A colour for each shape, told apart by colour-blind eyes too.
const COLOURS: [&str; 7] = ["#000000", "#e69f00", "#56b4e9", "#009e73", "#cc79a7", "#0072b2", "#d55e00"];

/// The plot of the inner comparison and the inner hash.
pub fn svg(rows: &[Row]) -> String {
    let comparison = |row: &Row| row.sizes.iter().map(|measured| measured.comparison.inner_ratio().value).collect();
    let hash = |row: &Row| row.sizes.iter().map(|measured| measured.hash.inner_ratio().value).collect();
    let compared: Vec<Vec<f64>> = rows.iter().map(comparison).collect();
    let hashed: Vec<Vec<f64>> = rows.iter().filter(|row| row.shape != Shape::Unequal).map(hash).collect();
    let mut out = String::new();
    frame(&mut out);
    panel(&mut out, LEFT[0], "Comparison, inner", &compared);
    panel(&mut out, LEFT[1], "Hash, inner", &hashed);
    legend(&mut out);
    out.push_str("</svg>\n");
    out
}

/// The vertical scale of a panel: from the round number below the least ratio to the one above the most.
struct Scale {
    low: f64,
    high: f64,
}

/// 1, 2 and 5 times the powers of ten.
fn round_numbers() -> impl DoubleEndedIterator<Item = f64> {
    (-4..6).flat_map(|power| [1.0, 2.0, 5.0].map(|first| first * 10_f64.powi(power)))
}

impl Scale {
    /// Of these ratios, and 1 in any case.
    fn of<'a>(ratios: impl Iterator<Item = &'a f64> + Clone) -> Scale {
        let least = ratios.clone().fold(1.0, |least: f64, ratio| least.min(*ratio));
        let most = ratios.fold(1.0, |most: f64, ratio| most.max(*ratio));
        let low = round_numbers().rfind(|number| *number < least).unwrap_or(least);
        let high = round_numbers().find(|number| *number > most).unwrap_or(most);
        Scale { low, high }
    }

    fn y(&self, ratio: f64) -> f64 {
        BOTTOM - (BOTTOM - TOP) * (ratio / self.low).ln() / (self.high / self.low).ln()
    }

    fn marks(&self) -> impl Iterator<Item = f64> {
        round_numbers().filter(|number| (self.low..=self.high).contains(number))
    }
}

/// Where a size stands in a panel.
fn x(left: f64, n: u32) -> f64 {
    let (first, last) = (f64::from(SIZES[0]), f64::from(SIZES[SIZES.len() - 1]));
    left + PANEL * (f64::from(n) / first).ln() / (last / first).ln()
}

fn text(out: &mut String, (x, y): (f64, f64), attributes: &str, words: &str) {
    writeln!(out, r#"<text x="{x:.1}" y="{y:.1}" {attributes}>{words}</text>"#).expect("a string has room");
}

fn line(out: &mut String, from: (f64, f64), to: (f64, f64), attributes: &str) {
    let ((x1, y1), (x2, y2)) = (from, to);
    writeln!(out, r#"<line x1="{x1:.1}" y1="{y1:.1}" x2="{x2:.1}" y2="{y2:.1}" {attributes}/>"#).expect("a string has room");
}

const MIDDLE: &str = r#"text-anchor="middle""#;

fn frame(out: &mut String) {
    writeln!(
        out,
        r#"<svg xmlns="http://www.w3.org/2000/svg" viewBox="0 0 {WIDTH} {HEIGHT}" font-family="sans-serif" font-size="14" fill="black">
<title>Time of the library over time of pliron, by size of the fragment</title>
<rect width="{WIDTH}" height="{HEIGHT}" fill="white"/>"#
    )
    .expect("a string has room");
    let heading = r#"text-anchor="middle" font-size="19" font-weight="bold""#;
    text(out, (WIDTH / 2.0, 32.0), heading, "Time of the library / time of pliron");
    text(
        out,
        (WIDTH / 2.0, 55.0),
        MIDDLE,
        "below 1 the library is faster; hollow: two such fragments don't fit into a store; each panel has its own scale",
    );
}

fn panel(out: &mut String, left: f64, title: &str, curves: &[Vec<f64>]) {
    let scale = Scale::of(curves.iter().flatten());
    let (right, middle, centre) = (left + PANEL, left + PANEL / 2.0, (TOP + BOTTOM) / 2.0);
    text(out, (middle, TOP - 14.0), r#"text-anchor="middle" font-size="16""#, title);
    for mark in scale.marks() {
        let y = scale.y(mark);
        line(out, (left, y), (right, y), r##"stroke="#dddddd""##);
        text(out, (left - 8.0, y + 5.0), r#"text-anchor="end""#, &mark_text(mark));
    }
    for n in SIZES {
        let x = x(left, n);
        line(out, (x, TOP), (x, BOTTOM), r##"stroke="#eeeeee""##);
        text(out, (x, BOTTOM + 20.0), MIDDLE, &n.to_string());
    }
    let one = scale.y(1.0);
    line(out, (left, one), (right, one), r#"stroke="black" stroke-width="2" stroke-dasharray="7 4""#);
    writeln!(out, r#"<rect x="{left}" y="{TOP}" width="{PANEL}" height="{}" fill="none" stroke="black"/>"#, BOTTOM - TOP).expect("room");
    text(out, (middle, BOTTOM + 44.0), MIDDLE, "operations in the fragment (logarithmic)");
    let up = format!(r#"text-anchor="middle" transform="rotate(-90 {:.1} {centre:.1})""#, left - 56.0);
    text(out, (left - 56.0, centre), &up, "ratio ours / pliron (logarithmic)");
    for (number, ratios) in curves.iter().enumerate() {
        let points = SIZES.iter().zip(ratios).map(|(n, ratio)| (x(left, *n), scale.y(*ratio)));
        curve(out, number, &points.collect::<Vec<_>>());
    }
}

/// A round number, without noughts behind the comma.
fn mark_text(mark: f64) -> String {
    let text = format!("{mark:.4}");
    text.trim_end_matches('0').trim_end_matches('.').to_string()
}

fn curve(out: &mut String, number: usize, points: &[(f64, f64)]) {
    let path = points.iter().map(|(x, y)| format!("{x:.1},{y:.1}")).collect::<Vec<_>>().join(" ");
    let colour = COLOURS[number];
    writeln!(out, r#"<polyline points="{path}" fill="none" stroke="{colour}" stroke-width="1.8"/>"#).expect("a string has room");
    for (point, n) in points.iter().zip(SIZES) {
        mark(out, number, *point, !two_fit(n));
    }
}

/// A mark for each shape: by corners around the point, so that curves can be told apart without colours too.
fn mark(out: &mut String, number: usize, (x, y): (f64, f64), hollow: bool) {
    let corners = [16, 4, 4, 3, 3, 5, 6][number];
    let turned = [0.0, 0.125, 0.0, 0.75, 0.25, 0.75, 0.0][number];
    let corner = |i: usize| {
        let angle = std::f64::consts::TAU * (turned + i as f64 / corners as f64);
        format!("{:.1},{:.1}", x + 5.0 * angle.cos(), y + 5.0 * angle.sin())
    };
    let path = (0..corners).map(corner).collect::<Vec<_>>().join(" ");
    let colour = COLOURS[number];
    let fill = if hollow { "white" } else { colour };
    writeln!(out, r#"<polygon points="{path}" fill="{fill}" stroke="{colour}" stroke-width="1.5"/>"#).expect("a string has room");
}

/// The names of the shapes, in two rows below.
fn legend(out: &mut String) {
    for (number, shape) in Shape::ALL.into_iter().enumerate() {
        let (x, y) = (LEFT[0] + 245.0 * (number % 4) as f64, BOTTOM + 85.0 + 30.0 * (number / 4) as f64);
        line(out, (x, y), (x + 36.0, y), &format!(r#"stroke="{}" stroke-width="1.8""#, COLOURS[number]));
        mark(out, number, (x + 18.0, y), false);
        text(out, (x + 46.0, y + 5.0), "", shape.name());
    }
}
