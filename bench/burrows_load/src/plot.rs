//! The lines of a run as a picture.

use crate::run::{COLUMNS, beside};
use anyhow::{Context, Result};
use std::fmt::Write;
use std::path::Path;

const WIDTH: f64 = 900.0;
const HEIGHT: f64 = 130.0;
const LEFT: f64 = 70.0;
const TOP: f64 = 40.0;

/// So many points a line has at most: of the seconds between two of them the greatest number is drawn.
const POINTS: usize = 450;

/// What is drawn, one below the other: a title, and the columns with their colours.
const PANELS: [(&str, &[(&str, &str)]); 5] = [
    ("sessions", &[("sessions", "#1f77b4"), ("jeopardy", "#d62728")]),
    ("cache entries", &[("entries", "#2ca02c")]),
    ("messages a second", &[("beats", "#1f77b4"), ("calls", "#ff7f0e")]),
    ("reads, opens and stats: milliseconds (p50, p99)", &[("read_p50", "#1f77b4"), ("read_p99", "#d62728")]),
    ("% of a processor (server, master)", &[("server_cpu", "#1f77b4"), ("master_cpu", "#ff7f0e")]),
];

/// Draws a file's lines.
pub fn draw(lines: &Path) -> Result<()> {
    let text = std::fs::read_to_string(lines).with_context(|| format!("reading {}", lines.display()))?;
    let picture = picture(&text)?;
    Ok(std::fs::write(beside(lines), picture)?)
}

// The numbers of each second.
fn rows(text: &str) -> Vec<Vec<f64>> {
    let count = COLUMNS.split(' ').count();
    let numbers = |line: &str| line.split(' ').map(|word| word.parse().ok()).collect::<Option<Vec<f64>>>();
    text.lines().filter_map(numbers).filter(|row| row.len() == count).collect()
}

fn picture(text: &str) -> Result<String> {
    let rows = rows(text);
    let (first, last) = (rows.first().context("no line of a second")?[0], rows.last().context("no line")?[0]);
    let span = (last - first).max(1.0);
    let x = |second: f64| LEFT + (second - first) * WIDTH / span;
    let height = TOP + (HEIGHT + TOP) * PANELS.len() as f64;
    let mut out = format!(
        "<svg xmlns=\"http://www.w3.org/2000/svg\" viewBox=\"0 0 {} {height}\" font-family=\"sans-serif\" font-size=\"12\">\n<rect width=\"100%\" height=\"100%\" fill=\"#fff\"/>\n",
        LEFT + WIDTH + 20.0
    );
    for (at, (title, lines)) in PANELS.iter().enumerate() {
        let top = TOP + (HEIGHT + TOP) * at as f64;
        panel(&mut out, &rows, (title, lines), top, &x)?;
    }
    for (kind, second) in kills(text) {
        let at = x(second);
        writeln!(
            out,
            "<line x1=\"{at:.1}\" y1=\"{TOP}\" x2=\"{at:.1}\" y2=\"{:.1}\" stroke=\"#888\" stroke-dasharray=\"3 3\"/>",
            height - TOP
        )?;
        writeln!(out, "<text x=\"{:.1}\" y=\"{:.1}\" fill=\"#666\">{kind}</text>", at + 3.0, height - TOP + 14.0)?;
    }
    writeln!(out, "<text x=\"{LEFT}\" y=\"{:.1}\">seconds {first} to {last}</text>\n</svg>", height - 8.0)?;
    Ok(out)
}

fn panel(out: &mut String, rows: &[Vec<f64>], (title, lines): (&str, &[(&str, &str)]), top: f64, x: &impl Fn(f64) -> f64) -> Result<()> {
    let column = |name: &str| COLUMNS.split(' ').position(|column| column == name).with_context(|| format!("no column {name}"));
    let mut most: f64 = 1.0;
    for (name, _) in lines {
        let at = column(name)?;
        most = rows.iter().map(|row| row[at]).fold(most, f64::max);
    }
    let bottom = top + HEIGHT;
    writeln!(out, "<text x=\"{LEFT}\" y=\"{:.1}\">{title}</text>", top - 6.0)?;
    writeln!(out, "<text x=\"{:.1}\" y=\"{:.1}\" text-anchor=\"end\">{most:.0}</text>", LEFT - 6.0, top + 10.0)?;
    writeln!(out, "<rect x=\"{LEFT}\" y=\"{top:.1}\" width=\"{WIDTH}\" height=\"{HEIGHT}\" fill=\"none\" stroke=\"#ccc\"/>")?;
    for (name, colour) in lines {
        let at = column(name)?;
        let points: Vec<String> =
            points(rows, at).map(|(second, number)| format!("{:.1},{:.1}", x(second), bottom - number * HEIGHT / most)).collect();
        writeln!(out, "<polyline fill=\"none\" stroke=\"{colour}\" points=\"{}\"><title>{name}</title></polyline>", points.join(" "))?;
    }
    Ok(())
}

// The points of a column.
fn points(rows: &[Vec<f64>], at: usize) -> impl Iterator<Item = (f64, f64)> {
    rows.chunks(rows.len().div_ceil(POINTS).max(1)).map(move |some| (some[0][0], some.iter().map(|row| row[at]).fold(0.0, f64::max)))
}

// Who was killed at which second.
fn kills(text: &str) -> Vec<(&str, f64)> {
    text.lines()
        .filter_map(|line| line.strip_prefix("# ")?.split_once(" is killed at "))
        .filter_map(|(kind, rest)| Some((kind, rest.split(' ').next()?.parse().ok()?)))
        .collect()
}

#[cfg(test)]
mod tests {
    use super::*;

    #[test]
    fn lines_are_drawn() {
        let count = COLUMNS.split(' ').count();
        let line = |second: usize| (0..count).map(|at| (second + at).to_string()).collect::<Vec<String>>().join(" ");
        let text = format!("{COLUMNS}\n{}\n# Master is killed at 1.5 s\nherd at 3 s\n{}\n", line(1), line(2));
        assert_eq!(rows(&text).len(), 2);
        assert_eq!(kills(&text), [("Master", 1.5)]);
        let drawn = picture(&text).unwrap();
        assert_eq!((drawn.matches("<polyline").count(), drawn.matches("stroke-dasharray").count()), (9, 1));
        assert!(picture("").is_err());
    }

    #[test]
    fn a_line_has_the_greatest_of_many_numbers() {
        let rows: Vec<Vec<f64>> = (0..1000).map(|second| vec![f64::from(second), f64::from(second % 3)]).collect();
        let points: Vec<(f64, f64)> = points(&rows, 1).collect();
        assert_eq!((points.len(), points[0], points[333]), (334, (0.0, 2.0), (999.0, 0.0)));
    }
}
