//! The picture of the results, docs/benchmark.svg: bars of megabytes in a second.

use crate::jobs::PLAIN;
use crate::{Measured, Results};

const PANEL_WIDTH: f64 = 460.0;
const LABELS: f64 = 140.0;
const BAR: f64 = 16.0;
const LINE: f64 = 22.0;
const HEAD: f64 = 34.0;
const MARGIN: f64 = 16.0;
/// Room to the right of the longest bar, for its number.
const NUMBER: f64 = 50.0;

/// The ends of the scale in megabytes in a second; each step of ten is equally wide.
const LEAST: f64 = 1.0;
const MOST: f64 = 10_000.0;

const LIBRARY: &str = "#1f6f54";
const PEER: &str = "#9aa7b1";

/// The length of a bar.
fn length(speed: f64) -> f64 {
    let whole = PANEL_WIDTH - LABELS - NUMBER;
    let part = (speed / LEAST).log10() / (MOST / LEAST).log10();
    whole * part.clamp(0.0, 1.0)
}

fn text(x: f64, y: f64, anchor: &str, style: &str, words: &str) -> String {
    format!("<text x=\"{x:.1}\" y=\"{y:.1}\" text-anchor=\"{anchor}\"{style}>{words}</text>\n")
}

/// The bars of one record.
fn panel(measured: &Measured, results: &Results, x: f64, y: f64) -> String {
    let title = format!("{}  {}", measured.job.record, measured.job.query());
    let mut out = text(x + LABELS, y + 16.0, "start", " font-weight=\"bold\"", &title);
    let height = LINE * results.engines.len() as f64;
    let mut tick = LEAST;
    while tick <= MOST {
        let at = x + LABELS + length(tick);
        let (from, to) = (y + HEAD - 6.0, y + HEAD + height);
        out += &format!(
            "<line x1=\"{at:.1}\" y1=\"{from:.1}\" x2=\"{at:.1}\" y2=\"{to:.1}\" stroke=\"#dde2e6\"/>\n"
        );
        out += &text(at, to + 13.0, "middle", " fill=\"#66727c\"", &tick.to_string());
        tick *= 10.0;
    }
    for (at, (engine, time)) in results.engines.iter().zip(&measured.times).enumerate() {
        let top = y + HEAD + LINE * at as f64;
        out += &text(x + LABELS - 6.0, top + BAR - 4.0, "end", "", engine.name);
        let Ok(time) = time else {
            out += &text(x + LABELS + 4.0, top + BAR - 4.0, "start", "", "no answer");
            continue;
        };
        let speed = 1e3 * measured.bytes as f64 / time;
        let (width, colour) = (length(speed), if engine.is_library() { LIBRARY } else { PEER });
        let left = x + LABELS;
        out += &format!(
            "<rect x=\"{left:.1}\" y=\"{top:.1}\" width=\"{width:.1}\" height=\"{BAR}\" fill=\"{colour}\"/>\n"
        );
        out += &text(left + width + 4.0, top + BAR - 4.0, "start", "", &format!("{speed:.0}"));
    }
    out
}

/// A panel for each record, two in a row, on the query that is called plain.
pub fn picture(results: &Results) -> String {
    let panels: Vec<&Measured> =
        results.large.iter().filter(|measured| measured.job.kind == PLAIN).collect();
    let height = HEAD + LINE * results.engines.len() as f64 + 30.0;
    let (width, rows) = (2.0 * PANEL_WIDTH + 2.0 * MARGIN, panels.len().div_ceil(2));
    let whole = height * rows as f64 + 2.0 * MARGIN + 20.0;
    let mut out = format!(
        "<svg xmlns=\"http://www.w3.org/2000/svg\" viewBox=\"0 0 {width:.0} {whole:.0}\" \
         font-family=\"sans-serif\" font-size=\"12\">\n\
         <rect width=\"100%\" height=\"100%\" fill=\"white\"/>\n"
    );
    for (at, measured) in panels.iter().enumerate() {
        let (column, row) = ((at % 2) as f64, (at / 2) as f64);
        out += &panel(measured, results, MARGIN + column * PANEL_WIDTH, MARGIN + row * height);
    }
    let below = "megabytes of the record in a second; each line is ten times the one before";
    out += &text(width / 2.0, whole - 12.0, "middle", " fill=\"#66727c\"", below);
    out + "</svg>\n"
}
