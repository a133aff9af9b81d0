//! docs/bench.svg: above, each call's ratio to the Rust on a log scale around 1; below, lookups beside the databases.

use crate::sheet::{Row, Sheet};
use std::fmt::Write;

const WIDE: f64 = 1500.0;
const LEFT: f64 = 64.0;
/// Of a line below a call's bars.
const MOST_LETTERS: usize = 12;
/// A colour for 6-byte keys and one for 64-byte keys, paler for smaller pages.
const SHORT: [&str; 3] = ["#a9c8ea", "#5f97d3", "#23609f"];
const LONG: [&str; 3] = ["#f6c79c", "#e8934a", "#b55d12"];
const INK: &str = "#1d2730";
const SOFT: &str = "#5b6873";
const GRID: &str = "#d9dfe4";
/// A text's colour and weight: titles and names are strong.
type Pen = (&'static str, &'static str);
const STRONG: Pen = (INK, "bold");
const PLAIN: Pen = (SOFT, "normal");

const BOUND: &str = "#b3261e";
const DASHED: &str = r#"stroke-width="1.6" stroke-dasharray="5 3""#;
/// What order 12 allows.
const BOUNDS: [(&str, f64); 3] = [("search", 1.5), ("lower bound", 1.5), ("walk", 2.0)];

struct Svg(String);

impl Svg {
    fn rect(&mut self, x: f64, y: f64, w: f64, h: f64, fill: &str) {
        writeln!(
            self.0,
            r#"<rect x="{x:.1}" y="{y:.1}" width="{w:.1}" height="{h:.1}" fill="{fill}"/>"#
        )
        .unwrap();
    }

    fn line(&mut self, x1: f64, y1: f64, x2: f64, y2: f64, stroke: &str, more: &str) {
        writeln!(
            self.0,
            r#"<path d="M{x1:.1} {y1:.1} L{x2:.1} {y2:.1}" stroke="{stroke}" fill="none" {more}/>"#
        )
        .unwrap();
    }

    fn text(&mut self, x: f64, y: f64, size: f64, anchor: &str, (fill, weight): Pen, s: &str) {
        let family = "DejaVu Sans, Helvetica, Arial, sans-serif";
        let style = format!(
            r#"font-family="{family}" font-size="{size}" text-anchor="{anchor}" font-weight="{weight}" fill="{fill}""#
        );
        writeln!(self.0, r#"<text x="{x:.1}" y="{y:.1}" {style}>{s}</text>"#).unwrap();
    }
}

/// The colour of a page's bars.
fn colour(row: &Row) -> &'static str {
    let shades = if row.key_len < 16 { SHORT } else { LONG };
    shades[(row.keys.ilog10() as usize).clamp(2, 4) - 2]
}

pub fn svg(sheet: &Sheet) -> String {
    let mut s = Svg(String::new());
    let lookups: Vec<&Row> = sheet.rows.iter().filter(|r| r.call == "search").collect();
    let height = 470.0 + if lookups.is_empty() { 0.0 } else { 80.0 + lookups.len() as f64 * 62.0 };
    s.rect(0.0, 0.0, WIDE, height, "#ffffff");
    ratios(&mut s, sheet);
    if !lookups.is_empty() {
        times(&mut s, &lookups, 500.0);
    }
    format!(
        "<svg xmlns=\"http://www.w3.org/2000/svg\" viewBox=\"0 0 {WIDE} {height}\" width=\"{WIDE}\" height=\"{height}\" role=\"img\">\n<title>Times beside the Rust</title>\n{}</svg>\n",
        s.0
    )
}

/// Bars from the line at 1: above it slower than the Rust, below it faster.
fn ratios(s: &mut Svg, sheet: &Sheet) {
    let (top, bottom, rows) = (96.0, 400.0, &sheet.rows);
    let most = rows.iter().map(|r| r.ratio().max(r.fast_ratio())).fold(2.0, f64::max).log2().ceil();
    let least =
        rows.iter().map(|r| r.ratio().min(r.fast_ratio())).fold(0.5, f64::min).log2().floor();
    let y = |ratio: f64| bottom - (ratio.log2() - least) / (most - least) * (bottom - top);
    s.text(
        24.0,
        32.0,
        17.0,
        "start",
        STRONG,
        "Time of each call, as a multiple of the Rust's (log scale, medians)",
    );
    s.text(24.0, 54.0, 12.5, "start", PLAIN, "Below the line at 1 this library is faster. Build and merge judge their whole input first, the Rust judges nothing.");
    let mut x = 24.0;
    for (shades, words) in [(SHORT, "6-byte keys:"), (LONG, "64-byte keys:")] {
        s.text(x, 79.0, 12.0, "start", PLAIN, words);
        x += 92.0;
        for (fill, keys) in shades.iter().zip(["100 keys", "1,000", "10,000"]) {
            s.rect(x, 69.0, 16.0, 12.0, fill);
            s.text(x + 21.0, 79.0, 12.0, "start", PLAIN, keys);
            x += if keys == "100 keys" { 86.0 } else { 72.0 };
        }
        x += 16.0;
    }
    s.line(x, 75.0, x + 16.0, 75.0, INK, r#"stroke-width="1.4""#);
    s.text(x + 21.0, 79.0, 12.0, "start", PLAIN, "fast rounds (5%)");
    s.line(x + 136.0, 75.0, x + 160.0, 75.0, BOUND, DASHED);
    s.text(x + 166.0, 79.0, 12.0, "start", PLAIN, "order 12 allows");
    for power in least as i32..=most as i32 {
        let ratio = 2f64.powi(power);
        let (stroke, more) = if power == 0 { (INK, r#"stroke-width="1.6""#) } else { (GRID, "") };
        s.line(LEFT, y(ratio), WIDE - 20.0, y(ratio), stroke, more);
        s.text(LEFT - 8.0, y(ratio) + 4.0, 12.0, "end", PLAIN, &format!("{ratio}×"));
    }
    let calls = sheet.by_call();
    let room = (WIDE - 20.0 - LEFT) / calls.len() as f64;
    for (k, (call, of)) in calls.iter().enumerate() {
        let start = LEFT + k as f64 * room;
        let bar = (room - 18.0) / of.len() as f64;
        for (i, row) in of.iter().enumerate() {
            let (a, b) = (y(row.ratio()), y(1.0));
            s.rect(
                start + 9.0 + i as f64 * bar,
                a.min(b),
                bar - 1.5,
                (a - b).abs().max(1.0),
                colour(row),
            );
            let (x, fast) = (start + 9.0 + i as f64 * bar, y(row.fast_ratio()));
            s.line(x, fast, x + bar - 1.5, fast, INK, r#"stroke-width="1.4""#);
        }
        if let Some((_, bound)) = BOUNDS.iter().find(|b| b.0 == *call) {
            let at = y(*bound);
            s.line(start + 4.0, at, start + room - 4.0, at, BOUND, DASHED);
        }
        let (first, rest) = call.split_once(", ").unwrap_or((call, ""));
        s.text(start + room / 2.0, bottom + 22.0, 12.5, "middle", STRONG, first);
        for (line, words) in wrapped(rest).iter().enumerate() {
            let y = bottom + 38.0 + 14.0 * line as f64;
            s.text(start + room / 2.0, y, 11.5, "middle", PLAIN, words);
        }
    }
}

/// A text in lines that fit below a call's bars.
fn wrapped(text: &str) -> Vec<String> {
    let mut lines: Vec<String> = Vec::new();
    for word in text.split_whitespace() {
        match lines.last_mut() {
            Some(line) if line.len() + word.len() < MOST_LETTERS => *line += &format!(" {word}"),
            _ => lines.push(word.to_string()),
        }
    }
    lines
}

/// Lookup times side by side, a bar a contestant.
fn times(s: &mut Svg, rows: &[&Row], top: f64) {
    s.text(24.0, top, 17.0, "start", STRONG, "One lookup, nanoseconds (log scale, medians)");
    let most = rows
        .iter()
        .flat_map(|r| r.others.iter().map(|o| o.1.median).chain([r.ours.median, r.rust.median]))
        .fold(100.0, f64::max);
    let (left, right, least) = (170.0, WIDE - 150.0, 10f64);
    let x = |ns: f64| left + (ns.max(least) / least).ln() / (most / least).ln() * (right - left);
    let mut y = top + 24.0;
    for row in rows {
        s.text(left - 10.0, y + 30.0, 12.5, "end", STRONG, &format!("{} keys", row.keys));
        s.text(left - 10.0, y + 45.0, 11.5, "end", PLAIN, &format!("of {} bytes", row.key_len));
        let mut bars =
            vec![("ours", row.ours.median, "#2f7d5b"), ("Rust", row.rust.median, "#8a9aa6")];
        bars.extend(row.others.iter().map(|(name, t)| (name.as_str(), t.median, "#cbb7dd")));
        for (i, (name, ns, fill)) in bars.iter().enumerate() {
            let at = y + 4.0 + i as f64 * 13.5;
            s.rect(left, at, x(*ns) - left, 11.5, fill);
            s.text(x(*ns) + 6.0, at + 9.5, 10.5, "start", PLAIN, &format!("{name} {ns:.0}"));
        }
        y += 62.0;
    }
}
