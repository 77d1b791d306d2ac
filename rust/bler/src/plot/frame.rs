//! Axes, grid and the words around them.

use super::scale::{BOTTOM, LEFT, RIGHT, TOP, View};
use crate::curve::{ENOUGH, LEAST_RATE, Run};
use crate::grouped;

const FAINT: &str = "#ececec";
const PLAIN: &str = "#cfcfcf";

/// The grid, the frame above it and the words at both axes.
pub fn axes(view: &View) -> String {
    let (width, height) = (RIGHT - LEFT, BOTTOM - TOP);
    let frame = format!(
        "<rect x=\"{LEFT}\" y=\"{TOP}\" width=\"{width}\" height=\"{height}\" fill=\"none\" \
         stroke=\"#555\"/>\n"
    );
    [
        minor_rates(view),
        ratios(view),
        rates(view),
        frame,
        titles(),
    ]
    .concat()
}

fn upright(x: f64, colour: &str) -> String {
    line([x, TOP, x, BOTTOM], colour)
}

fn level(y: f64, colour: &str) -> String {
    line([LEFT, y, RIGHT, y], colour)
}

fn line([x1, y1, x2, y2]: [f64; 4], colour: &str) -> String {
    format!(
        "<line x1=\"{x1:.1}\" y1=\"{y1:.1}\" x2=\"{x2:.1}\" y2=\"{y2:.1}\" stroke=\"{colour}\"/>\n"
    )
}

/// Faint lines at 2 to 9 times each decade.
fn minor_rates(view: &View) -> String {
    let lines = decades().flat_map(|power| (2..10).map(move |n| f64::from(n) * 10f64.powi(power)));
    lines
        .filter(|&rate| rate < 1.0)
        .map(|rate| level(view.y(rate), FAINT))
        .collect()
}

/// The powers of 10 on the axis of rates.
fn decades() -> impl Iterator<Item = i32> {
    LEAST_RATE.log10().round() as i32..=0
}

/// A line and a power of 10 for each decade.
fn rates(view: &View) -> String {
    let decade = |power| {
        let y = view.y(10f64.powi(power));
        let (x, base) = (LEFT - 9.0, y + 4.5);
        let number = match power {
            0 => "1".to_string(),
            _ => format!(
                "10<tspan dy=\"-6\" font-size=\"10\">\u{2212}{}</tspan>",
                -power
            ),
        };
        let text = format!("<text x=\"{x}\" y=\"{base:.1}\" text-anchor=\"end\">{number}</text>\n");
        level(y, PLAIN) + &text
    };
    decades().map(decade).collect()
}

/// A line for each dB, and a number for every second one.
fn ratios(view: &View) -> String {
    let (from, to) = view.db.values;
    let ratio = |db: i32| {
        let x = view.x(f64::from(db));
        match db % 2 {
            0 => upright(x, PLAIN) + &ratio_number(x, db),
            _ => upright(x, FAINT),
        }
    };
    (from as i32..=to as i32).map(ratio).collect()
}

fn ratio_number(x: f64, db: i32) -> String {
    let (y, number) = (BOTTOM + 19.0, db.to_string().replace('-', "\u{2212}"));
    format!("<text x=\"{x:.1}\" y=\"{y}\" text-anchor=\"middle\">{number}</text>\n")
}

fn titles() -> String {
    let (x, y) = ((LEFT + RIGHT) / 2.0, (TOP + BOTTOM) / 2.0);
    let below = BOTTOM + 42.0;
    format!(
        "<text x=\"{x}\" y=\"{below}\" font-size=\"14\" text-anchor=\"middle\">\
         SNR of a QPSK symbol, Es/N0 (dB)</text>\n\
         <text transform=\"translate(24 {y}) rotate(-90)\" font-size=\"14\" \
         text-anchor=\"middle\">block error rate</text>\n"
    )
}

/// What the curves stand for, in two lines below.
pub fn caption(run: &Run) -> String {
    let blocks = grouped(run.blocks);
    let Run { a, seed, .. } = run;
    format!(
        "<g font-size=\"12\" fill=\"#555\">\n\
         <text x=\"{LEFT}\" y=\"562\">Payload A = {a} bits and 24 parity bits; white noise; soft \
         values \u{2212}127 to 127; successive decoder (no list).</text>\n\
         <text x=\"{LEFT}\" y=\"580\">Each point ends after {ENOUGH} block errors or {blocks} \
         blocks. Bars: 95 % intervals. Seed {seed}.</text>\n</g>\n"
    )
}
