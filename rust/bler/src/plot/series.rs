//! A curve with its marks, bars and label.

use super::scale::View;
use crate::block::Tally;
use crate::curve::{Curve, LEAST_RATE, Point};
use crate::interval::wilson;

/// How a curve looks. Colours are told apart by colour-blind readers too, and so are the marks.
#[derive(Clone, Copy)]
pub struct Style {
    colour: &'static str,
    /// A path around the point.
    mark: &'static str,
}

pub const STYLES: [Style; 5] = [
    Style {
        colour: "#d55e00",
        mark: "m-4.4 0a4.4 4.4 0 1 0 8.8 0a4.4 4.4 0 1 0 -8.8 0z",
    },
    Style {
        colour: "#aa4499",
        mark: "m-4 -4h8v8h-8z",
    },
    Style {
        colour: "#00875f",
        mark: "m0 -5.4l5 8.8h-10z",
    },
    Style {
        colour: "#0072b2",
        mark: "m0 -5.6l5.2 5.6l-5.2 5.6l-5.2 -5.6z",
    },
    Style {
        colour: "#222222",
        mark: "m0 5.4l5 -8.8h-10z",
    },
];

/// The rate beside which a curve's label stands.
const LABEL_RATE: f64 = 1.4 * LEAST_RATE;

pub fn drawn(curve: &Curve, style: &Style, view: &View) -> String {
    // A rate of 0 has no logarithm.
    let lasting = |point: &Point| point.tally.errors > 0;
    let mut points: Vec<Point> = curve.points.iter().copied().filter(lasting).collect();
    let path = path(&points, view);
    // A point below the picture only says where the curve leaves it.
    points.retain(|point| point.tally.rate() >= LEAST_RATE);
    let (colour, bars) = (style.colour, bars(&points, view));
    let marks = marks(&points, style, view);
    let label = label(curve, &points, view);
    format!(
        "<g stroke=\"{colour}\" fill=\"none\" clip-path=\"url(#frame)\">\n{bars}{path}</g>\n\
         <g fill=\"{colour}\" stroke=\"#fff\" stroke-width=\"0.8\">\n{marks}</g>\n\
         <g fill=\"{colour}\" font-weight=\"bold\">\n{label}</g>\n"
    )
}

fn path(points: &[Point], view: &View) -> String {
    let place = |point: &Point| {
        let (x, y) = (view.x(point.snr_db), view.y(point.tally.rate()));
        format!("{x:.1},{y:.1}")
    };
    let places: Vec<String> = points.iter().map(place).collect();
    let places = places.join(" ");
    format!("<polyline points=\"{places}\" stroke-width=\"2\"/>\n")
}

/// The interval of each rate.
fn bars(points: &[Point], view: &View) -> String {
    let bar = |point: &Point| {
        let Tally { blocks, errors, .. } = point.tally;
        let (low, high) = wilson(errors, blocks);
        let (x, from, to) = (view.x(point.snr_db), view.y(low), view.y(high));
        format!("<path d=\"M{x:.1} {from:.1}V{to:.1}m-3 0h6M{x:.1} {from:.1}m-3 0h6\"/>\n")
    };
    points.iter().map(bar).collect()
}

fn marks(points: &[Point], style: &Style, view: &View) -> String {
    let mark = |point: &Point| {
        let (x, y) = (view.x(point.snr_db), view.y(point.tally.rate()));
        format!("<path d=\"M{x:.1} {y:.1}{}\"/>\n", style.mark)
    };
    points.iter().map(mark).collect()
}

/// Level and length, to the right of where the curve ends: curves fall to the right, so that the words
/// are clear of it.
fn label(curve: &Curve, seen: &[Point], view: &View) -> String {
    let last = || seen.last().map(|p| (p.snr_db, p.tally.rate()));
    let crossing = curve.crossing(LABEL_RATE).map(|db| (db, LABEL_RATE));
    let Some((snr_db, rate)) = crossing.or_else(last) else {
        return String::new();
    };
    let (x, y) = (view.x(snr_db) + 14.0, view.y(rate));
    let (level, e, above) = (curve.level, curve.e(), y - 17.0);
    format!(
        "<text x=\"{x:.1}\" y=\"{above:.1}\">level {level}</text>\n\
         <text x=\"{x:.1}\" y=\"{y:.1}\">E = {e}</text>\n"
    )
}
