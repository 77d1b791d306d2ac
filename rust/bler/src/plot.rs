//! The curves as a picture in SVG, which needs no font, script or file besides.

mod frame;
mod scale;
mod series;

use crate::curve::{Curve, Run};
use scale::View;

const TITLE: &str = "Block error rate by aggregation level";

/// White stands behind all, for pages with a dark ground. What runs out of the frame is cut.
fn head() -> String {
    let (width, height) = (scale::WIDTH, scale::HEIGHT);
    let (x, y) = (scale::LEFT, scale::TOP);
    let (inner, tall) = (scale::RIGHT - x, scale::BOTTOM - y);
    format!(
        r##"<svg xmlns="http://www.w3.org/2000/svg" width="{width}" height="{height}" viewBox="0 0 {width} {height}" role="img" font-family="sans-serif" font-size="13" fill="#333">
<title>{TITLE}</title>
<clipPath id="frame"><rect x="{x}" y="{y}" width="{inner}" height="{tall}"/></clipPath>
<rect width="{width}" height="{height}" fill="#fff"/>
<text x="{x}" y="34" font-size="19" font-weight="bold" fill="#111">{TITLE}</text>
"##
    )
}

/// The picture of all curves.
pub fn picture(run: &Run, curves: &[Curve]) -> String {
    let view = View::around(curves);
    let series = curves.iter().zip(series::STYLES);
    let drawn: String = series
        .map(|(curve, style)| series::drawn(curve, &style, &view))
        .collect();
    let caption = frame::caption(run);
    [
        head(),
        frame::axes(&view),
        drawn,
        caption,
        "</svg>\n".into(),
    ]
    .concat()
}

#[cfg(test)]
mod tests {
    use super::*;
    use crate::block::Tally;
    use crate::curve::Point;

    const RUN: Run = Run {
        a: 40,
        blocks: 1_000_000,
        seed: 1,
        threads: 1,
    };

    fn curve(level: u64, points: &[(f64, u64)]) -> Curve {
        let point = |&(snr_db, errors)| Point {
            snr_db,
            tally: Tally {
                blocks: 1000,
                errors,
                wrong: 0,
            },
        };
        let points = points.iter().map(point).collect();
        Curve { level, points }
    }

    #[test]
    fn each_curve_is_drawn_with_its_label() {
        let curves = [
            curve(1, &[(0.0, 990), (1.0, 100), (2.0, 1)]),
            curve(16, &[(-9.0, 900), (-8.0, 90), (-7.0, 0)]),
        ];
        let picture = picture(&RUN, &curves);
        assert_eq!(picture.matches("<polyline").count(), 2);
        for text in [
            "level 1<",
            "level 16<",
            "E = 108<",
            "E = 1728<",
            "A = 40",
            "Seed 1",
        ] {
            assert!(picture.contains(text), "{text}");
        }
        assert!(!picture.contains("NaN") && !picture.contains("inf"));
        assert!(picture.ends_with("</svg>\n"));
    }

    #[test]
    fn elements_are_closed() {
        let picture = picture(&RUN, &[curve(4, &[(0.0, 500), (1.0, 0)])]);
        for name in ["svg", "g", "text", "clipPath", "tspan", "title"] {
            let opened = picture.matches(&format!("<{name} ")).count()
                + picture.matches(&format!("<{name}>")).count();
            assert_eq!(
                opened,
                picture.matches(&format!("</{name}>")).count(),
                "{name}"
            );
        }
    }

    #[test]
    fn a_run_without_points_gives_an_empty_frame() {
        assert!(!picture(&RUN, &[]).contains("polyline"));
    }
}
