//! Where values stand in the picture.

use crate::curve::{Curve, LEAST_RATE};

pub const WIDTH: f64 = 900.0;
pub const HEIGHT: f64 = 600.0;

// The frame of the axes.
pub const LEFT: f64 = 76.0;
pub const RIGHT: f64 = 876.0;
pub const TOP: f64 = 58.0;
pub const BOTTOM: f64 = 492.0;

/// Room to the left of the first mark, in dB.
const ROOM_DB: f64 = 0.5;

/// Room to the right of the last mark for a label, as a share of the way from the first.
const LABEL_ROOM: f64 = 0.115;

/// A straight scale from values to places.
#[derive(Clone, Copy, Debug)]
pub struct Scale {
    pub values: (f64, f64),
    pub places: (f64, f64),
}

impl Scale {
    pub fn place(&self, value: f64) -> f64 {
        let share = (value - self.values.0) / (self.values.1 - self.values.0);
        self.places.0 + share * (self.places.1 - self.places.0)
    }
}

/// The scales of both axes: dB to the right, the logarithm of the rate upwards.
pub struct View {
    pub db: Scale,
    logarithm: Scale,
}

impl View {
    /// A view of whole dB that holds all points of the curves and their labels.
    pub fn around(curves: &[Curve]) -> Self {
        let points = curves.iter().flat_map(|curve| &curve.points);
        let (low, high) = points.fold((0.0f64, 0.0f64), |(low, high), point| {
            (low.min(point.snr_db), high.max(point.snr_db))
        });
        let label = LABEL_ROOM * (high - low);
        Self {
            db: Scale {
                values: ((low - ROOM_DB).floor(), (high + label).ceil()),
                places: (LEFT, RIGHT),
            },
            logarithm: Scale {
                values: (LEAST_RATE.log10(), 0.0),
                places: (BOTTOM, TOP),
            },
        }
    }

    pub fn x(&self, snr_db: f64) -> f64 {
        self.db.place(snr_db)
    }

    pub fn y(&self, rate: f64) -> f64 {
        self.logarithm.place(rate.log10())
    }
}

#[cfg(test)]
mod tests {
    use super::*;
    use crate::block::Tally;
    use crate::curve::Point;

    #[test]
    fn ends_and_middle_stand_in_place() {
        let scale = Scale {
            values: (-10.0, 10.0),
            places: (100.0, 500.0),
        };
        assert_eq!(
            [-10.0, 0.0, 10.0].map(|v| scale.place(v)),
            [100.0, 300.0, 500.0]
        );
    }

    #[test]
    fn decades_are_equally_far_apart_and_1_is_on_top() {
        let view = View::around(&[]);
        let decade = (BOTTOM - TOP) / 4.0;
        for (power, rate) in [1.0, 0.1, 0.01, 0.001, 0.0001].into_iter().enumerate() {
            assert!((view.y(rate) - TOP - decade * power as f64).abs() < 1e-9);
        }
    }

    #[test]
    fn the_view_holds_all_points_and_room_for_a_label() {
        let point = |snr_db| Point {
            snr_db,
            tally: Tally::default(),
        };
        let points = [-3.5, 6.5].map(point).to_vec();
        let view = View::around(&[Curve { level: 1, points }]);
        assert_eq!(view.db.values, (-4.0, 8.0));
        assert!(view.x(-3.5) > LEFT && view.x(6.5) < RIGHT - 75.0);
    }
}
