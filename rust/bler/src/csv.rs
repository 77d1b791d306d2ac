//! The points as a table that other programs read.

use crate::block::Tally;
use crate::curve::{Curve, Point, Run};

const HEADER: &str = "aggregation level,E,A,SNR dB,blocks,errors,wrong accepted,BLER";

/// A line for each point, under a line that names the columns.
pub fn table(run: &Run, curves: &[Curve]) -> String {
    let lines = curves.iter().flat_map(|curve| {
        let line = |point| line(run, curve, point);
        curve.points.iter().map(line)
    });
    let lines = [HEADER.to_string()].into_iter().chain(lines);
    lines.map(|line| line + "\n").collect()
}

fn line(run: &Run, curve: &Curve, point: &Point) -> String {
    let (level, e, a) = (curve.level, curve.e(), run.a);
    let Tally {
        blocks,
        errors,
        wrong,
    } = point.tally;
    let (snr_db, rate) = (point.snr_db, point.tally.rate());
    format!("{level},{e},{a},{snr_db:.1},{blocks},{errors},{wrong},{rate:.4e}")
}

#[cfg(test)]
mod tests {
    use super::*;

    #[test]
    fn each_point_has_a_line() {
        let run = Run {
            a: 40,
            blocks: 8000,
            seed: 1,
            threads: 1,
        };
        let tally = Tally {
            blocks: 8000,
            errors: 2,
            wrong: 1,
        };
        let points = vec![Point {
            snr_db: -4.5,
            tally,
        }];
        let expected = format!("{HEADER}\n4,432,40,-4.5,8000,2,1,2.5000e-4\n");
        assert_eq!(table(&run, &[Curve { level: 4, points }]), expected);
    }
}
