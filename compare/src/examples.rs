//! Dashings with zeros and corners whose runs were worked out by hand, from the request: the driver's own walk must give them, the library is asked
//! for them first, and the program's list has them.
use crate::case::{Call, Case, Point};
use crate::reference::{apply, v2};
use crate::zeros::{judged, same_runs, Run};
use source::flatten::flatten;
use source::path::PathBuilder;

/// A path, of polylines with `|` between them and z for a close; a pattern; a phase; a tolerance; and what they give: runs with `|` between them, or
/// "whole". A point is x,y.
struct Example(&'static str, String, f32, f32, &'static str);

const LINE: &str = "0,0 8,0";
const CORNER: &str = "0,0 2,0 2,4";
const SQUARE: &str = "0,0 2,0 2,2 0,2 z";
/// It flattens to 2,048 points at a tolerance of 0.0001.
const LONG: &str = "0,0 500000,500000,1000000,0 1500000,500000,2000000,0 2000000.5,0.3,2000001,0";

/// At a tolerance of 0.25: path, pattern, phase, runs.
const EXAMPLES: &[(&str, &str, f32, &str)] = &[
    // the request's, and those that were decided with it
    (LINE, "0 5", 0.0, ""),
    (CORNER, "2 1", 0.0, "0,0 2,0 | 2,1 2,3"),
    (LINE, "3 0 0 0 4 1", 0.0, "0,0 3,0 | 3,0 7,0"),
    (LINE, "3 1 0 1", 0.0, "0,0 3,0 | 5,0 8,0"),
    (CORNER, "2 0", 0.0, "0,0 2,0 | 2,0 2,2 | 2,2 2,4"),
    ("3,0 -0,0 0,2", "2 1", 0.0, "3,0 1,0 | -0,0 0,2"),
    ("0,0 2,0 inf,0 5,0 5,2", "2 0", 0.0, "0,0 2,0 | 5,0 5,2"),
    (LINE, "1e8 1 1e8 1", 1.5e8, "0,0 8,0"),
    // a zero in each place
    (LINE, "0 2 1 1", 0.0, "2,0 3,0 | 6,0 7,0"),
    (LINE, "2 0 1 1", 0.0, "0,0 2,0 | 2,0 3,0 | 4,0 6,0 | 6,0 7,0"),
    (LINE, "2 1 0 1", 0.0, "0,0 2,0 | 4,0 6,0"),
    (LINE, "2 1 1 0", 0.0, "0,0 2,0 | 3,0 4,0 | 4,0 6,0 | 7,0 8,0"),
    (LINE, "5 0", 0.0, "0,0 5,0 | 5,0 8,0"),
    // −0
    (LINE, "-0 5", 0.0, ""),
    (LINE, "2 -0 1 1", 0.0, "0,0 2,0 | 2,0 3,0 | 4,0 6,0 | 6,0 7,0"),
    (LINE, "-0 0 -0 0 2 2", 0.0, "0,0 2,0 | 4,0 6,0"),
    // rows
    (LINE, "0 0 5 3", 0.0, "0,0 5,0"),
    (LINE, "0 0 0 5", 0.0, ""),
    (LINE, "0 0 0 0 2 2", 0.0, "0,0 2,0 | 4,0 6,0"),
    (LINE, "0 0 0 2 2 2", 0.0, "2,0 4,0"),
    (LINE, "2 0 0 2", 0.0, "0,0 2,0 | 4,0 6,0"),
    (LINE, "2 2 0 0", 0.0, "0,0 2,0 | 4,0 6,0"),
    // odd patterns
    (LINE, "3 0 1", 0.0, "0,0 3,0 | 3,0 4,0"),
    (LINE, "0 2 0", 0.0, "2,0 4,0 | 6,0 8,0"),
    (LINE, "0 0 2", 0.0, "0,0 2,0 | 4,0 6,0"),
    (LINE, "2 0 0", 0.0, "0,0 2,0 | 4,0 6,0"),
    (LINE, "1 0 0 0 0 1 2 0 0", 0.0, "0,0 1,0 | 2,0 4,0 | 5,0 6,0"),
    // the phase ends where zeros are, or lies behind them; the first point is computed
    (LINE, "2 0 2 4", 2.0, "0,0 2,0 | 6,0 8,0"),
    (LINE, "2 0 2 4", -2.0, "2,0 4,0 | 4,0 6,0"),
    (LINE, "2 4 0 2", 6.0, "2,0 4,0"),
    (LINE, "0 0 5 3", 1.0, "0,0 4,0 | 7,0 8,0"),
    (LINE, "0 5", 2.5, ""),
    (LINE, "0 0 5 3", 8.0, "0,0 5,0"),
    ("-0,0 8,0", "0 0 5 3", 0.0, "0,0 5,0"),
    ("-0,0 8,0", "5 3", 0.0, "0,0 5,0"),
    ("-0,0 8,0", "1 1 2 4", 2.0, "0,0 2,0 | 6,0 7,0"),
    ("-0,0 8,0", "1 1 0 0 2 4", 2.0, "0,0 2,0 | 6,0 7,0"),
    // a corner met by a dash, by a gap, behind another corner
    ("0,0 4,0 4,4", "3 1", 0.0, "0,0 3,0 | 4,0 4,3"),
    ("0,0 2,0 2,2 4,2", "4 1", 0.0, "0,0 2,0 2,2 | 3,2 4,2"),
    ("0,0 2,0 2,2 4,2", "2 1", 0.0, "0,0 2,0 | 2,1 2,2 3,2"),
    ("0,0 2,0 2,2 4,2", "2", 0.0, "0,0 2,0 | 2,2 4,2"),
    ("0,0 2,0 2,2 4,2 4,4", "2 2 0 0", 0.0, "0,0 2,0 | 2,2 4,2"),
    ("0,0 2,0 2,4", "2 1", 1.0, "0,0 1,0 | 2,0 2,2 | 2,3 2,4"),
    ("4,0 4,-4 -0,-4 -0,0", "4", 0.0, "4,0 4,-4 | -0,-4 -0,0"),
    // with zeros there
    (CORNER, "1 1 0 2", 0.0, "0,0 1,0 | 2,2 2,3"),
    (CORNER, "2 0 0 0 2 0", 0.0, "0,0 2,0 | 2,0 2,2 | 2,2 2,4"),
    (CORNER, "2 0 0 1", 0.0, "0,0 2,0 | 2,1 2,3"),
    (CORNER, "2 1 0 1", 0.0, "0,0 2,0 | 2,2 2,4"),
    (CORNER, "0 2 4 1", 0.0, "2,0 2,4"),
    // with segments that are not walked: of no length, far away, too small for its square
    ("0,0 2,0 2,0 2,4", "2 1", 0.0, "0,0 2,0 | 2,1 2,3"),
    ("2,0 0,0 -0,-0 0,4", "2 0", 0.0, "2,0 0,0 | -0,-0 0,2 | 0,2 0,4"),
    ("0,0 2,0 NaN,0 5,0 5,2", "2 1", 0.0, "0,0 2,0 | 5,1 5,2"),
    ("0,0 2,0 1e30,0 5,0 5,2", "2 0", 0.0, "0,0 2,0 | 5,0 5,2"),
    ("2,0 0,0 1e-30,0 1e-30,4", "2 0", 0.0, "2,0 0,0 | 1e-30,0 1e-30,2 | 1e-30,2 1e-30,4"),
    ("0,0 4,0 inf,-inf 5,0 5,2", "3 1", 0.0, "0,0 3,0 | 5,0 5,2"),
    ("0,0 4,0 4,0 -inf,0 -0,0 -0,-0 0,2", "3 1", 0.0, "0,0 3,0 | -0,-0 0,2"),
    ("inf,0 1,0 1,2 3,2", "2 1", 0.0, "1,0 1,2 | 2,2 3,2"),
    ("NaN,NaN -0,0 8,0", "1e8 1 1e8 1", 1.5e8, "-0,0 8,0"),
    // the last corner: no lone move
    ("0,0 2,0", "2 1", 0.0, "0,0 2,0"),
    ("0,0 2,0", "2 0", 0.0, "0,0 2,0"),
    ("0,0 4,0", "3 1", 0.0, "0,0 3,0"),
    ("0,0 2,0 2,0", "2 0", 0.0, "0,0 2,0"),
    ("0,0 2,0 inf,0", "2 0", 0.0, "0,0 2,0"),
    (CORNER, "4 2", 0.0, "0,0 2,0 2,2"),
    // closed shapes
    (SQUARE, "2 1", 0.0, "0,0 2,0 | 2,1 2,2 1,2 | 0,2 0,0"),
    (SQUARE, "2 0", 0.0, "0,0 2,0 | 2,0 2,2 | 2,2 0,2 | 0,2 0,0"),
    (SQUARE, "2", 0.0, "0,0 2,0 | 2,2 0,2"),
    (SQUARE, "6 2", 0.0, "0,0 2,0 2,2 0,2"),
    (SQUARE, "8 1", 0.0, "0,0 2,0 2,2 0,2 0,0"),
    (SQUARE, "0 6 0 0 2 4", 0.0, "0,2 0,0"),
    ("0,0 2,0 2,2 0,2 -0,0 z", "2", 0.0, "0,0 2,0 | 2,2 0,2"),
    ("0,0 2,0 2,2 0,2 z 0,2", "2 0 2 2", 0.0, "0,0 2,0 | 2,0 2,2 | 0,2 0,0 | 0,0 0,2"),
    // each polyline is walked anew
    ("0,0 2,0 2,4 | 0,5 2,5 2,9", "2 1", 0.0, "0,0 2,0 | 2,1 2,3 | 0,5 2,5 | 2,6 2,8"),
    ("0,0 2,0 | -0,5 2,5", "2 0", 0.0, "0,0 2,0 | 0,5 2,5"),
    ("0,0 8,0 | -0,5 8,5", "1e8 1 1e8 1", 1.5e8, "0,0 8,0 | -0,5 8,5"),
    // nothing left at the start: the small interval is drawn, is a gap, has zeros behind it, a corner behind it
    ("-0,0 8,0", "1e8 1 1e8 1", 1.5e8, "-0,0 8,0"),
    (LINE, "1 1e8", 5e7, ""),
    (LINE, "1e8 1 2 2 1e8 1", 1.5e8, "0,0 2,0 | 4,0 8,0"),
    (LINE, "1e8 1 0 3 1e8 1", 1.5e8, "3,0 8,0"),
    (LINE, "1e8 1 0 0 2 0 1e8 1", 1.5e8, "0,0 2,0 | 2,0 8,0"),
    (LINE, "1e8 0 1 0 1e8 1", 1.5e8, "0,0 8,0"),
    (CORNER, "1e8 1 2 1 1e8 1", 1.5e8, "0,0 2,0 | 2,1 2,4"),
    ("-0,0 4,0", "1 0 1e8 1", 5e7, "-0,0 4,0"),
    // a float less and a float more than a corner needs: very little is left
    (CORNER, "1.9999999 1", 0.0, "0,0 1.9999999,0 | 2,0.9999999 2,2.9999998 | 2,3.9999998 2,4"),
    (CORNER, "2.0000002 1", 0.0, "0,0 2,0 2,2.3841858e-7 | 2,1.0000002 2,3.0000005"),
    // rounding takes the position to the corner: the next interval begins before it, at the last point, computed
    ("0,0 4,0 4,4", "3 0.99999994 2 9", 0.0, "0,0 3,0 | 4,0 4,0 4,2"),
    ("0,0 4,0 4,4", "3 0 0.99999994 0 2 9", 0.0, "0,0 3,0 | 3,0 4,0 | 4,0 4,0 4,2"),
    // less than nothing left: the position stopped growing
    ("0,0 8,0 8,8", "1 1e-9", 0.0, "0,0 1,0"),
    ("0,0 8,0 8,8", "1 1e-9 0 2", 0.0, "0,0 1,0"),
    ("0,0 8,0 8,8", "4 0 1e-9 1", 0.0, "0,0 4,0 | 4,0 8,0 8,8"),
    (CORNER, "2 1e-9 2 1", 0.0, "0,0 2,0 | 2,0 2,2 | 2,3 2,4"),
];

/// Patterns at other tolerances: path, pattern, phase, tolerance, runs.
const TOLERANCES: &[(&str, &str, f32, f32, &str)] = &[
    (LINE, "0", 0.0, 0.25, "whole"),
    (LINE, "0", 0.0, -1.0, "whole"),
    (LINE, "0 0", 0.0, f32::NEG_INFINITY, "whole"),
    (LINE, "-0 0 -0", 3.0, -1.0, "whole"),
    (LINE, "-0", 0.0, f32::NEG_INFINITY, "whole"),
    (LINE, "0 -0", 0.0, f32::NAN, "whole"),
    (LINE, "0 5", 0.0, 5.0, "whole"),
    (LINE, "5 0", 0.0, f32::NAN, "whole"),
    (LINE, "0 5", 0.0, -1.0, ""),
    (LINE, "0 1e-45", 0.0, -1.0, ""),
    (LINE, "0 3 0 1e-45", 1.0, f32::NEG_INFINITY, ""),
    (CORNER, "2 1", 0.0, -1.0, "0,0 2,0 | 2,1 2,3"),
    (LONG, "0 0.001", 0.0, 0.0001, ""),
    (LONG, "-0 0.0005 0 0.001", 0.0007, 0.0001, ""),
];

fn point(word: &str) -> Vec<Point> {
    let floats: Vec<f32> = word.split(',').map(|w| w.parse().expect("a float")).collect();
    floats.chunks(2).map(|p| [p[0], p[1]]).collect()
}

fn runs(text: &str) -> Option<Vec<Run>> {
    let run = |text: &str| text.split_whitespace().flat_map(point).map(v2).collect();
    (text != "whole").then(|| text.split('|').map(run).filter(|run: &Run| !run.is_empty()).collect())
}

fn calls(text: &str) -> Vec<Call> {
    let mut calls = Vec::new();
    for line in text.split('|') {
        for (i, word) in line.split_whitespace().enumerate() {
            calls.push(match (i, word) {
                (_, "z") => Call::Close,
                (0, _) => Call::Move(point(word)[0]),
                _ => match point(word)[..] {
                    [control, to] => Call::Quad(control, to),
                    ref to => Call::Line(to[0]),
                },
            });
        }
    }
    calls
}

impl Example {
    fn case(&self) -> Case {
        let intervals = self.1.split_whitespace().map(|w| w.parse().expect("a float")).collect();
        Case { tolerance: self.3, scale: 1.0, phase: self.2, intervals, calls: calls(self.0), seed: 0 }
    }
}

fn all() -> Vec<Example> {
    let usual = EXAMPLES.iter().map(|(path, pattern, phase, runs)| Example(path, pattern.to_string(), *phase, 0.25, runs));
    let others = TOLERANCES.iter().map(|(path, pattern, phase, t, runs)| Example(path, pattern.to_string(), *phase, *t, runs));
    // 64 intervals, and 63, which are doubled
    let long = [(62, "0,0 2,0 | 4,0 6,0"), (61, "2,0 4,0 | 4,0 6,0")];
    let long = long.map(|(zeros, runs)| Example(LINE, "0 ".repeat(zeros) + "2 2", 0.0, 0.25, runs));
    usual.chain(others).chain(long).collect()
}

/// The examples as cases; what the driver works out is what was worked out by hand.
pub fn cases() -> Vec<Case> {
    let told = |example: &Example| {
        let c = example.case();
        let b = c.calls.iter().fold(PathBuilder::new(), apply);
        let polylines = flatten(&b.clone().build(), c.tolerance);
        let got = judged(&b, &c, &polylines).expect("an example").runs;
        assert!(same_runs(&got, &runs(example.4)), "{} by {}: {got:?}, by hand {}", example.0, example.1, example.4);
        c
    };
    all().iter().map(told).collect()
}
