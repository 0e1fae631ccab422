//! What the Rust source makes of a call, of a curve, of a subpath and of a dashing: for the comparison, and for the maker of the program's list.
use crate::case::{Call, Case, Point};
use crate::zeros::Run;
use crate::{held, marks};
use source::dash::{dash_path, Dash};
use source::flatten::{cubic_segment_count, quad_segment_count};
use source::path::{FillRule, Path, PathBuilder, Rect, Verb};
use source::Vec2;

pub fn v2(p: Point) -> Vec2 {
    Vec2::new(p[0], p[1])
}

pub fn rule_of(n: u8) -> FillRule {
    if n == 0 {
        FillRule::NonZero
    } else {
        FillRule::EvenOdd
    }
}

pub fn apply(mut b: PathBuilder, call: &Call) -> PathBuilder {
    match *call {
        Call::Move(p) => drop(b.move_to(v2(p))),
        Call::Line(p) => drop(b.line_to(v2(p))),
        Call::Quad(c, p) => drop(b.quad_to(v2(c), v2(p))),
        Call::Conic(c, p, w) => drop(b.conic_to(v2(c), v2(p), w)),
        Call::Cubic(c, d, p) => drop(b.cubic_to(v2(c), v2(d), v2(p))),
        Call::Close => drop(b.close()),
        Call::Rule(n) => return b.with_fill_rule(rule_of(n)),
        Call::Note(lo, hi, radius) => drop(b.as_rounded_rect(Rect::new(v2(lo), v2(hi)), radius)),
    }
    b
}

/// The N of a curve by the source, and its s; None for a verb that is no curve.
pub fn curve_count(pen: Vec2, p: &[Vec2], tolerance: f32) -> Option<(usize, f32)> {
    let n = match *p {
        [c, to] => quad_segment_count(pen, c, to, tolerance),
        [c, d, to] => cubic_segment_count(pen, c, d, to, tolerance),
        _ => return None,
    };
    Some((n as usize, held::squared_from(pen, p, tolerance)))
}

/// A subpath, and of its polyline by the source, if it has one, the start and how many closings were added.
type Subpath<'a> = (&'a [Verb], Option<(Vec2, usize)>);

/// The subpaths of a path: of each verb its curve's N and s, and the source's polylines.
pub fn subpaths<'a>(path: &'a Path, each: &[Option<(usize, f32)>], polylines: &[Vec<Vec2>]) -> Vec<Subpath<'a>> {
    let (mut each, mut polylines) = (each.iter(), polylines.iter());
    let told = |verbs: &'a [Verb]| {
        let counts: usize = each.by_ref().take(verbs.len()).flatten().map(|(n, _)| n).sum();
        let drawn = counts + verbs.iter().filter(|v| **v == Verb::LineTo).count();
        let line = (drawn > 0).then(|| polylines.next().expect("the source's polyline"));
        (verbs, line.map(|l| (l[0], l.len() - 1 - drawn)))
    };
    marks::subpaths(path.verbs()).map(told).collect()
}

/// How often subpaths without a polyline stand between two that have one.
pub fn passed_over(subpaths: &[Subpath]) -> usize {
    let mut kept: Vec<bool> = subpaths.iter().map(|s| s.1.is_some()).collect();
    kept.dedup();
    kept.windows(3).filter(|w| w[0] && w[2]).count()
}

/// The runs that the source cuts the path to that `b` has built; None where it is drawn whole. A note on the path tells a copy, which keeps it, from
/// what is cut, which has none.
pub fn source_runs(mut b: PathBuilder, c: &Case) -> Option<Vec<Run>> {
    b.as_rounded_rect(Rect::new(Vec2::ZERO, Vec2::ZERO), 1.0);
    let path = b.build();
    let cut = dash_path(&path, &Dash::new(c.intervals.clone(), c.phase), c.tolerance);
    if cut.as_rounded_rect().is_some() {
        return None;
    }
    assert_eq!(cut.fill_rule(), path.fill_rule(), "the source keeps the rule");
    let mut runs: Vec<Run> = Vec::new();
    for (verb, p) in cut.segments() {
        match verb {
            Verb::MoveTo => runs.push(vec![p[0]]),
            _ => runs.last_mut().expect("the source lays a move first").push(p[0]),
        }
    }
    Some(runs)
}
