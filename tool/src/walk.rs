//! Finds where a dash, or a gap, never ends.
//!
//! The library's walk leaves a segment from the inside when the position no longer grows: when an interval is too short to move it. From there on the
//! rest of the polyline is one run or one gap. The first such place never lies where a segment begins: the position is 0 there and what is left of the
//! interval 0 or more; exactly 0 ends the interval, and more than 0 moves the position. The library's answer holds no sign of such a place, so the walk is
//! made again here, over the library's polylines, with the same operations in the same order. What is found counts only if this walk lays the library's
//! answer, verb by verb and float by float; that is compared as it goes.
use crate::canvas::length;
use hizlaou::{Dash, Path, Polylines, Vec2, Verb};

/// An interval that never ends, with at least one more piece of the polyline to come.
#[derive(Debug, Clone, PartialEq)]
pub struct RunOn {
    /// The polyline, from 0.
    pub polyline: usize,
    /// Where it begins, between two points of the polyline.
    pub at: Vec2,
    /// The polyline's point that comes after `at`, by its index in the polyline.
    pub next: usize,
    /// Whether it is a dash, which runs on as an unbroken line, or a gap, after which nothing more is drawn.
    pub is_dash: bool,
    /// How far it is to the polyline's end.
    pub length: f64,
}

/// What the walk found.
#[derive(Debug, PartialEq)]
pub struct Found {
    pub run_ons: Vec<RunOn>,
    /// Whether the pattern has a dash above 0.
    pub has_dash: bool,
    /// Whether the library's answer was met. If not, `run_ons` says nothing about it.
    pub agrees: bool,
}

impl Found {
    /// Whether nothing is drawn for want of a dash above 0.
    pub fn is_without_dash(&self) -> bool {
        self.agrees && !self.has_dash
    }
}

/// Walks all polylines and holds what is laid against the library's dashes. Where nothing is drawn no walk is made, as in the library: it could take
/// long and lays nothing.
pub fn find(polylines: &Polylines, dash: &Dash, cycle: &[f32], period: f32, dashes: &Path, progress: impl Fn(usize)) -> Found {
    let mut laid = Laid { verbs: dashes.verbs(), points: dashes.points(), agrees: true };
    let has_dash = cycle.iter().step_by(2).any(|&interval| interval > 0.0);
    let mut run_ons = Vec::new();
    let mut done = 0;
    for (number, points) in polylines.iter().enumerate().filter(|_| has_dash) {
        let mut walk = Walk::placed(cycle, period, dash.phase);
        let stalled = walk.all(points, &mut laid);
        run_ons.extend(stalled.map(|stall| stall.described(number, points, walk.is_drawing())));
        done += points.len();
        progress(done);
    }
    Found { run_ons, has_dash, agrees: laid.is_whole() }
}

/// The library's answer, as far as it is not met yet.
struct Laid<'a> {
    verbs: &'a [Verb],
    points: &'a [Vec2],
    agrees: bool,
}

impl Laid<'_> {
    /// The walk lays this: so must the answer.
    fn meet(&mut self, verb: Verb, p: Vec2) {
        match (self.verbs.split_first(), self.points.split_first()) {
            (Some((v, verbs)), Some((q, points))) => {
                self.agrees &= *v == verb && is_same(q.x, p.x) && is_same(q.y, p.y);
                self.verbs = verbs;
                self.points = points;
            }
            _ => self.agrees = false,
        }
    }

    fn is_whole(&self) -> bool {
        self.agrees && self.verbs.is_empty() && self.points.is_empty()
    }
}

/// The same float, all NaNs being one.
fn is_same(a: f32, b: f32) -> bool {
    a.to_bits() == b.to_bits() || (a.is_nan() && b.is_nan())
}

/// Where a walk stalled: the place, and the polyline's point after it.
struct Stall {
    next: usize,
    at: Vec2,
}

impl Stall {
    fn described(self, polyline: usize, points: &[Vec2], is_dash: bool) -> RunOn {
        let ahead = points.get(self.next..).unwrap_or_default();
        let first = ahead.first().map_or(0.0, |&p| length(&[self.at, p]));
        RunOn { polyline, at: self.at, next: self.next, is_dash, length: first + length(ahead) }
    }
}

/// A walk's state: where in the cycle it is. The cycle has a dash above 0, so that zeros in it come to an end.
struct Walk<'a> {
    cycle: &'a [f32],
    index: usize,
    left: f32,
    pen_down: bool,
    /// The present interval began with the segment, so that its first point is the segment's, copied.
    is_copied: bool,
}

impl<'a> Walk<'a> {
    /// At the start of a polyline.
    fn placed(cycle: &'a [f32], period: f32, phase: f32) -> Walk<'a> {
        let mut walk = Walk { cycle, index: 0, left: 0.0, pen_down: false, is_copied: false };
        walk.pass_zeros();
        let mut remaining = phase.rem_euclid(period);
        while remaining >= walk.interval() {
            let next = remaining - walk.interval();
            if next >= remaining {
                break;
            }
            remaining = next;
            walk.advance();
        }
        walk.left = (walk.interval() - remaining).max(0.0);
        walk
    }

    fn interval(&self) -> f32 {
        self.cycle.get(self.index).copied().unwrap_or(f32::INFINITY)
    }

    /// Dashes and gaps alternate.
    fn is_drawing(&self) -> bool {
        self.index.is_multiple_of(2)
    }

    fn step(&mut self) {
        self.index = if self.index + 1 < self.cycle.len() { self.index + 1 } else { 0 };
    }

    fn pass_zeros(&mut self) {
        while self.interval() == 0.0 {
            self.step();
        }
    }

    /// On to the next interval that is not 0.
    fn advance(&mut self) {
        self.step();
        self.pass_zeros();
        self.left = self.interval();
    }

    /// Walks a polyline; says where it stalled first.
    fn all(&mut self, points: &[Vec2], laid: &mut Laid) -> Option<Stall> {
        let mut first_stall = None;
        for (i, (&from, &to)) in points.iter().zip(points.iter().skip(1)).enumerate() {
            let way = Way::between(from, to);
            if !way.length.is_finite() || way.length <= 0.0 {
                continue;
            }
            self.enter();
            let (traveled, is_stalled) = self.inside(&way, laid);
            if is_stalled && first_stall.is_none() {
                first_stall = Some(Stall { next: i + 1, at: way.at(traveled) });
            }
            self.rest(&way, traveled, to, laid);
        }
        first_stall
    }

    /// An interval with exactly nothing left ends where a segment begins, with the pen up, and the next one begins there.
    fn enter(&mut self) {
        self.is_copied = self.left == 0.0;
        if self.is_copied {
            self.advance();
            self.pen_down = false;
        }
    }

    /// Ends all intervals that end inside a segment. Says how far it came, and whether the position stopped growing.
    fn inside(&mut self, way: &Way, laid: &mut Laid) -> (f32, bool) {
        let mut traveled = 0.0f32;
        while way.length - traveled > self.left {
            let next = traveled + self.left;
            if next <= traveled {
                return (traveled, true);
            }
            traveled = next;
            if self.is_drawing() {
                self.begin(way, traveled - self.left, laid);
                laid.meet(Verb::LineTo, way.at(traveled));
                self.pen_down = false;
            }
            self.is_copied = false;
            self.advance();
        }
        (traveled, false)
    }

    /// The rest of a segment lies inside the present interval.
    fn rest(&mut self, way: &Way, traveled: f32, to: Vec2, laid: &mut Laid) {
        if self.is_drawing() {
            self.begin(way, traveled, laid);
            laid.meet(Verb::LineTo, to);
        }
        self.pen_down = self.is_drawing();
        self.left -= way.length - traveled;
    }

    /// Begins a run so far along a segment, unless one is being drawn.
    fn begin(&self, way: &Way, traveled: f32, laid: &mut Laid) {
        if !self.pen_down {
            laid.meet(Verb::MoveTo, if self.is_copied { way.from } else { way.at(traveled) });
        }
    }
}

/// A segment of a polyline.
struct Way {
    from: Vec2,
    step: Vec2,
    length: f32,
}

impl Way {
    fn between(from: Vec2, to: Vec2) -> Way {
        let step = Vec2::new(to.x - from.x, to.y - from.y);
        Way { from, step, length: (step.x * step.x + step.y * step.y).sqrt() }
    }

    fn at(&self, traveled: f32) -> Vec2 {
        let t = traveled / self.length;
        Vec2::new(self.from.x + self.step.x * t, self.from.y + self.step.y * t)
    }
}

#[cfg(test)]
mod tests {
    use super::*;
    use hizlaou::{dash_path, Dashed, PathBuilder};

    type Runs = Vec<Vec<(f32, f32)>>;

    /// The runs that the library draws along these points, and what the walk finds. None where the outline is drawn whole.
    fn walked(points: &[(f32, f32)], intervals: &[f32], phase: f32) -> Option<(Runs, Found)> {
        let mut b = PathBuilder::new();
        for (i, &p) in points.iter().enumerate() {
            if i == 0 { b.move_to(p.into()) } else { b.line_to(p.into()) }.unwrap();
        }
        let dash = Dash::new(intervals.to_vec(), phase);
        let Dashed::Cut { path, polylines } = dash_path(&b.build(), &dash, 0.001).unwrap() else { return None };
        let mut cycle = intervals.to_vec();
        if cycle.len() % 2 == 1 {
            cycle.extend_from_slice(intervals);
        }
        let period = cycle.iter().fold(0.0, |a, b| a + b);
        let runs = crate::json::runs(&path).map(|run| run.iter().map(|p| (p.x, p.y)).collect()).collect();
        Some((runs, find(&polylines, &dash, &cycle, period, &path, |_| ())))
    }

    fn one(points: &[(f32, f32)], intervals: &[f32]) -> RunOn {
        let (_, found) = walked(points, intervals, 0.0).unwrap();
        assert!(found.agrees && found.has_dash);
        assert_eq!(found.run_ons.len(), 1);
        found.run_ons[0].clone()
    }

    /// The runs of a walk in which nothing runs on.
    fn quiet(points: &[(f32, f32)], intervals: &[f32], phase: f32) -> Runs {
        let (runs, found) = walked(points, intervals, phase).unwrap();
        assert_eq!(found, Found { run_ons: vec![], has_dash: true, agrees: true }, "{points:?} {intervals:?} {phase}");
        runs
    }

    const LINE: [(f32, f32); 2] = [(0.0, 0.0), (8.0, 0.0)];
    const HOOK: [(f32, f32); 3] = [(0.0, 0.0), (2.0, 0.0), (2.0, 4.0)];

    #[test]
    fn what_is_used_up_at_a_corner_ends_there() {
        assert_eq!(quiet(&HOOK, &[2.0, 1.0], 0.0), [[(0.0, 0.0), (2.0, 0.0)], [(2.0, 1.0), (2.0, 3.0)]]);
        assert_eq!(quiet(&HOOK, &[1.0, 1.0], 0.0), [[(0.0, 0.0), (1.0, 0.0)], [(2.0, 0.0), (2.0, 1.0)], [(2.0, 2.0), (2.0, 3.0)]]);
        assert_eq!(quiet(&HOOK, &[2.0, 0.0], 0.0), [[(0.0, 0.0), (2.0, 0.0)], [(2.0, 0.0), (2.0, 2.0)], [(2.0, 2.0), (2.0, 4.0)]]);
        // A −0 is copied there, which the walk compares by its bits, and a segment that is not walked passed over.
        assert_eq!(quiet(&[(3.0, 0.0), (-0.0, 0.0), (0.0, 2.0)], &[2.0, 1.0], 0.0)[1], [(-0.0, 0.0), (0.0, 2.0)]);
        let far = [(0.0, 0.0), (2.0, 0.0), (f32::INFINITY, 0.0), (5.0, 0.0), (5.0, 2.0)];
        assert_eq!(quiet(&far, &[2.0, 0.0], 0.0), [[(0.0, 0.0), (2.0, 0.0)], [(5.0, 0.0), (5.0, 2.0)]]);
    }

    #[test]
    fn nothing_left_at_the_start_ends_there() {
        assert_eq!(quiet(&LINE, &[1e8, 1.0, 1e8, 1.0], 1.5e8), [LINE]);
    }

    #[test]
    fn zeros_are_passed_over() {
        assert_eq!(quiet(&LINE, &[3.0, 0.0, 0.0, -0.0, 4.0, 1.0], 0.0), [[(0.0, 0.0), (3.0, 0.0)], [(3.0, 0.0), (7.0, 0.0)]]);
        assert_eq!(quiet(&LINE, &[0.0, 1.0, 3.0, 0.0], 0.0), [[(1.0, 0.0), (4.0, 0.0)], [(5.0, 0.0), (8.0, 0.0)]]);
        assert_eq!(quiet(&LINE, &[0.0, 5.0, 0.0], 0.0), [[(5.0, 0.0), (8.0, 0.0)]]);
    }

    #[test]
    fn without_a_dash_above_0_nothing_is_drawn_and_no_walk_is_made() {
        for intervals in [&[0.0, 5.0][..], &[0.0, 0.002], &[-0.0, 1.0, 0.0, 0.0]] {
            let (runs, found) = walked(&[(0.0, 0.0), (1e6, 0.0)], intervals, 0.0).unwrap();
            assert_eq!((runs.len(), found), (0, Found { run_ons: vec![], has_dash: false, agrees: true }));
        }
    }

    #[test]
    fn an_interval_used_up_at_the_very_end_is_no_run_on() {
        for intervals in [[2.0, 1.0], [6.0, 2.0], [5.0, 4.0]] {
            quiet(&HOOK[..2], &intervals, 0.0);
        }
        quiet(&[(0.0, 0.0), (4.0, 0.0), (4.0, 4.0)], &[6.0, 2.0], 0.0);
    }

    #[test]
    fn an_interval_too_short_to_move_the_position_runs_on() {
        let at = Vec2::new(3.0, 0.0);
        assert_eq!(one(&LINE, &[2.0, 1.0, 1e-9, 1.0]), RunOn { polyline: 0, at, next: 1, is_dash: true, length: 5.0 });
        assert_eq!(one(&LINE, &[3.0, 1e-9]), RunOn { polyline: 0, at, next: 1, is_dash: false, length: 5.0 });
        // Over the next corners too: less than nothing is left of it there, which is not exactly nothing.
        let way = [(0.0, 0.0), (2.0, 0.0), (2.0, 8.0), (6.0, 8.0)];
        assert_eq!(one(&way, &[2.0, 1.0, 1e-9, 1.0]), RunOn { polyline: 0, at: Vec2::new(2.0, 1.0), next: 2, is_dash: true, length: 11.0 });
    }

    #[test]
    fn the_same_dash_moves_the_position_near_a_segments_start() {
        let run_on = one(&[(0.0, 0.0), (0.0, 1e4)], &[1e-9, 0.01]);
        assert!((0.03..0.05).contains(&run_on.at.y) && run_on.is_dash, "{run_on:?}");
    }

    /// Small whole numbers, so that corners are met exactly, among others that no walk likes.
    #[test]
    fn the_walk_lays_the_librarys_answer() {
        let mut seed = 7u32;
        let mut next = |limit: u32| {
            seed = seed.wrapping_mul(1_664_525).wrapping_add(1_013_904_223);
            (seed >> 16) % limit
        };
        let odd = [0.3, 1e-9, 1e20, f32::NAN, f32::INFINITY, -0.0, 1e38];
        let (mut cut, mut empty, mut stalled) = (0, 0, 0);
        for _ in 0..3_000 {
            let value = |next: &mut dyn FnMut(u32) -> u32, most: u32| match next(40) {
                n if (n as usize) < odd.len() => odd[n as usize],
                _ => next(most) as f32,
            };
            let points: Vec<_> = (0..2 + next(5)).map(|_| (value(&mut next, 9), value(&mut next, 9))).collect();
            let intervals: Vec<_> = (0..1 + next(5)).map(|_| value(&mut next, 5)).collect();
            let Some((_, found)) = walked(&points, &intervals, value(&mut next, 7)) else { continue };
            assert!(found.agrees, "{points:?} {intervals:?}");
            cut += 1;
            empty += usize::from(!found.has_dash);
            stalled += usize::from(!found.run_ons.is_empty());
        }
        assert!(cut > 1_000 && empty > 50 && stalled > 50, "{cut} cut, {empty} of them empty, {stalled} stalled");
    }
}
