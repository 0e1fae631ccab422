//! The curves of a path, each with the point that it starts from.
use hizlaou::{Path, Vec2, Verb};

/// Where the pen stands along a path.
#[derive(Default)]
pub struct Pen {
    pub at: Vec2,
    /// The latest move's point, to which a close returns.
    pub start: Vec2,
}

impl Pen {
    /// Goes where a verb with these points leads.
    pub fn follow(&mut self, verb: Verb, points: &[Vec2]) {
        self.at = points.last().copied().unwrap_or(self.start);
        if verb == Verb::MoveTo {
            self.start = self.at;
        }
    }
}

/// A curve of a path.
#[derive(Debug, Clone, PartialEq)]
pub struct Curve {
    /// Its verb's number in the path, from 0.
    pub index: usize,
    pub verb: Verb,
    /// Its start, its control points and its end.
    pub points: Vec<Vec2>,
}

/// The curves of a path, first to last.
pub fn curves(path: &Path) -> impl Iterator<Item = Curve> + '_ {
    let mut pen = Pen::default();
    path.segments().enumerate().filter_map(move |(index, (verb, to))| {
        let from = pen.at;
        pen.follow(verb, to);
        let is_curve = matches!(verb, Verb::QuadTo | Verb::CubicTo);
        is_curve.then(|| Curve { index, verb, points: std::iter::once(from).chain(to.iter().copied()).collect() })
    })
}

#[cfg(test)]
mod tests {
    use super::*;
    use hizlaou::PathBuilder;

    #[test]
    fn a_curve_after_a_close_starts_at_the_moves_point() {
        let p = |x| Vec2::new(x, 0.0);
        let mut b = PathBuilder::new();
        b.move_to(p(1.0)).unwrap().line_to(p(9.0)).unwrap().close().unwrap().quad_to(p(2.0), p(3.0)).unwrap();
        b.cubic_to(p(4.0), p(5.0), p(6.0)).unwrap().close().unwrap().close().unwrap().quad_to(p(7.0), p(8.0)).unwrap();
        let found: Vec<(usize, Verb, Vec<f32>)> =
            curves(&b.build()).map(|curve| (curve.index, curve.verb, curve.points.iter().map(|p| p.x).collect())).collect();
        let expected = [(3, Verb::QuadTo, vec![1.0, 2.0, 3.0]), (4, Verb::CubicTo, vec![3.0, 4.0, 5.0, 6.0]), (7, Verb::QuadTo, vec![1.0, 7.0, 8.0])];
        assert_eq!(found, expected);
    }
}
