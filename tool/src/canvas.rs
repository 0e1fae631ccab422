//! From an outline's coordinates to the picture's pixels, and lines in SVG.
//!
//! What isn't finite has no place in a picture: a line or curve with such a point is left out.
use crate::curve::{curves, Curve, Pen};
use hizlaou::{Path, Polylines, Vec2, Verb};
use std::fmt::Write;

/// The box round what is drawn.
#[derive(Debug, Clone, Copy, PartialEq)]
pub struct Extent {
    min: (f64, f64),
    max: (f64, f64),
}

impl Extent {
    /// The box round polylines and outline, the outline's curves looked at in 17 places. None where nothing is finite.
    pub fn of(path: &Path, polylines: &Polylines) -> Option<Extent> {
        let mut extent = None;
        polylines.points().iter().for_each(|&p| grow(&mut extent, finite(p)));
        for points in curves(path).filter_map(|curve| all_finite(&curve.points)) {
            (1..16).for_each(|i| grow(&mut extent, Some(on_curve(&points, f64::from(i) / 16.0))));
        }
        extent
    }
}

fn grow(extent: &mut Option<Extent>, p: Option<(f64, f64)>) {
    let Some(p) = p else { return };
    let e = extent.get_or_insert(Extent { min: p, max: p });
    e.min = (e.min.0.min(p.0), e.min.1.min(p.1));
    e.max = (e.max.0.max(p.0), e.max.1.max(p.1));
}

/// Whether a point has a place in a picture.
pub fn is_finite(p: &Vec2) -> bool {
    p.x.is_finite() && p.y.is_finite()
}

fn finite(p: Vec2) -> Option<(f64, f64)> {
    is_finite(&p).then(|| (f64::from(p.x), f64::from(p.y)))
}

fn all_finite(points: &[Vec2]) -> Option<Vec<(f64, f64)>> {
    points.iter().map(|&p| finite(p)).collect()
}

/// A curve's point by halving the ways between its points again and again.
fn on_curve(points: &[(f64, f64)], t: f64) -> (f64, f64) {
    let mut row = points.to_vec();
    while row.len() > 1 {
        row = row.windows(2).map(|w| (w[0].0 + (w[1].0 - w[0].0) * t, w[0].1 + (w[1].1 - w[0].1) * t)).collect();
    }
    row.first().copied().unwrap_or_default()
}

/// How coordinates become pixels.
pub struct Fit {
    from: (f64, f64),
    to: (f64, f64),
    /// Pixels for one unit.
    pub scale: f64,
}

impl Fit {
    /// Fits a box into a width, and into a height from `least` to `most`; says the height that is taken.
    pub fn new(extent: Option<Extent>, (left, top): (f64, f64), width: f64, least: f64, most: f64) -> (Fit, f64) {
        let e = extent.unwrap_or(Extent { min: (0.0, 0.0), max: (1.0, 0.0) });
        let (w, h) = (e.max.0 - e.min.0, e.max.1 - e.min.1);
        let size = if w.max(h) > 0.0 { (w, h) } else { (1.0, 1.0) };
        let scale = (width / size.0).min(most / size.1);
        let height = (h * scale).clamp(least, most);
        let to = (left + (width - w * scale) / 2.0, top + (height - h * scale) / 2.0);
        (Fit { from: e.min, to, scale }, height)
    }

    /// A point's pixel; none where it isn't finite.
    pub fn place(&self, p: Vec2) -> Option<(f64, f64)> {
        finite(p).map(|(x, y)| (self.to.0 + (x - self.from.0) * self.scale, self.to.1 + (y - self.from.1) * self.scale))
    }

    fn places(&self, points: &[Vec2]) -> Option<Vec<(f64, f64)>> {
        points.iter().map(|&p| self.place(p)).collect()
    }

    /// A curve as path data; none where a point of it isn't finite.
    pub fn curve(&self, curve: &Curve) -> Option<String> {
        let places = self.places(&curve.points)?;
        let (from, to) = places.split_first()?;
        let mut data = String::new();
        push(&mut data, "M", &[*from]);
        push(&mut data, crate::text::letter(curve.verb), to);
        Some(data)
    }

    /// Polylines as path data.
    pub fn lines<'a>(&self, lists: impl Iterator<Item = &'a [Vec2]>) -> String {
        let mut data = String::new();
        for points in lists {
            let mut letter = "M";
            for &p in points {
                let Some(place) = self.place(p) else {
                    letter = "M";
                    continue;
                };
                push(&mut data, letter, &[place]);
                letter = "L";
            }
        }
        data
    }

    /// An outline as path data, with its curves; a close is a line to the start, since what is left out may have begun the piece elsewhere.
    /// `only_closed` leaves out subpaths without a close.
    pub fn outline(&self, path: &Path, only_closed: bool) -> String {
        let (mut data, mut subpath) = (String::new(), String::new());
        let (mut pen, mut is_lifted, mut is_closed) = (Pen::default(), true, false);
        for (verb, points) in path.segments() {
            if verb == Verb::MoveTo {
                keep(&mut data, &mut subpath, is_closed || !only_closed);
            }
            is_closed = verb == Verb::Close || (is_closed && verb != Verb::MoveTo);
            let (letter, to) = match verb {
                Verb::Close => ("L", self.place(pen.start).map(|start| vec![start])),
                _ => (crate::text::letter(verb), self.places(points)),
            };
            is_lifted = match (verb, self.place(pen.at), to) {
                (Verb::MoveTo, ..) | (_, None, _) | (_, _, None) => true,
                (_, Some(from), Some(to)) => {
                    if is_lifted {
                        push(&mut subpath, "M", &[from]);
                    }
                    push(&mut subpath, letter, &to);
                    false
                }
            };
            pen.follow(verb, points);
        }
        keep(&mut data, &mut subpath, is_closed || !only_closed);
        data
    }

    /// How many pixels lie between a point and the next: the middle one of these distances, of each so-many-th pair.
    pub fn spacing(&self, points: &[Vec2], step: usize) -> f64 {
        let mut ways: Vec<f64> = points.windows(2).step_by(step.max(1)).map(|pair| length(pair) * self.scale).collect();
        let middle = ways.len() / 2;
        ways.sort_by(f64::total_cmp);
        ways.get(middle).copied().unwrap_or_default()
    }

    /// Points as path data of dots: lines too short to see, for round caps.
    pub fn dots(&self, points: impl Iterator<Item = Vec2>) -> String {
        let mut data = String::new();
        for place in points.filter_map(|p| self.place(p)) {
            push(&mut data, "M", &[place]);
            data.push_str("h.01");
        }
        data
    }
}

/// The length of a polyline; what isn't finite counts 0.
pub fn length(points: &[Vec2]) -> f64 {
    points.iter().zip(points.iter().skip(1)).map(|(&a, &b)| distance(a, b)).sum()
}

fn distance(a: Vec2, b: Vec2) -> f64 {
    let (x, y) = (f64::from(b.x) - f64::from(a.x), f64::from(b.y) - f64::from(a.y));
    let distance = (x * x + y * y).sqrt();
    if distance.is_finite() {
        distance
    } else {
        0.0
    }
}

/// Moves a subpath over to the data if it is wanted; drops it if not.
fn keep(data: &mut String, subpath: &mut String, is_wanted: bool) {
    if is_wanted {
        data.push_str(subpath);
    }
    subpath.clear();
}

fn push(data: &mut String, letter: &str, places: &[(f64, f64)]) {
    data.push_str(letter);
    for (i, (x, y)) in places.iter().enumerate() {
        let _ = write!(data, "{}{} {}", if i > 0 { " " } else { "" }, px(*x), px(*y));
    }
}

/// A pixel coordinate, to a thousandth.
pub fn px(value: f64) -> f64 {
    (value * 1000.0).round() / 1000.0 + 0.0
}

#[cfg(test)]
mod tests {
    use super::*;
    use hizlaou::{flatten, PathBuilder};

    fn arch() -> Path {
        let mut b = PathBuilder::new();
        b.move_to(Vec2::ZERO).unwrap().quad_to(Vec2::new(8.0, 8.0), Vec2::new(16.0, 0.0)).unwrap().close().unwrap();
        b.move_to(Vec2::new(1.0, 1.0)).unwrap().line_to(Vec2::new(f32::NAN, 2.0)).unwrap().line_to(Vec2::new(3.0, 3.0)).unwrap();
        b.line_to(Vec2::new(4.0, 3.0)).unwrap();
        b.build()
    }

    #[test]
    fn what_is_not_finite_is_left_out() {
        let path = arch();
        let polylines = flatten(&path, 1e9).unwrap();
        let extent = Extent::of(&path, &polylines);
        assert_eq!(extent, Some(Extent { min: (0.0, 0.0), max: (16.0, 4.0) }));
        let (fit, height) = Fit::new(extent, (10.0, 20.0), 160.0, 10.0, 1000.0);
        assert_eq!((fit.scale, height), (10.0, 40.0));
        assert_eq!(fit.outline(&path, false), "M10 20Q90 100 170 20L10 20M40 50L50 50");
        assert_eq!(fit.outline(&path, true), "M10 20Q90 100 170 20L10 20");
        let drawn: Vec<_> = curves(&path).map(|curve| (curve.index, fit.curve(&curve))).collect();
        assert_eq!(drawn, [(1, Some("M10 20Q90 100 170 20".into()))]);
        let lost = Curve { index: 1, verb: Verb::QuadTo, points: vec![Vec2::ZERO, Vec2::new(f32::INFINITY, 8.0), Vec2::new(16.0, 0.0)] };
        assert_eq!(fit.curve(&lost), None);
        assert_eq!(fit.lines(polylines.iter()), "M10 20L170 20L10 20M20 30M40 50L50 50");
        assert_eq!(fit.spacing(&[Vec2::ZERO, Vec2::new(0.0, 1.0), Vec2::new(0.0, 3.0), Vec2::new(0.0, 9.0)], 1), 20.0);
        assert_eq!(fit.spacing(&[], 0), 0.0);
        assert_eq!(fit.dots([Vec2::ZERO, Vec2::new(f32::INFINITY, 0.0)].into_iter()), "M10 20h.01");
    }

    #[test]
    fn nothing_and_a_single_point_fit_too() {
        let empty = PathBuilder::new().build();
        assert_eq!(Extent::of(&empty, &Polylines::default()), None);
        for extent in [None, Some(Extent { min: (5.0, 5.0), max: (5.0, 5.0) }), Some(Extent { min: (-3e38, 0.0), max: (3e38, 0.0) })] {
            let (fit, height) = Fit::new(extent, (0.0, 0.0), 100.0, 50.0, 200.0);
            assert!(fit.scale.is_finite() && fit.scale > 0.0 && (50.0..=200.0).contains(&height));
            let (x, y) = fit.place(Vec2::new(5.0, 5.0)).unwrap();
            assert!(x.is_finite() && y.is_finite());
        }
    }
}
