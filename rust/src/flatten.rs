//! Flattening: curves to polylines.
use crate::ffi;
use crate::path::{floats_mut, Path, Vec2, Verb};
use crate::refusal::Refusal;

/// Default flattening tolerance in device pixels.
pub const DEFAULT_TOLERANCE: f32 = 0.25;
/// The most segments of a single curve.
pub const MAX_SEGMENTS: u32 = 1000;
/// The mark of a closed polyline; an open one's is 0.
const CLOSED: u8 = 1;

/// N, the number of straight segments that a curve becomes, and whether it was held back at [`MAX_SEGMENTS`].
///
/// Wang's formula says how many segments are enough for none to lie further off the curve than the tolerance; s is the square of that number, as a
/// float. An infinite coordinate, or an overflow on the way, can make s +∞. A curve for which it asks for more than 1,000 segments gets just so many:
/// it is held back, and may look faceted. A count of 1,000 alone does not say so, since it is also the right one for a curve for which it asks for just
/// so many.
#[repr(C)]
#[derive(Debug, Clone, Copy, PartialEq, Eq, Hash, Default)]
pub struct SegmentCount {
    /// N, 1 to 1,000; 0 where [`carried_count`] is asked for what is no curve.
    pub count: u32,
    /// Held back: s is +∞ or its rounded root is over 1,000, which is so exactly where s > 1,000,000.
    pub held: bool,
}

/// What a flattening counts. `points` is the sum of `starts`, `lines`, `counts` and `closings`, and `polylines` equals `starts`.
#[derive(Debug, Clone, Copy, PartialEq, Eq, Hash, Default)]
pub struct Totals {
    /// Points written, in all polylines together.
    pub points: usize,
    pub polylines: usize,
    /// Kept starts: moves whose subpath has a drawn verb.
    pub starts: usize,
    pub lines: usize,
    /// The sum of all curves' N (see [`SegmentCount`]).
    pub counts: usize,
    /// Added closings.
    pub closings: usize,
    /// Curves (quads and cubics; a conic counts as its quads) that were held back at [`MAX_SEGMENTS`]: [`held_curves`] tells which.
    pub held: usize,
}

/// The polylines of a flattened path, each with a mark that says whether it is closed: a stroker puts a join on closed ones and caps on open ones.
///
/// A polyline is closed exactly where the last verb of its subpath is a close, even where no closing point was added, since its last point may equal
/// its first already, and to a NaN start none is ever added. A drawn verb behind its last close leaves it open. So the points alone do not tell.
///
/// ```
/// # fn main() -> Result<(), hizlaou::Refusal> {
/// use hizlaou::{flatten, PathBuilder, Vec2};
/// let (a, b) = (Vec2::ZERO, Vec2::new(8.0, 0.0));
/// let mut path = PathBuilder::new();
/// path.move_to(a)?.line_to(b)?.line_to(a)?.close()?;
/// path.move_to(a)?.line_to(b)?.line_to(a)?;
/// let flat = flatten(&path.build(), 0.25)?;
/// assert_eq!(flat.get(0), flat.get(1));
/// assert_eq!((flat.is_closed(0), flat.is_closed(1)), (Some(true), Some(false)));
/// # Ok(()) }
/// ```
#[derive(Debug, Clone, PartialEq, Default)]
pub struct Polylines {
    points: Vec<Vec2>,
    ends: Vec<usize>,
    marks: Vec<u8>,
    totals: Totals,
}

impl Polylines {
    /// How many polylines there are.
    pub fn len(&self) -> usize {
        self.ends.len()
    }

    pub fn is_empty(&self) -> bool {
        self.ends.is_empty()
    }

    /// All points, end to end.
    pub fn points(&self) -> &[Vec2] {
        &self.points
    }

    /// For each polyline the number of points at which it ends.
    pub fn ends(&self) -> &[usize] {
        &self.ends
    }

    /// For each polyline a byte: 1 if it is closed, else 0. [`Polylines::is_closed`] and [`Polylines::closed`] say the same in words.
    pub fn marks(&self) -> &[u8] {
        &self.marks
    }

    pub fn totals(&self) -> Totals {
        self.totals
    }

    /// The polyline at an index.
    pub fn get(&self, index: usize) -> Option<&[Vec2]> {
        let end = *self.ends.get(index)?;
        let start = index.checked_sub(1).map_or(0, |before| self.ends[before]);
        Some(&self.points[start..end])
    }

    /// Whether the polyline at an index is closed.
    pub fn is_closed(&self, index: usize) -> Option<bool> {
        self.marks.get(index).map(|&mark| mark == CLOSED)
    }

    /// The polylines, first to last.
    pub fn iter(&self) -> impl ExactSizeIterator<Item = &[Vec2]> + '_ {
        let mut start = 0;
        self.ends.iter().map(move |&end| {
            let line = &self.points[start..end];
            start = end;
            line
        })
    }

    /// For each polyline, first to last, whether it is closed.
    ///
    /// ```
    /// # fn main() -> Result<(), hizlaou::Refusal> {
    /// use hizlaou::{flatten, PathBuilder, Vec2};
    /// let mut b = PathBuilder::new();
    /// b.line_to(Vec2::new(8.0, 0.0))?.line_to(Vec2::new(8.0, 8.0))?.close()?.move_to(Vec2::ZERO)?.line_to(Vec2::new(8.0, 8.0))?;
    /// let flat = flatten(&b.build(), 0.25)?;
    /// let lines: Vec<_> = flat.iter().zip(flat.closed()).map(|(points, is_closed)| (points.len(), is_closed)).collect();
    /// assert_eq!(lines, [(4, true), (2, false)]);
    /// # Ok(()) }
    /// ```
    pub fn closed(&self) -> impl ExactSizeIterator<Item = bool> + '_ {
        self.marks.iter().map(|&mark| mark == CLOSED)
    }
}

/// What is lent to a flattening: room for the points, and for an end and a mark of each polyline.
pub(crate) struct Room {
    pub(crate) points: Vec<Vec2>,
    pub(crate) ends: Vec<usize>,
    pub(crate) marks: Vec<u8>,
}

impl Room {
    /// The polylines that a flattening with these totals left.
    pub(crate) fn filled(mut self, totals: Totals) -> Polylines {
        self.points.truncate(totals.points);
        self.ends.truncate(totals.polylines);
        self.marks.truncate(totals.polylines);
        Polylines { points: self.points, ends: self.ends, marks: self.marks, totals }
    }
}

/// The lines, the sum of the curves' N, the moves and the closes of a path: what a flattening needs at most.
pub(crate) struct Size {
    lines: usize,
    counts: usize,
    moves: usize,
    closes: usize,
}

impl Size {
    pub(crate) fn of(path: &Path, tolerance: f32) -> Size {
        let mut size = Size { lines: 0, counts: 0, moves: 0, closes: 0 };
        for (verb, count) in counted(path, tolerance) {
            match verb {
                Verb::MoveTo => size.moves += 1,
                Verb::LineTo => size.lines += 1,
                Verb::QuadTo | Verb::CubicTo => size.counts += count.count as usize,
                Verb::Close => size.closes += 1,
            }
        }
        size
    }

    /// Room for the flattened path.
    pub(crate) fn room(&self) -> Room {
        let points = vec![Vec2::ZERO; self.moves + self.lines + self.counts + self.closes];
        Room { points, ends: vec![0; self.moves], marks: vec![0; self.moves] }
    }

    /// The totals of a flattening that wrote so many points and polylines, and held so many curves back.
    pub(crate) fn totals(&self, points: usize, polylines: usize, held: usize) -> Totals {
        let closings = points - polylines - self.lines - self.counts;
        Totals { points, polylines, starts: polylines, lines: self.lines, counts: self.counts, closings, held }
    }
}

/// The verbs of a path, first to last, each with its count at a tolerance: 0 and false for a verb that is no curve.
fn counted(path: &Path, tolerance: f32) -> impl Iterator<Item = (Verb, SegmentCount)> + '_ {
    let (mut start, mut pen) = (Vec2::ZERO, Vec2::ZERO);
    path.segments().map(move |(verb, p)| {
        let from = pen;
        if verb == Verb::MoveTo {
            start = p[0];
        }
        pen = *p.last().unwrap_or(&start);
        let count = match verb {
            Verb::QuadTo => quad_segment_count(from, p[0], p[1], tolerance),
            Verb::CubicTo => cubic_segment_count(from, p[0], p[1], p[2], tolerance),
            Verb::MoveTo | Verb::LineTo | Verb::Close => SegmentCount::default(),
        };
        (verb, count)
    })
}

/// Flattens a path into polylines, one for each subpath with a drawn verb, and says of each whether it is closed.
///
/// ```
/// # fn main() -> Result<(), hizlaou::Refusal> {
/// use hizlaou::{flatten, PathBuilder, Vec2, DEFAULT_TOLERANCE};
/// let mut b = PathBuilder::new();
/// b.move_to(Vec2::ZERO)?.quad_to(Vec2::new(8.0, 8.0), Vec2::new(16.0, 0.0))?;
/// let flat = flatten(&b.build(), DEFAULT_TOLERANCE)?;
/// assert_eq!(flat.totals().counts, 5);
/// assert_eq!(flat.iter().map(<[Vec2]>::len).collect::<Vec<_>>(), [6]);
/// # Ok(()) }
/// ```
pub fn flatten(path: &Path, tolerance: f32) -> Result<Polylines, Refusal> {
    let mut room = Size::of(path, tolerance).room();
    let (out, n) = floats_mut(&mut room.points);
    let (ends, ends_len) = (room.ends.as_mut_ptr(), room.ends.len());
    let (marks, marks_len) = (room.marks.as_mut_ptr(), room.marks.len());
    // SAFETY: the path is only read; points, ends and marks are lent for the call with their own lengths.
    let r = path.ask(|v, l, p, m| unsafe { ffi::hz_flatten(v, l, p, m, tolerance, out, n, ends, ends_len, marks, marks_len) });
    Refusal::check(r.refused)?;
    let totals =
        Totals { points: r.points, polylines: r.polylines, starts: r.starts, lines: r.lines, counts: r.counts, closings: r.closings, held: r.held };
    Ok(room.filled(totals))
}

/// The N that the curve at a verb's index is flattened with, and whether it was held back: 0 and false for a verb that is no curve, and past the
/// end. To find all that are held back, ask [`held_curves`], which reads the path once.
///
/// ```
/// # fn main() -> Result<(), hizlaou::Refusal> {
/// use hizlaou::{carried_count, PathBuilder, Vec2};
/// let mut b = PathBuilder::new();
/// b.move_to(Vec2::ZERO)?.quad_to(Vec2::new(8.0, 8.0), Vec2::new(16.0, 0.0))?;
/// let path = b.build();
/// assert_eq!(carried_count(&path, 0.25, 0)?.count, 0);
/// assert_eq!(carried_count(&path, 0.25, 1)?.count, 5);
/// assert!(carried_count(&path, 1e-6, 1)?.held);
/// # Ok(()) }
/// ```
pub fn carried_count(path: &Path, tolerance: f32, index: usize) -> Result<SegmentCount, Refusal> {
    // SAFETY: verbs and points are only read.
    let r = path.ask(|v, l, p, m| unsafe { ffi::hz_carried_count(v, l, p, m, tolerance, index) });
    Refusal::check(r.refused)?;
    Ok(SegmentCount { count: r.count as u32, held: r.held })
}

/// The verbs, by their index, of the curves that a flattening holds back at [`MAX_SEGMENTS`], first to last: as many as its total `held`.
///
/// ```
/// # fn main() -> Result<(), hizlaou::Refusal> {
/// use hizlaou::{flatten, held_curves, PathBuilder, Vec2};
/// let mut b = PathBuilder::new();
/// b.move_to(Vec2::ZERO)?.line_to(Vec2::new(4.0, 0.0))?.quad_to(Vec2::new(8.0, 8.0), Vec2::new(16.0, 0.0))?;
/// let path = b.build();
/// assert_eq!(held_curves(&path, 0.25), []);
/// assert_eq!(held_curves(&path, 1e-6), [2]);
/// assert_eq!(flatten(&path, 1e-6)?.totals().held, 1);
/// # Ok(()) }
/// ```
pub fn held_curves(path: &Path, tolerance: f32) -> Vec<usize> {
    counted(path, tolerance).enumerate().filter(|(_, (_, count))| count.held).map(|(index, _)| index).collect()
}

/// Segment count for a quadratic curve at a tolerance: 1 to 1,000, and whether it was held back.
///
/// ```
/// use hizlaou::{quad_segment_count, SegmentCount, Vec2};
/// let (a, b, c) = (Vec2::ZERO, Vec2::new(8.0, 8.0), Vec2::new(16.0, 0.0));
/// assert_eq!(quad_segment_count(a, b, c, 0.25), SegmentCount { count: 5, held: false });
/// assert_eq!(quad_segment_count(a, b, c, 1e-6), SegmentCount { count: 1000, held: true });
/// ```
pub fn quad_segment_count(p0: Vec2, p1: Vec2, p2: Vec2, tolerance: f32) -> SegmentCount {
    // SAFETY: values only.
    unsafe { ffi::hz_quad_segment_count(p0, p1, p2, tolerance) }
}

/// Segment count for a cubic curve at a tolerance: 1 to 1,000, and whether it was held back.
///
/// ```
/// use hizlaou::{cubic_segment_count, SegmentCount, Vec2};
/// let (a, b, c, d) = (Vec2::ZERO, Vec2::new(0.0, 8.0), Vec2::new(16.0, 8.0), Vec2::new(16.0, 0.0));
/// assert_eq!(cubic_segment_count(a, b, c, d, 0.25), SegmentCount { count: 9, held: false });
/// ```
pub fn cubic_segment_count(p0: Vec2, p1: Vec2, p2: Vec2, p3: Vec2, tolerance: f32) -> SegmentCount {
    // SAFETY: values only.
    unsafe { ffi::hz_cubic_segment_count(p0, p1, p2, p3, tolerance) }
}

/// A quadratic curve's point at `t`.
///
/// ```
/// use hizlaou::{eval_quad, Vec2};
/// assert_eq!(eval_quad(Vec2::ZERO, Vec2::new(8.0, 8.0), Vec2::new(16.0, 0.0), 0.5), Vec2::new(8.0, 4.0));
/// ```
pub fn eval_quad(p0: Vec2, p1: Vec2, p2: Vec2, t: f32) -> Vec2 {
    // SAFETY: values only.
    unsafe { ffi::hz_eval_quad(p0, p1, p2, t) }
}

/// A cubic curve's point at `t`.
pub fn eval_cubic(p0: Vec2, p1: Vec2, p2: Vec2, p3: Vec2, t: f32) -> Vec2 {
    // SAFETY: values only.
    unsafe { ffi::hz_eval_cubic(p0, p1, p2, p3, t) }
}

/// The tolerance in curve space under a transform's largest scale factor: the tolerance itself for a scale <= 0 or not finite.
///
/// ```
/// assert_eq!(hizlaou::tolerance_for_scale(0.25, 2.0), 0.125);
/// assert_eq!(hizlaou::tolerance_for_scale(0.25, -1.0), 0.25);
/// ```
pub fn tolerance_for_scale(tolerance: f32, max_scale: f32) -> f32 {
    // SAFETY: values only.
    unsafe { ffi::hz_tolerance_for_scale(tolerance, max_scale) }
}

/// The segment count of s (see [`SegmentCount`]): 1 for NaN or s <= 0, 1,000 for +∞, else the rounded root rounded up, at most 1,000; and whether it
/// was held back.
///
/// ```
/// use hizlaou::{segment_count, SegmentCount};
/// assert_eq!(segment_count(998_001.0), SegmentCount { count: 999, held: false });
/// assert_eq!(segment_count(1_000_000.0), SegmentCount { count: 1000, held: false });
/// assert_eq!(segment_count(f32::INFINITY), SegmentCount { count: 1000, held: true });
/// ```
pub fn segment_count(squared: f32) -> SegmentCount {
    // SAFETY: values only.
    unsafe { ffi::hz_segment_count(squared) }
}

/// IEEE 754 squareRoot, nearest, ties to even.
///
/// ```
/// assert_eq!(hizlaou::sqrt(2.0), 2f32.sqrt());
/// ```
pub fn sqrt(x: f32) -> f32 {
    // SAFETY: values only.
    unsafe { ffi::hz_sqrt(x) }
}
