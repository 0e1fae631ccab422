//! Paths, the builder that makes them, and the questions that can be asked of them.
use crate::ffi;
use crate::refusal::Refusal;
use std::fmt;

/// The most verbs that a path can have.
pub const MAX_VERBS: usize = 65_536;
/// The most points that a path can have.
pub const MAX_POINTS: usize = 131_072;

/// A point, or the way from one point to another.
#[repr(C)]
#[derive(Debug, Clone, Copy, PartialEq, Default)]
pub struct Vec2 {
    pub x: f32,
    pub y: f32,
}

impl Vec2 {
    /// (0, 0).
    pub const ZERO: Vec2 = Vec2 { x: 0.0, y: 0.0 };

    /// The point (x, y).
    pub const fn new(x: f32, y: f32) -> Vec2 {
        Vec2 { x, y }
    }
}

impl From<(f32, f32)> for Vec2 {
    fn from((x, y): (f32, f32)) -> Vec2 {
        Vec2 { x, y }
    }
}

impl From<[f32; 2]> for Vec2 {
    fn from([x, y]: [f32; 2]) -> Vec2 {
        Vec2 { x, y }
    }
}

/// How overlapping subpaths combine when filling.
#[derive(Debug, Clone, Copy, PartialEq, Eq, Hash, Default)]
pub enum FillRule {
    /// A point is inside when the signed crossing count is nonzero.
    #[default]
    NonZero,
    /// A point is inside when the crossing count is odd.
    EvenOdd,
}

impl FillRule {
    pub(crate) fn byte(self) -> u8 {
        match self {
            FillRule::NonZero => 0,
            FillRule::EvenOdd => 1,
        }
    }

    pub(crate) fn of(byte: u8) -> FillRule {
        if byte == 0 {
            FillRule::NonZero
        } else {
            FillRule::EvenOdd
        }
    }
}

/// A path segment operator, with its byte in the encoding.
#[repr(u8)]
#[derive(Debug, Clone, Copy, PartialEq, Eq, Hash)]
pub enum Verb {
    MoveTo = 0,
    LineTo = 1,
    QuadTo = 2,
    CubicTo = 3,
    Close = 4,
}

impl Verb {
    /// Points this verb uses.
    pub const fn point_count(self) -> usize {
        match self {
            Verb::MoveTo | Verb::LineTo => 1,
            Verb::QuadTo => 2,
            Verb::CubicTo => 3,
            Verb::Close => 0,
        }
    }

    /// The verb of a byte; refusal 5 for a byte over 4.
    pub const fn from_byte(byte: u8) -> Result<Verb, Refusal> {
        match byte {
            0 => Ok(Verb::MoveTo),
            1 => Ok(Verb::LineTo),
            2 => Ok(Verb::QuadTo),
            3 => Ok(Verb::CubicTo),
            4 => Ok(Verb::Close),
            _ => Err(Refusal::NO_VERB),
        }
    }
}

/// An axis-aligned bounding box.
#[repr(C)]
#[derive(Debug, Clone, Copy, PartialEq)]
pub struct Rect {
    pub min: Vec2,
    pub max: Vec2,
}

impl Rect {
    pub const fn new(min: Vec2, max: Vec2) -> Rect {
        Rect { min, max }
    }

    /// The empty box, from (+∞, +∞) to (−∞, −∞).
    pub const fn empty() -> Rect {
        Rect { min: Vec2::new(f32::INFINITY, f32::INFINITY), max: Vec2::new(f32::NEG_INFINITY, f32::NEG_INFINITY) }
    }

    /// Whether the box holds no point.
    pub fn is_empty(&self) -> bool {
        // SAFETY: values only.
        unsafe { ffi::hz_is_empty(*self) }
    }

    /// Whether the box holds the point, its edges included.
    pub fn contains(&self, p: Vec2) -> bool {
        // SAFETY: values only.
        unsafe { ffi::hz_contains(*self, p) }
    }

    /// The width, at least 0.
    pub fn width(&self) -> f32 {
        // SAFETY: values only.
        unsafe { ffi::hz_width(*self) }
    }

    /// The height, at least 0.
    pub fn height(&self) -> f32 {
        // SAFETY: values only.
        unsafe { ffi::hz_height(*self) }
    }
}

/// Whether an outline is convex. What can't be shown convex is Concave.
#[derive(Debug, Clone, Copy, PartialEq, Eq, Hash)]
pub enum Convexity {
    Convex,
    Concave,
}

impl Convexity {
    fn of(v: ffi::Verdict) -> Result<Convexity, Refusal> {
        Refusal::check(v.refused)?;
        Ok(if v.convexity == 0 { Convexity::Convex } else { Convexity::Concave })
    }
}

/// The floats of a list of points, first to last.
pub(crate) fn floats(points: &[Vec2]) -> (*const f32, usize) {
    (points.as_ptr().cast(), 2 * points.len())
}

pub(crate) fn floats_mut(points: &mut [Vec2]) -> (*mut f32, usize) {
    (points.as_mut_ptr().cast(), 2 * points.len())
}

/// Whether the polygon of these points is convex. Refused with 4 over 131,072 points.
///
/// ```
/// use hizlaou::{polygon_convexity, Convexity, Vec2};
/// let arrow = [(0.0, 0.0), (4.0, 0.0), (1.0, 1.0), (0.0, 4.0)].map(Vec2::from);
/// assert_eq!(polygon_convexity(&arrow), Ok(Convexity::Concave));
/// assert_eq!(polygon_convexity(&arrow[..3]), Ok(Convexity::Convex));
/// ```
pub fn polygon_convexity(points: &[Vec2]) -> Result<Convexity, Refusal> {
    let (p, n) = floats(points);
    // SAFETY: p leads n floats that are only read.
    Convexity::of(unsafe { ffi::hz_polygon_convexity(p, n) })
}

/// A path: verbs, and the points that they use. Made by a [`PathBuilder`], by dashing, or from parts.
#[derive(Debug, Clone, Default, PartialEq)]
pub struct Path {
    verbs: Vec<Verb>,
    points: Vec<Vec2>,
    fill_rule: FillRule,
    rounded_rect: Option<(Rect, f32)>,
}

impl Path {
    /// A fresh builder.
    pub fn builder() -> PathBuilder {
        PathBuilder::new()
    }

    /// A path from its verbs and points. Refused with 4 over a limit, with 6 if the first verb is no move or the verbs use another number of points.
    ///
    /// ```
    /// use hizlaou::{FillRule, Path, Refusal, Vec2, Verb};
    /// let p = Vec2::new(1.0, 2.0);
    /// assert!(Path::from_parts(vec![Verb::MoveTo, Verb::LineTo], vec![p, p], FillRule::NonZero).is_ok());
    /// assert_eq!(Path::from_parts(vec![Verb::LineTo], vec![p], FillRule::NonZero), Err(Refusal::BAD_PATH));
    /// ```
    pub fn from_parts(verbs: Vec<Verb>, points: Vec<Vec2>, fill_rule: FillRule) -> Result<Path, Refusal> {
        let path = Path { verbs, points, fill_rule, rounded_rect: None };
        // SAFETY: verbs and points are only read.
        Refusal::check(path.ask(|v, n, p, m| unsafe { ffi::hz_check(v, n, p, m) }))?;
        Ok(path)
    }

    /// The bytes and floats of a checked path, handed to a call.
    pub(crate) fn ask<R>(&self, call: impl FnOnce(*const u8, usize, *const f32, usize) -> R) -> R {
        let (p, n) = floats(&self.points);
        call(self.verbs.as_ptr().cast(), self.verbs.len(), p, n)
    }

    pub(crate) fn of_dash(verbs: &[u8], points: Vec<Vec2>, fill_rule: FillRule) -> Path {
        Path { verbs: verbs_of(verbs), points, fill_rule, rounded_rect: None }
    }

    /// The verbs.
    pub fn verbs(&self) -> &[Verb] {
        &self.verbs
    }

    /// The points that the verbs use, end to end.
    pub fn points(&self) -> &[Vec2] {
        &self.points
    }

    pub fn fill_rule(&self) -> FillRule {
        self.fill_rule
    }

    /// The rounded rectangle that this path was noted as, with its radius.
    pub fn as_rounded_rect(&self) -> Option<(Rect, f32)> {
        self.rounded_rect
    }

    /// Whether the path has no verb.
    pub fn is_empty(&self) -> bool {
        self.verbs.is_empty()
    }

    /// The box round all points, control points included.
    pub fn bounds(&self) -> Rect {
        // SAFETY: verbs and points are only read.
        let r = self.ask(|v, n, p, m| unsafe { ffi::hz_bounds(v, n, p, m) });
        debug_assert_eq!(r.refused, 0, "a path is checked when it is made");
        r.rect
    }

    /// Whether every coordinate is finite.
    pub fn is_finite(&self) -> bool {
        // SAFETY: verbs and points are only read.
        let r = self.ask(|v, n, p, m| unsafe { ffi::hz_is_finite(v, n, p, m) });
        debug_assert_eq!(r.refused, 0, "a path is checked when it is made");
        r.holds
    }

    /// Whether |x| and |y| are at most 16,777,216 at every point.
    pub fn is_within_tessellation_range(&self) -> bool {
        // SAFETY: verbs and points are only read.
        let r = self.ask(|v, n, p, m| unsafe { ffi::hz_is_within_tessellation_range(v, n, p, m) });
        debug_assert_eq!(r.refused, 0, "a path is checked when it is made");
        r.holds
    }

    /// Whether the path is convex: Concave for any curve or a second move.
    pub fn convexity(&self) -> Convexity {
        // SAFETY: verbs and points are only read.
        let r = self.ask(|v, n, p, m| unsafe { ffi::hz_convexity(v, n, p, m) });
        Convexity::of(r).expect("a path is checked when it is made")
    }

    /// The path as verbs with their points.
    ///
    /// ```
    /// # fn main() -> Result<(), hizlaou::Refusal> {
    /// use hizlaou::{Path, Vec2, Verb};
    /// let mut b = Path::builder();
    /// b.quad_to(Vec2::new(8.0, 8.0), Vec2::new(16.0, 0.0))?.close()?;
    /// let path = b.build();
    /// let sizes: Vec<_> = path.segments().map(|(verb, points)| (verb, points.len())).collect();
    /// assert_eq!(sizes, [(Verb::MoveTo, 1), (Verb::QuadTo, 2), (Verb::Close, 0)]);
    /// # Ok(()) }
    /// ```
    pub fn segments(&self) -> impl Iterator<Item = (Verb, &[Vec2])> {
        let mut rest = &self.points[..];
        self.verbs.iter().map(move |&verb| {
            let (points, after) = rest.split_at(verb.point_count());
            rest = after;
            (verb, points)
        })
    }
}

fn verbs_of(bytes: &[u8]) -> Vec<Verb> {
    bytes.iter().map(|&b| Verb::from_byte(b).expect("the library lays verbs only")).collect()
}

/// Builds a [`Path`] verb by verb. A refused call changes nothing.
///
/// ```
/// # fn main() -> Result<(), hizlaou::Refusal> {
/// use hizlaou::{PathBuilder, Vec2};
/// let mut b = PathBuilder::new();
/// b.move_to(Vec2::new(0.0, 0.0))?.line_to(Vec2::new(8.0, 0.0))?.line_to(Vec2::new(0.0, 8.0))?.close()?;
/// assert_eq!(b.current_point(), Some(Vec2::ZERO));
/// let path = b.build();
/// assert_eq!(path.bounds().width(), 8.0);
/// # Ok(()) }
/// ```
#[derive(Clone)]
pub struct PathBuilder {
    state: ffi::Builder,
    // Lent to every call; what is laid stands first, the rest is 0.
    verbs: Vec<u8>,
    points: Vec<Vec2>,
    quads: usize,
}

/// What [`PathBuilder::replay`] left.
#[derive(Clone, Debug)]
pub struct Replayed {
    /// The builder after the last call.
    pub builder: PathBuilder,
    /// The calls that were played: fewer than the kinds where the list ended early.
    pub calls: usize,
    /// How many of them were refused.
    pub refused: usize,
}

impl Default for PathBuilder {
    fn default() -> PathBuilder {
        PathBuilder::new()
    }
}

impl fmt::Debug for PathBuilder {
    fn fmt(&self, f: &mut fmt::Formatter<'_>) -> fmt::Result {
        f.debug_struct("PathBuilder").field("path", &self.clone().build()).field("pen", &self.current_point()).finish()
    }
}

/// The length of a buffer that has room for `need`: at least doubled, so that building stays linear, and never over the limit.
fn grown(now: usize, need: usize, limit: usize) -> usize {
    if need <= now {
        now
    } else {
        need.max(2 * now).max(16).min(limit).max(now)
    }
}

impl PathBuilder {
    /// A builder with no verbs and the non-zero rule.
    pub fn new() -> PathBuilder {
        // SAFETY: values only.
        PathBuilder { state: unsafe { ffi::hz_new() }, verbs: Vec::new(), points: Vec::new(), quads: 0 }
    }

    /// Plays an encoded list of calls on a fresh builder, in one call of the library: a byte for each call's kind, and the calls' numbers end to end.
    /// 0 move (2 numbers), 1 line (2), 2 quad (4), 3 cubic (6), 4 close (0), 5 conic (control, end, weight: 5), 6 and 7 the fill rules non-zero and
    /// even-odd (0), 8 the note of a rounded rectangle (min, max, radius: 5). The list ends at its last byte, at a byte over 8, or where fewer numbers
    /// are left than the call takes.
    ///
    /// ```
    /// use hizlaou::{PathBuilder, Vec2};
    /// let played = PathBuilder::replay(&[0, 1, 4], &[0.0, 0.0, 8.0, 0.0]);
    /// assert_eq!((played.calls, played.refused), (3, 0));
    /// assert_eq!(played.builder.build().points(), [Vec2::ZERO, Vec2::new(8.0, 0.0)]);
    /// ```
    pub fn replay(kinds: &[u8], numbers: &[f32]) -> Replayed {
        // A call lays 65 verbs and 129 points at most.
        let mut verbs = vec![0; MAX_VERBS.min(65 * kinds.len())];
        let mut points = vec![Vec2::ZERO; MAX_POINTS.min(129 * kinds.len())];
        let (p, n) = floats_mut(&mut points);
        let (v, m) = (verbs.as_mut_ptr(), verbs.len());
        // SAFETY: kinds and numbers are only read; both buffers are lent for the call with their own lengths.
        let r = unsafe { ffi::hz_replay(kinds.as_ptr(), kinds.len(), numbers.as_ptr(), numbers.len(), v, m, p, n) };
        verbs.truncate(r.state.verbs);
        points.truncate(r.state.points);
        Replayed { builder: PathBuilder { state: r.state, verbs, points, quads: 0 }, calls: r.calls, refused: r.refused }
    }

    /// The same builder with another fill rule.
    pub fn with_fill_rule(mut self, rule: FillRule) -> PathBuilder {
        // SAFETY: values only.
        self.state = unsafe { ffi::hz_with_fill_rule(self.state, rule.byte()) };
        self
    }

    /// Makes room for so many verbs and points more, inside the limits, and then makes the call.
    fn call(
        &mut self,
        verbs: usize,
        points: usize,
        call: impl FnOnce(ffi::Builder, *mut u8, usize, *mut f32, usize) -> ffi::Reply,
    ) -> Result<&mut PathBuilder, Refusal> {
        self.verbs.resize(grown(self.verbs.len(), self.state.verbs + verbs, MAX_VERBS), 0);
        self.points.resize(grown(self.points.len(), self.state.points + points, MAX_POINTS), Vec2::ZERO);
        let (p, n) = floats_mut(&mut self.points);
        let reply = call(self.state, self.verbs.as_mut_ptr(), self.verbs.len(), p, n);
        Refusal::check(reply.refused)?;
        self.state = reply.state;
        self.quads = reply.quads;
        Ok(self)
    }

    /// Starts a subpath.
    pub fn move_to(&mut self, p: Vec2) -> Result<&mut PathBuilder, Refusal> {
        // SAFETY: both buffers are lent for the call with their own lengths.
        self.call(1, 1, |b, v, n, f, m| unsafe { ffi::hz_move_to(b, v, n, f, m, p) })
    }

    /// A line from the pen; from (0, 0) on an empty builder.
    pub fn line_to(&mut self, p: Vec2) -> Result<&mut PathBuilder, Refusal> {
        // SAFETY: both buffers are lent for the call with their own lengths.
        self.call(2, 2, |b, v, n, f, m| unsafe { ffi::hz_line_to(b, v, n, f, m, p) })
    }

    /// A quadratic curve from the pen.
    pub fn quad_to(&mut self, ctrl: Vec2, to: Vec2) -> Result<&mut PathBuilder, Refusal> {
        // SAFETY: both buffers are lent for the call with their own lengths.
        self.call(2, 3, |b, v, n, f, m| unsafe { ffi::hz_quad_to(b, v, n, f, m, ctrl, to) })
    }

    /// A conic from the pen, as at most 64 quads, or as one line where the weight, the control point or the end describe no curve.
    /// [`PathBuilder::conic_quads`] says how many quads were laid.
    ///
    /// ```
    /// # fn main() -> Result<(), hizlaou::Refusal> {
    /// use hizlaou::{PathBuilder, Vec2};
    /// let mut b = PathBuilder::new();
    /// b.move_to(Vec2::new(1.0, 0.0))?.conic_to(Vec2::new(1.0, 1.0), Vec2::new(0.0, 1.0), 0.5f32.sqrt())?;
    /// assert!(b.conic_quads() > 0);
    /// b.conic_to(Vec2::new(1.0, 1.0), Vec2::new(0.0, 1.0), 0.0)?;
    /// assert_eq!(b.conic_quads(), 0);
    /// # Ok(()) }
    /// ```
    pub fn conic_to(&mut self, ctrl: Vec2, to: Vec2, weight: f32) -> Result<&mut PathBuilder, Refusal> {
        // SAFETY: both buffers are lent for the call with their own lengths.
        self.call(65, 129, |b, v, n, f, m| unsafe { ffi::hz_conic_to(b, v, n, f, m, ctrl, to, weight) })
    }

    /// A cubic curve from the pen.
    pub fn cubic_to(&mut self, c0: Vec2, c1: Vec2, to: Vec2) -> Result<&mut PathBuilder, Refusal> {
        // SAFETY: both buffers are lent for the call with their own lengths.
        self.call(2, 4, |b, v, n, f, m| unsafe { ffi::hz_cubic_to(b, v, n, f, m, c0, c1, to) })
    }

    /// Closes the subpath: the pen returns to the latest move's point. Nothing on an empty builder.
    pub fn close(&mut self) -> Result<&mut PathBuilder, Refusal> {
        // SAFETY: both buffers are lent for the call with their own lengths.
        self.call(1, 0, |b, v, n, f, m| unsafe { ffi::hz_close(b, v, n, f, m) })
    }

    /// The quads that the latest call laid for a conic: 0 where it laid a line, or was no conic.
    pub fn conic_quads(&self) -> usize {
        self.quads
    }

    /// The pen, if anything is laid.
    pub fn current_point(&self) -> Option<Vec2> {
        // SAFETY: values only.
        let p = unsafe { ffi::hz_current_point(self.state) };
        (p.known != 0).then(|| Vec2::new(p.x, p.y))
    }

    /// Notes that what was laid is this rounded rectangle. A number that isn't finite notes nothing and clears an earlier note.
    pub fn as_rounded_rect(&mut self, rect: Rect, radius: f32) -> &mut PathBuilder {
        // SAFETY: values only.
        self.state = unsafe { ffi::hz_as_rounded_rect(self.state, rect, radius) };
        self
    }

    /// The path built so far.
    pub fn build(mut self) -> Path {
        // SAFETY: values only.
        let note = unsafe { ffi::hz_rounded_rect(self.state) };
        self.points.truncate(self.state.points);
        Path {
            verbs: verbs_of(&self.verbs[..self.state.verbs]),
            points: self.points,
            fill_rule: FillRule::of(self.state.fill_rule),
            rounded_rect: (note.known != 0).then_some((note.rect, note.radius)),
        }
    }
}
