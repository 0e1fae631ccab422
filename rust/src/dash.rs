//! Dashing: a path cut into the drawn pieces of a pattern.
use crate::ffi;
use crate::flatten::{Polylines, Room, Size};
use crate::path::{floats_mut, FillRule, Path, Vec2, MAX_VERBS};
use crate::refusal::Refusal;

/// The most intervals of a pattern.
pub const MAX_INTERVALS: usize = 64;

/// A dash pattern: lengths that alternate drawn and skipped, starting drawn, an odd number of them laid twice, and how far into the pattern a polyline
/// starts. A length of 0 (−0 too) is passed over: a dash of 0 draws nothing, a gap of 0 still begins a new run.
#[derive(Debug, Clone, PartialEq)]
pub struct Dash {
    pub intervals: Vec<f32>,
    pub phase: f32,
}

impl Dash {
    pub fn new(intervals: Vec<f32>, phase: f32) -> Dash {
        Dash { intervals, phase }
    }

    /// Whether this pattern can be walked: intervals finite and 0 or more, at least one, with a sum above 0, and a finite phase. Zeros alone cannot, so
    /// that a path is drawn whole with them at every tolerance.
    ///
    /// ```
    /// use hizlaou::Dash;
    /// assert!(Dash::new(vec![2.0, 1.0], 0.0).is_usable());
    /// assert!(!Dash::new(vec![], 0.0).is_usable());
    /// assert!(!Dash::new(vec![2.0, -1.0], 0.0).is_usable());
    /// assert!(!Dash::new(vec![0.0, 0.0], 0.0).is_usable());
    /// ```
    pub fn is_usable(&self) -> bool {
        // SAFETY: the intervals are only read.
        unsafe { ffi::hz_is_usable(self.intervals.as_ptr(), self.intervals.len(), self.phase) }
    }
}

/// What dashing gives.
// One answer is made for a whole path, so its size does not matter, and a box would only stand in its readers' way.
#[allow(clippy::large_enum_variant)]
#[derive(Debug, Clone, PartialEq)]
pub enum Dashed {
    /// The pattern doesn't cut: the path is drawn as it is.
    Whole,
    /// The drawn runs as a path of moves and lines, with the path's fill rule and no note, and the path's polylines, with their marks. Runs have no
    /// marks: none is closed. Where no dash of the pattern is above 0 the runs are an empty path: nothing is drawn.
    Cut { path: Path, polylines: Polylines },
}

impl Dashed {
    /// The outline to draw: the path itself where it is drawn whole, else the cut one.
    pub fn outline<'a>(&'a self, whole: &'a Path) -> &'a Path {
        match self {
            Dashed::Whole => whole,
            Dashed::Cut { path, .. } => path,
        }
    }

    /// How many curves were held back when the path was flattened for the cut. It is 0 where the path is drawn whole, which says nothing of the path:
    /// [`flatten`](crate::flatten()) at the same tolerance does.
    pub fn held(&self) -> usize {
        match self {
            Dashed::Whole => 0,
            Dashed::Cut { polylines, .. } => polylines.totals().held,
        }
    }
}

/// Cuts a path into the drawn pieces of a pattern. Refused with 8 over 64 intervals, with 3 over 65,536 verbs of dashes.
///
/// An interval of which exactly nothing is left at a corner, or at a polyline's start, ends there, and the next one begins at the next walked segment's
/// first point, copied. The segments that are walked are those with a finite length above 0.
///
/// ```
/// # fn main() -> Result<(), hizlaou::Refusal> {
/// use hizlaou::{dash_path, Dash, Dashed, PathBuilder, Vec2};
/// let mut b = PathBuilder::new();
/// b.move_to(Vec2::ZERO)?.line_to(Vec2::new(8.0, 0.0))?;
/// let line = b.build();
/// let Dashed::Cut { path, .. } = dash_path(&line, &Dash::new(vec![2.0, 1.0], 0.0), 0.25)? else { panic!() };
/// let xs: Vec<f32> = path.points().iter().map(|p| p.x).collect();
/// assert_eq!(xs, [0.0, 2.0, 3.0, 5.0, 6.0, 8.0]);
/// assert_eq!(dash_path(&line, &Dash::new(vec![0.125, 0.125], 0.0), 0.25)?, Dashed::Whole);
/// # Ok(()) }
/// ```
///
/// A dash that ends exactly at a corner, and a pattern whose only dash is 0:
///
/// ```
/// # fn main() -> Result<(), hizlaou::Refusal> {
/// use hizlaou::{dash_path, Dash, Dashed, PathBuilder, Vec2};
/// let mut b = PathBuilder::new();
/// b.move_to(Vec2::ZERO)?.line_to(Vec2::new(2.0, 0.0))?.line_to(Vec2::new(2.0, 4.0))?;
/// let hook = b.build();
/// let Dashed::Cut { path, .. } = dash_path(&hook, &Dash::new(vec![2.0, 1.0], 0.0), 0.25)? else { panic!() };
/// assert_eq!(path.points(), [(0.0, 0.0), (2.0, 0.0), (2.0, 1.0), (2.0, 3.0)].map(Vec2::from));
/// let Dashed::Cut { path, .. } = dash_path(&hook, &Dash::new(vec![0.0, 5.0], 0.0), 0.25)? else { panic!() };
/// assert!(path.is_empty());
/// # Ok(()) }
/// ```
pub fn dash_path(path: &Path, dash: &Dash, tolerance: f32) -> Result<Dashed, Refusal> {
    let size = Size::of(path, tolerance);
    let mut scratch = size.room();
    // Room for all that the limit allows takes longer to clear than most paths take to cut, so it is lent only where less does not do.
    let few = MAX_VERBS.min(4 * scratch.points.len() + 256);
    let mut runs = Runs::room(few);
    let mut answer = cut(path, dash, tolerance, &mut scratch, &mut runs);
    if answer.refused == Refusal::OUTPUT_FULL.number() && few < MAX_VERBS {
        runs = Runs::room(MAX_VERBS);
        answer = cut(path, dash, tolerance, &mut scratch, &mut runs);
    }
    Refusal::check(answer.refused)?;
    if answer.kind == 0 {
        return Ok(Dashed::Whole);
    }
    let polylines = scratch.filled(size.totals(answer.scratch, answer.polylines, answer.held));
    Ok(Dashed::Cut { path: runs.filled(answer), polylines })
}

/// What is lent for the drawn runs.
struct Runs {
    verbs: Vec<u8>,
    points: Vec<Vec2>,
}

impl Runs {
    /// Room for so many verbs. Each uses one point, so the limit on verbs binds before that on points.
    fn room(verbs: usize) -> Runs {
        Runs { verbs: vec![0; verbs], points: vec![Vec2::ZERO; verbs] }
    }

    /// The filled part as a path.
    fn filled(mut self, answer: ffi::Dashed) -> Path {
        self.points.truncate(answer.points);
        self.points.shrink_to_fit();
        Path::of_dash(&self.verbs[..answer.verbs], self.points, FillRule::of(answer.fill_rule))
    }
}

/// The library's call, with what is lent for the polylines and for the runs.
fn cut(path: &Path, dash: &Dash, tolerance: f32, scratch: &mut Room, runs: &mut Runs) -> ffi::Dashed {
    let (s, s_len) = floats_mut(&mut scratch.points);
    let (d, d_len) = floats_mut(&mut runs.points);
    // SAFETY: path and pattern are only read; the five outputs are lent for the call with their own lengths.
    path.ask(|v, l, p, m| unsafe {
        ffi::hz_dash_path(
            v,
            l,
            p,
            m,
            path.fill_rule().byte(),
            dash.intervals.as_ptr(),
            dash.intervals.len(),
            dash.phase,
            tolerance,
            s,
            s_len,
            scratch.ends.as_mut_ptr(),
            scratch.ends.len(),
            scratch.marks.as_mut_ptr(),
            scratch.marks.len(),
            runs.verbs.as_mut_ptr(),
            runs.verbs.len(),
            d,
            d_len,
        )
    })
}

/// The intervals of a line style, 0 to 8; style 0 has none. Refused with 9 over 8.
///
/// ```
/// assert_eq!(hizlaou::line_style(4), Ok(vec![12.0, 4.0, 2.0, 4.0]));
/// assert_eq!(hizlaou::line_style(0), Ok(vec![]));
/// ```
pub fn line_style(number: usize) -> Result<Vec<f32>, Refusal> {
    // SAFETY: values only.
    let style = unsafe { ffi::hz_line_style(number) };
    Refusal::check(style.refused)?;
    Ok(style.values[..style.len].to_vec())
}
