//! One case through both sides: every answer and every buffer of the library against the Rust source, the numbers, and, for curves held back, for the
//! marks of polylines, for zeros and corners in dashing and for roots, the requests.
use crate::case::{self, Call, Case, Point, Rng};
use crate::reference::{apply, curve_count, passed_over, rule_of, subpaths, v2};
use crate::zeros::{self, Judge, Judged, Pattern, Run};
use crate::{held, marks, numbers, root};
use hizlaou::ffi::{self, Builder};
use hizlaou::{held_curves, SegmentCount, Vec2 as Pt};
use source::dash::Dash;
use source::flatten::{self as curves, flatten};
use source::path::{polygon_convexity, Convexity, FillRule, Path, PathBuilder, Rect, Verb};
use source::Vec2;
use std::fmt::Debug;
use std::sync::atomic::{AtomicU64, Ordering};

/// The question in which the sides differ, and how.
pub type Differs = (String, String);
type Checked = Result<(), Differs>;

const KINDS: usize = 81;
static SEEN: [AtomicU64; KINDS] = [const { AtomicU64::new(0) }; KINDS];
const NAMES: [&str; KINDS] = [
    "",
    "refusals 1",
    "2",
    "3",
    "4",
    "5",
    "6",
    "7",
    "8",
    "9",
    "drawn whole",
    "cut",
    "not dashed (too many intervals for the reference)",
    "builder calls",
    "conics split",
    "damaged paths",
    "counts not held",
    "counts held",
    "counts near the edge not held",
    "counts near the edge held",
    "flattened curves not held",
    "flattened curves held",
    "flattened curves near the edge not held",
    "flattened curves near the edge held",
    "cut with held curves",
    "drawn whole with held curves",
    "3 for points or scratch with held curves",
    "3 for the dash buffers with held curves",
    "polylines marked 0",
    "marked 1",
    "marked 0 with an added closing",
    "marked 1 without one",
    "marked 0 with a drawn verb behind a close",
    "marked 1 by two closes in a row",
    "marked 0 with a close behind the move",
    "marked 1 with a close behind the move",
    "marked 1 at a NaN start",
    "subpaths that are a move alone",
    "a move and closes alone",
    "between two polylines",
    "flattenings with just the marks' room",
    "with more",
    "3 for the marks alone",
    "3 for the scratch's marks alone",
    "3 for the dash buffers with marks left",
    "cut with marks left",
    "drawn whole with marks to leave alone",
    "cut and judged by the source",
    "cut and judged by W6 for a zero",
    "of these unlike the source",
    "cut and judged by W6 for nothing left at a corner or start without a zero",
    "of these unlike the source",
    "cut with a leading zero",
    "with zeros in a row",
    "with a −0",
    "with every drawn interval zero",
    "with every gap zero",
    "with an odd pattern that holds a zero",
    "zeros alone drawn whole",
    "of these at a tolerance below zero or NaN",
    "cut with a dash that ends on a corner",
    "with a gap that does",
    "with one of these and a zero in the pattern",
    "with two dashes that meet on a corner",
    "with segments not walked behind a corner that is met",
    "with nothing left at a start",
    "with that and a zero in the pattern",
    "with a copied −0 that would be 0 if computed, or the other way",
    "with very little left at the begin of a segment, judged by the source",
    "by W6",
    "with less than nothing left there, judged by the source",
    "by W6",
    "judged by W6 with just the dash buffers' room",
    "3 for the dash buffers one short, judged by W6",
    "roots",
    "of positive finite floats",
    "of subnormal ones",
    "of whole squares",
    "with the root itself as remainder",
    "with the least remainder over the root",
    "rounded up",
];
/// The first of four: not held, held, and the same near the edge. For counts asked alone, and for the curves of accepted flattenings.
const ASKED: usize = 16;
const FLATTENED: usize = 20;
/// Answers for paths with curves that a flattening holds back.
const HELD_CUT: usize = 24;
const HELD_WHOLE: usize = 25;
const HELD_FIRST_3: usize = 26;
const HELD_SECOND_3: usize = 27;
/// The first of two: marked 0, marked 1. Polylines of accepted flattenings, and what their subpaths are like.
const MARKED: usize = 28;
const OPEN_ADDED: usize = 30;
const CLOSED_UNADDED: usize = 31;
const DRAWN_BEHIND: usize = 32;
const TWO_CLOSES: usize = 33;
const OPEN_CLOSED_FIRST: usize = 34;
const CLOSED_CLOSED_FIRST: usize = 35;
const CLOSED_NAN: usize = 36;
/// Subpaths of accepted flattenings that have no polyline and so no mark.
const MOVE_ALONE: usize = 37;
const CLOSES_ALONE: usize = 38;
const BETWEEN: usize = 39;
/// Room for marks.
const MARKS_FULL: usize = 40;
const MARKS_AMPLE: usize = 41;
const MARKS_3: usize = 42;
const SCRATCH_MARKS_3: usize = 43;
const MARKS_SECOND_3: usize = 44;
const MARKS_CUT: usize = 45;
const MARKS_WHOLE: usize = 46;
/// Who judges what is cut; each time the request does, whether the source gives something else.
const BY_SOURCE: usize = 47;
const BY_ZERO: usize = 48;
const ZERO_UNLIKE: usize = 49;
const BY_MET: usize = 50;
const MET_UNLIKE: usize = 51;
/// What patterns with zeros are like.
const ZERO_LEADS: usize = 52;
const ZEROS_IN_A_ROW: usize = 53;
const MINUS_ZERO: usize = 54;
const NO_DRAWN: usize = 55;
const NO_GAP: usize = 56;
const ZERO_ODD: usize = 57;
const ZEROS_ALONE: usize = 58;
const ZEROS_ALONE_BELOW: usize = 59;
/// How segments begin with nothing left.
const DASH_MET: usize = 60;
const GAP_MET: usize = 61;
const ZERO_MET: usize = 62;
const RUNS_MET: usize = 63;
const APART_MET: usize = 64;
const START_MET: usize = 65;
const ZERO_START_MET: usize = 66;
const COPIED_ZERO: usize = 67;
/// The first of two: judged by the source, by the request.
const LITTLE_LEFT: usize = 68;
const LESS_LEFT: usize = 70;
/// Room where the request judges.
const W6_FULL: usize = 72;
const W6_SHORT: usize = 73;
/// Roots, and of positive finite floats their operands, their remainders and their rounding. A remainder is never just one over its root: the number
/// is even, and the root squared plus the root too.
const ROOTS: usize = 74;
const FINITE_ROOTS: usize = 75;
const SUBNORMAL_ROOTS: usize = 76;
const SQUARE_ROOTS: usize = 77;
const ROOT_ITSELF: usize = 78;
const LEAST_OVER: usize = 79;
const ROUNDED_UP: usize = 80;

fn seen(what: usize) {
    SEEN[what].fetch_add(1, Ordering::Relaxed);
}

fn seen_if(holds: bool, what: usize) {
    if holds {
        seen(what);
    }
}

/// Counts an s among the four kinds from `first` on.
fn seen_squared(first: usize, s: f32) {
    let held = usize::from(held::held(s));
    seen(first + held);
    seen_if(held::near_edge(s), first + 2 + held);
}

/// What the cases came to.
pub fn counted() -> String {
    (1..KINDS).map(|i| format!("{} {}", NAMES[i], SEEN[i].load(Ordering::Relaxed))).collect::<Vec<_>>().join(", ")
}

/// Counts anew from here.
pub fn forget() {
    SEEN.iter().for_each(|n| n.store(0, Ordering::Relaxed));
}

fn equal<T: PartialEq + Debug>(question: &str, got: T, want: T) -> Checked {
    if got == want {
        return Ok(());
    }
    let cut = |t: T| format!("{t:x?}").chars().take(300).collect::<String>();
    Err((question.into(), format!("library {}, wanted {}", cut(got), cut(want))))
}

/// A refusal's number, counted.
fn refused(question: &str, got: u8, want: u8) -> Checked {
    if want != 0 {
        seen(want as usize);
    }
    equal(question, got, want)
}

fn bits(x: f32) -> u32 {
    x.to_bits()
}

/// A computed float: NaNs compare as NaN.
fn computed(question: &str, got: f32, want: f32) -> Checked {
    if got.is_nan() && want.is_nan() {
        return Ok(());
    }
    equal(question, bits(got), bits(want))
}

/// A count: N is the source's, and whether it was held back is the request's answer for s.
fn counts(question: &str, got: SegmentCount, n: u32, s: f32) -> Checked {
    seen_squared(ASKED, s);
    equal(question, (got.count, got.held), (n, held::held(s)))
}

fn pt(p: Point) -> Pt {
    Pt::new(p[0], p[1])
}

fn xy(p: Vec2) -> Pt {
    Pt::new(p.x, p.y)
}

fn rect(r: Rect) -> hizlaou::Rect {
    hizlaou::Rect::new(xy(r.min), xy(r.max))
}

fn rect_bits(r: hizlaou::Rect) -> [u32; 4] {
    [r.min.x, r.min.y, r.max.x, r.max.y].map(bits)
}

fn byte(v: &Verb) -> u8 {
    match v {
        Verb::MoveTo => 0,
        Verb::LineTo => 1,
        Verb::QuadTo => 2,
        Verb::CubicTo => 3,
        Verb::Close => 4,
    }
}

fn bytes(p: &Path) -> Vec<u8> {
    p.verbs().iter().map(byte).collect()
}

fn floats<'a>(ps: impl IntoIterator<Item = &'a Vec2>) -> Vec<f32> {
    ps.into_iter().flat_map(|p| [p.x, p.y]).collect()
}

// ---- buffers

/// A lent buffer of floats, and what it is to hold: bits, and whether a NaN there is computed.
struct Floats {
    lent: Vec<f32>,
    want: Vec<(u32, bool)>,
}

const FILL: u32 = 0x7fa5_5a3c;

impl Floats {
    fn new(len: usize) -> Floats {
        Floats { lent: vec![f32::from_bits(FILL); len], want: vec![(FILL, false); len] }
    }
    fn expect(&mut self, at: usize, values: &[(f32, bool)]) {
        for (w, (x, c)) in self.want[at..].iter_mut().zip(values) {
            *w = (bits(*x), *c);
        }
    }
    fn holds(&self, question: &str, from: usize, to: usize) -> Checked {
        for i in from..to {
            let (w, computed) = self.want[i];
            let x = self.lent[i];
            if bits(x) != w && !(computed && x.is_nan() && f32::from_bits(w).is_nan()) {
                return Err((question.into(), format!("float {i}: library {:08x}, wanted {w:08x}", bits(x))));
            }
        }
        Ok(())
    }
    fn all(&self, question: &str) -> Checked {
        self.holds(question, 0, self.lent.len())
    }
}

struct Bytes {
    lent: Vec<u8>,
    want: Vec<u8>,
}

impl Bytes {
    fn new(len: usize) -> Bytes {
        Bytes { lent: vec![0xa5; len], want: vec![0xa5; len] }
    }
    fn all(&self, question: &str) -> Checked {
        equal(question, &self.lent, &self.want)
    }
}

struct Ends {
    lent: Vec<usize>,
    want: Vec<usize>,
}

impl Ends {
    fn new(len: usize) -> Ends {
        Ends { lent: vec![usize::MAX / 3; len], want: vec![usize::MAX / 3; len] }
    }
    fn all(&self, question: &str) -> Checked {
        equal(question, &self.lent, &self.want)
    }
}

/// Lengths for two outputs that need `a` and `b`: exactly full, ample, one short, and sometimes odd or empty. The first is in floats.
fn lengths(r: &mut Rng, a: usize, b: usize) -> (usize, usize) {
    match r.below(12) {
        0..=3 => (a, b),
        4..=6 => (a + 6, b + 3),
        7 => (a.saturating_sub(2), b),
        8 => (a, b.saturating_sub(1)),
        9 => (2 * r.below(a as u64 / 2 + 1) as usize, r.below(b as u64 + 1) as usize),
        10 if r.one_in(2) => (0, 0),
        10 => (a + 1, b),
        _ => (a + 2, b + 1),
    }
}

// ---- building

/// A state with its bytes as the library returns them.
fn normal(mut s: Builder) -> Builder {
    s.fill_rule = u8::from(s.fill_rule != 0);
    s.noted = u8::from(s.noted != 0);
    s.started = u8::from(s.started != 0);
    s
}

fn state_bits(s: &Builder) -> ([usize; 2], [u32; 9], [u8; 3]) {
    (
        [s.verbs, s.points],
        [s.start_x, s.start_y, s.pen_x, s.pen_y, s.min_x, s.min_y, s.max_x, s.max_y, s.radius].map(bits),
        [s.fill_rule, s.noted, s.started],
    )
}

/// One call on any state over any buffers, against what the source lays from this pen. Answers the state, and whether the call was taken.
fn step(s: Builder, call: &Call, verbs: &mut Bytes, points: &mut Floats) -> Result<(Builder, bool), Differs> {
    seen(13);
    let (nv, nf) = (verbs.lent.len(), points.lent.len());
    let (v, f) = (verbs.lent.as_mut_ptr(), points.lent.as_mut_ptr());
    // SAFETY: both buffers are lent with their own lengths.
    let reply = unsafe {
        match *call {
            Call::Move(p) => ffi::hz_move_to(s, v, nv, f, nf, pt(p)),
            Call::Line(p) => ffi::hz_line_to(s, v, nv, f, nf, pt(p)),
            Call::Quad(c, p) => ffi::hz_quad_to(s, v, nv, f, nf, pt(c), pt(p)),
            Call::Conic(c, p, w) => ffi::hz_conic_to(s, v, nv, f, nf, pt(c), pt(p), w),
            Call::Cubic(c, d, p) => ffi::hz_cubic_to(s, v, nv, f, nf, pt(c), pt(d), pt(p)),
            Call::Close => ffi::hz_close(s, v, nv, f, nf),
            Call::Rule(n) => ffi::Reply { state: ffi::hz_with_fill_rule(s, n), quads: 0, refused: 0 },
            Call::Note(lo, hi, radius) => {
                let r = hizlaou::Rect::new(pt(lo), pt(hi));
                ffi::Reply { state: ffi::hz_as_rounded_rect(s, r, radius), quads: 0, refused: 0 }
            }
        }
    };
    let started = s.started != 0;
    let mut b = PathBuilder::new();
    if started {
        b.move_to(Vec2::new(s.pen_x, s.pen_y));
    }
    let b = apply(b, call);
    let (pen, path) = (b.current_point(), b.build());
    let skip = usize::from(started);
    let laid = &bytes(&path)[skip..];
    let placed = &path.points()[skip..];
    let mut want = normal(s);
    match *call {
        Call::Rule(n) => want.fill_rule = u8::from(n != 0),
        Call::Note(..) => {
            let note = path.as_rounded_rect();
            let (r, radius) = note.unwrap_or((Rect::new(Vec2::ZERO, Vec2::ZERO), 0.0));
            (want.min_x, want.min_y, want.max_x, want.max_y, want.radius) = (r.min.x, r.min.y, r.max.x, r.max.y, radius);
            want.noted = u8::from(note.is_some());
        }
        _ => {
            let number = numbers::builder(&s, nv, nf, laid.len(), placed.len());
            refused("builder refusal", reply.refused, number)?;
            if number != 0 {
                equal("builder quads", reply.quads, 0)?;
                equal("state of a refused call", state_bits(&reply.state), state_bits(&s))?;
                return Ok((reply.state, false));
            }
        }
    }
    if !laid.is_empty() {
        if let Call::Move(p) = *call {
            (want.start_x, want.start_y) = (p[0], p[1]);
        } else if !started {
            (want.start_x, want.start_y) = (0.0, 0.0);
        }
        let pen = match call {
            Call::Close => Vec2::new(s.start_x, s.start_y),
            _ => pen.expect("something is laid"),
        };
        (want.pen_x, want.pen_y) = (pen.x, pen.y);
        want.started = 1;
    }
    want.verbs += laid.len();
    want.points += placed.len();
    let quads = if matches!(call, Call::Conic(..)) { laid.iter().filter(|v| **v == 2).count() } else { 0 };
    if quads > 1 {
        seen(14);
    }
    equal("builder quads", reply.quads, quads)?;
    equal("state of a call", state_bits(&reply.state), state_bits(&want))?;
    // Of a conic's points only the control of a single quad and the end are copied.
    let split: Vec<(f32, bool)> =
        placed.iter().enumerate().flat_map(|(i, p)| [(p.x, quads > 1 && i + 1 < placed.len()), (p.y, quads > 1 && i + 1 < placed.len())]).collect();
    if !laid.is_empty() {
        verbs.want[s.verbs..s.verbs + laid.len()].copy_from_slice(laid);
        points.expect(2 * s.points, &split);
        equal("verbs laid", &verbs.lent[s.verbs..want.verbs], laid)?;
        points.holds("points laid", 2 * s.points, 2 * want.points)?;
    }
    Ok((reply.state, true))
}

/// What can be asked of a state.
fn ask_state(s: Builder, pen: Option<Vec2>, note: Option<(Rect, f32)>) -> Checked {
    // SAFETY: values only.
    let (p, n) = unsafe { (ffi::hz_current_point(s), ffi::hz_rounded_rect(s)) };
    equal("current_point", (p.known, bits(p.x), bits(p.y)), pen.map_or((0, 0, 0), |p| (1, bits(p.x), bits(p.y))))?;
    let want = note.map_or((0, [0; 4], 0), |(r, radius)| (1, rect_bits(rect(r)), bits(radius)));
    equal("rounded rect", (n.known, rect_bits(n.rect), bits(n.radius)), want)
}

/// The list of calls over one pair of buffers: each reply, and the path so left.
fn build(calls: &[Call], lens: (usize, usize)) -> Result<Builder, Differs> {
    let (mut verbs, mut points) = (Bytes::new(lens.1), Floats::new(lens.0));
    // SAFETY: values only.
    let mut s = unsafe { ffi::hz_new() };
    let mut reference = PathBuilder::new();
    for c in calls {
        let (next, taken) = step(s, c, &mut verbs, &mut points)?;
        s = next;
        if taken {
            reference = apply(reference, c);
        }
    }
    let pen = reference.current_point();
    let path = reference.build();
    ask_state(s, pen, path.as_rounded_rect())?;
    equal("fill rule", rule_of(s.fill_rule), path.fill_rule())?;
    equal("verbs", &verbs.lent[..s.verbs], &bytes(&path)[..])?;
    equal("points", s.points, path.points().len())?;
    let placed = floats(path.points());
    let masked: Vec<(f32, bool)> = placed.iter().zip(&points.want).map(|(x, w)| (*x, w.1)).collect();
    points.expect(0, &masked);
    verbs.all("verb buffer")?;
    points.all("point buffer")?;
    Ok(s)
}

/// The same list played in one crossing: the same state and buffers. Of a list cut short, or with a byte that is no kind, what stands before.
fn replay(r: &mut Rng, calls: &[Call], lens: (usize, usize)) -> Checked {
    let mut calls = calls.to_vec();
    let (mut kinds, mut numbers) = (Vec::new(), Vec::new());
    for c in &calls {
        let (kind, xs): (u8, Vec<f32>) = match *c {
            Call::Move(p) => (0, p.to_vec()),
            Call::Line(p) => (1, p.to_vec()),
            Call::Quad(c, p) => (2, [c, p].concat()),
            Call::Cubic(c, d, p) => (3, [c, d, p].concat()),
            Call::Close => (4, vec![]),
            Call::Conic(c, p, w) => (5, vec![c[0], c[1], p[0], p[1], w]),
            Call::Rule(n) => (6 + u8::from(n != 0), vec![]),
            Call::Note(a, b, radius) => (8, vec![a[0], a[1], b[0], b[1], radius]),
        };
        kinds.push(kind);
        numbers.extend(xs);
    }
    match r.below(8) {
        0 if !kinds.is_empty() => {
            let i = r.below(kinds.len() as u64) as usize;
            kinds[i] = 9 + r.below(247) as u8;
            calls.truncate(i);
        }
        1 if !numbers.is_empty() => {
            numbers.pop();
            let taken = |k: &u8| [2, 2, 4, 6, 0, 5, 0, 0, 5][*k as usize];
            let last = kinds.iter().rposition(|k| taken(k) > 0).expect("numbers are some call's");
            calls.truncate(last);
        }
        2 => numbers.push(r.any()),
        _ => (),
    }
    let (mut verbs, mut points) = (Bytes::new(lens.1), Floats::new(lens.0));
    // SAFETY: the list is read; both buffers are lent with their own lengths.
    let got = unsafe {
        ffi::hz_replay(
            kinds.as_ptr(),
            kinds.len(),
            numbers.as_ptr(),
            numbers.len(),
            verbs.lent.as_mut_ptr(),
            lens.1,
            points.lent.as_mut_ptr(),
            lens.0,
        )
    };
    let (mut one_verbs, mut one_points) = (Bytes::new(lens.1), Floats::new(lens.0));
    // SAFETY: values only.
    let mut s = unsafe { ffi::hz_new() };
    let mut left = 0;
    for c in &calls {
        let (next, taken) = step(s, c, &mut one_verbs, &mut one_points)?;
        s = next;
        left += usize::from(!taken);
    }
    equal("replayed calls", (got.calls, got.refused), (calls.len(), left))?;
    equal("replayed state", state_bits(&got.state), state_bits(&s))?;
    verbs.want = one_verbs.lent;
    points.want = one_points.want;
    verbs.all("replayed verbs")?;
    points.all("replayed points")
}

/// Any state, any lengths, any call.
fn damaged_state(r: &mut Rng, mut s: Builder, lens: (usize, usize)) -> Checked {
    for _ in 0..=r.below(3) {
        match r.below(8) {
            0 => s.verbs = r.below(lens.1 as u64 + 3) as usize,
            1 => s.points = r.below(lens.0 as u64 / 2 + 3) as usize,
            2 => s.started = if r.one_in(2) { 0 } else { r.below(256) as u8 },
            3 => (s.verbs, s.points) = if r.one_in(2) { (0, s.points) } else { (s.verbs, 0) },
            4 => s.verbs = [usize::MAX, 65_536, 65_537, 1 << 40][r.below(4) as usize],
            5 => s.points = [usize::MAX, usize::MAX / 2, 131_072, 131_073][r.below(4) as usize],
            6 => (s.pen_x, s.pen_y, s.start_x, s.start_y) = (r.any(), r.any(), r.any(), r.any()),
            _ => (s.fill_rule, s.noted) = (r.below(256) as u8, r.below(256) as u8),
        }
    }
    let (mut verbs, mut points) = (Bytes::new(lens.1), Floats::new(lens.0));
    let kind = r.below(7);
    let c = case::call(r, kind, &mut Vec::new());
    step(s, &c, &mut verbs, &mut points)?;
    verbs.all("verb buffer of a damaged state")?;
    points.all("point buffer of a damaged state")?;
    let pen = (s.started != 0).then_some(Vec2::new(s.pen_x, s.pen_y));
    let note = (s.noted != 0).then_some((Rect::new(Vec2::new(s.min_x, s.min_y), Vec2::new(s.max_x, s.max_y)), s.radius));
    ask_state(s, pen, note)
}

// ---- paths

/// What the source flattens a path to: for each float whether it is computed, and the totals.
#[derive(Default)]
struct Flat {
    points: Vec<(f32, bool)>,
    ends: Vec<usize>,
    lines: usize,
    closings: usize,
    /// For each verb the N and the s of its curve.
    each: Vec<Option<(usize, f32)>>,
    /// By the request.
    marks: Vec<u8>,
    /// What the subpaths are like, by the kinds that are counted.
    corners: Vec<usize>,
}

impl Flat {
    fn counts(&self) -> usize {
        self.each.iter().flatten().map(|(n, _)| n).sum()
    }
    fn held(&self) -> usize {
        held::curves(&self.each).len()
    }
    /// Counts an answer of kind `what` where curves are held back.
    fn seen_held(&self, what: usize) {
        seen_if(self.held() > 0, what);
    }
    /// Counts what the subpaths of an accepted flattening are like, and how its marks' room was.
    fn seen_marks(&self, room: Room) {
        self.corners.iter().for_each(|kind| seen(*kind));
        if !self.marks.is_empty() {
            seen(if self.marks.len() == room.marks { MARKS_FULL } else { MARKS_AMPLE });
        }
    }
    /// Ends a subpath, of whose points it is said which are computed: it is the source's next polyline, and none where it is a move alone.
    fn end(&mut self, computed: &mut Vec<bool>, polylines: &[Vec<Vec2>]) {
        if computed.len() > 1 {
            let line = &polylines[self.ends.len()];
            assert_eq!(line.len(), computed.len(), "the source's polyline");
            self.points.extend(line.iter().zip(computed.iter()).flat_map(|(p, c)| [(p.x, *c), (p.y, *c)]));
            self.ends.push(self.points.len() / 2);
        }
        computed.clear();
    }
}

fn reference_flat(path: &Path, tolerance: f32) -> (Flat, Vec<Vec<Vec2>>) {
    let polylines = flatten(path, tolerance);
    let mut flat = Flat::default();
    let (mut pen, mut start) = (Vec2::ZERO, Vec2::ZERO);
    let mut computed: Vec<bool> = Vec::new();
    for (verb, p) in path.segments() {
        let count = curve_count(pen, p, tolerance);
        match verb {
            Verb::MoveTo => {
                flat.end(&mut computed, &polylines);
                start = p[0];
                computed.push(false);
            }
            Verb::LineTo => {
                flat.lines += 1;
                computed.push(false);
            }
            Verb::QuadTo | Verb::CubicTo => {
                let inner = count.map_or(0, |(n, _)| n - 1);
                computed.resize(computed.len() + inner, true);
                computed.push(false);
            }
            Verb::Close => {
                let line = polylines.get(flat.ends.len());
                if computed.len() > 1 && line.is_some_and(|l| l[0] == start && l[computed.len() - 1] != start) {
                    computed.push(false);
                    flat.closings += 1;
                }
            }
        }
        flat.each.push(count);
        pen = *p.last().unwrap_or(&start);
    }
    flat.end(&mut computed, &polylines);
    flat.marks = marks::marks(path.verbs());
    assert_eq!((flat.ends.len(), flat.marks.len()), (polylines.len(), polylines.len()), "the source's polylines");
    flat.corners = corners(path, &flat.each, &polylines);
    (flat, polylines)
}

/// What the subpaths of a path are like.
fn corners(path: &Path, each: &[Option<(usize, f32)>], polylines: &[Vec<Vec2>]) -> Vec<usize> {
    let subpaths = subpaths(path, each, polylines);
    let mut kinds = vec![BETWEEN; passed_over(&subpaths)];
    for (verbs, line) in subpaths {
        match line {
            Some((start, closings)) => kinds.extend(polyline_corners(verbs, start, closings)),
            None => kinds.push(if verbs.len() == 1 { MOVE_ALONE } else { CLOSES_ALONE }),
        }
    }
    kinds
}

/// What a subpath is like whose polyline has this start and so many added closings.
fn polyline_corners(verbs: &[Verb], start: Vec2, closings: usize) -> Vec<usize> {
    let (shape, mark) = (marks::shape(verbs), marks::mark(verbs));
    let closed = mark == 1;
    let kinds = [
        (true, MARKED + usize::from(mark)),
        (!closed && closings > 0, OPEN_ADDED),
        (closed && closings == 0, CLOSED_UNADDED),
        (!closed && shape.contains("DZ"), DRAWN_BEHIND),
        (shape.ends_with("ZZ"), TWO_CLOSES),
        (!closed && shape.starts_with("MZ"), OPEN_CLOSED_FIRST),
        (closed && shape.starts_with("MZ"), CLOSED_CLOSED_FIRST),
        (closed && start.is_nan(), CLOSED_NAN),
    ];
    kinds.into_iter().filter(|(is, _)| *is).map(|(_, kind)| kind).collect()
}

/// A path as it is handed in.
struct Given {
    verbs: Vec<u8>,
    points: Vec<f32>,
}

impl Given {
    fn of(path: &Path) -> Given {
        Given { verbs: bytes(path), points: floats(path.points()) }
    }
    fn ask<R>(&self, call: impl FnOnce(*const u8, usize, *const f32, usize) -> R) -> R {
        call(self.verbs.as_ptr(), self.verbs.len(), self.points.as_ptr(), self.points.len())
    }
    fn refusal(&self) -> u8 {
        numbers::path(&self.verbs, self.points.len())
    }
    /// The same in the Rust interface, which takes no path that is refused.
    fn checked(&self) -> hizlaou::Path {
        let verbs = self.verbs.iter().map(|v| hizlaou::Verb::from_byte(*v).expect("a verb")).collect();
        let points = self.points.chunks(2).map(|p| Pt::new(p[0], p[1])).collect();
        hizlaou::Path::from_parts(verbs, points, hizlaou::FillRule::NonZero).expect("a path")
    }
}

/// Room for a flattening.
#[derive(Clone, Copy)]
struct Room {
    floats: usize,
    ends: usize,
    marks: usize,
}

impl Room {
    /// Exactly what a flattening needs.
    fn of(f: &Flat) -> Room {
        Room { floats: f.points.len(), ends: f.ends.len(), marks: f.marks.len() }
    }
    /// About what so many floats and polylines need: see `lengths`. The marks' room varies by itself.
    fn near(r: &mut Rng, floats: usize, polylines: usize) -> Room {
        let (floats, ends) = lengths(r, floats, polylines);
        let marks = match r.below(8) {
            0..=2 => polylines,
            3..=5 => polylines + 1 + r.below(4) as usize,
            6 => polylines.saturating_sub(1),
            _ => r.below(polylines as u64 + 1) as usize,
        };
        Room { floats, ends, marks }
    }
    fn takes_lines(&self, f: &Flat) -> bool {
        f.points.len() <= self.floats && f.ends.len() <= self.ends
    }
    fn takes_marks(&self, f: &Flat) -> bool {
        f.marks.len() <= self.marks
    }
}

/// The buffers lent for a flattening, by itself or as the scratch of a dashing.
struct Polylines {
    room: Room,
    points: Floats,
    ends: Ends,
    marks: Bytes,
}

impl Polylines {
    fn new(room: Room) -> Polylines {
        Polylines { room, points: Floats::new(room.floats), ends: Ends::new(room.ends), marks: Bytes::new(room.marks) }
    }
    fn flatten(&mut self, g: &Given, tolerance: f32) -> ffi::Flattened {
        let Polylines { room, points, ends, marks } = self;
        let (points, ends, marks) = (points.lent.as_mut_ptr(), ends.lent.as_mut_ptr(), marks.lent.as_mut_ptr());
        // SAFETY: the path is read; the outputs are lent with their own lengths.
        g.ask(|v, n, p, m| unsafe { ffi::hz_flatten(v, n, p, m, tolerance, points, room.floats, ends, room.ends, marks, room.marks) })
    }
    /// What a path flattened to `f` is to leave: all of it, or nothing where there isn't room, which is 3. Says whether there is; where only the
    /// marks have none, that is counted as `short`.
    fn expect(&mut self, f: &Flat, short: usize) -> bool {
        if self.room.takes_lines(f) && self.room.takes_marks(f) {
            self.points.expect(0, &f.points);
            self.ends.want[..f.ends.len()].copy_from_slice(&f.ends);
            self.marks.want[..f.marks.len()].copy_from_slice(&f.marks);
            return true;
        }
        f.seen_held(HELD_FIRST_3);
        seen_if(self.room.takes_lines(f), short);
        false
    }
    fn all(&self, whose: &str) -> Checked {
        self.points.all(&format!("{whose} points"))?;
        self.ends.all(&format!("{whose} ends"))?;
        self.marks.all(&format!("{whose} marks"))
    }
}

/// Flattening into such room. `flat` is what is right where the path isn't refused.
fn flattening(g: &Given, tolerance: f32, flat: Option<&Flat>, room: Room) -> Checked {
    let mut out = Polylines::new(room);
    let got = out.flatten(g, tolerance);
    let mut number = if room.floats % 2 == 1 { 1 } else { g.refusal() };
    let mut want = [0; 7];
    if let (0, Some(f)) = (number, flat) {
        if out.expect(f, MARKS_3) {
            want = [f.points.len() / 2, f.ends.len(), f.ends.len(), f.lines, f.counts(), f.closings, f.held()];
            f.each.iter().flatten().for_each(|(_, s)| seen_squared(FLATTENED, *s));
            f.seen_marks(room);
        } else {
            number = 3;
        }
    }
    refused("flatten refusal", got.refused, number)?;
    equal("flatten totals", [got.points, got.polylines, got.starts, got.lines, got.counts, got.closings, got.held], want)?;
    out.all("flattened")
}

/// The N of every verb and whether it was held back, past the end nothing.
fn carried(g: &Given, tolerance: f32, flat: &Flat) -> Checked {
    for i in (0..g.verbs.len() + 2).chain([usize::MAX]) {
        // SAFETY: the path is read.
        let got = g.ask(|v, n, p, m| unsafe { ffi::hz_carried_count(v, n, p, m, tolerance, i) });
        let want = flat.each.get(i).copied().flatten().map_or((0, false), |(n, s)| (n, held::held(s)));
        equal("carried count", (got.refused, got.count, got.held), (0, want.0, want.1))?;
    }
    Ok(())
}

/// What the Rust interface says of an accepted path: the verbs of all curves held back, and which polylines are closed.
fn told_in_rust(g: &Given, tolerance: f32, flat: &Flat) -> Checked {
    let path = g.checked();
    equal("held curves", held_curves(&path, tolerance), held::curves(&flat.each))?;
    let lines = hizlaou::flatten(&path, tolerance).expect("it lends the room itself");
    equal("marks in Rust", lines.marks(), flat.marks.as_slice())?;
    let closed: Vec<bool> = flat.marks.iter().map(|mark| *mark == 1).collect();
    equal("closed in Rust", lines.closed().collect(), closed)
}

struct Cut {
    verbs: Vec<u8>,
    points: Vec<(f32, bool)>,
}

impl Cut {
    fn of(runs: &[Run]) -> Cut {
        let verbs = runs.iter().flat_map(|run| (0..run.len()).map(|i| u8::from(i > 0))).collect();
        Cut { verbs, points: floats(runs.iter().flatten()).into_iter().map(|x| (x, true)).collect() }
    }
}

/// The buffers lent for dashing: the scratch, and the dash's points and verbs.
struct Lent {
    scratch: Polylines,
    points: Floats,
    verbs: Bytes,
}

impl Lent {
    fn new(scratch: Room, dash: (usize, usize)) -> Lent {
        Lent { scratch: Polylines::new(scratch), points: Floats::new(dash.0), verbs: Bytes::new(dash.1) }
    }
    fn dash(&mut self, g: &Given, c: &Case, rule: u8) -> ffi::Dashed {
        let Lent { scratch, points, verbs } = self;
        // SAFETY: path and pattern are read; the outputs are lent with their own lengths.
        g.ask(|v, n, p, m| unsafe {
            ffi::hz_dash_path(
                v,
                n,
                p,
                m,
                rule,
                c.intervals.as_ptr(),
                c.intervals.len(),
                c.phase,
                c.tolerance,
                scratch.points.lent.as_mut_ptr(),
                scratch.room.floats,
                scratch.ends.lent.as_mut_ptr(),
                scratch.room.ends,
                scratch.marks.lent.as_mut_ptr(),
                scratch.room.marks,
                verbs.lent.as_mut_ptr(),
                verbs.lent.len(),
                points.lent.as_mut_ptr(),
                points.lent.len(),
            )
        })
    }
    fn all(&self) -> Checked {
        self.scratch.all("scratch")?;
        self.verbs.all("dash verbs")?;
        self.points.all("dash points")
    }
    /// What a path flattened to `f` and cut to `d` is to leave in the buffers, and the refusal: 3 for the scratch, 3 for the dash buffers, or none.
    fn expect(&mut self, f: &Flat, d: &Cut) -> u8 {
        if !self.scratch.expect(f, SCRATCH_MARKS_3) {
            return 3;
        }
        let (verbs, points) = (self.verbs.lent.len().min(numbers::MAX_VERBS), self.points.lent.len().min(2 * numbers::MAX_POINTS));
        if d.verbs.len() > verbs || d.points.len() > points {
            f.seen_held(HELD_SECOND_3);
            seen_if(!f.marks.is_empty(), MARKS_SECOND_3);
            return 3;
        }
        self.verbs.want[..d.verbs.len()].copy_from_slice(&d.verbs);
        self.points.expect(0, &d.points);
        0
    }
}

/// Dashing into such a scratch and outputs of such lengths; `flat` and `cut` are what is right where nothing is refused, and where nothing is cut the
/// path is drawn whole.
fn dashing(g: &Given, c: &Case, rule: u8, flat: Option<&Flat>, cut: Option<&Cut>, scratch: Room, dash_lens: (usize, usize)) -> Checked {
    let mut lent = Lent::new(scratch, dash_lens);
    let got = lent.dash(g, c, rule);
    let mut number = if scratch.floats % 2 == 1 || dash_lens.0 % 2 == 1 { 1 } else { g.refusal() };
    if number == 0 && c.intervals.len() > 64 {
        number = 8;
    }
    // Whole and every refusal carry no number.
    let mut want = ([0; 5], 0, 0);
    if let (0, Some(f), None) = (number, flat, cut) {
        f.seen_held(HELD_WHOLE);
        seen_if(!f.marks.is_empty() && scratch.marks > 0, MARKS_WHOLE);
    }
    if let (0, Some(f), Some(d)) = (number, flat, cut) {
        number = lent.expect(f, d);
        if number == 0 {
            f.seen_held(HELD_CUT);
            seen_if(!f.marks.is_empty(), MARKS_CUT);
            want = ([d.verbs.len(), d.points.len() / 2, f.points.len() / 2, f.ends.len(), f.held()], 1, u8::from(rule != 0));
        }
    }
    if number != 0 {
        want.1 = 2;
    }
    refused("dash refusal", got.refused, number)?;
    equal("dash answer", ([got.verbs, got.points, got.scratch, got.polylines, got.held], got.kind, got.fill_rule), want)?;
    lent.all()?;
    drawn(g, &lent.points.lent, got)
}

/// Which part is drawn, by an answer of dashing: the path's own points, or the filled part of the dash buffer.
fn drawn(g: &Given, dash: &[f32], answer: ffi::Dashed) -> Checked {
    // SAFETY: both buffers are read.
    let part = unsafe { ffi::hz_drawn_outline(g.points.as_ptr(), g.points.len(), g.points.len() / 2, dash.as_ptr(), dash.len(), answer) };
    let want = match answer.kind {
        0 => (0, g.points.len() / 2 * 2),
        1 => (1, 2 * answer.points),
        _ => (1, 0),
    };
    equal("drawn outline", (part.from_dash, part.floats), want)
}

/// About how many intervals a walk has.
fn work(polylines: &[Vec<Vec2>], intervals: &[f32]) -> f64 {
    let sum: f64 = intervals.iter().map(|v| f64::from(*v)).sum();
    let length: f64 = polylines.iter().flat_map(|l| l.windows(2)).map(|w| f64::from((w[1] - w[0]).length())).filter(|d| d.is_finite()).sum();
    length / sum * intervals.len() as f64
}

fn concave(c: Convexity) -> u8 {
    u8::from(c == Convexity::Concave)
}

/// The questions about a path that isn't refused.
fn questions(g: &Given, path: &Path, r: &mut Rng) -> Checked {
    // SAFETY: the path is read.
    let (b, finite, range, convex, polygon) = g.ask(|v, n, p, m| unsafe {
        (
            ffi::hz_bounds(v, n, p, m),
            ffi::hz_is_finite(v, n, p, m),
            ffi::hz_is_within_tessellation_range(v, n, p, m),
            ffi::hz_convexity(v, n, p, m),
            ffi::hz_polygon_convexity(p, m),
        )
    });
    let w = path.bounds();
    equal("bounds", (b.refused, rect_bits(b.rect)), (0, rect_bits(rect(w))))?;
    equal("finite", (finite.refused, finite.holds), (0, path.is_finite()))?;
    equal("range", (range.refused, range.holds), (0, path.is_within_tessellation_range()))?;
    equal("convexity", (convex.refused, convex.convexity), (0, concave(path.convexity())))?;
    equal("polygon convexity", (polygon.refused, polygon.convexity), (0, concave(polygon_convexity(path.points()))))?;
    let odd = Rect::new(Vec2::new(r.any(), r.any()), Vec2::new(r.any(), r.any()));
    for w in [w, odd] {
        let p = if r.one_in(2) { w.min } else { Vec2::new(r.any(), r.any()) };
        let h = rect(w);
        // SAFETY: values only.
        let got = unsafe { (ffi::hz_is_empty(h), ffi::hz_contains(h, xy(p)), ffi::hz_width(h), ffi::hz_height(h)) };
        equal("rect", (got.0, got.1), (w.is_empty(), w.contains(p)))?;
        computed("width", got.2, w.width())?;
        computed("height", got.3, w.height())?;
    }
    Ok(())
}

/// A path with something wrong, which every call must see.
fn damaged_path(r: &mut Rng, c: &Case, mut g: Given) -> Checked {
    for _ in 0..=r.below(2) {
        let at = |r: &mut Rng, n: usize| r.below(n.max(1) as u64) as usize;
        match r.below(7) {
            0 => g.points.push(r.any()),
            1 => {
                let i = at(r, g.verbs.len());
                g.verbs.get_mut(i).map(|v| *v = 5 + r.below(251) as u8).unwrap_or(())
            }
            2 => g.verbs.first_mut().map(|v| *v = 1 + r.below(4) as u8).unwrap_or(()),
            3 => drop((g.points.pop(), g.points.pop())),
            4 => g.points.extend([r.any(), r.any()]),
            5 => g.verbs.push(r.below(6) as u8),
            _ => {
                let i = at(r, g.verbs.len());
                if i < g.verbs.len() {
                    g.verbs.remove(i);
                }
            }
        }
    }
    refused_path(r, c, &g)
}

fn refused_path(r: &mut Rng, c: &Case, g: &Given) -> Checked {
    let number = g.refusal();
    let list = numbers::list(g.points.len());
    // SAFETY: the path is read.
    let (check, polygon) = g.ask(|v, n, p, m| unsafe { (ffi::hz_check(v, n, p, m), ffi::hz_polygon_convexity(p, m)) });
    refused("check", check, number)?;
    refused("polygon refusal", polygon.refused, list)?;
    if list != 0 {
        equal("polygon verdict of a refusal", polygon.convexity, 1)?;
    }
    if number == 0 {
        return Ok(());
    }
    seen(15);
    // SAFETY: the path is read.
    let (b, finite, range, convex, carried) = g.ask(|v, n, p, m| unsafe {
        (
            ffi::hz_bounds(v, n, p, m),
            ffi::hz_is_finite(v, n, p, m),
            ffi::hz_is_within_tessellation_range(v, n, p, m),
            ffi::hz_convexity(v, n, p, m),
            ffi::hz_carried_count(v, n, p, m, c.tolerance, r.below(9) as usize),
        )
    });
    equal("bounds of a refused path", (b.refused, rect_bits(b.rect)), (number, rect_bits(hizlaou::Rect::empty())))?;
    equal("finite of a refused path", (finite.refused, finite.holds), (number, false))?;
    equal("range of a refused path", (range.refused, range.holds), (number, false))?;
    equal("convexity of a refused path", (convex.refused, convex.convexity), (number, 1))?;
    equal("count of a refused path", (carried.refused, carried.count, carried.held), (number, 0, false))?;
    flattening(g, c.tolerance, None, Room::near(r, 24, 4))?;
    dashing(g, c, 0, None, None, Room::near(r, 24, 4), lengths(r, 24, 12))
}

// ---- values

fn count_of(squared: f32) -> u32 {
    if squared.is_nan() || squared <= 0.0 {
        1
    } else if squared.is_infinite() {
        1000
    } else {
        (squared.sqrt().ceil() as u32).clamp(1, 1000)
    }
}

const STYLES: [&[f32]; 9] =
    [&[], &[12.0, 6.0], &[6.0, 6.0], &[2.0, 4.0], &[12.0, 4.0, 2.0, 4.0], &[12.0, 4.0, 2.0, 4.0, 2.0, 4.0], &[8.0], &[4.0, 2.0, 1.0], &[24.0, 8.0]];

/// Four points of the case, or any where it has none.
fn four_points(r: &mut Rng, c: &Case) -> [Point; 4] {
    let mut drawn = Vec::new();
    for call in &c.calls {
        match *call {
            Call::Move(p) | Call::Line(p) => drawn.push(p),
            Call::Quad(a, p) | Call::Conic(a, p, _) | Call::Note(a, p, _) => drawn.extend([a, p]),
            Call::Cubic(a, b, p) => drawn.extend([a, b, p]),
            Call::Close | Call::Rule(_) => (),
        }
    }
    std::array::from_fn(|_| match drawn.len() {
        0 => [r.any(), r.any()],
        n => drawn[r.below(n as u64) as usize],
    })
}

/// The counts of a quad and a cubic at a tolerance each.
fn curve_counts(question: &str, p: [Point; 4], quad: f32, cubic: f32) -> Checked {
    let ([a, b, d, e], [ha, hb, hd, he]) = (p.map(v2), p.map(pt));
    // SAFETY: values only.
    let got = unsafe { (ffi::hz_quad_segment_count(ha, hb, hd, quad), ffi::hz_cubic_segment_count(ha, hb, hd, he, cubic)) };
    let n = curves::quad_segment_count(a, b, d, quad);
    counts(&format!("quad count{question}"), got.0, n, held::squared(&p[..3], quad))?;
    let n = curves::cubic_segment_count(a, b, d, e, cubic);
    counts(&format!("cubic count{question}"), got.1, n, held::squared(&p, cubic))
}

/// The first step of a root is as the request has it; counts what it is like.
fn first_step(x: f32) -> Checked {
    seen(ROOTS);
    let Some(exact) = root::exact(x) else {
        return Ok(());
    };
    if let Some(wrong) = exact.wrong(x) {
        return Err(("the driver's own root".into(), wrong.into()));
    }
    seen(FINITE_ROOTS);
    seen_if(x.is_subnormal(), SUBNORMAL_ROOTS);
    seen_if(exact.is_square(), SQUARE_ROOTS);
    seen_if(exact.over() == 0, ROOT_ITSELF);
    seen_if(exact.over() == 2, LEAST_OVER);
    seen_if(exact.up(), ROUNDED_UP);
    Ok(())
}

/// The root of a float: the machine's, and the request's.
fn root_of(x: f32) -> Checked {
    // SAFETY: values only.
    let got = unsafe { ffi::hz_sqrt(x) };
    let checked = computed("sqrt", got, x.sqrt()).and_then(|()| first_step(x));
    let checked = checked.and_then(|()| computed("sqrt in IEEE's order", got, root::sqrt(x)));
    checked.map_err(|(question, what)| (question, format!("{what}, for {:08x}", bits(x))))
}

/// Roots of operands whose rounding is close. They are drawn apart from the case's other numbers, which stay what they are without them.
fn close_roots(c: &Case) -> Checked {
    root::operands(&mut Rng::new(c.seed, 1)).into_iter().try_for_each(root_of)
}

/// Roots and counts: of a float, and of curves at the case's tolerance, where N steps from n, and where holding back begins.
fn roots_and_counts(r: &mut Rng, c: &Case, p: [Point; 4]) -> Checked {
    let n = 1 + r.below(1002) as u32;
    let x = match r.below(6) {
        0 => r.any(),
        1 => case::nudged(r, (n * n) as f32),
        2 => case::nudged(r, held::EDGE),
        3 => case::nudged(r, f32::INFINITY),
        4 => case::nudged(r, f32::NEG_INFINITY),
        _ => r.below(1_100_000) as f32 * 0.125,
    };
    root_of(x)?;
    // SAFETY: values only.
    let count = unsafe { ffi::hz_segment_count(x) };
    counts("segment_count", count, count_of(x), x)?;
    curve_counts("", p, c.tolerance, c.tolerance)?;
    for (question, s) in [(" at a step", (n * n) as f32), (" at the edge", held::EDGE)] {
        let (quad, cubic) = (case::tolerance_near(r, &p[..3], s), case::tolerance_near(r, &p, s));
        curve_counts(question, p, quad, cubic)?;
    }
    Ok(())
}

fn values(r: &mut Rng, c: &Case) -> Checked {
    let p = four_points(r, c);
    roots_and_counts(r, c, p)?;
    close_roots(c)?;
    let t = if r.one_in(4) { r.any() } else { r.below(1001) as f32 / 1000.0 };
    let [a, b, d, e] = p.map(v2);
    // SAFETY: values only.
    unsafe {
        let [ha, hb, hd, he] = p.map(pt);
        let (q, w) = (ffi::hz_eval_quad(ha, hb, hd, t), curves::eval_quad(a, b, d, t));
        computed("eval_quad", q.x, w.x)?;
        computed("eval_quad", q.y, w.y)?;
        let (q, w) = (ffi::hz_eval_cubic(ha, hb, hd, he, t), curves::eval_cubic(a, b, d, e, t));
        computed("eval_cubic", q.x, w.x)?;
        computed("eval_cubic", q.y, w.y)?;
        let (s, w) = (ffi::hz_tolerance_for_scale(c.tolerance, c.scale), curves::tolerance_for_scale(c.tolerance, c.scale));
        if c.scale <= 0.0 || !c.scale.is_finite() {
            equal("tolerance_for_scale", bits(s), bits(w))?;
        } else {
            computed("tolerance_for_scale", s, w)?;
        }
        let usable = Dash::new(c.intervals.clone(), c.phase).is_usable();
        equal("is_usable", ffi::hz_is_usable(c.intervals.as_ptr(), c.intervals.len(), c.phase), usable)?;
        let number = if r.one_in(16) { r.next() as usize } else { r.below(11) as usize };
        let style = ffi::hz_line_style(number);
        refused("style refusal", style.refused, if number > 8 { 9 } else { 0 })?;
        let mut want = [0f32; 64];
        let intervals = STYLES.get(number).copied().unwrap_or(&[]);
        want[..intervals.len()].copy_from_slice(intervals);
        equal("style", (style.len, style.values.map(bits)), (intervals.len(), want.map(bits)))
    }
}

/// Counts what the zeros of a pattern that cuts are like.
fn seen_zeros(intervals: &[f32]) {
    let (even, zero) = (intervals.len() % 2 == 0, |v: &f32| *v == 0.0);
    seen_if(zero(&intervals[0]), ZERO_LEADS);
    seen_if(intervals.windows(2).any(|w| w.iter().all(zero)), ZEROS_IN_A_ROW);
    seen_if(intervals.iter().any(|v| zero(v) && v.is_sign_negative()), MINUS_ZERO);
    seen_if(even && intervals.iter().step_by(2).all(zero), NO_DRAWN);
    seen_if(even && intervals.iter().skip(1).step_by(2).all(zero), NO_GAP);
    seen_if(!even, ZERO_ODD);
}

/// Counts who judged a path that is cut, and what its walks are like.
fn seen_judged(c: &Case, j: &Judged) {
    let zero = j.judge == Judge::Zero;
    match j.judge {
        Judge::Source => seen(BY_SOURCE),
        Judge::Zero => seen(BY_ZERO),
        Judge::Met => seen(BY_MET),
    }
    seen_if(j.unlike, if zero { ZERO_UNLIKE } else { MET_UNLIKE });
    if zero {
        seen_zeros(&c.intervals);
    }
    let any = |is: fn(&zeros::Met) -> bool| j.met.iter().any(is);
    seen_if(any(|m| !m.start && m.ended), DASH_MET);
    seen_if(any(|m| !m.start && !m.ended), GAP_MET);
    seen_if(any(|m| !m.start) && zero, ZERO_MET);
    seen_if(any(|m| !m.start && m.ended && m.begun), RUNS_MET);
    seen_if(any(|m| m.apart), APART_MET);
    seen_if(any(|m| m.start), START_MET);
    seen_if(any(|m| m.start) && zero, ZERO_START_MET);
    seen_if(any(|m| m.begun && m.bits), COPIED_ZERO);
    let w6 = usize::from(j.judge != Judge::Source);
    seen_if(j.little, LITTLE_LEFT + w6);
    seen_if(j.less, LESS_LEFT + w6);
}

/// Counts a path that is drawn whole, and patterns of zeros alone.
fn seen_whole(c: &Case) {
    let alone = !c.intervals.is_empty() && c.intervals.iter().all(|v| *v == 0.0);
    seen(10);
    seen_if(alone, ZEROS_ALONE);
    seen_if(alone && (c.tolerance < 0.0 || c.tolerance.is_nan()), ZEROS_ALONE_BELOW);
}

/// Counts the room of the dash buffers for runs that the request judges, where the scratch has its room.
fn seen_room(cut: &Cut, lens: (usize, usize)) {
    let (floats, verbs) = (cut.points.len(), cut.verbs.len());
    seen_if(verbs > 0 && lens == (floats, verbs), W6_FULL);
    seen_if(verbs > 0 && (lens == (floats - 2, verbs) || lens == (floats, verbs - 1)), W6_SHORT);
}

/// What a dashing gives; differs where the driver itself is wrong.
fn judged(b: &PathBuilder, c: &Case, polylines: &[Vec<Vec2>]) -> Result<Judged, Differs> {
    zeros::judged(b, c, polylines).map_err(|wrong| ("the driver's own walk".into(), wrong.into()))
}

/// The pattern along the path that `b` has built, where it does not have too many intervals.
fn dashed(r: &mut Rng, c: &Case, b: PathBuilder, given: &Given, flat: &Flat, polylines: &[Vec<Vec2>]) -> Checked {
    let limit = if r.one_in(512) { 200_000.0 } else { 4_000.0 };
    if Pattern::of(c).is_some_and(|p| p.draws()) && !(work(polylines, &c.intervals) < limit) {
        seen(12);
        return Ok(());
    }
    let judged = judged(&b, c, polylines)?;
    let cut = judged.runs.as_ref().map(|runs| Cut::of(runs));
    let rule = if b.build().fill_rule() == FillRule::NonZero { 0 } else { 1 + r.below(255) as u8 };
    let scratch = Room::near(r, flat.points.len(), flat.ends.len());
    let scratch = if r.one_in(2) { Room::of(flat) } else { scratch };
    let (floats, verbs) = cut.as_ref().map_or((given.points.len(), given.verbs.len()), |cut| (cut.points.len(), cut.verbs.len()));
    let lens = lengths(r, floats, verbs);
    match &cut {
        None => seen_whole(c),
        Some(cut) => {
            seen(11);
            seen_judged(c, &judged);
            if judged.judge != Judge::Source && scratch.takes_lines(flat) && scratch.takes_marks(flat) {
                seen_room(cut, lens);
            }
        }
    }
    let checked = dashing(given, c, rule, Some(flat), cut.as_ref(), scratch, lens);
    checked.map_err(|(question, what)| (format!("{question}, {}", judged.judge.name()), what))
}

/// The whole case.
pub fn case(c: &Case) -> Checked {
    let r = &mut Rng::new(c.seed, 0);
    values(r, c)?;
    let mut b = PathBuilder::new();
    for call in &c.calls {
        b = apply(b, call);
    }
    let path = b.clone().build();
    let lens = lengths(r, 2 * path.points().len(), path.verbs().len());
    let state = build(&c.calls, lens)?;
    if r.one_in(2) {
        replay(r, &c.calls, lens)?;
    }
    if r.one_in(4) {
        damaged_state(r, state, lens)?;
    }
    let given = Given::of(&path);
    questions(&given, &path, r)?;
    let (flat, polylines) = reference_flat(&path, c.tolerance);
    flattening(&given, c.tolerance, Some(&flat), Room::near(r, flat.points.len(), flat.ends.len()))?;
    carried(&given, c.tolerance, &flat)?;
    told_in_rust(&given, c.tolerance, &flat)?;
    dashed(r, c, b, &given, &flat, &polylines)?;
    if r.one_in(8) {
        // over 64 intervals, on a path that may be refused for other reasons first
        let mut long = c.clone();
        long.intervals.resize(65 + r.below(70) as usize, 1.0);
        dashing(&given, &long, 0, None, None, Room::near(r, 24, 4), lengths(r, 24, 12))?;
    }
    if r.one_in(3) {
        damaged_path(r, c, given)?;
    }
    Ok(())
}

/// The limits: a list of calls that goes past them, paths over them, and dashes that just fit or just don't.
pub fn limits(r: &mut Rng) -> Checked {
    let cubics = r.one_in(2);
    let mut calls = Vec::new();
    let (mut verbs, mut points) = (0, 0);
    while verbs < numbers::MAX_VERBS + 40 && points < numbers::MAX_POINTS + 80 {
        let p = [r.below(64) as f32, r.below(64) as f32];
        let c = match r.below(100) {
            0 => Call::Conic([8.0, 8.0], p, 3.0),
            1 => Call::Quad([4.0, 1.0], p),
            2 => Call::Close,
            3 => Call::Move(p),
            _ if cubics => Call::Cubic([1.0, 1.0], [2.0, 3.0], p),
            _ => Call::Line(p),
        };
        verbs += 1;
        points += match c {
            Call::Conic(..) | Call::Quad(..) => 2,
            Call::Cubic(..) => 3,
            _ => 1,
        };
        calls.push(c);
    }
    build(&calls, (2 * numbers::MAX_POINTS + 300, numbers::MAX_VERBS + 70))?;
    let c = Case { tolerance: 0.25, scale: 1.0, phase: 0.0, intervals: vec![1.0, 1.0], calls: Vec::new(), seed: 0 };
    for (verbs, points) in [(65_536, 65_536), (65_537, 65_537), (10, 131_073), (65_537, 3), (65_536, 131_072)] {
        let mut g = Given { verbs: vec![1; verbs], points: vec![1.5; 2 * points + usize::from(r.one_in(5))] };
        g.verbs[0] = 0;
        refused_path(r, &c, &g)?;
    }
    most_dashes(c)?;
    many_marks(r)
}

/// 65,536 verbs of dashes are the most: with gaps; with zero gaps; and with zero gaps at every corner.
fn most_dashes(c: Case) -> Checked {
    let line = |length: usize| vec![Vec2::new(length as f32, 0.0)];
    let corners = |many: usize| (1..=many).map(|i| Vec2::new((i % 2) as f32, 0.0)).collect();
    let gaps = [65_536, 65_537, 65_538].map(|length| (1.0, line(length)));
    let none = [32_768, 32_769].map(|length| (0.0, line(length)));
    let met = [32_768, 32_769].map(|many| (-0.0, corners(many)));
    for (gap, points) in gaps.into_iter().chain(none).chain(met) {
        let c = Case { intervals: vec![1.0, gap], ..c.clone() };
        let mut b = PathBuilder::new();
        b.move_to(Vec2::ZERO);
        for p in &points {
            b.line_to(*p);
        }
        let path = b.clone().build();
        let (flat, polylines) = reference_flat(&path, c.tolerance);
        let judged = judged(&b, &c, &polylines)?;
        let cut = judged.runs.as_ref().map(|runs| Cut::of(runs));
        for lens in [(140_000, 70_000), (2 * numbers::MAX_VERBS, numbers::MAX_VERBS)] {
            let checked = dashing(&Given::of(&path), &c, 1, Some(&flat), cut.as_ref(), Room::of(&flat), lens);
            checked.map_err(|(question, what)| (format!("{question} at the limits, {}", judged.judge.name()), what))?;
        }
    }
    Ok(())
}

/// About as many polylines as the limits leave, with just the room for their marks, and with one byte less.
fn many_marks(r: &mut Rng) -> Checked {
    let mut b = PathBuilder::new();
    for _ in 0..numbers::MAX_VERBS / 3 {
        b.move_to(Vec2::new(r.below(64) as f32, 0.0)).line_to(Vec2::new(0.0, r.below(64) as f32));
        if r.one_in(2) {
            b.close();
        }
    }
    let path = b.build();
    let (given, (mut flat, _)) = (Given::of(&path), reference_flat(&path, 0.25));
    // So many would hide how often random paths have each.
    flat.corners.clear();
    let room = Room::of(&flat);
    flattening(&given, 0.25, Some(&flat), room)?;
    flattening(&given, 0.25, Some(&flat), Room { marks: room.marks - 1, ..room })
}
