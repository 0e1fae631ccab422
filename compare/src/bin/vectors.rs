//! Writes the list that the program `vectors` replays (crates/vectors/src/main.rt has its form): cases with every answer of the Rust source, and,
//! which it does not say, the curves that are held back, by `held.rs`, and the marks of polylines, by `marks.rs`; and dashings by `zeros.rs`, which
//! says where the source judges them.
//!
//!     compare/vectors SOURCE > crates/vectors/stdin
//!
//! The examples of `examples.rs` come first, all of them. The other cases are drawn as the comparison draws them, by a fixed seed. A case is kept if
//! it shows something, in the list of `shows`, that fewer than two kept cases show: which way each call, each count, each closing, each reason for
//! Whole, each zero, each corner and each verdict went. Small cases are drawn first; larger ones are kept only for what no small one shows, and the
//! largest only for what must be shown.
#[path = "../case.rs"]
#[allow(dead_code)]
mod case;
#[path = "../examples.rs"]
mod examples;
#[path = "../held.rs"]
#[allow(dead_code)]
mod held;
#[path = "../marks.rs"]
mod marks;
#[path = "../meeting.rs"]
mod meeting;
#[path = "../reference.rs"]
mod reference;
#[path = "../zeros.rs"]
mod zeros;

use case::{Call, Case, Rng};
use reference::{apply, curve_count, passed_over, subpaths};
use source::dash::Dash;
use source::flatten::{self as curves, flatten};
use source::path::{polygon_convexity, Convexity, FillRule, Path, PathBuilder, Verb};
use source::Vec2;
use std::collections::HashMap;
use std::io::Write;
use std::ops::Range;
use zeros::{Judge, Judged, Pattern, Run};

/// A call as seven words.
fn call_words(c: &Call) -> [u32; 7] {
    let f = |kind: u32, xs: &[f32]| {
        let mut w = [0; 7];
        w[0] = kind;
        xs.iter().zip(&mut w[1..]).for_each(|(x, w)| *w = x.to_bits());
        w
    };
    match *c {
        Call::Move(p) => f(0, &p),
        Call::Line(p) => f(1, &p),
        Call::Quad(c, p) => f(2, &[c, p].concat()),
        Call::Cubic(c, d, p) => f(3, &[c, d, p].concat()),
        Call::Close => f(4, &[]),
        Call::Conic(c, p, w) => f(5, &[c[0], c[1], p[0], p[1], w]),
        Call::Rule(n) => [6, u32::from(n != 0), 0, 0, 0, 0, 0],
        Call::Note(a, b, r) => f(7, &[a[0], a[1], b[0], b[1], r]),
    }
}

#[derive(Default)]
struct Words(Vec<u32>);

impl Words {
    fn n(&mut self, n: usize) {
        self.0.push(n as u32);
    }
    fn f(&mut self, x: f32) {
        self.0.push(x.to_bits());
    }
    fn p(&mut self, p: Vec2) {
        self.f(p.x);
        self.f(p.y);
    }
    fn points(&mut self, ps: &[Vec2]) {
        self.n(2 * ps.len());
        ps.iter().for_each(|p| self.p(*p));
    }
    fn verbs(&mut self, vs: &[Verb]) {
        self.n(vs.len());
        vs.iter().for_each(|v| self.n(*v as usize));
    }
    /// The verbs and the points of runs.
    fn runs(&mut self, runs: &[Run]) {
        self.n(verbs_of(runs));
        runs.iter().flat_map(|run| 0..run.len()).for_each(|i| self.n(i.min(1)));
        self.points(&runs.concat());
    }
    fn counts(&mut self, ns: &[usize]) {
        self.n(ns.len());
        ns.iter().for_each(|n| self.n(*n));
    }
    /// The marks that are written into room for so many, and the filling behind them, of which two bytes are enough.
    fn marks(&mut self, marks: &[u8], written: bool, room: usize) {
        let shown = room.min(marks.len() + 2);
        let marks: Vec<usize> = marks.iter().map(|m| usize::from(*m)).collect();
        self.counts(&filled(if written { &marks } else { &[] }, MARK, shown));
    }
    /// The front of the buffers that a flattening writes, or leaves alone: a point, an end and the marks.
    fn front(&mut self, flat: &Flat, written: bool, room: usize) {
        let (points, ends) = if written { (flat.points(), flat.ends()) } else { (Vec::new(), Vec::new()) };
        self.points(&filled(&points, Vec2::splat(FLOAT), 1));
        self.counts(&filled(&ends, END, 1));
        self.marks(&flat.marks, written, room);
    }
}

/// What the program fills its buffers with.
const FLOAT: f32 = 77.5;
const END: usize = 7777;
const MARK: usize = 165;

/// The first `n` elements of a buffer so filled, in which these were written.
fn filled<T: Copy>(written: &[T], filling: T, n: usize) -> Vec<T> {
    written.iter().copied().chain(std::iter::repeat(filling)).take(n).collect()
}

/// How many verbs runs have: a move or a line for each point.
fn verbs_of(runs: &[Run]) -> usize {
    runs.iter().map(Vec::len).sum()
}

fn rule(p: &Path) -> usize {
    usize::from(p.fill_rule() == FillRule::EvenOdd)
}

fn concave(c: Convexity) -> usize {
    usize::from(c == Convexity::Concave)
}

/// What a number is like: 0 to 5 as they are, then by size.
fn size(n: usize) -> usize {
    match n {
        0..=5 => n,
        6..=15 => 6,
        16..=99 => 7,
        100..=998 => 8,
        _ => n.min(1001),
    }
}

fn like(x: f32) -> usize {
    match x {
        x if x.is_nan() => 0,
        x if x.is_infinite() => 1,
        x if x == 0.0 => 2,
        x if x.is_subnormal() => 3,
        _ => 4 + usize::from(x.abs() > 16_777_216.0),
    }
}

/// The answers to one case, and what they show.
#[derive(Default)]
struct Answers {
    words: Words,
    shows: Vec<String>,
}

/// A flattened path: its polylines, for each verb its curve's N and s, and the polylines' marks.
struct Flat {
    polylines: Vec<Vec<Vec2>>,
    each: Vec<Option<(usize, f32)>>,
    marks: Vec<u8>,
}

impl Flat {
    fn points(&self) -> Vec<Vec2> {
        self.polylines.iter().flatten().copied().collect()
    }
    fn ends(&self) -> Vec<usize> {
        let mut end = 0;
        self.polylines.iter().map(|l| (end += l.len(), end).1).collect()
    }
    fn held(&self) -> usize {
        held::curves(&self.each).len()
    }
    fn lengths(&self) -> Vec<f32> {
        self.polylines.iter().flat_map(|l| l.windows(2)).map(|w| (w[1] - w[0]).length()).collect()
    }
}

impl Answers {
    fn case(&mut self, c: &Case) {
        let w = &mut self.words;
        [c.tolerance, c.phase, c.scale].iter().for_each(|x| w.f(*x));
        w.n(c.intervals.len());
        c.intervals.iter().for_each(|x| w.f(*x));
        w.n(c.calls.len());
        c.calls.iter().for_each(|c| w.0.extend(call_words(c)));
    }

    /// The calls, one after another.
    fn calls(&mut self, calls: &[Call]) -> PathBuilder {
        let mut b = PathBuilder::new();
        let mut last = 9;
        for call in calls {
            let before = b.clone().build();
            b = apply(b, call);
            let laid = b.clone().build().verbs()[before.verbs().len()..].to_vec();
            let kind = call_words(call)[0] as usize;
            let quads = if kind == 5 { laid.iter().filter(|v| **v == Verb::QuadTo).count() } else { 0 };
            self.words.n(quads);
            self.words.n(0);
            self.shows.push(format!("call {kind} behind {last} empty {}", before.verbs().is_empty()));
            match *call {
                Call::Conic(c, p, weight) => {
                    let finite = |p: [f32; 2]| p[0].is_finite() && p[1].is_finite();
                    self.shows.push(format!("conic {quads} weight {} {} {} {}", like(weight), weight > 0.0, finite(c), finite(p)));
                    self.shows.push(format!("conic near one {} {quads}", (weight - 1.0).abs() <= 1e-3));
                }
                Call::Note(lo, hi, r) => self.shows.push(format!("note {} {} {} {}", like(lo[0]), like(hi[1]), like(r), r.is_sign_negative())),
                _ => (),
            }
            last = kind;
        }
        b
    }

    fn path(&mut self, pen: Option<Vec2>, path: &Path) {
        let w = &mut self.words;
        w.verbs(path.verbs());
        w.points(path.points());
        w.n(usize::from(pen.is_some()));
        pen.iter().for_each(|p| w.p(*p));
        w.n(rule(path));
        w.n(usize::from(path.as_rounded_rect().is_some()));
        if let Some((r, radius)) = path.as_rounded_rect() {
            w.p(r.min);
            w.p(r.max);
            w.f(radius);
        }
    }

    fn questions(&mut self, path: &Path) {
        let (w, r) = (&mut self.words, path.bounds());
        w.n(0);
        w.p(r.min);
        w.p(r.max);
        w.f(r.width());
        w.f(r.height());
        w.n(usize::from(r.is_empty()));
        w.n(usize::from(path.is_finite()));
        w.n(usize::from(path.is_within_tessellation_range()));
        self.shows.push(format!("bounds {} finite {} range {}", r.is_empty(), path.is_finite(), path.is_within_tessellation_range()));
        let (own, polygon) = (concave(path.convexity()), concave(polygon_convexity(path.points())));
        w.n(own);
        w.n(polygon);
        let ps = path.points();
        let repeats = ps.windows(2).filter(|w| w[0] == w[1]).count().min(3);
        let curved = path.verbs().iter().any(|v| matches!(v, Verb::QuadTo | Verb::CubicTo));
        self.shows.push(format!("convex {own} {polygon} of {} repeats {repeats} curved {curved} finite {}", size(ps.len()), path.is_finite()));
    }

    /// The N of a curve by the source, and its s; None for a verb that is no curve.
    fn count(&mut self, pen: Vec2, p: &[Vec2], tolerance: f32) -> Option<(usize, f32)> {
        let (n, s) = curve_count(pen, p, tolerance)?;
        let wild = p.iter().any(|p| !p.is_finite()) || !pen.is_finite();
        self.shows.push(format!("count {} of {} tolerance {} wild {wild}", size(n), p.len(), like(tolerance)));
        if n == 1000 {
            self.shows.push(format!("1,000 of {} held {} infinite {}", p.len(), held::held(s), s.is_infinite()));
        }
        if held::near_edge(s) {
            let beyond = i64::from(s.to_bits()) - i64::from(held::EDGE.to_bits());
            self.shows.push(format!("{} at {beyond} from the edge", p.len()));
        }
        Some((n, s))
    }

    /// Flattens by the source, and asks for the count of every verb.
    fn flat(&mut self, path: &Path, tolerance: f32) -> Flat {
        let (mut pen, mut start, mut each) = (Vec2::ZERO, Vec2::ZERO, Vec::new());
        for (verb, p) in path.segments() {
            each.push(self.count(pen, p, tolerance));
            match verb {
                Verb::MoveTo => start = p[0],
                Verb::LineTo | Verb::QuadTo | Verb::CubicTo => (),
                Verb::Close => self.shows.push(format!(
                    "close at start {} bits {} start {} {}",
                    pen == start,
                    (pen.x.to_bits(), pen.y.to_bits()) == (start.x.to_bits(), start.y.to_bits()),
                    like(start.x),
                    like(start.y)
                )),
            }
            pen = *p.last().unwrap_or(&start);
        }
        Flat { polylines: flatten(path, tolerance), each, marks: marks::marks(path.verbs()) }
    }

    fn flattened(&mut self, path: &Path, flat: &Flat) {
        let (points, starts) = (flat.points(), flat.polylines.len());
        let of = |verb: Verb| path.verbs().iter().filter(|v| **v == verb).count();
        let (lines, moves) = (of(Verb::LineTo), of(Verb::MoveTo));
        let counts: usize = flat.each.iter().flatten().map(|(n, _)| n).sum();
        let closings = points.len() - starts - lines - counts;
        self.shows.push(format!("flat {} of {} moves, closings {}", size(starts), size(moves), closings.min(3)));
        if let [first, .., last] = held::curves(&flat.each)[..] {
            self.shows.push(format!("{} held, a move between {}", flat.held(), path.verbs()[first..last].contains(&Verb::MoveTo)));
        }
        let w = &mut self.words;
        w.n(0);
        [starts, lines, counts, closings, flat.held()].iter().for_each(|n| w.n(*n));
        w.points(&points);
        w.counts(&flat.ends());
        w.marks(&flat.marks, true, ROOM);
    }

    /// What the subpaths are like, and which marks their polylines have.
    fn subpaths(&mut self, path: &Path, flat: &Flat) {
        let subpaths = subpaths(path, &flat.each, &flat.polylines);
        self.shows.push(format!("subpaths passed over between polylines {}", passed_over(&subpaths).min(2)));
        for (verbs, line) in subpaths {
            let shape: String = marks::shape(verbs).chars().take(6).collect();
            self.shows.push(match line {
                None => format!("{shape} without a polyline"),
                Some((start, closings)) => {
                    let mark = marks::mark(verbs);
                    format!("{shape} marked {mark}, closings {}, NaN start {}", closings.min(1), start.is_nan())
                }
            });
        }
    }

    /// Flattened with room for one mark, and again with room for two.
    fn rooms(&mut self, flat: &Flat) {
        let marks = flat.marks.len();
        for room in [1, 2] {
            let fits = marks <= room;
            self.words.n(if fits { 0 } else { 3 });
            self.words.n(if fits { marks } else { 0 });
            self.words.front(flat, fits, room);
            self.shows.push(format!("room for {room} marks of {}", marks.min(4)));
        }
    }

    /// The N of every verb, and whether it was held back.
    fn counts(&mut self, flat: &Flat) {
        for (n, s) in flat.each.iter().map(|count| count.unwrap_or((0, 0.0))) {
            self.words.n(n);
            self.words.n(usize::from(held::held(s)));
        }
    }

    /// Dashes. None where there are too many intervals.
    fn dashed(&mut self, c: &Case, b: &PathBuilder, flat: &Flat) -> Option<Judged> {
        let lengths = flat.lengths();
        let length: f32 = lengths.iter().filter(|l| l.is_finite()).sum();
        let intervals = length / c.intervals.iter().sum::<f32>() * c.intervals.len() as f32;
        if Pattern::of(c).is_some_and(|p| p.draws()) && !(intervals < 2000.0) {
            return None;
        }
        let judged = zeros::judged(b, c, &flat.polylines).expect("the driver's own walk is right");
        let usable = Dash::new(c.intervals.clone(), c.phase).is_usable();
        self.pattern(c, usable, judged.runs.is_none());
        if let Some(runs) = &judged.runs {
            self.cut(c, runs, &lengths);
            self.judge(c, &judged);
        }
        self.words.n(usize::from(usable));
        for (verbs, marks) in [(2048, ROOM), (1, ROOM), (4, ROOM), (2048, 1)] {
            self.dash_answer(&judged, rule(&b.clone().build()), flat, verbs, marks);
        }
        Some(judged)
    }

    /// Shows what a pattern is like.
    fn pattern(&mut self, c: &Case, usable: bool, whole: bool) {
        let sum: f32 = c.intervals.iter().sum();
        let bad = c.intervals.iter().map(|x| (like(*x) < 2) as usize + 2 * usize::from(*x < 0.0)).max().unwrap_or(9);
        self.shows.push(format!(
            "whole {whole} usable {usable} odd {} zeros {} bad {bad} phase {} {} sum {:?}",
            c.intervals.len() % 2,
            zeros_in(c),
            like(c.phase).min(3),
            c.phase < 0.0,
            sum.partial_cmp(&c.tolerance)
        ));
        self.shows.push(format!("whole {whole} intervals {}", c.intervals.len().min(9)));
        if whole && !usable && zeros_in(c) > 0 {
            self.shows.push(format!("zeros alone {}, tolerance {} {}", alone(c), like(c.tolerance), c.tolerance < 0.0));
        }
    }

    /// Shows what a cut path is like, whose segments have such lengths.
    fn cut(&mut self, c: &Case, runs: &[Run], lengths: &[f32]) {
        let kinds = |f: fn(&f32) -> bool| lengths.iter().filter(|l| f(l)).count().min(2);
        self.shows.push(format!(
            "cut {} of {} legs, zero {} wild {} zeros {} over {}",
            size(verbs_of(runs)).min(8),
            size(lengths.len()).min(7),
            kinds(|l| *l == 0.0),
            kinds(|l| !l.is_finite()),
            zeros_in(c),
            c.phase > c.intervals.iter().sum()
        ));
    }

    /// Shows who judges what is cut, where zeros stand, and how segments begin with nothing left.
    fn judge(&mut self, c: &Case, judged: &Judged) {
        let Judged { judge, unlike, met, little, less, .. } = judged;
        self.shows.push(format!("{}, unlike the source {unlike}", judge.name()));
        self.shows.push(format!("{}, little left {little}, less {less}", judge.name()));
        let zero: Vec<bool> = c.intervals.iter().map(|v| *v == 0.0).collect();
        if *judge == Judge::Zero {
            let row = zero.chunk_by(|a, b| a == b).filter(|row| row[0]).map(<[bool]>::len).max();
            let draws = Pattern::of(c).is_some_and(|p| p.draws());
            let minus = c.intervals.iter().any(|v| v.to_bits() == 1 << 31);
            self.shows.push(format!("first zero {} row {} odd {}", zero[0], row.unwrap_or(0).min(4), zero.len() % 2));
            self.shows.push(format!("draws {draws} -0 {minus} phase {} unlike {unlike}", c.phase != 0.0));
        }
        for m in met {
            let place = if m.start { "start" } else { "corner" };
            let apart = if m.apart { ", apart" } else { "" };
            let zero = zero.contains(&true);
            self.shows.push(format!("{place} met{apart}, drawn {} then {}, copied zero {}, zeros {zero}", m.ended, m.begun, m.bits));
        }
        self.shows.push(format!("met {}", met.len().min(4)));
    }

    /// The answer where the dash buffers take so many verbs and the scratch so many marks, and what is left in the scratch. It has the number of
    /// curves held back only where it is Cut.
    fn dash_answer(&mut self, judged: &Judged, rule: usize, flat: &Flat, verbs: usize, marks: usize) {
        let (w, held, polylines) = (&mut self.words, flat.held(), flat.marks.len());
        let (w6, many) = (judged.judge != Judge::Source, judged.runs.as_deref().map_or(0, verbs_of));
        let kind = match &judged.runs {
            None => {
                w.n(0);
                "whole"
            }
            Some(runs) if polylines <= marks && many <= verbs => {
                [1, rule, held].iter().for_each(|n| w.n(*n));
                w.runs(runs);
                "cut"
            }
            Some(_) => {
                w.n(2);
                w.n(3);
                ["no room", "no room in the scratch"][usize::from(polylines > marks)]
            }
        };
        w.front(flat, matches!(kind, "no room" | "cut"), marks);
        self.shows.push(format!("{kind} held {}", held.min(2)));
        self.shows.push(format!("{kind} with room for {marks} marks of {}", polylines.min(3)));
        if w6 && many > 0 && verbs == 4 && many.abs_diff(verbs) <= 1 {
            self.shows.push(format!("{kind} with room for 4 verbs of {many}, by W6"));
        }
    }
}

/// How many zeros a pattern has, as far as two.
fn zeros_in(c: &Case) -> usize {
    c.intervals.iter().filter(|x| **x == 0.0).count().min(2)
}

/// Whether a pattern has zeros alone.
fn alone(c: &Case) -> bool {
    c.intervals.iter().all(|x| *x == 0.0)
}

/// The case with its answers, and what it shows. None where the program's buffers or the reference's time do not suffice.
fn answered(c: &Case, most: usize) -> Option<Answers> {
    let mut a = Answers::default();
    a.case(c);
    let b = a.calls(&c.calls);
    let path = b.clone().build();
    a.path(b.current_point(), &path);
    a.questions(&path);
    let flat = a.flat(&path, c.tolerance);
    a.flattened(&path, &flat);
    a.subpaths(&path, &flat);
    a.rooms(&flat);
    a.counts(&flat);
    let judged = a.dashed(c, &b, &flat)?;
    let scaled = curves::tolerance_for_scale(c.tolerance, c.scale);
    a.words.f(scaled);
    a.shows.push(format!("scaled {} by {} {}", like(scaled), like(c.scale), c.scale < 0.0));
    let given = path.verbs().len() <= 500 && path.points().len() <= 1000;
    let cut = judged.runs.as_deref().map_or(0, verbs_of);
    let fits = given && flat.points().len() <= 2048 && flat.polylines.len() + 2 <= ROOM && cut <= 2000;
    (fits && a.words.0.len() <= most).then_some(a)
}

/// The room for marks where there is enough.
const ROOM: usize = 256;

/// The most words of a case.
const WORDS: usize = 4352;

/// What the list must show. Of curves that are held back: quads (2 points behind the pen) and cubics (3) at the edge, beyond it and far beyond it;
/// one or two of them in each answer of dashing. Of marks: closes in every place; room for just as many, for more and for one fewer. Of zeros: one,
/// two, three and four or more in a row, at the front and elsewhere; none but gaps above zero; zeros alone at every kind of tolerance. Of segments
/// that begin with nothing left: behind a dash and behind a gap, before both, at corners, at starts, behind segments that are not walked, and where
/// copying −0 shows; with very little and with less than nothing left. Room for just the verbs and for one fewer.
const MUST: [&str; 75] = [
    "1,000 of 2 held false infinite false",
    "1,000 of 2 held true infinite false",
    "1,000 of 2 held true infinite true",
    "1,000 of 3 held false infinite false",
    "1,000 of 3 held true infinite false",
    "1,000 of 3 held true infinite true",
    "2 at 0 from the edge",
    "2 at 1 from the edge",
    "3 at 0 from the edge",
    "3 at 1 from the edge",
    "cut held 1",
    "no room held 1",
    "whole held 1",
    "cut held 2",
    "no room held 2",
    "whole held 2",
    "2 held, a move between true",
    "MD marked 0, closings 0, NaN start false",
    "MDZ marked 1, closings 1, NaN start false",
    "MDZ marked 1, closings 0, NaN start false",
    "MDZ marked 1, closings 0, NaN start true",
    "MDZZ marked 1, closings 1, NaN start false",
    "MDZD marked 0, closings 1, NaN start false",
    "MDZDZ marked 1, closings 1, NaN start false",
    "MZD marked 0, closings 0, NaN start false",
    "MZDZ marked 1, closings 1, NaN start false",
    "M without a polyline",
    "MZ without a polyline",
    "MZZ without a polyline",
    "subpaths passed over between polylines 1",
    "room for 1 marks of 1",
    "room for 1 marks of 2",
    "room for 2 marks of 1",
    "room for 2 marks of 2",
    "room for 2 marks of 3",
    "cut with room for 1 marks of 1",
    "whole with room for 1 marks of 2",
    "no room in the scratch with room for 1 marks of 2",
    "no room with room for 256 marks of 2",
    "judged by the source, unlike the source false",
    "judged by W6 for a zero, unlike the source false",
    "judged by W6 for a zero, unlike the source true",
    "judged by W6 for nothing left, unlike the source true",
    "first zero true row 1 odd 0",
    "first zero true row 2 odd 0",
    "first zero true row 2 odd 1",
    "first zero true row 3 odd 0",
    "first zero true row 4 odd 0",
    "first zero true row 4 odd 1",
    "first zero false row 1 odd 0",
    "first zero false row 1 odd 1",
    "first zero false row 2 odd 0",
    "first zero false row 3 odd 0",
    "draws false -0 false phase true unlike true",
    "draws true -0 true phase true unlike true",
    "zeros alone true, tolerance 4 true",
    "zeros alone true, tolerance 1 true",
    "zeros alone true, tolerance 0 false",
    "corner met, drawn true then false, copied zero false, zeros false",
    "corner met, drawn false then true, copied zero false, zeros false",
    "corner met, drawn true then true, copied zero false, zeros true",
    "corner met, drawn false then false, copied zero false, zeros true",
    "corner met, drawn false then true, copied zero true, zeros false",
    "corner met, apart, drawn true then false, copied zero false, zeros false",
    "corner met, apart, drawn false then true, copied zero true, zeros false",
    "corner met, apart, drawn true then true, copied zero true, zeros true",
    "start met, drawn false then true, copied zero true, zeros false",
    "start met, drawn true then false, copied zero false, zeros false",
    "start met, drawn true then true, copied zero true, zeros true",
    "judged by the source, little left true, less false",
    "judged by the source, little left false, less true",
    "judged by W6 for a zero, little left false, less true",
    "judged by W6 for nothing left, little left false, less true",
    "cut with room for 4 verbs of 4, by W6",
    "no room with room for 4 verbs of 5, by W6",
];

/// Cases that are drawn, by their numbers, and which of them are kept.
struct Round {
    numbers: Range<u64>,
    /// What is made of a random case.
    made: fn(&mut Rng, Case) -> Case,
    /// The most words.
    words: usize,
    /// A thing is shown often enough by so many cases.
    enough: u32,
    /// A case must show so many things that no case before it shows, or one such of `MUST`.
    new: usize,
}

const ROUNDS: [Round; 10] = [
    Round { numbers: 0..60_000, made: |_, c| c, words: 190, enough: 2, new: 0 },
    Round { numbers: 60_000..200_000, made: |_, c| c, words: 280, enough: 1, new: 0 },
    Round { numbers: 200_000..260_000, made: |_, c| c, words: 660, enough: 1, new: 2 },
    Round { numbers: 260_000..280_000, made: |_, c| c, words: 4100, enough: 1, new: 2 },
    // A curve is just held back, or just isn't.
    Round { numbers: 280_000..300_000, made: case::at_edge, words: 4100, enough: 1, new: 2 },
    // Only for what must be shown: two curves held back have 2,001 points at least, and fill a case.
    Round { numbers: 300_000..340_000, made: case::at_edge, words: WORDS, enough: 1, new: usize::MAX },
    // Closes in every place.
    Round { numbers: 340_000..360_000, made: case::strewn, words: 280, enough: 1, new: 0 },
    // Zeros, corners that are met, and starts with nothing left.
    Round { numbers: 360_000..380_000, made: meeting::with_zeros, words: 280, enough: 1, new: 0 },
    Round { numbers: 380_000..400_000, made: meeting::on_corners, words: 400, enough: 1, new: 2 },
    Round { numbers: 400_000..420_000, made: meeting::nothing_left, words: 400, enough: 1, new: 2 },
];

/// The list: which cases are kept, and what they show.
struct List<W: Write> {
    out: W,
    seen: HashMap<String, u32>,
    cases: usize,
    words: usize,
}

impl<W: Write> List<W> {
    fn keep(&mut self, Answers { words: Words(words), shows }: Answers) {
        shows.into_iter().for_each(|s| *self.seen.entry(s).or_default() += 1);
        self.out.write_all(&(words.len() as u32).to_le_bytes()).unwrap();
        words.iter().for_each(|x| self.out.write_all(&x.to_le_bytes()).unwrap());
        self.cases += 1;
        self.words += words.len();
    }
    /// Whether a round keeps a case that shows this.
    fn wants(&self, shows: &[String], round: &Round) -> bool {
        let new: Vec<&str> = shows.iter().map(String::as_str).filter(|s| !self.seen.contains_key(*s)).collect();
        let must = new.iter().any(|s| MUST.contains(s));
        (must || new.len() >= round.new) && shows.iter().any(|s| self.seen.get(s).copied().unwrap_or(0) < round.enough)
    }
}

fn main() {
    assert!(source::keeps_first(), "the source must be built unoptimised");
    let mut list = List { out: std::io::BufWriter::new(std::io::stdout().lock()), seen: HashMap::new(), cases: 0, words: 0 };
    for c in examples::cases() {
        list.keep(answered(&c, WORDS).expect("the program's buffers suffice for an example"));
    }
    for (number, round) in ROUNDS.iter().flat_map(|round| round.numbers.clone().map(move |n| (n, round))) {
        let r = &mut Rng::new(1, number);
        let c = case::random(r, 24);
        let c = (round.made)(r, c);
        let Some(answers) = answered(&c, round.words) else { continue };
        if list.wants(&answers.shows, round) {
            list.keep(answers);
        }
    }
    for what in MUST {
        assert!(list.seen.contains_key(what), "no case shows: {what}");
    }
    eprintln!("{} cases, {} bytes, {} things shown", list.cases, 4 * (list.cases + list.words), list.seen.len());
}
