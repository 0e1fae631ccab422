//! Random cases: floats of every kind, lists of builder calls, patterns, tolerances, and which buffers are lent.
use crate::held;
use std::fmt::Write;

pub struct Rng(u64);

impl Rng {
    /// Case `number` of a seed has numbers of its own, so that each can be tried again alone.
    pub fn new(seed: u64, number: u64) -> Rng {
        let mut r = Rng(seed);
        r.0 = r.next() ^ number.wrapping_mul(0xd6e8_feb8_6659_fd93);
        r.next();
        r
    }
    pub fn next(&mut self) -> u64 {
        self.0 = self.0.wrapping_add(0x9e37_79b9_7f4a_7c15);
        let mut z = self.0;
        z = (z ^ (z >> 30)).wrapping_mul(0xbf58_476d_1ce4_e5b9);
        z = (z ^ (z >> 27)).wrapping_mul(0x94d0_49bb_1331_11eb);
        z ^ (z >> 31)
    }
    pub fn below(&mut self, n: u64) -> u64 {
        self.next() % n
    }
    pub fn one_in(&mut self, n: u64) -> bool {
        self.below(n) == 0
    }
    fn of(&mut self, words: &[u32]) -> f32 {
        f32::from_bits(words[self.below(words.len() as u64) as usize])
    }
    pub fn any(&mut self) -> f32 {
        if self.one_in(3) {
            self.of(SPECIAL)
        } else {
            f32::from_bits(self.next() as u32)
        }
    }
}

pub type Point = [f32; 2];

#[derive(Clone, Copy, Debug)]
pub enum Call {
    Move(Point),
    Line(Point),
    Quad(Point, Point),
    Conic(Point, Point, f32),
    Cubic(Point, Point, Point),
    Close,
    Rule(u8),
    Note(Point, Point, f32),
}

#[derive(Clone)]
pub struct Case {
    pub tolerance: f32,
    pub scale: f32,
    pub phase: f32,
    pub intervals: Vec<f32>,
    pub calls: Vec<Call>,
    /// Decides lengths of buffers, damage and questions.
    pub seed: u64,
}

/// How wild the coordinates of a case are: chosen once for a case, so that tame shapes occur whole.
#[derive(Clone, Copy)]
enum Kind {
    Whole,
    Small,
    Fine,
    Spread,
    Wild,
}

const SPECIAL: &[u32] = &[
    0,
    0x8000_0000,
    1,
    0x8000_0001,
    0x007f_ffff,
    0x807f_ffff,
    0x0080_0000,
    0x8080_0000,
    0x7f80_0000,
    0xff80_0000,
    0x7fc0_0000,
    0xffc0_0000,
    0x7f80_0001,
    0x7fab_cdef,
    0xff92_3456,
    0x7f7f_ffff,
    0xff7f_ffff,
    0x3f80_0000,
    0xbf80_0000,
    0x4b80_0000,
    0x4b80_0001,
    0xcb80_0000,
    0xcb80_0001,
    0x4b7f_ffff,
    0x3400_0000,
    0x3f80_0001,
    0x3f7f_ffff,
    0x5f80_0000,
    0x1f80_0000,
    0x3e80_0000,
];

fn coordinate(r: &mut Rng, k: Kind) -> f32 {
    let sign = (r.next() as u32 & 1) << 31;
    match k {
        Kind::Whole => r.below(9) as f32 - 2.0,
        Kind::Small if r.one_in(12) => f32::from_bits(sign),
        Kind::Small => (r.below(4001) as f32 - 2000.0) / 8.0,
        Kind::Fine => f32::from_bits((0x3780_0000 + (r.next() as u32 % 0x0d00_0000)) | sign),
        Kind::Spread => f32::from_bits((r.next() as u32) % 0x7f80_0000 | sign),
        Kind::Wild => r.any(),
    }
}

fn point(r: &mut Rng, k: Kind, seen: &mut Vec<Point>) -> Point {
    if !seen.is_empty() && r.one_in(4) {
        let mut p = seen[r.below(seen.len() as u64) as usize];
        // the same point by value
        if r.one_in(4) {
            p = p.map(|v| if v == 0.0 { -v } else { v });
        }
        return p;
    }
    let k = if r.one_in(40) { Kind::Wild } else { k };
    let p = [coordinate(r, k), coordinate(r, k)];
    seen.push(p);
    p
}

fn weight(r: &mut Rng) -> f32 {
    match r.below(10) {
        0 => r.of(SPECIAL),
        1 => f32::from_bits(r.next() as u32),
        2 => f32::from_bits(0x3f7f_be77 - 50 + r.below(100) as u32), // near 1 - 0.001
        3 => f32::from_bits(0x3f80_20c5 - 50 + r.below(100) as u32), // near 1 + 0.001
        4 => r.of(&[0x3f35_04f3, 0x3f00_0000, 0x4105_0000, 0x42c8_0000]),
        5 => f32::from_bits((r.next() as u32) % 0x7f80_0000),
        _ => r.below(1000) as f32 / 64.0,
    }
}

/// A float a few steps away.
pub fn nudged(r: &mut Rng, x: f32) -> f32 {
    f32::from_bits(x.to_bits().wrapping_add(r.below(7) as u32).wrapping_sub(3))
}

/// A control point with which a conic's midpoint lies about 0.001 of the chord off the quad's, where splitting is decided.
fn near_chord(r: &mut Rng, seen: &[Point], to: Point, weight: f32) -> Point {
    let from = if seen.is_empty() { [0.0; 2] } else { seen[r.below(seen.len() as u64) as usize] };
    let [fx, fy, tx, ty] = [from[0], from[1], to[0], to[1]].map(f64::from);
    let w = f64::from(weight);
    // the midpoints are (w - 1) / (2 (w + 1)) times as far apart as the control point is from the chord's middle
    let k = 0.001 * 2.0 * (w + 1.0) / (w - 1.0).abs();
    let (dx, dy) = if r.one_in(2) { (ty - fy, fx - tx) } else { (tx - fx, ty - fy) };
    let c = [((fx + tx) / 2.0 + dx * k) as f32, ((fy + ty) / 2.0 + dy * k) as f32];
    c.map(|x| nudged(r, x))
}

/// Tolerances of every kind; those that cut every curve into 1,000 lines are rarer than others, for time.
fn tolerance(r: &mut Rng, wide: bool) -> f32 {
    match r.below(40) {
        0 => r.of(SPECIAL),
        1 => f32::from_bits(r.next() as u32),
        2 => f32::from_bits((r.next() as u32) % 0x0100_0000),
        3 => 0.0,
        4 => f32::from_bits(0x3000_0000 + (r.next() as u32 % 0x0f00_0000)),
        5..=14 => r.below(64) as f32 / 16.0,
        // of the size of the coordinates
        _ if wide => f32::from_bits(0x3e80_0000 + (r.next() as u32 % 0x4100_0000)),
        _ => 0.25,
    }
}

fn interval(r: &mut Rng, kind: u64) -> f32 {
    match kind {
        0 => r.below(12) as f32,
        1 => r.below(48) as f32 / 8.0,
        2 => f32::from_bits(0x3c00_0000 + (r.next() as u32 % 0x0800_0000)),
        3 => f32::from_bits((r.next() as u32) % 0x7f80_0000),
        4 => r.of(&[0, 0x8000_0000, 1, 0x3f80_0000, 0x0080_0000, 0x7f7f_ffff, 0x4000_0000]),
        _ if r.one_in(6) => r.of(SPECIAL),
        _ => r.below(40) as f32 / 4.0,
    }
}

pub fn call(r: &mut Rng, kind: u64, seen: &mut Vec<Point>) -> Call {
    let k = [Kind::Whole, Kind::Whole, Kind::Small, Kind::Small, Kind::Fine, Kind::Spread, Kind::Wild][kind as usize % 7];
    let mut p = |r: &mut Rng| point(r, k, seen);
    match r.below(20) {
        0..=2 => Call::Move(p(r)),
        3..=7 => Call::Line(p(r)),
        8..=10 => Call::Quad(p(r), p(r)),
        11..=12 => {
            let (c, to, w) = (p(r), p(r), weight(r));
            if r.one_in(4) {
                return Call::Conic(near_chord(r, seen, to, w), to, w);
            }
            Call::Conic(c, to, w)
        }
        13..=15 => Call::Cubic(p(r), p(r), p(r)),
        16..=17 => Call::Close,
        18 => Call::Rule(if r.one_in(4) { r.below(256) as u8 } else { r.below(2) as u8 }),
        _ => {
            let radius = if r.one_in(3) { r.any() } else { coordinate(r, k) };
            Call::Note(p(r), p(r), radius)
        }
    }
}

/// The quads and cubics of a list of calls, each with the pen before it.
fn curves(calls: &[Call]) -> Vec<Vec<Point>> {
    let (mut pen, mut start) = ([0.0; 2], [0.0; 2]);
    let mut curves = Vec::new();
    for call in calls {
        match *call {
            Call::Quad(c, p) => curves.push(vec![pen, c, p]),
            Call::Cubic(c, d, p) => curves.push(vec![pen, c, d, p]),
            Call::Move(p) => start = p,
            _ => (),
        }
        pen = match *call {
            Call::Move(p) | Call::Line(p) | Call::Quad(_, p) | Call::Conic(_, p, _) | Call::Cubic(_, _, p) => p,
            Call::Close => start,
            Call::Rule(_) | Call::Note(..) => pen,
        };
    }
    curves
}

/// A tolerance at which the s of a curve is about `s`.
pub fn tolerance_near(r: &mut Rng, curve: &[Point], s: f32) -> f32 {
    nudged(r, held::dividend(curve) / (4.0 * s))
}

/// The case at a tolerance that just holds one of its curves back, or just doesn't; as it is where it has no curve.
pub fn at_edge(r: &mut Rng, mut c: Case) -> Case {
    let curves = curves(&c.calls);
    if !curves.is_empty() {
        let curve = &curves[r.below(curves.len() as u64) as usize];
        c.tolerance = tolerance_near(r, curve, held::EDGE);
    }
    c
}

/// The case with closes strewn in, behind moves, behind closes and behind lines to the start too, with moves that have nothing drawn behind them, and
/// with NaN starts.
pub fn strewn(r: &mut Rng, mut c: Case) -> Case {
    let (mut calls, mut start) = (Vec::new(), [0.0; 2]);
    for mut call in c.calls {
        if let Call::Move(p) = &mut call {
            if r.one_in(4) {
                p[r.below(2) as usize] = f32::NAN;
            }
            start = *p;
        }
        calls.push(call);
        while r.one_in(3) {
            if r.one_in(4) {
                calls.push(Call::Line(start));
            }
            calls.push(Call::Close);
        }
        if r.one_in(6) {
            start = [r.below(9) as f32, 0.0];
            calls.push(Call::Move(start));
        }
    }
    c.calls = calls;
    c
}

/// A random case with at most `long` calls where it is a long one: one in sixteen.
pub fn random(r: &mut Rng, long: u64) -> Case {
    let kind = r.below(7);
    let n = match r.below(16) {
        0 => r.below(long + 1),
        1..=3 => r.below(12),
        _ => r.below(6),
    };
    // move, lines, close: where convexity is decided
    let polygon = r.one_in(4);
    let mut seen = Vec::new();
    let mut calls = Vec::new();
    for i in 0..n {
        let c = call(r, kind, &mut seen);
        calls.push(match c {
            Call::Move(p) | Call::Line(p) | Call::Quad(p, _) | Call::Conic(p, ..) | Call::Cubic(p, ..) if polygon => {
                if i == 0 {
                    Call::Move(p)
                } else {
                    Call::Line(p)
                }
            }
            c => c,
        });
    }
    let wide = kind >= 5;
    let kind = r.below(6);
    let m = match r.below(8) {
        0 => r.below(65),
        1 => r.below(2),
        _ => 1 + r.below(6),
    };
    let intervals = (0..m).map(|_| interval(r, kind)).collect();
    let phase = match r.below(8) {
        0 => r.of(SPECIAL),
        1 => f32::from_bits(r.next() as u32),
        2 => -(r.below(400) as f32) / 8.0,
        3 | 4 => r.below(400) as f32 / 8.0,
        _ => 0.0,
    };
    Case { tolerance: tolerance(r, wide), scale: r.any(), phase, intervals, calls, seed: r.next() }
}

/// A case as text, floats as 8 hexadecimal digits.
pub fn text(c: &Case) -> String {
    let mut s = String::new();
    let f = |s: &mut String, xs: &[f32]| xs.iter().for_each(|x| write!(s, " {:08x}", x.to_bits()).unwrap());
    s += "tolerance, scale, phase";
    f(&mut s, &[c.tolerance, c.scale, c.phase]);
    write!(s, "; {} intervals", c.intervals.len()).unwrap();
    f(&mut s, &c.intervals);
    s.push(';');
    for call in &c.calls {
        match call {
            Call::Move(p) => {
                s += " move";
                f(&mut s, p)
            }
            Call::Line(p) => {
                s += " line";
                f(&mut s, p)
            }
            Call::Quad(a, p) => {
                s += " quad";
                f(&mut s, &[*a, *p].concat())
            }
            Call::Conic(a, p, w) => {
                s += " conic";
                f(&mut s, &[a[0], a[1], p[0], p[1], *w])
            }
            Call::Cubic(a, b, p) => {
                s += " cubic";
                f(&mut s, &[*a, *b, *p].concat())
            }
            Call::Close => s += " close",
            Call::Rule(n) => write!(s, " rule {n}").unwrap(),
            Call::Note(a, b, r) => {
                s += " note";
                f(&mut s, &[a[0], a[1], b[0], b[1], *r])
            }
        }
    }
    write!(s, "; seed {}", c.seed).unwrap();
    s
}
