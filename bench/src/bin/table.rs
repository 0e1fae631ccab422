//! The library beside the Rust source, both optimised, from one driver in one run: the best of many turns of each, taken in alternation.
//! The library is called through C with buffers that are lent once; the source allocates its answers, as its callers have them.
use hizlaou::ffi;
use hizlaou::Vec2 as Pt;
use source::dash::{dash_path, Dash};
use source::flatten::flatten;
use source::path::{polygon_convexity, Path, PathBuilder, Verb};
use source::Vec2;
use std::hint::black_box;
use std::time::{Duration, Instant};

const LEAST: Duration = Duration::from_millis(1500);

/// The least time of each side, in nanoseconds for each of n.
fn best(n: usize, mut rust: impl FnMut(), mut own: impl FnMut()) -> (f64, f64) {
    let time = |f: &mut dyn FnMut()| {
        let start = Instant::now();
        f();
        start.elapsed().as_nanos() as f64 / n as f64
    };
    let (mut a, mut b) = (f64::MAX, f64::MAX);
    let end = Instant::now() + LEAST;
    let mut turns = 0;
    while turns < 20 || (Instant::now() < end && turns < 5000) {
        a = a.min(time(&mut rust));
        b = b.min(time(&mut own));
        turns += 1;
    }
    (a, b)
}

fn row(what: &str, per: &str, (rust, own): (f64, f64)) {
    println!("| {what} | {per} | {rust:.2} | {own:.2} | {:.2} |", own / rust);
}

struct Rng(u32);

impl Rng {
    fn below(&mut self, n: u32) -> u32 {
        self.0 ^= self.0 << 13;
        self.0 ^= self.0 >> 17;
        self.0 ^= self.0 << 5;
        self.0 % n
    }
    fn point(&mut self, size: u32) -> Vec2 {
        Vec2::new(self.below(size * 8) as f32 / 8.0, self.below(size * 8) as f32 / 8.0)
    }
}

#[derive(Clone, Copy)]
enum Call {
    Move(Vec2),
    Line(Vec2),
    Quad(Vec2, Vec2),
    Conic(Vec2, Vec2, f32),
    Cubic(Vec2, Vec2, Vec2),
    Close,
}

fn xy(p: Vec2) -> Pt {
    Pt::new(p.x, p.y)
}

fn built(calls: &[Call]) -> PathBuilder {
    let mut b = PathBuilder::new();
    for c in calls {
        match *c {
            Call::Move(p) => b.move_to(p),
            Call::Line(p) => b.line_to(p),
            Call::Quad(c, p) => b.quad_to(c, p),
            Call::Conic(c, p, w) => b.conic_to(c, p, w),
            Call::Cubic(c, d, p) => b.cubic_to(c, d, p),
            Call::Close => b.close(),
        };
    }
    b
}

/// Plays the calls through C, one by one, and answers the refusals together.
fn played(calls: &[Call], verbs: &mut [u8], points: &mut [f32]) -> u8 {
    let (v, n, f, m) = (verbs.as_mut_ptr(), verbs.len(), points.as_mut_ptr(), points.len());
    let mut refused = 0;
    // SAFETY: both buffers are lent with their own lengths.
    unsafe {
        let mut s = ffi::hz_new();
        for c in calls {
            let r = match *c {
                Call::Move(p) => ffi::hz_move_to(s, v, n, f, m, xy(p)),
                Call::Line(p) => ffi::hz_line_to(s, v, n, f, m, xy(p)),
                Call::Quad(c, p) => ffi::hz_quad_to(s, v, n, f, m, xy(c), xy(p)),
                Call::Conic(c, p, w) => ffi::hz_conic_to(s, v, n, f, m, xy(c), xy(p), w),
                Call::Cubic(c, d, p) => ffi::hz_cubic_to(s, v, n, f, m, xy(c), xy(d), xy(p)),
                Call::Close => ffi::hz_close(s, v, n, f, m),
            };
            s = r.state;
            refused |= r.refused;
        }
        black_box(&s);
    }
    refused
}

/// The calls as one encoded list.
fn encoded(calls: &[Call]) -> (Vec<u8>, Vec<f32>) {
    let (mut kinds, mut numbers) = (Vec::new(), Vec::new());
    for c in calls {
        let (kind, ps, w): (u8, &[Vec2], Option<f32>) = match *c {
            Call::Move(p) => (0, &[p], None),
            Call::Line(p) => (1, &[p], None),
            Call::Quad(c, p) => (2, &[c, p], None),
            Call::Cubic(c, d, p) => (3, &[c, d, p], None),
            Call::Close => (4, &[], None),
            Call::Conic(c, p, w) => (5, &[c, p], Some(w)),
        };
        kinds.push(kind);
        numbers.extend(ps.iter().flat_map(|p| [p.x, p.y]));
        numbers.extend(w);
    }
    (kinds, numbers)
}

/// Plays an encoded list, which refuses nothing, and answers the state that it leaves.
fn replayed(kinds: &[u8], numbers: &[f32], verbs: &mut [u8], points: &mut [f32]) -> ffi::Builder {
    // SAFETY: the list is read; both buffers are lent with their own lengths.
    let r = unsafe {
        ffi::hz_replay(
            kinds.as_ptr(),
            kinds.len(),
            numbers.as_ptr(),
            numbers.len(),
            verbs.as_mut_ptr(),
            verbs.len(),
            points.as_mut_ptr(),
            points.len(),
        )
    };
    assert_eq!((r.calls, r.refused), (kinds.len(), 0));
    black_box(points);
    r.state
}

fn building(what: &str, calls: &[Call]) {
    let (mut verbs, mut points) = (vec![0u8; 65_536], vec![0f32; 262_144]);
    assert_eq!(played(calls, &mut verbs, &mut points), 0);
    let laid = built(calls).build();
    assert!(laid.points().iter().flat_map(|p| [p.x, p.y]).zip(&points).all(|(a, b)| a.to_bits() == b.to_bits()));
    let times = best(
        calls.len(),
        || drop(black_box(built(black_box(calls)))),
        || {
            black_box(played(black_box(calls), &mut verbs, &mut points));
        },
    );
    row(&format!("{what}, call by call through C"), "call", times);
    let (kinds, numbers) = encoded(calls);
    let times = best(calls.len(), || drop(black_box(built(black_box(calls)))), || _ = black_box(replayed(&kinds, &numbers, &mut verbs, &mut points)));
    row(&format!("{what}, as one list"), "call", times);
}

/// Calls of one kind behind a move, in a loop that reads no list of kinds: the Rust as fast as its callers can have it.
#[inline(never)]
fn looped(kind: u8, n: &[f32]) -> PathBuilder {
    let at = |n: &[f32], j: usize| Vec2::new(n[j], n[j + 1]);
    let mut b = PathBuilder::new();
    b.move_to(at(n, 0));
    let n = &n[2..];
    match kind {
        0 => n.chunks_exact(2).for_each(|n| _ = b.move_to(at(n, 0))),
        1 => n.chunks_exact(2).for_each(|n| _ = b.line_to(at(n, 0))),
        2 => n.chunks_exact(4).for_each(|n| _ = b.quad_to(at(n, 0), at(n, 2))),
        3 => n.chunks_exact(6).for_each(|n| _ = b.cubic_to(at(n, 0), at(n, 2), at(n, 4))),
        _ => n.chunks_exact(5).for_each(|n| _ = b.conic_to(at(n, 0), at(n, 2), n[4])),
    }
    b
}

/// The same for closes, which have no numbers.
#[inline(never)]
fn closed(start: Vec2, n: usize) -> PathBuilder {
    let mut b = PathBuilder::new();
    b.move_to(start);
    (0..n).for_each(|_| _ = b.close());
    b
}

/// Calls of one kind behind a move: the library plays them as a list, the Rust reads none.
fn looping(what: &str, start: Vec2, calls: &[Call]) {
    let calls = &[&[Call::Move(start)], calls].concat()[..];
    let (kinds, numbers) = encoded(calls);
    let rust = || match kinds[1] {
        4 => closed(black_box(start), black_box(calls.len() - 1)),
        kind => looped(black_box(kind), black_box(&numbers)),
    };
    let (mut verbs, mut points) = (vec![0u8; 65_536], vec![0f32; 262_144]);
    let state = replayed(&kinds, &numbers, &mut verbs, &mut points);
    let laid = given(&rust().build());
    assert_eq!(verbs[..state.verbs], laid.verbs);
    assert!(points[..2 * state.points].iter().map(|x| x.to_bits()).eq(laid.points.iter().map(|x| x.to_bits())));
    let times = best(calls.len(), || drop(black_box(rust())), || _ = black_box(replayed(&kinds, &numbers, &mut verbs, &mut points)));
    row(&format!("{what}, as one list; the Rust in a plain loop"), "call", times);
}

/// A path as the library takes it.
struct Given {
    verbs: Vec<u8>,
    points: Vec<f32>,
}

fn given(p: &Path) -> Given {
    Given { verbs: p.verbs().iter().map(|v| *v as u8).collect(), points: p.points().iter().flat_map(|p| [p.x, p.y]).collect() }
}

fn flattening(what: &str, calls: &[Call], tolerance: f32) {
    let path = built(calls).build();
    let g = given(&path);
    let drawn: usize = path.verbs().iter().filter(|v| **v != Verb::MoveTo).count();
    let flat = flatten(&path, tolerance);
    let n: usize = flat.iter().map(Vec::len).sum();
    let (mut out, mut ends, mut marks) = (vec![0f32; 2 * n], vec![0usize; flat.len()], vec![0u8; flat.len()]);
    let mut own = || {
        // SAFETY: the path is read; the outputs are lent with their own lengths.
        let r = unsafe {
            ffi::hz_flatten(
                g.verbs.as_ptr(),
                g.verbs.len(),
                g.points.as_ptr(),
                g.points.len(),
                tolerance,
                out.as_mut_ptr(),
                out.len(),
                ends.as_mut_ptr(),
                ends.len(),
                marks.as_mut_ptr(),
                marks.len(),
            )
        };
        assert_eq!((r.refused, r.points), (0, n));
        black_box(&out);
    };
    own();
    row(what, &format!("verb ({:.1} points)", n as f64 / drawn as f64), best(drawn, || drop(black_box(flatten(black_box(&path), tolerance))), own));
}

fn dashing(what: &str, calls: &[Call], intervals: &[f32]) {
    let tolerance = 0.25;
    let path = built(calls).build();
    let g = given(&path);
    let dash = Dash::new(intervals.to_vec(), 1.0);
    let flat = flatten(&path, tolerance);
    let n: usize = flat.iter().map(Vec::len).sum();
    let cut = dash_path(&path, &dash, tolerance);
    let laid = cut.verbs().len();
    assert!(laid <= 65_536);
    let (mut scratch, mut ends, mut marks) = (vec![0f32; 2 * n], vec![0usize; flat.len()], vec![0u8; flat.len()]);
    let (mut verbs, mut points) = (vec![0u8; laid], vec![0f32; 2 * laid]);
    let mut own = || {
        // SAFETY: path and pattern are read; the outputs are lent with their own lengths.
        let r = unsafe {
            ffi::hz_dash_path(
                g.verbs.as_ptr(),
                g.verbs.len(),
                g.points.as_ptr(),
                g.points.len(),
                0,
                intervals.as_ptr(),
                intervals.len(),
                1.0,
                tolerance,
                scratch.as_mut_ptr(),
                scratch.len(),
                ends.as_mut_ptr(),
                ends.len(),
                marks.as_mut_ptr(),
                marks.len(),
                verbs.as_mut_ptr(),
                verbs.len(),
                points.as_mut_ptr(),
                points.len(),
            )
        };
        assert_eq!((r.refused, r.verbs), (0, laid));
        black_box(&points);
    };
    own();
    let per = format!("verb laid ({laid} from {} segments)", n - flat.len());
    row(what, &per, best(laid, || drop(black_box(dash_path(black_box(&path), &dash, tolerance))), own));
}

fn convexity(what: &str, points: &[Vec2]) {
    let floats: Vec<f32> = points.iter().flat_map(|p| [p.x, p.y]).collect();
    let times = best(
        points.len(),
        || _ = black_box(polygon_convexity(black_box(points))),
        || {
            // SAFETY: the floats are read.
            _ = black_box(unsafe { ffi::hz_polygon_convexity(black_box(&floats).as_ptr(), floats.len()) });
        },
    );
    row(what, "point", times);
}

fn bounds(path: &Path) {
    let g = given(path);
    let times = best(
        path.points().len(),
        || _ = black_box(black_box(path).bounds()),
        || {
            // SAFETY: the path is read.
            _ = black_box(unsafe { ffi::hz_bounds(g.verbs.as_ptr(), g.verbs.len(), g.points.as_ptr(), g.points.len()) });
        },
    );
    row("bounds (the library checks the path too)", "point", times);
}

#[inline(never)]
extern "C" fn instruction(x: f32) -> f32 {
    x.sqrt()
}

extern "C" fn root(x: f32) -> f32 {
    // SAFETY: values only.
    unsafe { ffi::hz_sqrt(x) }
}

fn main() {
    let r = &mut Rng(0x2545_f491);
    println!("| what | per | Rust, ns | library, ns | ratio |\n|---|---|---|---|---|");
    let lines: Vec<Call> = (0..20_000).map(|_| Call::Line(r.point(100))).collect();
    let quads: Vec<Call> = (0..20_000).map(|_| Call::Quad(r.point(100), r.point(100))).collect();
    let cubics: Vec<Call> = (0..20_000).map(|_| Call::Cubic(r.point(100), r.point(100), r.point(100))).collect();
    let mixed: Vec<Call> = (0..20_000)
        .map(|_| match r.below(8) {
            0 => Call::Move(r.point(100)),
            1 => Call::Close,
            2..=3 => Call::Quad(r.point(100), r.point(100)),
            4 => Call::Cubic(r.point(100), r.point(100), r.point(100)),
            _ => Call::Line(r.point(100)),
        })
        .collect();
    let moves: Vec<Call> = (0..20_000).map(|_| Call::Move(r.point(100))).collect();
    let mut closes = vec![Call::Close; 20_000];
    closes[0] = Call::Move(r.point(100));
    let start = r.point(100);
    for (what, calls) in
        [("build: moves", &moves), ("build: lines", &lines), ("build: quads", &quads), ("build: cubics", &cubics), ("build: closes", &closes)]
    {
        building(what, calls);
        looping(what, start, &calls[1..]);
    }
    building("build: mixed", &mixed);
    building("build: outlines", &outlines(20_000));
    building("build: each kind in turn", &in_turn(20_000));
    for (what, weight) in [
        ("weight 1, one quad each", 1.0),
        ("weight 0.9", 0.9),
        ("quarter circles' weight, 0.707", 0.5f32.sqrt()),
        ("weight 0.5", 0.5),
        ("weight 8.3", 8.3),
        ("weight 100", 100.0),
    ] {
        let conics: Vec<Call> = (0..1000).map(|_| Call::Conic(r.point(100), r.point(100), weight)).collect();
        building(&format!("conics: {what}"), &conics);
        looping(&format!("conics: {what}"), start, &conics);
    }
    let any: Vec<Call> = (0..1000).map(|_| Call::Conic(r.point(100), r.point(100), 0.25 + r.below(64) as f32 / 8.0)).collect();
    building("conics: weights 0.25 to 8", &any);
    looping("conics: weights 0.25 to 8", start, &any);
    flattening("flatten: lines", &lines, 0.25);
    flattening("flatten: quads", &quads[..5000], 0.25);
    flattening("flatten: cubics", &cubics[..5000], 0.25);
    flattening("flatten: mixed", &mixed, 0.25);
    flattening("flatten: fine cubics", &cubics[..500], 0.0005);
    let square = [Call::Move(Vec2::ZERO), Call::Line(Vec2::new(9000.0, 0.0)), Call::Line(Vec2::new(9000.0, 9000.0)), Call::Close];
    dashing("dash: long segments, pattern 12 4 2 4", &square, &[12.0, 4.0, 2.0, 4.0]);
    dashing("dash: long segments, pattern 2 1", &square, &[2.0, 1.0]);
    dashing("dash: short segments (flat curves), pattern 12 6", &cubics[..300], &[12.0, 6.0]);
    dashing("dash: short lines, long dashes 24 8", &short_lines(20_000), &[24.0, 8.0]);
    dashing("dash: fine pattern 0.25 0.125", &short_lines(4000), &[0.25, 0.125]);
    let circle: Vec<Vec2> = (0..1000)
        .map(|i| {
            let a = i as f32 / 1000.0 * std::f32::consts::TAU;
            Vec2::new(1000.0 * a.cos(), 1000.0 * a.sin())
        })
        .collect();
    convexity("convexity: circle of 1,000 points", &circle);
    let doubled: Vec<Vec2> = circle.iter().flat_map(|p| [*p, *p]).collect();
    convexity("convexity: each point twice", &doubled);
    bounds(&built(&lines).build());
    let xs: Vec<f32> = (0..4096).map(|_| f32::from_bits(0x3a00_0000 + r.below(0x0c00_0000))).collect();
    let [a, b]: [extern "C" fn(f32) -> f32; 2] = black_box([instruction, root]);
    let (mut out, mut out2) = (vec![0f32; 4096], vec![0f32; 4096]);
    let run = |f: extern "C" fn(f32) -> f32, out: &mut Vec<f32>| {
        xs.iter().zip(out.iter_mut()).for_each(|(x, o)| *o = f(*x));
        black_box(out);
    };
    row("root, throughput (both called)", "root", best(4096, || run(a, &mut out), || run(b, &mut out2)));
    let chain = |f: extern "C" fn(f32) -> f32| _ = black_box(xs.iter().fold(2.0f32, |x, y| f(x + y)));
    row("root, latency (both called)", "root", best(4096, || chain(a), || chain(b)));
}

/// Closed figures of 3 to 14 lines and quads, each behind a move.
fn outlines(n: usize) -> Vec<Call> {
    let r = &mut Rng(0x9e37_79b9);
    let mut calls = Vec::new();
    while calls.len() < n {
        calls.push(Call::Move(r.point(100)));
        for _ in 0..3 + r.below(12) {
            calls.push(if r.below(3) == 0 { Call::Line(r.point(100)) } else { Call::Quad(r.point(100), r.point(100)) });
        }
        calls.push(Call::Close);
    }
    calls
}

/// A move, a line, a quad, a cubic and a close, over and over: no kind stands twice in a row, and the next one is easily guessed.
fn in_turn(n: usize) -> Vec<Call> {
    let r = &mut Rng(0x9e37_79b9);
    (0..n)
        .map(|i| match i % 5 {
            0 => Call::Move(r.point(100)),
            1 => Call::Line(r.point(100)),
            2 => Call::Quad(r.point(100), r.point(100)),
            3 => Call::Cubic(r.point(100), r.point(100), r.point(100)),
            _ => Call::Close,
        })
        .collect()
}

/// A path of lines about 2 long.
fn short_lines(n: usize) -> Vec<Call> {
    let mut at = Vec2::ZERO;
    let mut calls = vec![Call::Move(at)];
    for i in 0..n {
        let a = i as f32 * 0.3;
        at = at + Vec2::new(2.0 * a.cos() + 0.5, 2.0 * a.sin());
        calls.push(Call::Line(at));
    }
    calls
}
