//! Whether a count was held back, written from the request and from the scope's "Count". The source answers N and nothing of this, so s is worked
//! out here, each step rounded once. The order of the steps is the source's, as the scope has it; that a second difference is a − b·2 + c, from left
//! to right, only the source says.
use crate::case::Point;
use source::Vec2;

/// The last s that isn't held back: its root is 1,000, and the next float's rounded root is over it.
pub const EDGE: f32 = 1_000_000.0;

const ROOT_OF_TWO: f32 = f32::from_bits(0x3fb5_04f3);
const LEAST_TOLERANCE: f32 = f32::from_bits(0x0080_0000);

/// The larger of two floats; a NaN is passed over.
fn larger(a: f32, b: f32) -> f32 {
    if a.is_nan() || b > a {
        b
    } else {
        a
    }
}

/// M of one second difference.
fn bend(a: Point, b: Point, c: Point) -> f32 {
    let [x, y] = [0, 1].map(|i| (a[i] - b[i] * 2.0 + c[i]).abs());
    if x.is_nan() || y.is_nan() {
        return f32::NAN;
    }
    larger(x, y) * ROOT_OF_TWO
}

/// What is divided to give s: M of a quad's three points, 3·M of a cubic's four.
pub fn dividend(curve: &[Point]) -> f32 {
    match *curve {
        [a, b, c] => bend(a, b, c),
        [a, b, c, d] => 3.0 * larger(bend(a, b, c), bend(b, c, d)),
        _ => unreachable!("a curve has three or four points"),
    }
}

/// The s of a quad or a cubic at a tolerance.
pub fn squared(curve: &[Point], tolerance: f32) -> f32 {
    dividend(curve) / (4.0 * larger(tolerance, LEAST_TOLERANCE))
}

/// The s of a quad or a cubic that starts at the pen and uses these points.
pub fn squared_from(pen: Vec2, p: &[Vec2], tolerance: f32) -> f32 {
    let curve: Vec<Point> = [&[pen], p].concat().iter().map(|p| [p.x, p.y]).collect();
    squared(&curve, tolerance)
}

/// Whether the count of s is held back.
pub fn held(s: f32) -> bool {
    s == f32::INFINITY || (s > 0.0 && s.sqrt() > 1000.0)
}

/// The verbs, by their index, whose curves are held back: of each verb its curve's N and s.
pub fn curves(each: &[Option<(usize, f32)>]) -> Vec<usize> {
    (0..each.len()).filter(|i| each[*i].is_some_and(|(_, s)| held(s))).collect()
}

/// Whether s is the edge or at most four floats away from it.
pub fn near_edge(s: f32) -> bool {
    s.to_bits().abs_diff(EDGE.to_bits()) <= 4
}
