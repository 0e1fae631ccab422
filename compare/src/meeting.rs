//! Cases for dashing with zeros and corners: patterns that hold zeros, polylines on whose corners intervals end, and walks that start with nothing
//! left.
use crate::case::{nudged, Call, Case, Point, Rng};

/// A zero; one in three is −0.
fn zero(r: &mut Rng) -> f32 {
    if r.one_in(3) {
        -0.0
    } else {
        0.0
    }
}

/// A whole number from `least` to `most`.
fn whole(r: &mut Rng, least: i16, most: i16) -> f32 {
    f32::from(least) + r.below(most.abs_diff(least) as u64 + 1) as f32
}

fn chosen<T: Copy>(r: &mut Rng, of: &[T]) -> T {
    of[r.below(of.len() as u64) as usize]
}

/// A pattern of a few whole lengths.
fn whole_lengths(r: &mut Rng) -> Vec<f32> {
    (0..1 + r.below(6)).map(|_| whole(r, 1, 4)).collect()
}

/// Puts zeros into a pattern: one or a row of them, anywhere or first; or half of the intervals; or all the drawn ones, or all the gaps.
fn put_zeros(r: &mut Rng, intervals: &mut Vec<f32>) {
    match r.below(8) {
        way @ 0..=4 => {
            let at = if way == 4 { 0 } else { r.below(intervals.len() as u64 + 1) as usize };
            let many = if r.one_in(2) { 1 } else { 2 + r.below(4) };
            (0..many).for_each(|_| intervals.insert(at, zero(r)));
        }
        5 => intervals.iter_mut().for_each(|v| *v = if r.one_in(2) { zero(r) } else { *v }),
        _ => {
            if intervals.len() % 2 == 1 {
                intervals.push(whole(r, 1, 4));
            }
            let first = r.below(2) as usize;
            intervals.iter_mut().skip(first).step_by(2).for_each(|v| *v = zero(r));
        }
    }
    intervals.truncate(64);
}

/// A phase with which the path starts where an interval ends, or a period or two away from there.
fn phase_at_an_end(r: &mut Rng, intervals: &[f32]) -> f32 {
    let first = r.below(intervals.len() as u64 + 1) as usize;
    intervals[..first].iter().sum::<f32>() + intervals.iter().sum::<f32>() * whole(r, -2, 2)
}

/// The case with a pattern of zeros alone, often with a tolerance that is below all of them.
fn zeros_alone(r: &mut Rng, mut c: Case) -> Case {
    let many = if r.one_in(8) { 64 } else { 1 + r.below(6) };
    c.intervals = (0..many).map(|_| zero(r)).collect();
    if r.one_in(2) {
        c.tolerance = chosen(r, &[-1.0, f32::NEG_INFINITY, f32::NAN, -0.0, -1e-30]);
    }
    c
}

/// The case with zeros in its pattern, which is its own or one of whole lengths.
pub fn with_zeros(r: &mut Rng, mut c: Case) -> Case {
    if r.one_in(10) {
        return zeros_alone(r, c);
    }
    if c.intervals.is_empty() || r.one_in(2) {
        c.intervals = whole_lengths(r);
    }
    put_zeros(r, &mut c.intervals);
    if r.one_in(3) {
        c.phase = phase_at_an_end(r, &c.intervals);
    }
    c
}

/// A point with whole coordinates, some of them −0.
fn whole_point(r: &mut Rng) -> Point {
    [whole(r, -3, 3), whole(r, -3, 3)].map(|x| if x == 0.0 { zero(r) } else { x })
}

/// A point so far away, along an axis or, where that is whole too, on a triangle of 3, 4 and 5.
fn away(r: &mut Rng, from: Point, length: f32) -> Point {
    let slanted = length % 5.0 == 0.0 && r.one_in(2);
    let mut step = if slanted { [length / 5.0 * 3.0, length / 5.0 * 4.0] } else { [length, 0.0] };
    if r.one_in(2) {
        step.reverse();
    }
    let to = [0, 1].map(|i| if r.one_in(2) { from[i] + step[i] } else { from[i] - step[i] });
    to.map(|x| if x == 0.0 { zero(r) } else { x })
}

/// Segments from the pen that are not walked: of no length, of one whose square is lost, or one that is not finite and another back from there.
fn aside(r: &mut Rng, pen: &mut Point, calls: &mut Vec<Call>) {
    match r.below(4) {
        0 => *pen = pen.map(|x| if x == 0.0 { zero(r) } else { x }),
        1 => *pen = pen.map(|x| if x == 0.0 { chosen(r, &[1e-30, -1e-30, 1e-45]) } else { x }),
        _ => {
            let far = chosen(r, &[f32::INFINITY, f32::NEG_INFINITY, f32::NAN, 1e30, -3e38]);
            calls.push(Call::Line(if r.one_in(2) { [far, pen[1]] } else { [pen[0], far] }));
            if r.one_in(2) {
                *pen = whole_point(r);
            }
        }
    }
    calls.push(Call::Line(*pen));
    if r.one_in(4) {
        aside(r, pen, calls);
    }
}

/// As long as the next one, two or three intervals together; or any whole number.
fn length(r: &mut Rng, ahead: &mut impl Iterator<Item = f32>) -> f32 {
    let many = if r.one_in(2) { 1 } else { 2 + r.below(2) };
    let length: f32 = ahead.take(many as usize).sum();
    if length == 0.0 || r.one_in(4) {
        return whole(r, 1, 6);
    }
    length
}

/// A polyline on whose corners intervals end, with segments that are not walked between, before and behind.
fn polyline(r: &mut Rng, ahead: &mut impl Iterator<Item = f32>, calls: &mut Vec<Call>) {
    let mut pen = whole_point(r);
    calls.push(Call::Move(pen));
    for _ in 0..1 + r.below(6) {
        if r.one_in(4) {
            aside(r, &mut pen, calls);
        }
        let length = length(r, ahead);
        pen = away(r, pen, length);
        calls.push(Call::Line(pen));
    }
    if r.one_in(4) {
        aside(r, &mut pen, calls);
    }
    if r.one_in(3) {
        calls.push(Call::Close);
    }
}

/// A closed rectangle whose sides are as long as intervals: the last corner is met too where its sides are.
fn rectangle(r: &mut Rng, ahead: &mut impl Iterator<Item = f32>, calls: &mut Vec<Call>) {
    let (from, width) = (whole_point(r), length(r, ahead));
    let height = if r.one_in(2) { width } else { length(r, ahead) };
    let corners = [[width, 0.0], [width, height], [0.0, height], [0.0, 0.0]];
    let back = if r.one_in(3) { 4 } else { 3 };
    calls.push(Call::Move(from));
    calls.extend(corners[..back].iter().map(|c| Call::Line([from[0] + c[0], from[1] + c[1]])));
    calls.push(Call::Close);
    if r.one_in(4) {
        calls.push(Call::Line(away(r, from, width)));
    }
}

/// Polylines and rectangles for a pattern, each walked from its first interval on.
fn shapes(r: &mut Rng, intervals: &[f32]) -> Vec<Call> {
    let mut calls = Vec::new();
    for _ in 0..1 + r.below(2) {
        let mut ahead = intervals.iter().copied().filter(|v| *v > 0.0).cycle();
        if r.one_in(4) {
            rectangle(r, &mut ahead, &mut calls);
        } else {
            polyline(r, &mut ahead, &mut calls);
        }
    }
    calls
}

/// The case at another size. Every length is exact where the size is a power of two.
fn sized(mut c: Case, size: f32) -> Case {
    for call in &mut c.calls {
        if let Call::Move(p) | Call::Line(p) = call {
            *p = p.map(|x| x * size);
        }
    }
    c.intervals.iter_mut().for_each(|v| *v *= size);
    c.phase *= size;
    c.tolerance *= size;
    c
}

/// A case with a pattern and a path of whole lengths, in which intervals often end on corners. One in four has an interval a few floats away, so that
/// others end just before and just behind.
pub fn on_corners(r: &mut Rng, mut c: Case) -> Case {
    c.intervals = whole_lengths(r);
    if r.one_in(3) {
        put_zeros(r, &mut c.intervals);
    }
    c.calls = shapes(r, &c.intervals);
    c.phase = match r.below(4) {
        0 => phase_at_an_end(r, &c.intervals),
        1 => whole(r, -9, 20) / 2.0,
        _ => zero(r),
    };
    if !r.one_in(8) {
        c.tolerance = 0.25;
    }
    if r.one_in(4) {
        let at = r.below(c.intervals.len() as u64) as usize;
        c.intervals[at] = if c.intervals[at] > 0.0 { nudged(r, c.intervals[at]) } else { chosen(r, &[1e-45, 1e-38, 1e-9]) };
    }
    let size = if r.one_in(4) { 2f32.powf(whole(r, -20, 20)) } else { 1.0 };
    sized(c, size)
}

/// A case whose phase often meets an interval that is too small to be taken from it: nothing is left of it at the start.
pub fn nothing_left(r: &mut Rng, c: Case) -> Case {
    let mut c = on_corners(r, Case { tolerance: 0.25, ..c });
    let (large, small) = (chosen(r, &[1e8, 134_217_728.0, 3e9, 1e12]), chosen(r, &[1.0, 0.5, 2.0, 0.001]));
    let mut pattern = match r.below(4) {
        0 => vec![large, small, large, small],
        1 => vec![small, large],
        2 => vec![small, large, small],
        _ => vec![large, small],
    };
    if r.one_in(2) {
        let at = r.below(pattern.len() as u64 + 1) as usize;
        pattern.splice(at..at, whole_lengths(r));
    }
    if r.one_in(3) {
        put_zeros(r, &mut pattern);
    }
    c.intervals = pattern;
    c.phase = large * whole(r, -8, 24) / 8.0;
    c
}
