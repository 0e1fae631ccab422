//! The conditions of the refusals ("Numbers" of the scope), written out a second time.
use hizlaou::ffi::Builder;

pub const MAX_VERBS: usize = 65_536;
pub const MAX_POINTS: usize = 131_072;

/// 1, 4: a bare point list.
pub fn list(floats: usize) -> u8 {
    if floats % 2 == 1 {
        1
    } else if floats > 2 * MAX_POINTS {
        4
    } else {
        0
    }
}

/// 1, 4, 5, 6: a path.
pub fn path(verbs: &[u8], floats: usize) -> u8 {
    let used: usize = verbs.iter().map(|v| [1, 1, 2, 3, 0].get(*v as usize).copied().unwrap_or(0)).sum();
    if floats % 2 == 1 {
        1
    } else if verbs.len() > MAX_VERBS || floats / 2 > MAX_POINTS {
        4
    } else if verbs.iter().any(|v| *v > 4) {
        5
    } else if verbs.first().is_some_and(|v| *v != 0) || used != floats / 2 {
        6
    } else {
        0
    }
}

/// 1, 7, 2: a builder call that lays `v` verbs and `k` points.
pub fn builder(s: &Builder, verbs: usize, floats: usize, v: usize, k: usize) -> u8 {
    let (most_verbs, most_points) = (verbs.min(MAX_VERBS), (floats / 2).min(MAX_POINTS));
    let started = s.started != 0;
    if floats % 2 == 1 {
        1
    } else if s.verbs > most_verbs || s.points > most_points || started != (s.verbs > 0) || (started && s.points == 0) {
        7
    } else if v > most_verbs - s.verbs || k > most_points - s.points {
        2
    } else {
        0
    }
}
