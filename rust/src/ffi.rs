//! The C interface, as include/hizlaou.h has it, for callers that lend their own buffers. A slice goes as a pointer to its first element and its
//! length in elements; with a length of 0 the pointer isn't read. Calls are unsafe for these pointers alone.
use crate::flatten::SegmentCount;
use crate::path::{Rect, Vec2};

/// A builder's state. A `fill_rule` of 0 is the non-zero rule; `noted` and `started` are false where 0.
#[repr(C)]
#[derive(Clone, Copy, Debug, PartialEq)]
pub struct Builder {
    pub verbs: usize,
    pub points: usize,
    pub start_x: f32,
    pub start_y: f32,
    pub pen_x: f32,
    pub pen_y: f32,
    pub min_x: f32,
    pub min_y: f32,
    pub max_x: f32,
    pub max_y: f32,
    pub radius: f32,
    pub fill_rule: u8,
    pub noted: u8,
    pub started: u8,
}

#[repr(C)]
#[derive(Clone, Copy, Debug)]
pub struct Reply {
    pub state: Builder,
    pub quads: usize,
    pub refused: u8,
}

/// What a played list of calls left: the state, the calls played, and how many of them were refused.
#[repr(C)]
#[derive(Clone, Copy, Debug)]
pub struct Replayed {
    pub state: Builder,
    pub calls: usize,
    pub refused: usize,
}

#[repr(C)]
#[derive(Clone, Copy, Debug)]
pub struct CurrentPoint {
    pub x: f32,
    pub y: f32,
    pub known: u8,
}

#[repr(C)]
#[derive(Clone, Copy, Debug)]
pub struct Note {
    pub rect: Rect,
    pub radius: f32,
    pub known: u8,
}

#[repr(C)]
#[derive(Clone, Copy, Debug)]
pub struct Flattened {
    pub points: usize,
    pub polylines: usize,
    pub starts: usize,
    pub lines: usize,
    pub counts: usize,
    pub closings: usize,
    pub held: usize,
    pub refused: u8,
}

#[repr(C)]
#[derive(Clone, Copy, Debug)]
pub struct Carried {
    pub count: usize,
    pub held: bool,
    pub refused: u8,
}

#[repr(C)]
#[derive(Clone, Copy, Debug)]
pub struct Bounds {
    pub rect: Rect,
    pub refused: u8,
}

#[repr(C)]
#[derive(Clone, Copy, Debug)]
pub struct Answer {
    pub holds: bool,
    pub refused: u8,
}

/// `convexity` is 0 for Convex, 1 for Concave.
#[repr(C)]
#[derive(Clone, Copy, Debug)]
pub struct Verdict {
    pub convexity: u8,
    pub refused: u8,
}

#[repr(C)]
#[derive(Clone, Copy, Debug)]
pub struct LineStyle {
    pub values: [f32; 64],
    pub len: usize,
    pub refused: u8,
}

/// `kind` is 0 for Whole, 1 for Cut, 2 for a refusal.
#[repr(C)]
#[derive(Clone, Copy, Debug)]
pub struct Dashed {
    pub verbs: usize,
    pub points: usize,
    pub scratch: usize,
    pub polylines: usize,
    pub held: usize,
    pub kind: u8,
    pub fill_rule: u8,
    pub refused: u8,
}

/// The first `floats` floats of the dash buffer (`from_dash` 1) or of the path's.
#[repr(C)]
#[derive(Clone, Copy, Debug)]
pub struct Outline {
    pub floats: usize,
    pub from_dash: u8,
}

extern "C" {
    pub fn hz_sqrt(x: f32) -> f32;
    pub fn hz_segment_count(squared: f32) -> SegmentCount;
    pub fn hz_quad_segment_count(p0: Vec2, p1: Vec2, p2: Vec2, tolerance: f32) -> SegmentCount;
    pub fn hz_cubic_segment_count(p0: Vec2, p1: Vec2, p2: Vec2, p3: Vec2, tolerance: f32) -> SegmentCount;
    pub fn hz_eval_quad(p0: Vec2, p1: Vec2, p2: Vec2, t: f32) -> Vec2;
    pub fn hz_eval_cubic(p0: Vec2, p1: Vec2, p2: Vec2, p3: Vec2, t: f32) -> Vec2;
    pub fn hz_tolerance_for_scale(tolerance: f32, max_scale: f32) -> f32;

    pub fn hz_new() -> Builder;
    pub fn hz_with_fill_rule(state: Builder, rule: u8) -> Builder;
    pub fn hz_as_rounded_rect(state: Builder, rect: Rect, radius: f32) -> Builder;
    pub fn hz_current_point(state: Builder) -> CurrentPoint;
    pub fn hz_rounded_rect(state: Builder) -> Note;
    pub fn hz_move_to(state: Builder, verbs: *mut u8, verbs_len: usize, points: *mut f32, points_len: usize, p: Vec2) -> Reply;
    pub fn hz_line_to(state: Builder, verbs: *mut u8, verbs_len: usize, points: *mut f32, points_len: usize, p: Vec2) -> Reply;
    pub fn hz_quad_to(state: Builder, verbs: *mut u8, verbs_len: usize, points: *mut f32, points_len: usize, ctrl: Vec2, to: Vec2) -> Reply;
    pub fn hz_conic_to(
        state: Builder,
        verbs: *mut u8,
        verbs_len: usize,
        points: *mut f32,
        points_len: usize,
        ctrl: Vec2,
        to: Vec2,
        weight: f32,
    ) -> Reply;
    pub fn hz_cubic_to(state: Builder, verbs: *mut u8, verbs_len: usize, points: *mut f32, points_len: usize, c0: Vec2, c1: Vec2, to: Vec2) -> Reply;
    pub fn hz_close(state: Builder, verbs: *mut u8, verbs_len: usize, points: *mut f32, points_len: usize) -> Reply;
    pub fn hz_replay(
        kinds: *const u8,
        kinds_len: usize,
        numbers: *const f32,
        numbers_len: usize,
        verbs: *mut u8,
        verbs_len: usize,
        points: *mut f32,
        points_len: usize,
    ) -> Replayed;

    pub fn hz_check(verbs: *const u8, verbs_len: usize, points: *const f32, points_len: usize) -> u8;
    pub fn hz_flatten(
        verbs: *const u8,
        verbs_len: usize,
        points: *const f32,
        points_len: usize,
        tolerance: f32,
        out: *mut f32,
        out_len: usize,
        ends: *mut usize,
        ends_len: usize,
        marks: *mut u8,
        marks_len: usize,
    ) -> Flattened;
    pub fn hz_carried_count(verbs: *const u8, verbs_len: usize, points: *const f32, points_len: usize, tolerance: f32, index: usize) -> Carried;
    pub fn hz_bounds(verbs: *const u8, verbs_len: usize, points: *const f32, points_len: usize) -> Bounds;
    pub fn hz_width(rect: Rect) -> f32;
    pub fn hz_height(rect: Rect) -> f32;
    pub fn hz_is_empty(rect: Rect) -> bool;
    pub fn hz_contains(rect: Rect, p: Vec2) -> bool;
    pub fn hz_is_finite(verbs: *const u8, verbs_len: usize, points: *const f32, points_len: usize) -> Answer;
    pub fn hz_is_within_tessellation_range(verbs: *const u8, verbs_len: usize, points: *const f32, points_len: usize) -> Answer;
    pub fn hz_convexity(verbs: *const u8, verbs_len: usize, points: *const f32, points_len: usize) -> Verdict;
    pub fn hz_polygon_convexity(points: *const f32, points_len: usize) -> Verdict;
    pub fn hz_is_usable(intervals: *const f32, intervals_len: usize, phase: f32) -> bool;
    pub fn hz_line_style(number: usize) -> LineStyle;
    pub fn hz_drawn_outline(path: *const f32, path_len: usize, points: usize, dash: *const f32, dash_len: usize, answer: Dashed) -> Outline;
    pub fn hz_dash_path(
        verbs: *const u8,
        verbs_len: usize,
        points: *const f32,
        points_len: usize,
        rule: u8,
        intervals: *const f32,
        intervals_len: usize,
        phase: f32,
        tolerance: f32,
        scratch: *mut f32,
        scratch_len: usize,
        ends: *mut usize,
        ends_len: usize,
        marks: *mut u8,
        marks_len: usize,
        dash_verbs: *mut u8,
        dash_verbs_len: usize,
        dash_points: *mut f32,
        dash_points_len: usize,
    ) -> Dashed;
}
