//! Outlines, polylines and dashes: a safe interface to the proved library.
//!
//! Every answer is the library's: each call ends on every input, NaN and infinities included, and equals its definition bit for bit. Where a call
//! can be refused it gives a [`Refusal`] with the number of the refusal, and has changed nothing.
//!
//! Answers are promised where numbers are rounded to nearest, ties to even, subnormals are kept (neither flush-to-zero nor denormals-are-zero is set) and
//! no floating-point exception traps, as Rust itself takes for granted. C code in the same thread may have changed that: set it back before a call. Under
//! any other rounding, or with subnormals flushed, an answer may be wrong; but each call ends, and the library writes outside no buffer.
//!
//! It links `target/staticlib/libcapi.a`, which `tools/library` makes.
//!
//! ```
//! # fn main() -> Result<(), hizlaou::Refusal> {
//! use hizlaou::*;
//! let mut b = PathBuilder::new().with_fill_rule(FillRule::EvenOdd);
//! b.move_to(Vec2::new(0.0, 0.0))?.cubic_to(Vec2::new(0.0, 8.0), Vec2::new(16.0, 8.0), Vec2::new(16.0, 0.0))?.close()?;
//! let path = b.build();
//! let flat = flatten(&path, DEFAULT_TOLERANCE)?;
//! for (polyline, is_closed) in flat.iter().zip(flat.closed()) {
//!     println!("{}: {polyline:?}", if is_closed { "closed" } else { "open" });
//! }
//! let dashes = dash_path(&path, &Dash::new(line_style(3)?, 0.0), DEFAULT_TOLERANCE)?;
//! println!("{} verbs", dashes.outline(&path).verbs().len());
//! # Ok(()) }
//! ```

mod dash;
pub mod ffi;
mod flatten;
mod path;
mod refusal;

pub use dash::{dash_path, line_style, Dash, Dashed, MAX_INTERVALS};
pub use flatten::{
    carried_count, cubic_segment_count, eval_cubic, eval_quad, flatten, held_curves, quad_segment_count, segment_count, sqrt, tolerance_for_scale,
    Polylines, SegmentCount, Totals, DEFAULT_TOLERANCE, MAX_SEGMENTS,
};
pub use path::{polygon_convexity, Convexity, FillRule, Path, PathBuilder, Rect, Replayed, Vec2, Verb, MAX_POINTS, MAX_VERBS};
pub use refusal::Refusal;
