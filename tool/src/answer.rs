//! Asks the library for what a command wants.
use crate::held::{self, Held};
use crate::options::{Command, Options};
use crate::order::Order;
use crate::outline::Outline;
use crate::progress::Progress;
use crate::walk::{self, Found};
use hizlaou::{dash_path, flatten, line_style, tolerance_for_scale, Convexity, Dash, Dashed, Path, Polylines, Rect, Refusal};

/// An answer of the library, with what the tool found out beside it. What is drawn whole has polylines only for a picture, which shows its points.
pub enum Answer {
    Flattened { polylines: Polylines, held: Held },
    Whole { reason: String, polylines: Option<Polylines>, held: Held },
    Cut { dashes: Path, polylines: Polylines, found: Found, held: Held },
    Shape(Convexity),
    Box { rect: Rect, is_finite: bool, is_in_range: bool },
}

/// The order that the options describe. Refused with 9 for a style over 8.
pub fn order_of(options: &Options) -> Result<Order, Refusal> {
    let style = if options.pattern.is_some() { None } else { Some(options.style.unwrap_or(0)) };
    let intervals = match (&options.pattern, style) {
        (Some(pattern), _) => pattern.clone(),
        (None, number) => line_style(number.unwrap_or(0))?,
    };
    Ok(Order {
        style,
        dash: Dash::new(intervals, options.phase),
        tolerance: options.scale.map_or(options.tolerance, |scale| tolerance_for_scale(options.tolerance, scale)),
        asked_tolerance: options.tolerance,
        scale: options.scale,
        rule: options.rule,
    })
}

/// The answer to a command; a preview wants that of `dash`.
pub fn answer(command: Command, outline: &Outline, order: &Order, progress: &Progress) -> Result<Answer, Refusal> {
    let path = &outline.path;
    match command {
        Command::Flatten => flattened(path, order, progress).map(|(polylines, held)| Answer::Flattened { polylines, held }),
        Command::Dash => dashed(path, order, false, progress),
        Command::Preview => dashed(path, order, true, progress),
        Command::Convexity => Ok(Answer::Shape(path.convexity())),
        Command::Bounds => Ok(Answer::Box { rect: path.bounds(), is_finite: path.is_finite(), is_in_range: path.is_within_tessellation_range() }),
    }
}

/// The polylines of a path, and the curves that were held back for them.
fn flattened(path: &Path, order: &Order, progress: &Progress) -> Result<(Polylines, Held), Refusal> {
    progress.stage("flattening", 0);
    let polylines = flatten(path, order.tolerance)?;
    let held = Held::look_up(polylines.totals().held, path, order.tolerance);
    Ok((polylines, held))
}

/// What is drawn whole is not flattened, so the library says that nothing of it is held back; only a picture (`is_pictured`) flattens it too.
fn dashed(path: &Path, order: &Order, is_pictured: bool, progress: &Progress) -> Result<Answer, Refusal> {
    progress.stage("dashing", 0);
    let dashed = dash_path(path, &order.dash, order.tolerance)?;
    let number = dashed.held();
    match dashed {
        Dashed::Whole => {
            let reason = order.reason_for_whole().unwrap_or_else(|| "the library gave no dashes".into());
            if !is_pictured {
                return Ok(Answer::Whole { reason, polylines: None, held: Held { number, found: Vec::new() } });
            }
            let (polylines, held) = flattened(path, order, progress)?;
            Ok(Answer::Whole { reason, polylines: Some(polylines), held })
        }
        Dashed::Cut { path: dashes, polylines } => {
            progress.stage("looking for dashes that run on", polylines.totals().points);
            let found = walk::find(&polylines, &order.dash, &order.cycle(), order.period(), &dashes, |n| progress.done(n));
            Ok(Answer::Cut { dashes, polylines, found, held: Held::look_up(number, path, order.tolerance) })
        }
    }
}

impl Answer {
    /// How many points are to be written.
    pub fn size(&self, path: &Path) -> usize {
        match self {
            Answer::Flattened { polylines, .. } => polylines.totals().points,
            Answer::Cut { dashes, .. } => dashes.points().len(),
            _ => path.points().len(),
        }
    }

    /// The path's polylines, if it was flattened.
    pub fn polylines(&self) -> Option<&Polylines> {
        match self {
            Answer::Flattened { polylines, .. } | Answer::Cut { polylines, .. } => Some(polylines),
            Answer::Whole { polylines, .. } => polylines.as_ref(),
            Answer::Shape(_) | Answer::Box { .. } => None,
        }
    }

    /// The curves that were held back.
    pub fn held(&self) -> &Held {
        match self {
            Answer::Flattened { held, .. } | Answer::Whole { held, .. } | Answer::Cut { held, .. } => held,
            Answer::Shape(_) | Answer::Box { .. } => &held::NONE,
        }
    }

    /// Whether the outline, or the rest of a polyline from some place on, goes to air without gaps. Where this could not be found out, it counts as so.
    pub fn is_barrier(&self) -> bool {
        match self {
            Answer::Whole { .. } => true,
            Answer::Cut { found, .. } => !found.agrees || found.run_ons.iter().any(|r| r.is_dash),
            _ => false,
        }
    }
}
