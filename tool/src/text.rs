//! Answers as text for people.
use crate::answer::Answer;
use crate::held::Held;
use crate::number::{count, Exact};
use crate::order::{rule_name, Order};
use crate::walk::Found;
use crate::warnings::NO_DASH;
use hizlaou::{Convexity, Path, Polylines, Rect, Vec2, Verb};
use std::io::{self, Write};

/// Writes an answer. `progress` is told how many points are written.
pub fn write(out: &mut dyn Write, answer: &Answer, path: &Path, order: &Order, progress: impl Fn(usize)) -> io::Result<()> {
    match answer {
        Answer::Flattened { polylines, held } => {
            writeln!(out, "tolerance {}, rule {}", order.tolerance_in_words(), rule_name(order.rule))?;
            flattened(out, polylines, held, progress)
        }
        Answer::Whole { reason, .. } => {
            ordered(out, order)?;
            writeln!(out, "drawn whole: {reason}")?;
            outline(out, path)?;
            totals_of(out, path)
        }
        Answer::Cut { dashes, polylines, found, held } => {
            ordered(out, order)?;
            cut(out, dashes, polylines, found, held, progress)
        }
        Answer::Shape(convexity) => shape(out, *convexity, path),
        Answer::Box { rect, is_finite, is_in_range } => bounds(out, rect, *is_finite, *is_in_range, path),
    }
}

fn point(out: &mut dyn Write, p: Vec2) -> io::Result<()> {
    writeln!(out, "  {} {}", Exact(p.x), Exact(p.y))
}

/// The end of the totals: the curves held back, where there are some.
fn held_back(held: &Held) -> String {
    held.in_words().map_or(String::new(), |words| format!("; {words}"))
}

fn flattened(out: &mut dyn Write, polylines: &Polylines, held: &Held, progress: impl Fn(usize)) -> io::Result<()> {
    let mut done = 0;
    for (number, (points, is_closed)) in polylines.iter().zip(polylines.closed()).enumerate() {
        writeln!(out, "polyline {}: {}, {}", number + 1, count(points.len(), "point"), if is_closed { "closed" } else { "open" })?;
        for &p in points {
            point(out, p)?;
            done += 1;
            progress(done);
        }
    }
    let t = polylines.totals();
    writeln!(
        out,
        "totals: {} in {} = {} + {} + {} of curves + {}{}",
        count(t.points, "point"),
        count(t.polylines, "polyline"),
        count(t.starts, "start"),
        count(t.lines, "line"),
        count(t.counts, "piece"),
        count(t.closings, "added closing"),
        held_back(held)
    )
}

fn ordered(out: &mut dyn Write, order: &Order) -> io::Result<()> {
    writeln!(
        out,
        "{}, phase {}, period {}, tolerance {}, rule {}",
        order.pattern_in_words(),
        Exact(order.dash.phase),
        Exact(order.period()),
        order.tolerance_in_words(),
        rule_name(order.rule)
    )
}

/// The path's own segments, by the letters of path data.
fn outline(out: &mut dyn Write, path: &Path) -> io::Result<()> {
    for (verb, points) in path.segments() {
        write!(out, "  {}", letter(verb))?;
        for p in points {
            write!(out, " {} {}", Exact(p.x), Exact(p.y))?;
        }
        writeln!(out)?;
    }
    Ok(())
}

/// A verb's letter in path data.
pub fn letter(verb: Verb) -> &'static str {
    match verb {
        Verb::MoveTo => "M",
        Verb::LineTo => "L",
        Verb::QuadTo => "Q",
        Verb::CubicTo => "C",
        Verb::Close => "Z",
    }
}

fn totals_of(out: &mut dyn Write, path: &Path) -> io::Result<()> {
    writeln!(out, "totals: {}, {}", count(path.verbs().len(), "verb"), count(path.points().len(), "point"))
}

/// How many runs dashes have: each begins with a move.
pub fn runs_of(dashes: &Path) -> usize {
    dashes.verbs().iter().filter(|v| **v == Verb::MoveTo).count()
}

fn cut(out: &mut dyn Write, dashes: &Path, polylines: &Polylines, found: &Found, held: &Held, progress: impl Fn(usize)) -> io::Result<()> {
    if found.is_without_dash() {
        writeln!(out, "nothing is drawn: {NO_DASH}")?;
    }
    let mut number = 0;
    for (i, (verb, points)) in dashes.segments().enumerate() {
        if verb == Verb::MoveTo {
            number += 1;
            writeln!(out, "run {number}:")?;
        }
        points.iter().try_for_each(|&p| point(out, p))?;
        progress(i);
    }
    let running_on = found.run_ons.iter().filter(|r| r.is_dash).count();
    writeln!(
        out,
        "totals: {}, {}, {}, from {} in {}; {}, {}{}",
        count(number, "run"),
        count(dashes.verbs().len(), "verb"),
        count(dashes.points().len(), "point"),
        count(polylines.totals().points, "flattened point"),
        count(polylines.len(), "polyline"),
        if running_on == 1 { "1 dash runs on".into() } else { format!("{running_on} dashes run on") },
        match found.run_ons.len() - running_on {
            1 => "1 gap runs on".into(),
            gaps => format!("{gaps} gaps run on"),
        },
        held_back(held)
    )
}

fn shape(out: &mut dyn Write, convexity: Convexity, path: &Path) -> io::Result<()> {
    writeln!(out, "{convexity:?}")?;
    let has_curve = path.verbs().iter().any(|v| matches!(v, Verb::QuadTo | Verb::CubicTo));
    if has_curve || runs_of(path) > 1 {
        let what = if has_curve { "a curve" } else { "a second move" };
        writeln!(out, "  the path has {what}: a path with a curve or a second move is always Concave")?;
    }
    totals_of(out, path)
}

fn bounds(out: &mut dyn Write, rect: &Rect, is_finite: bool, is_in_range: bool, path: &Path) -> io::Result<()> {
    let yes = |holds| if holds { "yes" } else { "no" };
    writeln!(out, "from      {} {}", Exact(rect.min.x), Exact(rect.min.y))?;
    writeln!(out, "to        {} {}", Exact(rect.max.x), Exact(rect.max.y))?;
    writeln!(out, "width     {}", Exact(rect.width()))?;
    writeln!(out, "height    {}", Exact(rect.height()))?;
    writeln!(out, "empty     {}", yes(rect.is_empty()))?;
    writeln!(out, "finite    {}", yes(is_finite))?;
    writeln!(out, "in range  {} (|x| and |y| at most 16777216)", yes(is_in_range))?;
    totals_of(out, path)
}
