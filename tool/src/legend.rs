//! The legend below a picture: what each mark is and how many there are, and the order in numbers.
use crate::answer::Answer;
use crate::canvas::{is_finite, px, Fit};
use crate::number::{count, Exact};
use crate::order::rule_name;
use crate::picture::{xml, Scene, HELD, MARGIN, MOST_MARKS, WIDTH};
use crate::text::runs_of;
use crate::warnings::NO_DASH;
use std::fmt::Write;

const ROW: f64 = 26.0;
/// A period under so many pixels can't be told from a line.
const FINE: f64 = 4.0;

/// Writes the legend from `top` on; answers its height.
pub fn write(body: &mut String, scene: &Scene, fit: &Fit, top: f64) -> f64 {
    let (marks, facts, notes) = (marks(scene), facts(scene), notes(scene, fit));
    let rows = marks.len().max(facts.len()) + notes.len();
    let height = rows as f64 * ROW + 20.0;
    let (y, wide) = (px(top), WIDTH - 2.0 * MARGIN);
    let _ = writeln!(body, "<g class=\"legend\">");
    let _ = writeln!(body, "<rect x=\"{MARGIN}\" y=\"{y}\" width=\"{wide}\" height=\"{height}\" rx=\"6\" fill=\"#fff\" stroke=\"#c3ced8\"/>");
    let base = |row: usize| px(top + 30.0 + row as f64 * ROW);
    for (row, (sample, words)) in marks.iter().enumerate() {
        let _ = writeln!(body, "<g transform=\"translate({} {})\">{sample}</g>", MARGIN + 16.0, px(base(row) - 5.0));
        let _ = writeln!(body, "<text x=\"{}\" y=\"{}\">{}</text>", MARGIN + 72.0, base(row), xml(words));
    }
    for (row, (name, value)) in facts.iter().enumerate() {
        let _ = writeln!(body, "<text x=\"{}\" y=\"{}\" fill=\"#5a6875\">{name}</text>", WIDTH / 2.0, base(row));
        let _ = writeln!(body, "<text x=\"{}\" y=\"{}\">{}</text>", WIDTH / 2.0 + 90.0, base(row), xml(&short(value, 44)));
    }
    for (row, note) in notes.iter().enumerate() {
        let y = base(row + rows - notes.len());
        let _ = writeln!(body, "<text x=\"{}\" y=\"{y}\" font-style=\"italic\">{}</text>", MARGIN + 16.0, xml(note));
    }
    let _ = writeln!(body, "</g>");
    height
}

/// A sample of a line, 40 pixels long.
fn line(color: &str, width: &str, more: &str) -> String {
    format!("<path d=\"M0 0H40\" stroke=\"{color}\" stroke-width=\"{width}\" {more}/>")
}

fn dot(radius: &str, more: &str) -> String {
    format!("<circle cx=\"20\" r=\"{radius}\" {more}/>")
}

/// The marks of the drawing, each with its number.
fn marks(scene: &Scene) -> Vec<(String, String)> {
    let verbs = count(scene.outline.path.verbs().len(), "verb");
    let totals = scene.polylines.totals();
    let mut rows = match scene.answer {
        Answer::Cut { dashes, .. } => {
            let runs = format!("{}, {}", count(runs_of(dashes), "run"), count(dashes.verbs().len(), "verb"));
            vec![(line("#8a97a5", "1.2", ""), format!("outline: {verbs}")), (line("#0b5cad", "5", "stroke-dasharray=\"16 8\""), runs)]
        }
        _ => vec![(line("#c8102e", "5", ""), format!("outline, drawn whole: {verbs}"))],
    };
    let points = format!("{} in {}", count(totals.points, "flattened point"), count(totals.polylines, "polyline"));
    rows.push((dot("1.5", ""), points));
    let buoy = "fill=\"#f28c28\" stroke=\"#1b2733\" stroke-width=\"1.5\"";
    rows.push((dot("5.75", buoy), format!("{} (buoys)", count(scene.outline.corners.len(), "corner"))));
    let dashes = scene.run_ons().iter().filter(|r| r.is_dash).count();
    let gaps = scene.run_ons().len() - dashes;
    if dashes > 0 {
        rows.push((ring("#c8102e"), format!("{} where a dash runs on to the end", count(dashes, "place"))));
    }
    if gaps > 0 {
        rows.push((ring("#8a5a00"), format!("{} where a gap runs on to the end", count(gaps, "place"))));
    }
    rows.extend(scene.answer.held().in_words().map(|words| (line(HELD, "20", ""), words)));
    rows
}

fn ring(color: &str) -> String {
    dot("8", &format!("fill=\"none\" stroke=\"{color}\" stroke-width=\"3\""))
}

/// The order in numbers.
fn facts(scene: &Scene) -> Vec<(&'static str, String)> {
    let order = scene.order;
    let (name, value) = match order.style {
        Some(_) => ("style", order.pattern_in_words().replacen("style ", "", 1)),
        None => ("pattern", order.pattern_in_words().replacen("pattern ", "", 1)),
    };
    vec![
        (name, value),
        ("period", Exact(order.period()).to_string()),
        ("phase", Exact(order.dash.phase).to_string()),
        ("tolerance", order.tolerance_in_words()),
        ("fill rule", rule_name(order.rule).into()),
    ]
}

/// What the picture doesn't show.
fn notes(scene: &Scene, fit: &Fit) -> Vec<String> {
    let mut notes = Vec::new();
    let lost = scene.polylines.points().iter().filter(|p| !is_finite(p)).count();
    if lost > 0 {
        notes.push(format!("Not shown: {} with a coordinate that is not finite.", count(lost, "flattened point")));
    }
    let unmarked = scene.answer.held().curves().len() - scene.marked_curves().count();
    if unmarked > 0 {
        notes.push(format!("Not marked: {} held back, not finite or after the first {MOST_MARKS}.", count(unmarked, "curve")));
    }
    if scene.dot_step > 1 {
        notes.push(format!("Of every {} flattened points one is shown.", scene.dot_step));
    }
    let period = f64::from(scene.order.period()) * fit.scale;
    match scene.answer {
        _ if scene.polylines.is_empty() => notes.push("Nothing is drawn: the outline has no line and no curve.".into()),
        Answer::Cut { found, .. } if found.is_without_dash() => notes.push(format!("Nothing is drawn: {NO_DASH}.")),
        Answer::Cut { .. } if period < FINE => notes.push(format!("A period is {period:.2} pixels here: zoom in to see the gaps.")),
        _ => (),
    }
    notes
}

/// A text cut to so many characters.
pub fn short(text: &str, most: usize) -> String {
    if text.chars().count() <= most {
        return text.into();
    }
    text.chars().take(most.saturating_sub(1)).chain(['…']).collect()
}
