//! The preview: outline, runs, flattened points and corners, under loud warnings and over a legend.
use crate::answer::Answer;
use crate::canvas::{is_finite, px, Extent, Fit};
use crate::curve::Curve;
use crate::held::which;
use crate::json::runs;
use crate::legend;
use crate::number::count;
use crate::order::{rule_name, Order};
use crate::outline::Outline;
use crate::walk::RunOn;
use crate::warnings::{faceted, unbroken, Warning};
use hizlaou::{Polylines, Vec2};
use std::fmt::Write;

pub const WIDTH: f64 = 960.0;
pub const MARGIN: f64 = 24.0;
/// The colour of the band behind a curve that is held back: no line, point or ring has it.
pub const HELD: &str = "#d3a6f5";
/// Room inside the panel, so that buoys at its edge stay whole.
const PADDING: f64 = 30.0;
/// The most flattened points and marks that are drawn: more would only blacken the picture.
const MOST_DOTS: usize = 20_000;
pub const MOST_MARKS: usize = 1_000;
const MOST_BANNERS: usize = 3;
/// The most places that a bar has room for.
const MOST_PLACES: usize = 2;

/// All that a picture shows.
pub struct Scene<'a> {
    pub name: &'a str,
    pub outline: &'a Outline,
    pub order: &'a Order,
    pub answer: &'a Answer,
    pub polylines: &'a Polylines,
    /// Every so-many-th flattened point is drawn.
    pub dot_step: usize,
}

impl Scene<'_> {
    /// The places where an interval never ends.
    pub fn run_ons(&self) -> &[RunOn] {
        match self.answer {
            Answer::Cut { found, .. } if found.agrees => &found.run_ons,
            _ => &[],
        }
    }

    /// The curves held back that the picture shows: of the first ones those that are finite.
    pub fn marked_curves(&self) -> impl Iterator<Item = &Curve> {
        self.answer.held().curves().iter().take(MOST_MARKS).filter(|curve| curve.points.iter().all(is_finite))
    }
}

/// Draws an answer of `preview`.
pub fn draw(name: &str, outline: &Outline, order: &Order, answer: &Answer) -> String {
    let none = Polylines::default();
    let polylines = answer.polylines().unwrap_or(&none);
    let dot_step = polylines.points().len().div_ceil(MOST_DOTS).max(1);
    sheet(&Scene { name, outline, order, answer, polylines, dot_step })
}

/// The parts one below the other, and round them the document.
fn sheet(scene: &Scene) -> String {
    let mut body = title(scene.name);
    let mut y = 56.0;
    y += banners(&mut body, &unbroken(scene.answer), faceted(scene.answer.held()).as_ref(), y);
    let extent = Extent::of(&scene.outline.path, scene.polylines);
    let inside = (MARGIN + PADDING, y + PADDING);
    let (fit, height) = Fit::new(extent, inside, WIDTH - 2.0 * (MARGIN + PADDING), 120.0, 600.0);
    panel(&mut body, y, height + 2.0 * PADDING);
    geometry(&mut body, scene, &fit);
    y += height + 2.0 * PADDING + 16.0;
    y += legend::write(&mut body, scene, &fit, y) + MARGIN;
    format!(
        "<svg xmlns=\"http://www.w3.org/2000/svg\" viewBox=\"0 0 {WIDTH} {h}\" width=\"{WIDTH}\" height=\"{h}\" role=\"img\"\n  \
         font-family=\"Helvetica, Arial, 'DejaVu Sans', sans-serif\" font-size=\"15\" fill=\"#1b2733\">\n\
         <title>{name}</title>\n<rect width=\"100%\" height=\"100%\" fill=\"#eef3f7\"/>\n{body}</svg>\n",
        h = px(y),
        name = xml(scene.name)
    )
}

fn title(name: &str) -> String {
    format!(
        "<text x=\"{MARGIN}\" y=\"38\" font-size=\"22\" font-weight=\"bold\">{}</text>\n\
         <text x=\"{}\" y=\"38\" text-anchor=\"end\" fill=\"#5a6875\">hizlaou preview</text>\n",
        xml(&legend::short(name, 60)),
        WIDTH - MARGIN
    )
}

/// One bar for each of the first warnings, red where nothing breaks the line. The last bar is kept for the curves, since no other tells of them.
/// Answers the height.
fn banners(body: &mut String, unbroken: &[Warning], faceted: Option<&Warning>, top: f64) -> f64 {
    let most = MOST_BANNERS - usize::from(faceted.is_some());
    let mut height = 0.0;
    for warning in unbroken.iter().take(most).chain(faceted) {
        banner(body, warning, top + height);
        height += 70.0;
    }
    if unbroken.len() > most {
        let more = format!("and {}, on standard error", count(unbroken.len() - most, "more warning"));
        let _ = writeln!(body, "<text x=\"{MARGIN}\" y=\"{}\" font-weight=\"bold\" fill=\"#c8102e\">{more}</text>", top + height + 12.0);
        height += 28.0;
    }
    height
}

fn banner(body: &mut String, warning: &Warning, y: f64) {
    let color = if warning.is_barrier { "#c8102e" } else { "#8a5a00" };
    let wide = WIDTH - 2.0 * MARGIN;
    let _ = writeln!(body, "<g class=\"warning\" fill=\"#fff\">");
    let _ = writeln!(body, "<rect x=\"{MARGIN}\" y=\"{y}\" width=\"{wide}\" height=\"60\" rx=\"6\" fill=\"{color}\"/>");
    let (x, first, second) = (MARGIN + 16.0, y + 26.0, y + 48.0);
    let _ = writeln!(body, "<text x=\"{x}\" y=\"{first}\" font-size=\"20\" font-weight=\"bold\">{}</text>", xml(&warning.headline));
    let _ = writeln!(body, "<text x=\"{x}\" y=\"{second}\">{}</text>\n</g>", xml(&legend::short(&in_one_line(&warning.reason), 118)));
}

/// A reason's first lines as one.
fn in_one_line(reason: &str) -> String {
    let mut lines: Vec<&str> = reason.lines().collect();
    if lines.len() > MOST_PLACES {
        lines.truncate(MOST_PLACES);
        lines.push("more on standard error");
    }
    lines.join("; ")
}

fn panel(body: &mut String, y: f64, height: f64) {
    let wide = WIDTH - 2.0 * MARGIN;
    let (y, height) = (px(y), px(height));
    let _ = writeln!(body, "<rect x=\"{MARGIN}\" y=\"{y}\" width=\"{wide}\" height=\"{height}\" rx=\"6\" fill=\"#fff\" stroke=\"#c3ced8\"/>");
}

/// The drawing itself, from the ground up: fill, curves held back, outline, runs, what runs on, points, corners, marks.
fn geometry(body: &mut String, scene: &Scene, fit: &Fit) {
    let path = &scene.outline.path;
    let filled = fit.outline(path, true);
    if !filled.is_empty() {
        let rule = rule_name(scene.order.rule);
        let _ = writeln!(body, "<path class=\"fill\" d=\"{filled}\" fill=\"#dcebf7\" fill-rule=\"{rule}\"/>");
    }
    held_back(body, scene, fit);
    let line = fit.outline(path, false);
    match scene.answer {
        Answer::Cut { dashes, .. } => {
            stroke(body, "outline", &line, "#8a97a5", "1.2");
            stroke(body, "runs", &fit.lines(runs(dashes)), "#0b5cad", "5");
        }
        _ => stroke(body, "whole", &line, "#c8102e", "5"),
    }
    running_on(body, scene, fit);
    let points = scene.polylines.points().iter().step_by(scene.dot_step).copied();
    // Dense points are drawn small, so that the gaps between runs stay gaps.
    let size = px((fit.spacing(scene.polylines.points(), scene.dot_step) / 2.0).clamp(1.0, 3.0)).to_string();
    dots(body, "points", &fit.dots(points), "#1b2733", &size);
    let corners = fit.dots(scene.outline.corners.iter().copied());
    dots(body, "corners", &corners, "#1b2733", "13");
    dots(body, "corners", &corners, "#f28c28", "10");
    marks(body, scene, fit);
}

/// A wide band behind each curve that is held back, so that it hides nothing. A browser says which curve it is where the pointer rests on it.
fn held_back(body: &mut String, scene: &Scene, fit: &Fit) {
    for curve in scene.marked_curves() {
        let Some(data) = fit.curve(curve) else { continue };
        let _ = write!(body, "<path class=\"held\" d=\"{data}\" fill=\"none\" stroke=\"{HELD}\" stroke-width=\"20\" stroke-linecap=\"round\">");
        let _ = writeln!(body, "<title>{}</title></path>", xml(&which(curve)));
    }
}

fn stroke(body: &mut String, class: &str, data: &str, color: &str, width: &str) {
    if !data.is_empty() {
        let _ = writeln!(body, "<path class=\"{class}\" d=\"{data}\" fill=\"none\" stroke=\"{color}\" stroke-width=\"{width}\"/>");
    }
}

fn dots(body: &mut String, class: &str, data: &str, color: &str, width: &str) {
    if !data.is_empty() {
        let cap = "fill=\"none\" stroke-linecap=\"round\"";
        let _ = writeln!(body, "<path class=\"{class}\" d=\"{data}\" {cap} stroke=\"{color}\" stroke-width=\"{width}\"/>");
    }
}

/// The rest of a polyline that is one dash in red, one that is a gap as fine dots.
fn running_on(body: &mut String, scene: &Scene, fit: &Fit) {
    for run_on in scene.run_ons() {
        let ahead = scene.polylines.get(run_on.polyline).and_then(|points| points.get(run_on.next..)).unwrap_or_default();
        let rest: Vec<Vec2> = std::iter::once(run_on.at).chain(ahead.iter().copied()).collect();
        let data = fit.lines(std::iter::once(&rest[..]));
        if run_on.is_dash {
            stroke(body, "runs-on", &data, "#c8102e", "5");
        } else {
            let _ =
                writeln!(body, "<path class=\"gap-on\" d=\"{data}\" fill=\"none\" stroke=\"#8a5a00\" stroke-width=\"3\" stroke-dasharray=\"1 7\"/>");
        }
    }
}

/// A ring where an interval stops ending.
fn marks(body: &mut String, scene: &Scene, fit: &Fit) {
    for run_on in scene.run_ons().iter().take(MOST_MARKS) {
        let Some((x, y)) = fit.place(run_on.at) else { continue };
        let color = if run_on.is_dash { "#c8102e" } else { "#8a5a00" };
        let _ =
            writeln!(body, "<circle class=\"mark\" cx=\"{}\" cy=\"{}\" r=\"12\" fill=\"none\" stroke=\"{color}\" stroke-width=\"3\"/>", px(x), px(y));
    }
}

/// A text inside XML; characters that XML can't hold become blanks.
pub fn xml(text: &str) -> String {
    let mut escaped = String::new();
    for c in text.chars() {
        match c {
            '&' => escaped.push_str("&amp;"),
            '<' => escaped.push_str("&lt;"),
            '>' => escaped.push_str("&gt;"),
            '"' => escaped.push_str("&quot;"),
            c if c.is_control() || matches!(c, '\u{FFFE}' | '\u{FFFF}') => escaped.push(' '),
            c => escaped.push(c),
        }
    }
    escaped
}

#[cfg(test)]
mod tests {
    use super::*;

    #[test]
    fn a_bar_is_kept_for_faceted_curves() {
        let warning = |headline: &str| Warning { headline: headline.into(), reason: String::new(), is_barrier: true };
        let faceted = warning("FACETED");
        let drawn = |places: usize, faceted: Option<&Warning>| {
            let mut body = String::new();
            banners(&mut body, &vec![warning("A DASH RUNS ON"); places], faceted, 0.0);
            let more = body.split_once(">and ").and_then(|(_, rest)| rest.split_once(',')).map(|(more, _)| more.to_string());
            (body.matches("A DASH").count(), body.matches("FACETED").count(), more)
        };
        assert_eq!(drawn(2, Some(&faceted)), (2, 1, None));
        assert_eq!(drawn(3, Some(&faceted)), (2, 1, Some("1 more warning".into())));
        assert_eq!(drawn(7, Some(&faceted)), (2, 1, Some("5 more warnings".into())));
        assert_eq!(drawn(3, None), (3, 0, None));
        assert_eq!(drawn(7, None), (3, 0, Some("4 more warnings".into())));
    }

    #[test]
    fn any_name_can_stand_in_xml() {
        assert_eq!(xml("a<b>&\"c\"\u{1}\u{FFFF}"), "a&lt;b&gt;&amp;&quot;c&quot;  ");
    }
}
