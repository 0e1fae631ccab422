//! Answers as JSON, one object on one line. `number` says how floats are written.
use crate::answer::Answer;
use crate::held::Held;
use crate::number::Json;
use crate::order::{rule_name, Order};
use crate::text::{letter, runs_of};
use crate::walk::{Found, RunOn};
use hizlaou::{Convexity, Path, Polylines, Rect, Refusal, Vec2};
use std::fmt::Display;
use std::io::{self, Write};

/// Writes an answer. `progress` is told how many points are written.
pub fn write(out: &mut dyn Write, answer: &Answer, path: &Path, order: &Order, progress: impl Fn(usize)) -> io::Result<()> {
    match answer {
        Answer::Flattened { polylines, held } => flattened(out, polylines, held, order, progress)?,
        Answer::Whole { reason, held, .. } => whole(out, reason, held, path, order)?,
        Answer::Cut { dashes, polylines, found, held } => cut(out, dashes, polylines, found, held, order, progress)?,
        Answer::Shape(convexity) => shape(out, *convexity, path, order)?,
        Answer::Box { rect, is_finite, is_in_range } => bounds(out, rect, *is_finite, *is_in_range, path, order)?,
    }
    out.write_all(b"}\n")
}

/// Writes a refusal.
pub fn refused(out: &mut dyn Write, refusal: Refusal) -> io::Result<()> {
    let (meaning, remedy) = (string(refusal.meaning()), string(refusal.remedy()));
    writeln!(out, "{{\"refused\":{},\"meaning\":{meaning},\"change\":{remedy}}}", refusal.number())
}

/// A text in quotes.
fn string(text: &str) -> String {
    let mut quoted = String::from("\"");
    for c in text.chars() {
        match c {
            '"' | '\\' => quoted.extend(['\\', c]),
            c if c.is_control() => quoted.push_str(&format!("\\u{:04x}", u32::from(c))),
            c => quoted.push(c),
        }
    }
    quoted + "\""
}

/// Values in brackets, with commas between them.
fn array<T: Display>(values: impl Iterator<Item = T>) -> String {
    let words: Vec<String> = values.map(|v| v.to_string()).collect();
    format!("[{}]", words.join(","))
}

fn point(p: Vec2) -> String {
    format!("[{},{}]", Json(p.x), Json(p.y))
}

/// A list of lists of points, as they come.
fn lists<'a>(out: &mut dyn Write, lists: impl Iterator<Item = &'a [Vec2]>, progress: impl Fn(usize)) -> io::Result<()> {
    let mut done = 0;
    out.write_all(b"[")?;
    for (i, points) in lists.enumerate() {
        out.write_all(if i > 0 { b",[" } else { b"[" })?;
        for (j, p) in points.iter().enumerate() {
            write!(out, "{}[{},{}]", if j > 0 { "," } else { "" }, Json(p.x), Json(p.y))?;
            done += 1;
            progress(done);
        }
        out.write_all(b"]")?;
    }
    out.write_all(b"]")
}

/// The totals: a number for each name.
fn totals(out: &mut dyn Write, numbers: &[(&str, usize)]) -> io::Result<()> {
    let members: Vec<String> = numbers.iter().map(|(name, number)| format!("\"{name}\":{number}")).collect();
    write!(out, ",\"totals\":{{{}}}", members.join(","))
}

/// The curves that were held back, by their verbs' numbers.
fn held_curves(out: &mut dyn Write, held: &Held) -> io::Result<()> {
    let verbs = if held.agrees() { array(held.curves().iter().map(|curve| curve.index)) } else { "null".into() };
    write!(out, ",\"held_curves\":{verbs}")
}

fn flattened(out: &mut dyn Write, polylines: &Polylines, held: &Held, order: &Order, progress: impl Fn(usize)) -> io::Result<()> {
    write!(out, "{{\"command\":\"flatten\",\"tolerance\":{},\"rule\":\"{}\"", Json(order.tolerance), rule_name(order.rule))?;
    out.write_all(b",\"polylines\":")?;
    lists(out, polylines.iter(), progress)?;
    write!(out, ",\"closed\":{}", array(polylines.closed()))?;
    let t = polylines.totals();
    let numbers = [
        ("points", t.points),
        ("polylines", t.polylines),
        ("starts", t.starts),
        ("lines", t.lines),
        ("counts", t.counts),
        ("closings", t.closings),
        ("held", held.number),
    ];
    totals(out, &numbers)?;
    held_curves(out, held)
}

fn ordered(out: &mut dyn Write, order: &Order, kind: &str) -> io::Result<()> {
    write!(
        out,
        "{{\"command\":\"dash\",\"style\":{},\"pattern\":{},\"phase\":{},\"period\":{},\"tolerance\":{},\"rule\":\"{}\",\"kind\":\"{kind}\"",
        order.style.map_or("null".into(), |n| n.to_string()),
        array(order.dash.intervals.iter().map(|&v| Json(v))),
        Json(order.dash.phase),
        Json(order.period()),
        Json(order.tolerance),
        rule_name(order.rule)
    )
}

/// How many verbs and points a path has.
fn size_of(path: &Path) -> [(&'static str, usize); 2] {
    [("verbs", path.verbs().len()), ("points", path.points().len())]
}

fn whole(out: &mut dyn Write, reason: &str, held: &Held, path: &Path, order: &Order) -> io::Result<()> {
    ordered(out, order, "whole")?;
    write!(out, ",\"reason\":{},\"outline\":[", string(reason))?;
    for (i, (verb, points)) in path.segments().enumerate() {
        write!(out, "{}[\"{}\"", if i > 0 { "," } else { "" }, letter(verb))?;
        for p in points {
            write!(out, ",{},{}", Json(p.x), Json(p.y))?;
        }
        out.write_all(b"]")?;
    }
    out.write_all(b"]")?;
    let [verbs, points] = size_of(path);
    totals(out, &[verbs, points, ("held", held.number)])?;
    held_curves(out, held)
}

fn cut(
    out: &mut dyn Write,
    dashes: &Path,
    polylines: &Polylines,
    found: &Found,
    held: &Held,
    order: &Order,
    progress: impl Fn(usize),
) -> io::Result<()> {
    ordered(out, order, "cut")?;
    out.write_all(b",\"runs\":")?;
    lists(out, runs(dashes), progress)?;
    let run_ons = if found.agrees { array(found.run_ons.iter().map(run_on)) } else { "null".into() };
    let dashes_on = found.run_ons.iter().filter(|r| r.is_dash).count();
    write!(out, ",\"run_ons\":{run_ons}")?;
    let [verbs, points] = size_of(dashes);
    let numbers = [
        ("runs", runs_of(dashes)),
        verbs,
        points,
        ("polylines", polylines.len()),
        ("flattened_points", polylines.totals().points),
        ("dashes_running_on", dashes_on),
        ("gaps_running_on", found.run_ons.len() - dashes_on),
        ("held", held.number),
    ];
    totals(out, &numbers)?;
    held_curves(out, held)
}

/// The points of each run. Every verb of dashes uses one point, and a move begins a run.
pub fn runs(dashes: &Path) -> impl Iterator<Item = &[Vec2]> {
    let mut points = dashes.points();
    dashes.verbs().chunk_by(|_, next| *next != hizlaou::Verb::MoveTo).map(move |run| {
        let (taken, rest) = points.split_at_checked(run.len()).unwrap_or((points, &[]));
        points = rest;
        taken
    })
}

fn run_on(r: &RunOn) -> String {
    format!(
        "{{\"polyline\":{},\"at\":{},\"kind\":\"{}\",\"length\":{}}}",
        r.polyline + 1,
        point(r.at),
        if r.is_dash { "dash" } else { "gap" },
        Json(r.length as f32)
    )
}

fn shape(out: &mut dyn Write, convexity: Convexity, path: &Path, order: &Order) -> io::Result<()> {
    write!(out, "{{\"command\":\"convexity\",\"rule\":\"{}\",\"convexity\":\"{convexity:?}\"", rule_name(order.rule))?;
    totals(out, &size_of(path))
}

fn bounds(out: &mut dyn Write, rect: &Rect, is_finite: bool, is_in_range: bool, path: &Path, order: &Order) -> io::Result<()> {
    write!(out, "{{\"command\":\"bounds\",\"rule\":\"{}\",\"min\":{},\"max\":{}", rule_name(order.rule), point(rect.min), point(rect.max))?;
    write!(out, ",\"width\":{},\"height\":{},\"empty\":{}", Json(rect.width()), Json(rect.height()), rect.is_empty())?;
    write!(out, ",\"finite\":{is_finite},\"in_range\":{is_in_range}")?;
    totals(out, &size_of(path))
}

#[cfg(test)]
mod tests {
    use super::*;
    use hizlaou::{Dash, FillRule};

    #[test]
    fn the_total_of_held_curves_is_the_librarys_number_and_a_list_that_differs_is_null() {
        let dash = Dash::new(Vec::new(), 0.0);
        let order = Order { style: None, dash, tolerance: 0.25, asked_tolerance: 0.25, scale: None, rule: FillRule::NonZero };
        for (number, found, end) in [(2, 2, "\"held\":2},\"held_curves\":[1,2]}\n"), (3, 2, "\"held\":3},\"held_curves\":null}\n")] {
            let mut out = Vec::new();
            let answer = Answer::Flattened { polylines: Polylines::default(), held: Held::made(number, found) };
            write(&mut out, &answer, &Path::default(), &order, |_| ()).unwrap();
            assert!(String::from_utf8(out).unwrap().ends_with(end), "{end}");
        }
    }

    #[test]
    fn texts_are_quoted() {
        assert_eq!(string("a\"b\\c\nd"), "\"a\\\"b\\\\c\\u000ad\"");
    }

    #[test]
    fn a_refusal_is_an_object() {
        let mut out = Vec::new();
        refused(&mut out, Refusal::NO_STYLE).unwrap();
        let text = String::from_utf8(out).unwrap();
        assert_eq!(text, "{\"refused\":9,\"meaning\":\"a line style is over 8\",\"change\":\"give a style from 0 to 8\"}\n");
    }
}
