//! Curves that are held back at 1,000 pieces: loud on standard error, in the totals, on the picture. `json.rs` has the JSON.
mod common;
use common::run;
use hizlaou::{held_curves, PathBuilder, Vec2};

/// A quad, a line and a cubic; held back are both curves at a tolerance of 1e-6, the cubic alone at 6e-6, and none at 0.25.
const COURSE: &str = "M0 0Q8 8 16 0L20 0C20 8 36 8 36 0";
/// All commands that flatten. The pattern cuts at every tolerance here.
const COMMANDS: [&[&str]; 3] = [&["flatten"], &["dash", "--style", "1"], &["preview", "--style", "1"]];

/// What stands on standard error for so many curves, named in these lines.
fn warning(curves: &str, lines: &[&str]) -> String {
    let headline = format!("hizlaou: WARNING: FACETED: {curves} held back at 1000 pieces, too few for the tolerance\n");
    headline + &lines.iter().map(|line| format!("hizlaou:          {line}\n")).collect::<String>()
}

/// Runs a command at a tolerance; a curve that is held back is no refusal.
fn ran(command: &[&str], tolerance: &str, data: &str) -> common::Ran {
    let ran = run(&[command, &["--tolerance", tolerance, "-d", data]].concat());
    assert_eq!(ran.status, Some(0), "{}", ran.err);
    ran
}

fn bands(picture: &str) -> usize {
    picture.matches("<path class=\"held\"").count()
}

#[test]
fn where_none_is_held_back_nothing_is_said() {
    // The second course wants just 1,000 pieces.
    for (data, pieces) in [(COURSE, "14 pieces"), ("M0 0Q8 -353250 16 0", "1000 pieces")] {
        for command in COMMANDS {
            let ran = ran(command, "0.25", data);
            assert!(!ran.err.contains("FACETED") && !ran.out.contains("FACETED") && !ran.out.contains("held"), "{command:?} {data}");
        }
        let totals = format!(" + {pieces} of curves + 0 added closings\n");
        assert!(ran(&["flatten"], "0.25", data).out.ends_with(&totals), "{totals}");
    }
    assert_eq!(ran(&["flatten"], "0.25", "M0 0Q8 -354000 16 0").err, warning("1 curve", &["verb 1, the quad to (16 0)"]));
}

#[test]
fn each_command_names_those_that_are() {
    let (quad, cubic) = ("verb 1, the quad to (16 0)", "verb 3, the cubic to (36 0)");
    for command in COMMANDS {
        assert_eq!(ran(command, "6e-6", COURSE).err, warning("1 curve", &[cubic]), "{command:?}");
        assert_eq!(ran(command, "1e-6", COURSE).err, warning("2 curves", &[quad, cubic]), "{command:?}");
    }
    for command in &COMMANDS[..2] {
        assert!(ran(command, "6e-6", COURSE).out.ends_with("; 1 curve held back at 1000 pieces\n"), "{command:?}");
        assert!(ran(command, "1e-6", COURSE).out.ends_with("; 2 curves held back at 1000 pieces\n"), "{command:?}");
    }
}

#[test]
fn the_tolerance_that_is_used_decides() {
    for command in COMMANDS {
        let shown_large = run(&[command, &["--scale", "250000", "-d", COURSE]].concat());
        assert_eq!(shown_large.err, ran(command, "1e-6", COURSE).err, "{command:?}");
    }
}

#[test]
fn the_picture_has_a_banner_a_band_for_each_and_their_number() {
    let preview = COMMANDS[2];
    let one = ran(preview, "6e-6", COURSE).out;
    assert_eq!((bands(&one), one.matches("class=\"warning\"").count()), (1, 1));
    assert!(one.contains("<title>verb 3, the cubic to (36 0)</title>") && !one.contains("<title>verb 1"));
    assert!(one.contains(">FACETED: 1 curve held back at 1000 pieces, too few for the tolerance</text>"));
    assert!(one.contains(">verb 3, the cubic to (36 0)</text>") && one.contains(">1 curve held back at 1000 pieces</text>"));
    let two = ran(preview, "1e-6", COURSE).out;
    assert_eq!((bands(&two), two.matches("class=\"warning\"").count()), (2, 1));
    assert!(two.contains(">verb 1, the quad to (16 0); verb 3, the cubic to (36 0)</text>"));
    assert!(two.contains(">2 curves held back at 1000 pieces</text>") && !two.contains("Not marked"));
}

#[test]
fn a_band_lies_behind_its_curve() {
    let picture = ran(COMMANDS[2], "1e-6", "M0 0Q8 8 16 0").out;
    let data = |class: &str| picture.split_once(&format!("class=\"{class}\" d=\"")).and_then(|(_, rest)| rest.split_once('"')).unwrap().0;
    assert_eq!(data("held"), data("outline"));
    assert!(picture.find("class=\"held\"") < picture.find("class=\"outline\""));
}

#[test]
fn a_conic_is_held_back_quad_by_quad() {
    let mut b = PathBuilder::new();
    b.move_to(Vec2::new(1e6, 0.0)).unwrap().conic_to(Vec2::new(1e6, 1e6), Vec2::new(0.0, 1e6), 10.0).unwrap();
    let number = held_curves(&b.build(), 1e-6).len();
    assert!(number > 12, "{number}");
    let ran = ran(&["preview", "--pattern", "3e5 1e5"], "1e-6", "M1e6 0K1e6 1e6 0 1e6 10");
    let lines: Vec<&str> = ran.err.lines().collect();
    assert!(lines[0].contains(&format!("FACETED: {number} curves held back")) && lines[1].contains(" verb 1, the quad to ("), "{}", ran.err);
    assert_eq!((lines.len(), lines[11]), (12, format!("hizlaou:          and {} more curves", number - 10).as_str()));
    assert_eq!(bands(&ran.out), number);
    assert!(ran.out.contains("; more on standard error</text>"));
}

#[test]
fn a_curve_that_is_not_finite_has_no_band_but_is_named() {
    let data = "M0 0Q1e39 5 9 0L20 0";
    for command in COMMANDS {
        let ran = ran(command, "0.25", data);
        assert!(ran.err.ends_with(&warning("1 curve", &["verb 1, the quad to (9 0)"])), "{}", ran.err);
        assert_eq!(bands(&ran.out), 0);
    }
    let note = ">Not marked: 1 curve held back, not finite or after the first 1000.</text>";
    assert!(ran(COMMANDS[2], "0.25", data).out.contains(note));
}

#[test]
fn more_bands_than_are_drawn_are_counted() {
    let picture = ran(&["preview"], "1e-6", &format!("M0 0{}", "q8 8 16 0".repeat(1_002))).out;
    assert_eq!(bands(&picture), 1_000);
    assert!(picture.contains(">Not marked: 2 curves held back, not finite or after the first 1000.</text>"));
}

#[test]
fn among_many_warnings_the_picture_still_has_its_bar() {
    // Far out an interval of 1e-6 is too short to move on. The curve ends before it is met.
    let data = "M0 0H900".repeat(4) + "M0 0Q8 8 16 0";
    let ran = ran(&["preview", "--pattern", "200 100 1e-6 100"], "1e-6", &data);
    assert_eq!((ran.err.matches("A DASH RUNS ON").count(), ran.out.matches("class=\"warning\"").count()), (4, 3));
    assert!(ran.out.contains(">FACETED: 1 curve ") && ran.out.contains(">and 2 more warnings, on standard error</text>"));
}

#[test]
fn what_is_drawn_whole_is_flattened_for_the_picture_only() {
    let whole = "hizlaou: WARNING: DRAWN WHOLE: the lane goes to air as one unbroken line\nhizlaou:          style 0 has no intervals\n";
    let dash = ran(&["dash", "--style", "0"], "6e-6", COURSE);
    assert_eq!((dash.err.as_str(), dash.out.contains("held")), (whole, false));
    let preview = ran(&["preview", "--style", "0"], "6e-6", COURSE);
    assert_eq!(preview.err, whole.to_string() + &warning("1 curve", &["verb 3, the cubic to (36 0)"]));
    assert_eq!((bands(&preview.out), preview.out.matches("class=\"warning\"").count()), (1, 2));
}

#[test]
fn it_is_no_barrier() {
    for command in &COMMANDS[1..] {
        ran(&[command, &["--refuse-whole"][..]].concat(), "1e-6", COURSE);
    }
}
