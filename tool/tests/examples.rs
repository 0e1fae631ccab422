//! The tool's output on the examples equals what is kept: the pictures in examples/, the other answers in tests/expected/.
//! `HIZLAOU_WRITE=1 cargo test` writes them anew.
mod common;
use common::{examples, lines, run};
use std::path::{Path, PathBuf};

/// Holds an answer against the file, or writes the file.
fn hold(file: &Path, answer: &str) {
    if std::env::var_os("HIZLAOU_WRITE").is_some() {
        std::fs::write(file, answer).unwrap();
    }
    let kept = std::fs::read_to_string(file).unwrap_or_default();
    assert!(kept == answer, "{} is not what the tool writes; HIZLAOU_WRITE=1 cargo test writes it anew", file.display());
}

fn words(first: &str, more: &[&str], order: &[String], file: &str) -> Vec<String> {
    let mut words = vec![first.to_string()];
    words.extend(more.iter().map(|w| w.to_string()));
    words.extend_from_slice(order);
    words.push(file.into());
    words
}

#[test]
fn there_are_four_pictures() {
    let names: Vec<String> = lines().into_iter().map(|l| l.name).collect();
    assert_eq!(names, ["order-sheet", "regatta", "scoreboard", "scoreboard-runs-on"]);
}

#[test]
fn pictures_are_those_of_their_command_lines() {
    for line in lines() {
        let ran = run(&words("preview", &[], &line.order, &line.file));
        assert_eq!(ran.status, Some(0), "{}", ran.err);
        hold(&examples().join(line.name + ".svg"), &ran.out);
    }
}

#[test]
fn answers_are_those_that_are_kept() {
    let kept = PathBuf::from(env!("CARGO_MANIFEST_DIR")).join("tests/expected");
    for line in lines() {
        for command in ["flatten", "dash", "convexity", "bounds"] {
            for (more, ending) in [(&[][..], "txt"), (&["--json"][..], "json")] {
                let ran = run(&words(command, more, &line.order, &line.file));
                assert_eq!(ran.status, Some(0), "{}", ran.err);
                hold(&kept.join(format!("{}.{command}.{ending}", line.name)), &ran.out);
            }
        }
    }
}

#[test]
fn the_order_sheet_is_loud() {
    let line = ["preview", "--pattern", "0.1 0.1", "--tolerance", "0.25", "order-sheet.path"];
    let ran = run(&line);
    assert_eq!(ran.status, Some(0));
    let loud = "DRAWN WHOLE: the lane goes to air as one unbroken line";
    let reason = "period 0.2 is not over tolerance 0.25";
    assert_eq!(ran.err, format!("hizlaou: WARNING: {loud}\nhizlaou:          {reason}\n"));
    assert!(ran.out.contains(loud) && ran.out.contains(reason));
    let refused = run(&[&line[..], &["--refuse-whole"]].concat());
    assert_eq!((refused.status, refused.out == ran.out, refused.err == ran.err), (Some(1), true, true));
}

#[test]
fn the_score_board_with_dots_is_loud() {
    let line = ["preview", "--pattern", "12 4 0.000001 4", "--phase", "3", "--rule", "evenodd", "scoreboard.path"];
    let ran = run(&line);
    assert_eq!((ran.err.matches("WARNING: A DASH RUNS ON").count(), ran.err.matches("WARNING").count()), (5, 5));
    assert_eq!(ran.out.matches("class=\"warning\"").count(), 3);
    assert_eq!((ran.out.matches("class=\"mark\"").count(), ran.out.matches("class=\"runs-on\"").count()), (5, 5));
    assert!(ran.out.contains("and 2 more warnings, on standard error"));
    assert_eq!(run(&[&line[..], &["--refuse-whole"]].concat()).status, Some(1));
}

#[test]
fn a_gap_that_runs_on_is_marked() {
    let ran = run(&["preview", "--pattern", "12 0.0000001", "--rule", "evenodd", "scoreboard.path"]);
    assert_eq!(ran.err.matches("WARNING: A GAP RUNS ON").count(), 7);
    assert_eq!((ran.out.matches("class=\"mark\"").count(), ran.out.matches("class=\"gap-on\"").count()), (7, 7));
    assert!(ran.out.contains(">7 places where a gap runs on to the end</text>"));
}

/// Intervals are used up exactly at corners of each outline.
#[test]
fn the_score_board_is_quiet() {
    for phase in ["0", "3"] {
        let ran = run(&["preview", "--style", "6", "--phase", phase, "--rule", "evenodd", "--refuse-whole", "scoreboard.path"]);
        assert_eq!((ran.status, ran.err.as_str()), (Some(0), ""));
        assert!(!ran.out.contains("class=\"warning\"") && !ran.out.contains("class=\"mark\""));
    }
}

#[test]
fn the_regatta_is_quiet() {
    let ran = run(&["preview", "--style", "1", "--refuse-whole", "regatta.path"]);
    assert_eq!((ran.status, ran.err.as_str()), (Some(0), ""));
    assert!(!ran.out.contains("class=\"warning\""));
}
