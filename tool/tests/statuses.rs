//! Each error with its words and its exit status, from outside.
mod common;
use common::{run, run_with, tool};
use std::io::{Read, Write};
use std::process::Stdio;
use std::time::Duration;

#[test]
fn path_data_from_file_argument_and_standard_input() {
    let from_file = run(&["flatten", "order-sheet.path"]);
    let data = std::fs::read(common::examples().join("order-sheet.path")).unwrap();
    assert_eq!(from_file.status, Some(0));
    assert_eq!(run_with(&["flatten"], &data).out, from_file.out);
    assert_eq!(run_with(&["flatten", "-"], &data).out, from_file.out);
    assert_eq!(run(&["flatten", "-d", &String::from_utf8(data).unwrap()]).out, from_file.out);
}

#[test]
fn malformed_path_data_have_line_and_column_and_status_2() {
    let ran = run_with(&["bounds"], "# é\nM 0 0\n\tL 1 é".as_bytes());
    assert_eq!((ran.status, ran.out.as_str()), (Some(2), ""));
    let words = "hizlaou: standard input, line 3, column 6: a number is expected, not 'é'; L takes 2 numbers and this is number 2\n";
    assert_eq!(ran.err, format!("{words}  |  L 1 é\n  |      ^\n"));
    let argument = run(&["bounds", "-d", "M 0 0 A 1 1"]);
    assert!(argument.err.starts_with("hizlaou: argument, line 1, column 7: 'A' is no command"), "{}", argument.err);
    assert_eq!(argument.status, Some(2));
}

#[test]
fn a_wrong_command_line_has_status_2() {
    let lines: [&[&str]; 6] =
        [&[], &["draw"], &["dash", "--style", "x"], &["dash", "--pattern", "1 y"], &["bounds", "--nothing"], &["flatten", "a", "b"]];
    for line in lines {
        let ran = run(line);
        assert_eq!((ran.status, ran.out.as_str()), (Some(2), ""), "{line:?}");
        assert!(ran.err.starts_with("hizlaou: ") && ran.err.contains("usage: hizlaou"), "{}", ran.err);
    }
}

#[test]
fn files_that_are_not_there_have_status_2() {
    let read = run(&["bounds", "no-such.path"]);
    assert_eq!(read.status, Some(2));
    assert!(read.err.starts_with("hizlaou: no-such.path can't be read: "), "{}", read.err);
    let written = run(&["bounds", "-d", "M0 0", "-o", "no-such-folder/x"]);
    assert_eq!(written.status, Some(2));
    assert!(written.err.starts_with("hizlaou: no-such-folder/x can't be written: "), "{}", written.err);
}

#[test]
fn a_full_path_is_refused_with_2() {
    let data = format!("M0 0{}\nh1", "h1 ".repeat(65_535));
    let ran = run_with(&["flatten"], data.as_bytes());
    assert_eq!((ran.status, ran.out.as_str()), (Some(1), ""));
    let first = "hizlaou: standard input, line 2, column 1: refused with number 2: the builder has no room left for this call";
    let second = "hizlaou: what to change: keep a path to 65,536 verbs and 131,072 points: start another path";
    assert_eq!(ran.err, format!("{first}\n{second}\n"));
}

#[test]
fn too_many_dashes_are_refused_with_3() {
    let ran = run(&["preview", "--pattern", "1 1", "-d", "M0 0H200000"]);
    assert_eq!((ran.status, ran.out.as_str()), (Some(1), ""));
    assert!(ran.err.starts_with("hizlaou: refused with number 3: "), "{}", ran.err);
    assert!(ran.err.contains("what to change: use a coarser pattern"));
}

#[test]
fn a_long_pattern_is_refused_with_8() {
    let pattern = "1 ".repeat(65);
    let ran = run(&["dash", "--json", "--pattern", &pattern, "-d", "M0 0H9"]);
    assert_eq!(ran.status, Some(1));
    assert!(ran.out.starts_with("{\"refused\":8,") && ran.err.contains("refused with number 8"), "{}", ran.err);
    assert_eq!(run(&["dash", "--pattern", &pattern[2..], "-d", "M0 0H9"]).status, Some(0));
}

#[test]
fn a_style_over_8_is_refused_with_9() {
    for style in ["9", "99999999999999999999999999"] {
        let ran = run(&["dash", "--style", style, "-d", "M0 0H9"]);
        assert_eq!(ran.status, Some(1));
        assert_eq!(ran.err, "hizlaou: refused with number 9: a line style is over 8\nhizlaou: what to change: give a style from 0 to 8\n");
    }
}

#[test]
fn what_is_drawn_whole_has_a_reason() {
    let cases: [(&[&str], &str); 5] = [
        (&["--pattern", "0.1 0.1"], "period 0.2 is not over tolerance 0.25"),
        (&["--pattern", "0.1 0.1", "--tolerance", "2", "--scale", "4"], "period 0.2 is not over tolerance 0.5"),
        (&["--style", "0"], "style 0 has no intervals"),
        (&[], "style 0 has no intervals"),
        (&["--pattern", "3 -1"], "interval -1 is not a finite length of 0 or more"),
    ];
    for (order, reason) in cases {
        let ran = run(&[&["dash", "-d", "M0 0H9"], order].concat());
        assert_eq!(ran.status, Some(0));
        assert!(ran.out.contains(&format!("drawn whole: {reason}\n  M 0 0\n  L 9 0\n")), "{}", ran.out);
        assert!(ran.err.contains("WARNING: DRAWN WHOLE") && ran.err.contains(reason), "{}", ran.err);
        let refused = run(&[&["dash", "--refuse-whole", "-d", "M0 0H9"], order].concat());
        assert_eq!((refused.status, refused.out), (Some(1), ran.out));
    }
    assert_eq!(run(&["dash", "--refuse-whole", "--style", "3", "-d", "M0 0H9"]).status, Some(0));
}

#[test]
fn what_runs_on_is_refused_if_it_is_a_dash() {
    let dash = run(&["dash", "--refuse-whole", "--pattern", "2 1 1e-9 1", "-d", "M0 0H8V4"]);
    assert_eq!(dash.status, Some(1));
    let place = "polyline 1, from (3 0) on, 9 long: the interval is too short to move on and never ends";
    assert!(dash.err.contains("WARNING: A DASH RUNS ON") && dash.err.contains(place), "{}", dash.err);
    assert!(dash.out.ends_with("; 1 dash runs on, 0 gaps run on\n"), "{}", dash.out);
    let gap = run(&["dash", "--refuse-whole", "--pattern", "2 1e-9", "-d", "M0 0H8V4"]);
    assert_eq!(gap.status, Some(0));
    assert!(gap.err.contains("WARNING: A GAP RUNS ON") && gap.err.contains("from (2 0) on, 10 long"), "{}", gap.err);
    assert!(gap.out.ends_with("; 0 dashes run on, 1 gap runs on\n"), "{}", gap.out);
    let many = run(&["dash", "--pattern", "2 1 1e-9 1", "-d", &"M0 0H8".repeat(13)]);
    assert_eq!(many.err.matches("A DASH RUNS ON").count(), 11);
    assert!(many.err.contains("and 3 more places"));
}

#[test]
fn what_is_used_up_at_a_corner_ends_there() {
    let cases = [
        ("2 1", "M0 0H2V4", "run 1:\n  0 0\n  2 0\nrun 2:\n  2 1\n  2 3\n"),
        ("1 1", "M0 0H2V3", "run 1:\n  0 0\n  1 0\nrun 2:\n  2 0\n  2 1\nrun 3:\n  2 2\n  2 3\n"),
        ("2 0", "M0 0H2V2", "run 1:\n  0 0\n  2 0\nrun 2:\n  2 0\n  2 2\n"),
        ("2 1", "M3 0H-0L0 2", "run 1:\n  3 0\n  1 0\nrun 2:\n  -0.0 0\n  0 2\n"),
    ];
    for (pattern, data, runs) in cases {
        let ran = run(&["dash", "--refuse-whole", "--pattern", pattern, "-d", data]);
        assert_eq!((ran.status, ran.err.as_str()), (Some(0), ""), "{pattern} {data}");
        assert!(ran.out.contains(&format!("rule nonzero\n{runs}totals: ")), "{}", ran.out);
        assert!(ran.out.ends_with("; 0 dashes run on, 0 gaps run on\n"), "{}", ran.out);
    }
}

#[test]
fn a_pattern_without_a_dash_above_0_draws_nothing() {
    for pattern in ["0 5", "0 0.001", "-0 1 0 2"] {
        for data in ["M0 0H8", "M0 0H1e6V1e6", "M0 0Q8 8 16 0Z"] {
            let ran = run(&["dash", "--refuse-whole", "--tolerance", "0.0005", "--pattern", pattern, "-d", data]);
            assert_eq!(ran.status, Some(0));
            let loud = "hizlaou: WARNING: NOTHING DRAWN: the lane does not go to air\nhizlaou:          no dash is above 0\n";
            assert_eq!(ran.err, loud);
            assert!(ran.out.contains("rule nonzero\nnothing is drawn: no dash is above 0\ntotals: 0 runs, 0 verbs, 0 points, from "), "{}", ran.out);
        }
    }
    let picture = run(&["preview", "--pattern", "0 5", "-d", "M0 0H8"]).out;
    assert!(
        picture.contains(">NOTHING DRAWN: the lane does not go to air</text>") && picture.contains(">Nothing is drawn: no dash is above 0.</text>")
    );
    assert!(!picture.contains("class=\"runs\"") && !picture.contains("zoom in"));
    // Zeros alone are no pattern.
    let zeros = run(&["dash", "--tolerance", "-1", "--pattern", "0 0", "-d", "M0 0H8"]);
    assert!(zeros.out.contains("drawn whole: the intervals add up to 0, which is not over 0\n") && !zeros.err.contains("NOTHING DRAWN"));
}

#[test]
fn too_large_numbers_are_told_of() {
    let ran = run(&["bounds", "--json", "-d", "M 0 0 L -1e39 5"]);
    assert_eq!(ran.status, Some(0));
    assert!(ran.out.contains("\"min\":[\"-Infinity\",0]"), "{}", ran.out);
    assert_eq!(ran.err, "hizlaou: argument, line 1, column 9: too large for an f32, read as an infinity\n");
}

#[test]
fn help_and_version_have_status_0() {
    let help = run(&["--help"]);
    assert_eq!((help.status, help.err.as_str()), (Some(0), ""));
    for word in ["preview", "--tolerance", "--scale", "--style", "--pattern", "--phase", "--rule", "--refuse-whole", "EXIT STATUS", "K cx cy x y w"] {
        assert!(help.out.contains(word), "{word}");
    }
    assert_eq!(run(&["--version"]).out, format!("hizlaou {}\n", env!("CARGO_PKG_VERSION")));
}

#[test]
fn the_answer_goes_to_a_file() {
    let file = std::env::temp_dir().join(format!("hizlaou-{}.svg", std::process::id()));
    let ran = run(&["preview".as_ref(), "--style".as_ref(), "1".as_ref(), "-o".as_ref(), file.as_os_str(), "regatta.path".as_ref()]);
    let written = std::fs::read_to_string(&file).unwrap();
    std::fs::remove_file(&file).unwrap();
    assert_eq!((ran.status, ran.out.as_str()), (Some(0), ""));
    assert_eq!(written, std::fs::read_to_string(common::examples().join("regatta.svg")).unwrap());
}

#[test]
fn progress_is_told_after_a_second() {
    let mut child = tool().arg("bounds").stdin(Stdio::piped()).stdout(Stdio::piped()).stderr(Stdio::piped()).spawn().unwrap();
    let mut input = child.stdin.take().unwrap();
    input.write_all(b"M 0 0 ").unwrap();
    std::thread::sleep(Duration::from_millis(1_600));
    input.write_all(b"L 1 1").unwrap();
    drop(input);
    let output = child.wait_with_output().unwrap();
    assert_eq!(output.status.code(), Some(0));
    assert!(String::from_utf8_lossy(&output.stderr).starts_with("hizlaou: reading for 1 s\n"));
}

#[test]
fn a_reader_that_goes_away_is_no_panic() {
    let mut child = tool()
        .args(["flatten", "--tolerance", "1e-5", "-d", &"M0 0Q8 8 16 0".repeat(400)])
        .stdout(Stdio::piped())
        .stderr(Stdio::piped())
        .spawn()
        .unwrap();
    drop(child.stdout.take());
    let mut err = String::new();
    child.stderr.take().unwrap().read_to_string(&mut err).unwrap();
    assert_eq!((child.wait().unwrap().code(), err.as_str()), (Some(2), ""));
}

#[cfg(unix)]
#[test]
fn words_that_are_no_text_are_no_panic() {
    use std::ffi::OsStr;
    use std::os::unix::ffi::OsStrExt;
    let broken = OsStr::from_bytes(b"\xFF\xFE");
    for option in ["--style", "--pattern", "--rule", "--tolerance", "-d", "--data"] {
        assert_eq!(run(&[OsStr::new("dash"), OsStr::new(option), broken]).status, Some(2), "{option}");
    }
    assert_eq!(run(&[OsStr::new("dash"), broken]).status, Some(2));
    assert_eq!(run(&[broken]).status, Some(2));
    assert_eq!(run(&[OsStr::new("dash"), OsStr::from_bytes(b"--\xFF")]).status, Some(2));
}

/// Orders that no one should place: each ends with a status of its own accord.
#[test]
fn strange_orders_end_well() {
    let outlines = ["", "M0 0", "M0 0Z", "M1e39 0L-1e39 0", "M0 0h1e-45", "M0 0K1e39 1 2 2 5L3 3", "M3e38 0L-3e38 1Q3e38 3e38 0 0Z", "m5 5 0 0 0 0z"];
    let orders: [&[&str]; 7] = [
        &["--style", "3"],
        &["--pattern", "1e39 1"],
        &["--pattern", "3e38 3e38 3e38"],
        &["--pattern", "1 1", "--phase", "1e39"],
        &["--pattern", "0 0 2", "--phase", "-7"],
        &["--tolerance", "-1e39", "--pattern", "1e-45"],
        &["--tolerance", "1e39", "--scale", "0"],
    ];
    for outline in outlines {
        for order in orders {
            for command in ["flatten", "dash", "convexity", "bounds", "preview"] {
                let ran = run(&[&[command, "-d", outline], order].concat());
                assert!(matches!(ran.status, Some(0 | 1)), "{command} {outline} {order:?}: {:?} {}", ran.status, ran.err);
                assert!(!ran.err.contains("panicked"), "{}", ran.err);
            }
        }
    }
}
