//! Each polyline is told as closed or open. `json.rs` has the JSON.
mod common;
use common::run;

/// What `flatten` says of each polyline, without its number.
fn told(data: &str) -> Vec<String> {
    let ran = run(&["flatten", "-d", data]);
    assert_eq!(ran.status, Some(0), "{}", ran.err);
    let lines: Vec<&str> = ran.out.lines().filter(|line| line.starts_with("polyline ")).collect();
    (1..).zip(lines).map(|(number, line)| line.strip_prefix(&format!("polyline {number}: ")).unwrap().into()).collect()
}

#[test]
fn a_polyline_is_closed_if_its_subpath_ends_in_z() {
    let cases = [
        ("M0 0H4V4", "3 points, open"),
        ("M0 0H4V4Z", "4 points, closed"),
        ("M0 0Q8 8 16 0Z", "7 points, closed"),
        ("M0 0K4 0 4 4 0", "2 points, open"),
        ("M0 0H4V4ZZ", "4 points, closed"),
        ("M0 0H4V4ZH2", "5 points, open"),
        ("M0 0H4V4ZH2z", "6 points, closed"),
        ("M0 0ZH4", "2 points, open"),
    ];
    for (data, words) in cases {
        assert_eq!(told(data), [words], "{data}");
    }
}

#[test]
fn its_points_do_not_decide() {
    // Back at the start by a line, with and without a Z that has nothing to add.
    assert_eq!([told("M0 0H4V4L0 0"), told("M0 0H4V4L0 0Z")], [["4 points, open"], ["4 points, closed"]]);
    // A start that is a NaN equals no point, so none is added.
    assert_eq!([told("M1e39 0m-1e39 0L4 0"), told("M1e39 0m-1e39 0L4 0Z")], [["2 points, open"], ["2 points, closed"]]);
}

#[test]
fn subpaths_with_nothing_drawn_are_not_told() {
    assert_eq!(told("M0 0"), [""; 0]);
    assert_eq!(told("M0 0Z"), [""; 0]);
    assert_eq!(told("M0 0H4V4ZM9 9M1 1H4M5 5ZM6 6H9V9Z"), ["4 points, closed", "2 points, open", "4 points, closed"]);
}
