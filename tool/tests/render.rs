//! Renders the examples' pictures, where rsvg-convert (Debian's librsvg2-bin) is there.
mod common;
use std::process::Command;

#[test]
fn the_pictures_render() {
    if Command::new("rsvg-convert").arg("--version").output().is_err() {
        println!("skipped: rsvg-convert is not there");
        return;
    }
    for line in common::lines() {
        let picture = common::examples().join(line.name + ".svg");
        let output = Command::new("rsvg-convert").arg(&picture).output().unwrap();
        let words = String::from_utf8_lossy(&output.stderr);
        assert!(output.status.success() && words.is_empty(), "{}: {words}", picture.display());
        assert!(output.stdout.starts_with(b"\x89PNG") && output.stdout.len() > 10_000, "{}", picture.display());
    }
}
