//! The examples in `--help` run as they stand there.
#![cfg(unix)]
mod common;
use std::process::Command;

#[test]
fn each_example_of_the_help_runs() {
    let folder = std::env::temp_dir().join(format!("hizlaou-help-{}", std::process::id()));
    std::fs::create_dir(&folder).unwrap();
    std::fs::copy(common::examples().join("regatta.path"), folder.join("course.path")).unwrap();
    let tools = std::path::Path::new(env!("CARGO_BIN_EXE_hizlaou")).parent().unwrap().display().to_string();
    let path = format!("{tools}:{}", std::env::var("PATH").unwrap_or_default());
    let help = common::run(&["--help"]).out;
    let (manual, _) = help.split_once("\nCOMMANDS\n").unwrap();
    let lines: Vec<&str> = manual.lines().filter_map(|l| l.strip_prefix("  ")).collect();
    for line in &lines {
        let output = Command::new("sh").args(["-c", line]).current_dir(&folder).env("PATH", &path).output().unwrap();
        assert!(output.status.success(), "{line}: {}", String::from_utf8_lossy(&output.stderr));
    }
    let picture = |name| std::fs::read_to_string(folder.join(name)).unwrap();
    assert!(lines.len() > 6 && picture("lane.svg").contains("DRAWN WHOLE") && picture("large.svg").contains("FACETED"));
    std::fs::remove_dir_all(&folder).unwrap();
}
