//! Runs the tool as its users do.
#![allow(dead_code)]
use std::ffi::OsStr;
use std::io::Write;
use std::path::PathBuf;
use std::process::{Command, Stdio};

/// What a run left: exit status, standard output, standard error.
pub struct Ran {
    pub status: Option<i32>,
    pub out: String,
    pub err: String,
}

/// The folder of the examples.
pub fn examples() -> PathBuf {
    PathBuf::from(env!("CARGO_MANIFEST_DIR")).join("../examples")
}

/// The tool, to be run in the folder of the examples.
pub fn tool() -> Command {
    let mut command = Command::new(env!("CARGO_BIN_EXE_hizlaou"));
    command.current_dir(examples());
    command
}

/// Runs the tool with this on standard input.
pub fn run_with<S: AsRef<OsStr>>(words: &[S], input: &[u8]) -> Ran {
    let mut command = tool();
    command.args(words).stdin(Stdio::piped()).stdout(Stdio::piped()).stderr(Stdio::piped());
    let mut child = command.spawn().expect("the tool starts");
    let mut standard = child.stdin.take().expect("a pipe");
    let input = input.to_vec();
    let writer = std::thread::spawn(move || standard.write_all(&input));
    let output = child.wait_with_output().expect("the tool ends");
    let _ = writer.join();
    Ran {
        status: output.status.code(),
        out: String::from_utf8_lossy(&output.stdout).into_owned(),
        err: String::from_utf8_lossy(&output.stderr).into_owned(),
    }
}

/// Runs the tool with nothing on standard input.
pub fn run<S: AsRef<OsStr>>(words: &[S]) -> Ran {
    run_with(words, b"")
}

/// A command line that stands in an example's comment.
pub struct Line {
    /// The picture's name without its ending.
    pub name: String,
    /// The options of the order.
    pub order: Vec<String>,
    pub file: String,
}

/// All command lines of the examples: `# $ hizlaou preview OPTIONS -o NAME.svg FILE`.
pub fn lines() -> Vec<Line> {
    let mut lines = Vec::new();
    for entry in std::fs::read_dir(examples()).expect("examples").flatten() {
        if entry.path().extension() != Some(OsStr::new("path")) {
            continue;
        }
        let text = std::fs::read_to_string(entry.path()).expect("an example");
        lines.extend(text.lines().filter_map(|l| l.strip_prefix("# $ hizlaou preview ")).map(line));
    }
    lines.sort_by(|a, b| a.name.cmp(&b.name));
    lines
}

fn line(text: &str) -> Line {
    let parts: Vec<&str> = text.split('"').collect();
    let mut words = Vec::new();
    for (i, part) in parts.iter().enumerate() {
        if i % 2 == 1 {
            words.push(part.to_string());
        } else {
            words.extend(part.split_whitespace().map(String::from));
        }
    }
    let file = words.pop().expect("a file");
    let picture = words.pop().expect("a picture");
    assert_eq!(words.pop().as_deref(), Some("-o"));
    Line { name: picture.trim_end_matches(".svg").into(), order: words, file }
}
