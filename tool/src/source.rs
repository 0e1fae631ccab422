//! Where the path data come from, and how a place in them is shown.
use crate::lexer::Fault;
use crate::tell::tell;
use std::fs;
use std::io::{self, IsTerminal, Read};
use std::path::{Path, PathBuf};

/// Where to read from.
#[derive(Debug, Clone, PartialEq)]
pub enum Input {
    Standard,
    File(PathBuf),
    Argument(Vec<u8>),
}

/// What was read, under a name for messages.
pub struct Source {
    pub name: String,
    pub bytes: Vec<u8>,
}

impl Source {
    /// A source from memory.
    pub fn new(name: &str, bytes: &[u8]) -> Source {
        Source { name: name.into(), bytes: bytes.into() }
    }

    /// Reads the whole input.
    pub fn read(input: &Input) -> Result<Source, String> {
        let (name, read) = match input {
            Input::Argument(bytes) => ("argument".to_string(), Ok(bytes.clone())),
            Input::File(path) => (path.display().to_string(), fs::read(path)),
            Input::Standard => ("standard input".to_string(), read_standard()),
        };
        match read {
            Ok(bytes) => Ok(Source { name, bytes }),
            Err(error) => Err(format!("{name} can't be read: {error}")),
        }
    }

    /// The name without its folders.
    pub fn title(&self) -> String {
        let file = Path::new(&self.name).file_name();
        file.map_or_else(|| self.name.clone(), |name| name.to_string_lossy().into_owned())
    }

    /// Line and column of a byte, both from 1. A column is a character; a broken byte is one too.
    pub fn place(&self, at: usize) -> (usize, usize) {
        let before = self.bytes.get(..at).unwrap_or(&self.bytes);
        let line = before.iter().filter(|&&b| b == b'\n').count() + 1;
        let start = before.iter().rposition(|&b| b == b'\n').map_or(0, |n| n + 1);
        let column = String::from_utf8_lossy(before.get(start..).unwrap_or_default()).chars().count() + 1;
        (line, column)
    }

    /// The name with line and column.
    pub fn at(&self, at: usize) -> String {
        let (line, column) = self.place(at);
        format!("{}, line {line}, column {column}", self.name)
    }

    /// A fault with its place, the line and a mark under the column.
    pub fn explain(&self, fault: &Fault) -> String {
        format!("{}: {}\n{}", self.at(fault.at), fault.message, self.excerpt(fault.at))
    }

    /// The line of a byte, at most 72 characters round it, and a mark under it.
    fn excerpt(&self, at: usize) -> String {
        let (line, column) = self.place(at);
        let text = self.bytes.split(|&b| b == b'\n').nth(line - 1).unwrap_or_default();
        let from = column.saturating_sub(1).saturating_sub(48);
        let shown: String = String::from_utf8_lossy(text).chars().skip(from).take(72).map(|c| if c.is_control() { ' ' } else { c }).collect();
        format!("  | {}\n  | {}^", shown.trim_end(), " ".repeat(column - 1 - from))
    }
}

fn read_standard() -> io::Result<Vec<u8>> {
    let mut standard = io::stdin().lock();
    if standard.is_terminal() {
        tell("reading path data from the terminal; Ctrl-D ends them, --help explains");
    }
    let mut bytes = Vec::new();
    standard.read_to_end(&mut bytes)?;
    Ok(bytes)
}

#[cfg(test)]
mod tests {
    use super::*;

    #[test]
    fn places_count_lines_and_characters() {
        let source = Source::new("course", "M 0 0\n# é\né L x".as_bytes());
        assert_eq!(source.place(0), (1, 1));
        assert_eq!(source.place(6), (2, 1));
        let x = source.bytes.len() - 1;
        assert_eq!(source.place(x), (3, 5));
        assert_eq!(source.place(usize::MAX), (3, 6));
        let fault = Fault { at: x, message: "a number is expected, not 'x'".into() };
        assert_eq!(source.explain(&fault), "course, line 3, column 5: a number is expected, not 'x'\n  | é L x\n  |     ^");
    }

    #[test]
    fn a_long_line_is_cut_round_its_fault() {
        let source = Source::new("long", "1 ".repeat(500).as_bytes());
        let shown = source.excerpt(600);
        assert_eq!(shown.lines().map(|l| l.chars().count()).max(), Some(4 + 71));
        assert_eq!(shown.lines().nth(1).and_then(|l| l.find('^')), Some(4 + 48));
    }
}
