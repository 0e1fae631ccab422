//! The command line.
use crate::lexer::numbers;
use crate::source::{Input, Source};
use crate::tell::tell;
use hizlaou::{FillRule, DEFAULT_TOLERANCE};
use std::ffi::{OsStr, OsString};
use std::path::PathBuf;

/// What to do.
#[derive(Debug, Clone, Copy, PartialEq)]
pub enum Command {
    Flatten,
    Dash,
    Convexity,
    Bounds,
    Preview,
}

impl Command {
    fn named(name: &str) -> Option<Command> {
        match name {
            "flatten" => Some(Command::Flatten),
            "dash" => Some(Command::Dash),
            "convexity" => Some(Command::Convexity),
            "bounds" => Some(Command::Bounds),
            "preview" => Some(Command::Preview),
            _ => None,
        }
    }

    /// Whether the outline is dashed, so that it can come out whole.
    pub fn dashes(self) -> bool {
        matches!(self, Command::Dash | Command::Preview)
    }
}

/// What the command line asks for.
#[derive(Debug, PartialEq)]
pub enum Asked {
    Help,
    Version,
    Run(Options),
}

/// The options, as given. Numbers are read as in path data.
#[derive(Debug, PartialEq)]
pub struct Options {
    pub command: Command,
    pub input: Input,
    pub tolerance: f32,
    pub scale: Option<f32>,
    pub style: Option<usize>,
    pub pattern: Option<Vec<f32>>,
    pub phase: f32,
    pub rule: FillRule,
    pub json: bool,
    pub refuse_whole: bool,
    pub output: Option<PathBuf>,
}

/// Reads the command line, without the program's name. An error is a message to print.
pub fn read(words: &[OsString]) -> Result<Asked, String> {
    if words.iter().any(|w| w == "--help" || w == "-h") || words.first().is_some_and(|w| w == "help") {
        return Ok(Asked::Help);
    }
    if words.first().is_some_and(|w| w == "--version") {
        return Ok(Asked::Version);
    }
    let Some((first, rest)) = words.split_first() else {
        return Err("a command is missing: flatten, dash, convexity, bounds or preview".into());
    };
    let Some(command) = first.to_str().and_then(Command::named) else {
        return Err(format!("{} is no command: flatten, dash, convexity, bounds or preview", shown(first)));
    };
    let given = Given::collect(rest)?;
    given.check(command)?;
    given.options(command).map(Asked::Run)
}

/// The options' words, each at most once.
#[derive(Default)]
struct Given {
    /// Options with a value, by name.
    values: Vec<(&'static str, OsString)>,
    /// Options without one.
    flags: Vec<&'static str>,
    file: Option<OsString>,
}

const WITH_VALUE: [&str; 8] = ["--data", "--tolerance", "--scale", "--style", "--pattern", "--phase", "--rule", "--output"];
const FLAGS: [&str; 2] = ["--json", "--refuse-whole"];

impl Given {
    fn collect(words: &[OsString]) -> Result<Given, String> {
        let mut given = Given::default();
        let mut words = words.iter();
        let mut only_files = false;
        while let Some(word) = words.next() {
            if only_files || word == "-" || !word.as_encoded_bytes().starts_with(b"-") {
                given.take_file(word)?;
            } else if word == "--" {
                only_files = true;
            } else {
                given.take_option(word, &mut words)?;
            }
        }
        Ok(given)
    }

    fn take_file(&mut self, word: &OsStr) -> Result<(), String> {
        match self.file.replace(word.into()) {
            Some(earlier) => Err(format!("one file at a time, not both {} and {}", shown(&earlier), shown(word))),
            None => Ok(()),
        }
    }

    fn take_option<'a>(&mut self, word: &OsStr, rest: &mut impl Iterator<Item = &'a OsString>) -> Result<(), String> {
        let (name, inner) = split_value(word);
        let name = match name {
            Some("-d") => "--data",
            Some("-o") => "--output",
            Some(name) => name,
            None => return Err(format!("{} is no option; --help lists them", shown(word))),
        };
        if self.has(name) {
            return Err(format!("{name} is given twice"));
        }
        if let (Some(flag), None) = (FLAGS.iter().find(|f| **f == name), &inner) {
            self.flags.push(flag);
            return Ok(());
        }
        let Some(known) = WITH_VALUE.iter().find(|o| **o == name) else {
            return Err(format!("{} is no option; --help lists them", shown(word)));
        };
        let Some(value) = inner.or_else(|| rest.next().cloned()) else {
            return Err(format!("{name} needs a value"));
        };
        self.values.push((known, value));
        Ok(())
    }

    fn has(&self, name: &str) -> bool {
        self.value(name).is_some() || self.flags.contains(&name)
    }

    fn value(&self, name: &str) -> Option<&OsString> {
        self.values.iter().find(|(n, _)| *n == name).map(|(_, value)| value)
    }

    /// What doesn't go together.
    fn check(&self, command: Command) -> Result<(), String> {
        if self.has("--style") && self.has("--pattern") {
            return Err("give --style or --pattern, not both".into());
        }
        if self.has("--data") && self.file.is_some() {
            return Err("give path data with --data or in a file, not both".into());
        }
        if self.has("--json") && command == Command::Preview {
            return Err("preview draws SVG: --json goes with flatten, dash, convexity and bounds".into());
        }
        if self.has("--refuse-whole") && !command.dashes() {
            return Err("--refuse-whole goes with dash and preview: nothing else comes out whole".into());
        }
        Ok(())
    }

    fn options(self, command: Command) -> Result<Options, String> {
        Ok(Options {
            command,
            input: self.input(),
            tolerance: self.number("--tolerance")?.unwrap_or(DEFAULT_TOLERANCE),
            scale: self.number("--scale")?,
            style: self.value("--style").map(|v| style(v)).transpose()?,
            pattern: self.value("--pattern").map(|v| number_list("--pattern", v)).transpose()?,
            phase: self.number("--phase")?.unwrap_or(0.0),
            rule: self.value("--rule").map_or(Ok(FillRule::NonZero), |v| rule(v))?,
            json: self.has("--json"),
            refuse_whole: self.has("--refuse-whole"),
            output: self.value("--output").filter(|v| *v != "-").map(PathBuf::from),
        })
    }

    fn input(&self) -> Input {
        match (self.value("--data"), &self.file) {
            (Some(data), _) => Input::Argument(data.as_encoded_bytes().to_vec()),
            (None, Some(file)) if file != "-" => Input::File(file.into()),
            _ => Input::Standard,
        }
    }

    fn number(&self, name: &str) -> Result<Option<f32>, String> {
        let Some(value) = self.value(name) else { return Ok(None) };
        match number_list(name, value)?.as_slice() {
            [one] => Ok(Some(*one)),
            list => Err(format!("{name} takes 1 number, not {}", list.len())),
        }
    }
}

/// `--name=value` taken apart. No name where it is no text.
fn split_value(word: &OsStr) -> (Option<&str>, Option<OsString>) {
    match word.to_str().map(|text| text.split_once('=')) {
        Some(Some((name, value))) if name.starts_with("--") => (Some(name), Some(value.into())),
        _ => (word.to_str(), None),
    }
}

fn number_list(name: &str, value: &OsStr) -> Result<Vec<f32>, String> {
    let source = Source::new(name, value.as_encoded_bytes());
    let (list, too_large) = numbers(&source.bytes).map_err(|fault| source.explain(&fault))?;
    if let Some(at) = too_large {
        tell(format!("{}: too large for an f32, read as an infinity", source.at(at)));
    }
    Ok(list)
}

/// A style's number. The library refuses those over 8, also one too large to hold.
fn style(value: &OsStr) -> Result<usize, String> {
    match value.to_str() {
        Some(digits) if !digits.is_empty() && digits.bytes().all(|b| b.is_ascii_digit()) => Ok(digits.parse().unwrap_or(usize::MAX)),
        _ => Err(format!("--style takes a number from 0 to 8, not {}", shown(value))),
    }
}

fn rule(value: &OsStr) -> Result<FillRule, String> {
    match value.to_str() {
        Some("nonzero") => Ok(FillRule::NonZero),
        Some("evenodd") => Ok(FillRule::EvenOdd),
        _ => Err(format!("--rule takes nonzero or evenodd, not {}", shown(value))),
    }
}

/// A word of the command line, for messages.
fn shown(word: &OsStr) -> String {
    format!("'{}'", word.to_string_lossy())
}

#[cfg(test)]
mod tests {
    use super::*;

    fn asked(line: &[&str]) -> Result<Asked, String> {
        read(&line.iter().map(OsString::from).collect::<Vec<_>>())
    }

    fn error(line: &[&str]) -> String {
        asked(line).unwrap_err()
    }

    #[test]
    fn options_in_both_forms() {
        let line = ["dash", "--style=3", "--phase", "-1.5", "--tolerance=.5", "--scale", "2", "--rule", "evenodd", "--json", "-"];
        let Ok(Asked::Run(options)) = asked(&line) else { panic!() };
        assert_eq!((options.style, options.phase, options.tolerance, options.scale), (Some(3), -1.5, 0.5, Some(2.0)));
        assert_eq!((options.rule, options.json, options.input), (FillRule::EvenOdd, true, Input::Standard));
        let Ok(Asked::Run(options)) = asked(&["preview", "--pattern", "12,6", "-o", "a.svg", "--", "-d"]) else { panic!() };
        assert_eq!((options.pattern, options.input), (Some(vec![12.0, 6.0]), Input::File("-d".into())));
        assert_eq!(options.output, Some("a.svg".into()));
    }

    #[test]
    fn help_and_version() {
        assert_eq!(asked(&["dash", "--help"]), Ok(Asked::Help));
        assert_eq!(asked(&["help"]), Ok(Asked::Help));
        assert_eq!(asked(&["--version"]), Ok(Asked::Version));
    }

    #[test]
    fn each_mistake_has_its_words() {
        let cases: [(&[&str], &str); 16] = [
            (&[], "a command is missing: flatten, dash, convexity, bounds or preview"),
            (&["draw"], "'draw' is no command: flatten, dash, convexity, bounds or preview"),
            (&["dash", "--fast"], "'--fast' is no option; --help lists them"),
            (&["dash", "--json=1"], "'--json=1' is no option; --help lists them"),
            (&["dash", "--style"], "--style needs a value"),
            (&["dash", "--style", "-1"], "--style takes a number from 0 to 8, not '-1'"),
            (&["dash", "--style", "1", "--style", "2"], "--style is given twice"),
            (&["dash", "--style", "1", "--pattern", "2 1"], "give --style or --pattern, not both"),
            (&["dash", "-d", "M0 0", "a.path"], "give path data with --data or in a file, not both"),
            (&["dash", "a", "b"], "one file at a time, not both 'a' and 'b'"),
            (&["dash", "--rule", "odd"], "--rule takes nonzero or evenodd, not 'odd'"),
            (&["dash", "--phase", "1 2"], "--phase takes 1 number, not 2"),
            (&["dash", "--phase", ""], "--phase takes 1 number, not 0"),
            (&["dash", "--pattern", "12 x"], "--pattern, line 1, column 4: a number is expected, not 'x'\n  | 12 x\n  |    ^"),
            (&["preview", "--json"], "preview draws SVG: --json goes with flatten, dash, convexity and bounds"),
            (&["bounds", "--refuse-whole"], "--refuse-whole goes with dash and preview: nothing else comes out whole"),
        ];
        for (line, words) in cases {
            assert_eq!(error(line), words);
        }
    }
}
