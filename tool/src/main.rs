//! hizlaou: see what a unit will put to air, before it does. `help` has the manual.
mod answer;
mod canvas;
mod curve;
mod held;
mod help;
mod json;
mod legend;
mod lexer;
mod number;
mod options;
mod order;
mod outline;
mod picture;
mod progress;
mod source;
mod tell;
mod text;
mod walk;
mod warnings;

use answer::Answer;
use hizlaou::Refusal;
use options::{Asked, Command, Options};
use order::Order;
use outline::{Outline, Trouble};
use progress::Progress;
use source::Source;
use std::ffi::OsString;
use std::fs::File;
use std::io::{self, BufWriter, Write};
use std::process::ExitCode;
use tell::tell;

/// Why there is no answer.
enum Failure {
    /// Exit status 2, with a message.
    Wrong(String),
    /// Exit status 1: refused by the library, at a place of the input or not.
    Refused(Refusal, Option<String>),
    /// The reader of the answer has gone: nobody is left to tell.
    Gone,
}

fn main() -> ExitCode {
    let words: Vec<OsString> = std::env::args_os().skip(1).collect();
    let done = match options::read(&words) {
        Ok(Asked::Help) => put(None, |out| out.write_all(help::HELP.as_bytes())).map(|()| 0),
        Ok(Asked::Version) => put(None, |out| writeln!(out, "hizlaou {}", env!("CARGO_PKG_VERSION"))).map(|()| 0),
        Ok(Asked::Run(options)) => run(&options),
        Err(message) => Err(Failure::Wrong(format!("{message}\n{}", help::USAGE))),
    };
    ExitCode::from(match done {
        Ok(status) => status,
        Err(Failure::Wrong(message)) => {
            tell(message);
            2
        }
        Err(Failure::Refused(refusal, place)) => {
            let place = place.map_or(String::new(), |p| p + ": ");
            tell(format!("{place}refused with number {}: {}", refusal.number(), refusal.meaning()));
            tell(format!("what to change: {}", refusal.remedy()));
            1
        }
        Err(Failure::Gone) => 2,
    })
}

/// Does what the options ask; answers the exit status.
fn run(options: &Options) -> Result<u8, Failure> {
    let progress = Progress::start();
    let done = ask(options, &progress);
    if let (Err(Failure::Refused(refusal, _)), true) = (&done, options.json) {
        put(options.output.as_ref(), |out| json::refused(out, *refusal))?;
    }
    done
}

fn ask(options: &Options, progress: &Progress) -> Result<u8, Failure> {
    let (source, outline) = read(options, progress)?;
    let order = answer::order_of(options).map_err(|refusal| Failure::Refused(refusal, None))?;
    let answer = answer::answer(options.command, &outline, &order, progress).map_err(|refusal| Failure::Refused(refusal, None))?;
    warn(&answer);
    if options.command == Command::Preview {
        progress.stage("drawing", 0);
        let picture = picture::draw(&source.title(), &outline, &order, &answer);
        put(options.output.as_ref(), |out| out.write_all(picture.as_bytes()))?;
    } else {
        progress.stage("writing", answer.size(&outline.path));
        put(options.output.as_ref(), |out| answered(out, options.json, &answer, &outline, &order, progress))?;
    }
    Ok(u8::from(options.refuse_whole && answer.is_barrier()))
}

/// Reads the path data.
fn read(options: &Options, progress: &Progress) -> Result<(Source, Outline), Failure> {
    progress.stage("reading", 0);
    let source = Source::read(&options.input).map_err(Failure::Wrong)?;
    progress.stage("building", source.bytes.len());
    let outline = outline::read(&source.bytes, options.rule, |n| progress.done(n)).map_err(|trouble| match trouble {
        Trouble::Malformed(fault) => Failure::Wrong(source.explain(&fault)),
        Trouble::Refused(refusal, at) => Failure::Refused(refusal, Some(source.at(at))),
    })?;
    if let Some(at) = outline.too_large {
        tell(format!("{}: too large for an f32, read as an infinity", source.at(at)));
    }
    Ok((source, outline))
}

fn warn(answer: &Answer) {
    for warning in warnings::warnings(answer) {
        tell(format!("WARNING: {}", warning.headline));
        warning.reason.lines().for_each(|line| tell(format!("         {line}")));
    }
}

fn answered(out: &mut dyn Write, is_json: bool, answer: &Answer, outline: &Outline, order: &Order, progress: &Progress) -> io::Result<()> {
    let done = |n| progress.done(n);
    if is_json {
        json::write(out, answer, &outline.path, order, done)
    } else {
        text::write(out, answer, &outline.path, order, done)
    }
}

/// Writes to the file, or to standard output.
fn put(file: Option<&std::path::PathBuf>, write: impl FnOnce(&mut dyn Write) -> io::Result<()>) -> Result<(), Failure> {
    let written = match file {
        Some(path) => File::create(path).and_then(|file| all(file, write)),
        None => all(io::stdout().lock(), write),
    };
    written.map_err(|error| match (file, error.kind()) {
        (None, io::ErrorKind::BrokenPipe) => Failure::Gone,
        (None, _) => Failure::Wrong(format!("standard output can't be written: {error}")),
        (Some(path), _) => Failure::Wrong(format!("{} can't be written: {error}", path.display())),
    })
}

fn all(out: impl Write, write: impl FnOnce(&mut dyn Write) -> io::Result<()>) -> io::Result<()> {
    let mut out = BufWriter::new(out);
    write(&mut out)?;
    out.flush()
}
