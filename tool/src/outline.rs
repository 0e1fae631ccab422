//! Path data to a path: SVG's commands M L H V Q T C S Z, absolute and relative, and K for a conic with a weight.
//!
//! All arithmetic on coordinates is in f32, rounded once: a relative coordinate is added to the pen, and the reflected control point of T and S is
//! twice the pen minus the last control point.
use crate::lexer::{Fault, Lexer};
use crate::number::count;
use hizlaou::{FillRule, Path, PathBuilder, Refusal, Vec2};

/// An outline as it was ordered.
pub struct Outline {
    pub path: Path,
    /// The buoys: where the commands of a drawn subpath start and end, its start once.
    pub corners: Vec<Vec2>,
    /// The byte of the first number that is too large for an f32.
    pub too_large: Option<usize>,
}

/// Why no outline was made.
#[derive(Debug, PartialEq)]
pub enum Trouble {
    Malformed(Fault),
    /// The library refused the command at this byte.
    Refused(Refusal, usize),
}

impl From<Fault> for Trouble {
    fn from(fault: Fault) -> Trouble {
        Trouble::Malformed(fault)
    }
}

/// Reads path data. `progress` is told how many bytes are done.
pub fn read(bytes: &[u8], rule: FillRule, progress: impl Fn(usize)) -> Result<Outline, Trouble> {
    let mut lexer = Lexer::new(bytes);
    let mut plotter = Plotter::new(rule);
    lexer.skip_blanks();
    while !lexer.is_at_end() {
        let command = next_command(&mut lexer, plotter.is_fresh)?;
        read_arguments(&mut lexer, &mut plotter, command, &progress)?;
        lexer.skip_blanks();
    }
    Ok(Outline { path: plotter.builder.build(), corners: plotter.corners, too_large: lexer.too_large })
}

/// A command letter, taken apart.
#[derive(Clone, Copy)]
struct Command {
    /// The letter as a capital.
    kind: u8,
    relative: bool,
    numbers: usize,
}

/// How many numbers a command takes.
fn numbers_of(kind: u8) -> Option<usize> {
    match kind {
        b'Z' => Some(0),
        b'H' | b'V' => Some(1),
        b'M' | b'L' | b'T' => Some(2),
        b'Q' | b'S' => Some(4),
        b'K' => Some(5),
        b'C' => Some(6),
        _ => None,
    }
}

fn next_command(lexer: &mut Lexer, is_first: bool) -> Result<Command, Fault> {
    let start = lexer.at();
    let here = lexer.here();
    let Some(letter) = lexer.letter() else {
        return Err(Fault { at: start, message: format!("a command (M L H V Q T C S K Z) is expected, not {here}") });
    };
    let kind = letter.to_ascii_uppercase();
    let Some(numbers) = numbers_of(kind) else {
        let hint = if kind == b'A' { "; arcs are left out, a conic (K cx cy x y weight) draws them" } else { "" };
        return Err(Fault { at: start, message: format!("{here} is no command (M L H V Q T C S K Z){hint}") });
    };
    if is_first && kind != b'M' {
        return Err(Fault { at: start, message: format!("path data begin with M or m, not {here}") });
    }
    Ok(Command { kind, relative: letter.is_ascii_lowercase(), numbers })
}

/// Reads a command's numbers, as often as they repeat, and draws. After a move, further points are lines.
fn read_arguments(lexer: &mut Lexer, plotter: &mut Plotter, mut command: Command, progress: &impl Fn(usize)) -> Result<(), Trouble> {
    let mut start = lexer.at().saturating_sub(1);
    loop {
        let mut values = [0.0; 6];
        for (i, value) in values.iter_mut().take(command.numbers).enumerate() {
            if i == 0 {
                lexer.skip_blanks();
            } else {
                lexer.skip_comma();
            }
            *value = lexer.number().map_err(|fault| lacking(fault, command, i))?;
        }
        plotter.draw(command, values).map_err(|refusal| Trouble::Refused(refusal, start))?;
        progress(lexer.at());
        if command.numbers == 0 {
            return Ok(());
        }
        let comma = lexer.skip_comma();
        if !lexer.is_at_number() {
            return if comma { Err(lexer.fault(format!("a number is expected after the comma, not {}", lexer.here())).into()) } else { Ok(()) };
        }
        start = lexer.at();
        if command.kind == b'M' {
            command.kind = b'L';
        }
    }
}

/// A fault in a command's numbers, with which of them it is.
fn lacking(fault: Fault, command: Command, index: usize) -> Fault {
    let letter = char::from(if command.relative { command.kind.to_ascii_lowercase() } else { command.kind });
    let message = format!("{}; {letter} takes {} and this is number {}", fault.message, count(command.numbers, "number"), index + 1);
    Fault { message, ..fault }
}

/// The control point that T or S reflects: the last one, if the command before was of the same kind.
#[derive(Clone, Copy)]
enum Control {
    None,
    Quad(Vec2),
    Cubic(Vec2),
}

/// Makes the builder's calls from commands.
struct Plotter {
    builder: PathBuilder,
    pen: Vec2,
    start: Vec2,
    control: Control,
    corners: Vec<Vec2>,
    /// Nothing read yet.
    is_fresh: bool,
    /// The latest move is no corner yet: nothing is drawn from it.
    is_start_open: bool,
}

impl Plotter {
    fn new(rule: FillRule) -> Plotter {
        let builder = PathBuilder::new().with_fill_rule(rule);
        Plotter { builder, pen: Vec2::ZERO, start: Vec2::ZERO, control: Control::None, corners: Vec::new(), is_fresh: true, is_start_open: false }
    }

    /// Draws one command. A refused one changes nothing.
    fn draw(&mut self, command: Command, v: [f32; 6]) -> Result<(), Refusal> {
        let pen = self.pen;
        let x = |value: f32| if command.relative { pen.x + value } else { value };
        let y = |value: f32| if command.relative { pen.y + value } else { value };
        let [first, second, third] = [(v[0], v[1]), (v[2], v[3]), (v[4], v[5])].map(|p| Vec2::new(x(p.0), y(p.1)));
        match command.kind {
            b'M' => self.move_to(first),
            b'L' => self.line_to(first),
            b'H' => self.line_to(Vec2::new(x(v[0]), pen.y)),
            b'V' => self.line_to(Vec2::new(pen.x, y(v[0]))),
            b'Q' => self.quad_to(first, second),
            b'T' => self.quad_to(self.reflected_quad(), first),
            b'C' => self.cubic_to(first, second, third),
            b'S' => self.cubic_to(self.reflected_cubic(), first, second),
            b'K' => self.conic_to(first, second, v[4]),
            _ => self.close(),
        }
    }

    fn move_to(&mut self, to: Vec2) -> Result<(), Refusal> {
        self.builder.move_to(to)?;
        self.pen = to;
        self.start = to;
        self.control = Control::None;
        self.is_fresh = false;
        self.is_start_open = true;
        Ok(())
    }

    fn line_to(&mut self, to: Vec2) -> Result<(), Refusal> {
        self.builder.line_to(to)?;
        self.drawn(to, Control::None)
    }

    fn quad_to(&mut self, control: Vec2, to: Vec2) -> Result<(), Refusal> {
        self.builder.quad_to(control, to)?;
        self.drawn(to, Control::Quad(control))
    }

    fn cubic_to(&mut self, first: Vec2, second: Vec2, to: Vec2) -> Result<(), Refusal> {
        self.builder.cubic_to(first, second, to)?;
        self.drawn(to, Control::Cubic(second))
    }

    fn conic_to(&mut self, control: Vec2, to: Vec2, weight: f32) -> Result<(), Refusal> {
        self.builder.conic_to(control, to, weight)?;
        self.drawn(to, Control::None)
    }

    fn close(&mut self) -> Result<(), Refusal> {
        self.builder.close()?;
        self.pen = self.start;
        self.control = Control::None;
        Ok(())
    }

    /// The pen has arrived by a drawn command.
    fn drawn(&mut self, to: Vec2, control: Control) -> Result<(), Refusal> {
        if std::mem::take(&mut self.is_start_open) {
            self.corners.push(self.start);
        }
        if to != self.start {
            self.corners.push(to);
        }
        self.pen = to;
        self.control = control;
        Ok(())
    }

    fn reflected_quad(&self) -> Vec2 {
        match self.control {
            Control::Quad(last) => self.reflected(last),
            _ => self.pen,
        }
    }

    fn reflected_cubic(&self) -> Vec2 {
        match self.control {
            Control::Cubic(last) => self.reflected(last),
            _ => self.pen,
        }
    }

    fn reflected(&self, control: Vec2) -> Vec2 {
        Vec2::new(2.0 * self.pen.x - control.x, 2.0 * self.pen.y - control.y)
    }
}

#[cfg(test)]
mod tests {
    use super::*;
    use hizlaou::Verb;

    fn outline(data: &str) -> Outline {
        read(data.as_bytes(), FillRule::NonZero, |_| ()).unwrap()
    }

    /// The path's verbs as letters with their points.
    fn drawn(data: &str) -> Vec<(&'static str, Vec<(f32, f32)>)> {
        let path = outline(data).path;
        path.segments().map(|(verb, points)| (crate::text::letter(verb), points.iter().map(|p| (p.x, p.y)).collect())).collect()
    }

    fn fault(data: &str) -> (usize, String) {
        match read(data.as_bytes(), FillRule::NonZero, |_| ()) {
            Err(Trouble::Malformed(fault)) => (fault.at, fault.message),
            _ => panic!("{data} is read"),
        }
    }

    #[test]
    fn absolute_and_relative_commands_draw_the_same() {
        let pairs = [
            ("M1 2L4 6", "m1 2l3 4"),
            ("M1 2H4V6", "m1 2h3v4"),
            ("M1 2Q3 4 5 6T9 8", "m1 2q2 2 4 4t4 2"),
            ("M1 2C1 2 3 4 5 6S8 7 9 8", "m1 2c0 0 2 2 4 4s3 1 4 2"),
            ("M1 2K3 4 5 6 .5", "m1 2k2 2 4 4 .5"),
            ("M1 2L4 6ZL0 0", "m1 2l3 4zl-1-2"),
            ("M1 2L4 6 7 8M0 0", "m1 2 3 4 3 2M0 0"),
        ];
        for (absolute, relative) in pairs {
            assert_eq!(drawn(absolute), drawn(relative));
        }
    }

    #[test]
    fn curves_go_on_smoothly() {
        assert_eq!(drawn("M0 0Q1 2 3 0T6 0")[2], ("Q", vec![(5.0, -2.0), (6.0, 0.0)]));
        assert_eq!(drawn("M0 0L3 0T6 0")[2], ("Q", vec![(3.0, 0.0), (6.0, 0.0)]));
        assert_eq!(drawn("M0 0C0 1 1 2 3 0S5 5 6 0")[2], ("C", vec![(5.0, -2.0), (5.0, 5.0), (6.0, 0.0)]));
        assert_eq!(drawn("M0 0Q1 2 3 0S5 5 6 0")[2], ("C", vec![(3.0, 0.0), (5.0, 5.0), (6.0, 0.0)]));
    }

    #[test]
    fn further_points_repeat_the_command() {
        assert_eq!(drawn("M0 0 1 1,2 2"), drawn("M0 0L1 1L2 2"));
        assert_eq!(drawn("M0,0Q1 1 2 0 3 1 4 0"), drawn("M0 0Q1 1 2 0Q3 1 4 0"));
        assert_eq!(drawn("M0 0h1 2-3"), drawn("M0 0H1H3H0"));
    }

    #[test]
    fn a_conic_lays_quads_or_a_line() {
        let quads = outline("M1 0K1 1 0 1 .70710678").path;
        assert!(quads.verbs().len() > 2 && quads.verbs()[1..].iter().all(|v| *v == Verb::QuadTo));
        assert_eq!(drawn("M1 0K1 1 0 1 0"), drawn("M1 0L0 1"));
    }

    #[test]
    fn corners_are_where_commands_end() {
        let corners = |data| outline(data).corners.iter().map(|p| (p.x, p.y)).collect::<Vec<_>>();
        assert_eq!(corners("M1 0K1 1 0 1 .5"), [(1.0, 0.0), (0.0, 1.0)]);
        assert_eq!(corners("M0 0H4V4H0ZM9 9M5 5"), [(0.0, 0.0), (4.0, 0.0), (4.0, 4.0), (0.0, 4.0)]);
        assert_eq!(corners("M0 0H4V4L0 0Z"), [(0.0, 0.0), (4.0, 0.0), (4.0, 4.0)]);
    }

    #[test]
    fn each_fault_has_its_place() {
        let cases = [
            ("L1 2", 0, "path data begin with M or m, not 'L'"),
            ("M1 2 X", 5, "'X' is no command (M L H V Q T C S K Z)"),
            ("M1 2A3", 4, "'A' is no command (M L H V Q T C S K Z); arcs are left out, a conic (K cx cy x y weight) draws them"),
            ("M1 2Z3", 5, "a command (M L H V Q T C S K Z) is expected, not '3'"),
            ("M1 2;", 4, "a command (M L H V Q T C S K Z) is expected, not ';'"),
            ("M1", 2, "a number is expected, not the end; M takes 2 numbers and this is number 2"),
            ("M1 2c1 2 3 L", 11, "a number is expected, not 'L'; c takes 6 numbers and this is number 4"),
            ("M1 2h", 5, "a number is expected, not the end; h takes 1 number and this is number 1"),
            ("M,1 2", 1, "a number is expected, not ','; M takes 2 numbers and this is number 1"),
            ("M1 2,Z", 5, "a number is expected after the comma, not 'Z'"),
            ("M1 2,", 5, "a number is expected after the comma, not the end"),
            ("M1 2e", 5, "the exponent needs a digit, not the end; M takes 2 numbers and this is number 2"),
            ("M1 nan", 3, "a number is expected, not 'n'; M takes 2 numbers and this is number 2"),
        ];
        for (data, at, message) in cases {
            assert_eq!(fault(data), (at, message.to_string()), "{data}");
        }
    }

    #[test]
    fn a_full_builder_refuses_at_the_command() {
        let most = format!("M0 0{}", "h1 ".repeat(65_535));
        assert_eq!(outline(&most).path.verbs().len(), 65_536);
        let over = read((most.clone() + "h1").as_bytes(), FillRule::NonZero, |_| ());
        assert_eq!(over.err(), Some(Trouble::Refused(Refusal::BUILDER_FULL, most.len())));
    }

    /// Any bytes are read, found malformed or refused: nothing else happens.
    #[test]
    fn no_bytes_break_the_reading() {
        let letters = b"MmLlHhVvQqTtCcSsKkZz0123456789..--++ee,,  \n\t#A\xFF\xC3";
        let mut seed = 1u32;
        let mut next = |limit: usize| {
            seed = seed.wrapping_mul(1_664_525).wrapping_add(1_013_904_223);
            (seed >> 8) as usize % limit
        };
        let mut read_whole = 0;
        for _ in 0..50_000 {
            let mut bytes = b"M0 0".to_vec();
            bytes.extend((0..next(30)).map(|_| letters[next(letters.len())]));
            read_whole += usize::from(read(&bytes, FillRule::NonZero, |_| ()).is_ok());
        }
        assert!(read_whole > 1_000, "only {read_whole} were read");
    }
}
