//! The words of path data: letters and numbers, with blanks, commas and comments between them.
//!
//! Numbers follow SVG's grammar (`1.5.5` is 1.5 and .5, `-1-2` is -1 and -2) and are read to the nearest f32. A `#` starts a comment up to the
//! end of its line, which SVG doesn't have.

/// What is wrong with the input, and at which byte.
#[derive(Debug, Clone, PartialEq)]
pub struct Fault {
    pub at: usize,
    pub message: String,
}

/// Goes through the input from front to back.
pub struct Lexer<'a> {
    bytes: &'a [u8],
    at: usize,
    /// The first number that was too large for an f32, by its byte.
    pub too_large: Option<usize>,
}

impl<'a> Lexer<'a> {
    pub fn new(bytes: &'a [u8]) -> Lexer<'a> {
        Lexer { bytes, at: 0, too_large: None }
    }

    /// The byte that comes next, by its number.
    pub fn at(&self) -> usize {
        self.at
    }

    pub fn is_at_end(&self) -> bool {
        self.at >= self.bytes.len()
    }

    fn next_is(&self, test: impl Fn(u8) -> bool) -> bool {
        self.bytes.get(self.at).is_some_and(|&b| test(b))
    }

    fn skip_while(&mut self, test: impl Fn(u8) -> bool) {
        while self.next_is(&test) {
            self.at += 1;
        }
    }

    /// Passes over blanks and comments.
    pub fn skip_blanks(&mut self) {
        loop {
            self.skip_while(is_blank);
            if !self.next_is(|b| b == b'#') {
                return;
            }
            self.skip_while(|b| b != b'\n');
        }
    }

    /// Passes over blanks with at most one comma among them, and says whether there was one.
    pub fn skip_comma(&mut self) -> bool {
        self.skip_blanks();
        let comma = self.next_is(|b| b == b',');
        if comma {
            self.at += 1;
            self.skip_blanks();
        }
        comma
    }

    /// Whether a number begins here.
    pub fn is_at_number(&self) -> bool {
        self.next_is(|b| b.is_ascii_digit() || matches!(b, b'+' | b'-' | b'.'))
    }

    /// The letter that stands here, passed over.
    pub fn letter(&mut self) -> Option<u8> {
        let letter = self.bytes.get(self.at).copied().filter(u8::is_ascii_alphabetic)?;
        self.at += 1;
        Some(letter)
    }

    /// The number that begins here, rounded once to the nearest f32. One too large for an f32 is infinite, and noted.
    pub fn number(&mut self) -> Result<f32, Fault> {
        if !self.is_at_number() {
            return Err(self.fault(format!("a number is expected, not {}", self.here())));
        }
        let start = self.at;
        self.skip_number()?;
        let word = self.bytes.get(start..self.at).and_then(|word| std::str::from_utf8(word).ok());
        let Some(value) = word.and_then(|word| word.parse::<f32>().ok()) else {
            return Err(Fault { at: start, message: "this number can't be read".into() });
        };
        if value.is_infinite() {
            self.too_large.get_or_insert(start);
        }
        Ok(value)
    }

    /// Passes over sign, digits, fraction and exponent.
    fn skip_number(&mut self) -> Result<(), Fault> {
        self.skip_sign();
        let mut digits = self.skip_digits();
        if self.next_is(|b| b == b'.') {
            self.at += 1;
            digits += self.skip_digits();
        }
        if digits == 0 {
            return Err(self.fault(format!("a digit is expected, not {}", self.here())));
        }
        if self.next_is(|b| matches!(b, b'e' | b'E')) {
            self.at += 1;
            self.skip_sign();
            if self.skip_digits() == 0 {
                return Err(self.fault(format!("the exponent needs a digit, not {}", self.here())));
            }
        }
        Ok(())
    }

    fn skip_sign(&mut self) {
        if self.next_is(|b| matches!(b, b'+' | b'-')) {
            self.at += 1;
        }
    }

    fn skip_digits(&mut self) -> usize {
        let start = self.at;
        self.skip_while(|b| b.is_ascii_digit());
        self.at - start
    }

    /// A fault at this place.
    pub fn fault(&self, message: String) -> Fault {
        Fault { at: self.at, message }
    }

    /// What stands here, in words.
    pub fn here(&self) -> String {
        let rest = self.bytes.get(self.at..).unwrap_or_default();
        let Some(&first) = rest.first() else { return "the end".into() };
        // A character has at most 4 bytes: to look at more would cost time for each command.
        let known = rest.get(..4).unwrap_or(rest).utf8_chunks().next().and_then(|chunk| chunk.valid().chars().next());
        match known {
            Some(c) if !c.is_control() => format!("'{c}'"),
            _ => format!("byte {first:#04X}"),
        }
    }
}

/// SVG's blanks: tab, line feed, form feed, carriage return, space.
fn is_blank(b: u8) -> bool {
    matches!(b, b'\t' | b'\n' | 0x0C | b'\r' | b' ')
}

/// All numbers of a list such as `12 6` or `12,6`, and the byte of the first that is too large for an f32.
pub fn numbers(bytes: &[u8]) -> Result<(Vec<f32>, Option<usize>), Fault> {
    let mut lexer = Lexer::new(bytes);
    let mut list = Vec::new();
    lexer.skip_blanks();
    while !lexer.is_at_end() {
        list.push(lexer.number()?);
        if lexer.skip_comma() && lexer.is_at_end() {
            return Err(lexer.fault("a number is expected after the comma, not the end".into()));
        }
    }
    Ok((list, lexer.too_large))
}

#[cfg(test)]
mod tests {
    use super::*;

    fn read(text: &str) -> Vec<f32> {
        numbers(text.as_bytes()).unwrap().0
    }

    fn fault(text: &[u8]) -> (usize, String) {
        let fault = numbers(text).unwrap_err();
        (fault.at, fault.message)
    }

    #[test]
    fn svg_numbers_part_where_the_grammar_says() {
        assert_eq!(read("1.5.5"), [1.5, 0.5]);
        assert_eq!(read("-1-2+3"), [-1.0, -2.0, 3.0]);
        assert_eq!(read("1e3,1E-3 .5e+1"), [1000.0, 0.001, 5.0]);
        assert_eq!(read("7. 8"), [7.0, 8.0]);
        assert_eq!(read(" \t\r\n\x0C1 # two 2 3\n , 4 "), [1.0, 4.0]);
        assert_eq!(read(""), []);
    }

    #[test]
    fn numbers_are_rounded_once() {
        // Just over the middle between 1 and the next f32: reading it as f64 first would give 1.
        assert_eq!(read("1.00000005960464477540"), [1.0 + f32::EPSILON]);
        assert_eq!(read("1.000000059604644775390625"), [1.0]);
        assert_eq!(read("16777217"), [16777216.0]);
        assert_eq!(read("0.1")[0].to_bits(), 0x3DCC_CCCD);
        assert_eq!(read("-0")[0].to_bits(), 0x8000_0000);
        assert_eq!(read("1e-60"), [0.0]);
        assert_eq!(numbers(b"1 1e39"), Ok((vec![1.0, f32::INFINITY], Some(2))));
        assert_eq!(read(&"9".repeat(30)), [1e30]);
    }

    #[test]
    fn faults_say_where() {
        assert_eq!(fault(b"1 x"), (2, "a number is expected, not 'x'".into()));
        assert_eq!(fault(b"1 - 2"), (3, "a digit is expected, not ' '".into()));
        assert_eq!(fault(b"1e"), (2, "the exponent needs a digit, not the end".into()));
        assert_eq!(fault(b"1,"), (2, "a number is expected after the comma, not the end".into()));
        assert_eq!(fault(b"1,,2"), (2, "a number is expected, not ','".into()));
        assert_eq!(fault(b"\xFF"), (0, "a number is expected, not byte 0xFF".into()));
        assert_eq!(fault("3 é".as_bytes()), (2, "a number is expected, not 'é'".into()));
    }
}
