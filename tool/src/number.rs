//! Floats in writing: the fewest digits that read back, as an f32, to the very same float.
//!
//! Plain notation from 0.00001 up to 10^16, with an exponent outside; minus zero is `-0.0`. `NaN`, `Infinity` and `-Infinity` are words, and in JSON,
//! which has no such numbers, strings. The bits of a NaN are not shown.
use hizlaou::Vec2;
use std::fmt;

/// A float as text shows it.
pub struct Exact(pub f32);

impl fmt::Display for Exact {
    fn fmt(&self, f: &mut fmt::Formatter<'_>) -> fmt::Result {
        let size = self.0.abs();
        if size.is_nan() {
            f.write_str("NaN")
        } else if size.is_infinite() {
            f.write_str(if self.0 > 0.0 { "Infinity" } else { "-Infinity" })
        } else if size == 0.0 {
            f.write_str(if self.0.is_sign_negative() { "-0.0" } else { "0" })
        } else if (1e-5..1e16).contains(&size) {
            write!(f, "{}", self.0)
        } else {
            write!(f, "{:e}", self.0)
        }
    }
}

/// A float as JSON shows it.
pub struct Json(pub f32);

impl fmt::Display for Json {
    fn fmt(&self, f: &mut fmt::Formatter<'_>) -> fmt::Result {
        if self.0.is_finite() {
            Exact(self.0).fmt(f)
        } else {
            write!(f, "\"{}\"", Exact(self.0))
        }
    }
}

/// Floats with a blank between them.
pub fn list(values: &[f32]) -> String {
    let words: Vec<String> = values.iter().map(|&v| Exact(v).to_string()).collect();
    words.join(" ")
}

/// A point as messages show it.
pub fn place(p: Vec2) -> String {
    format!("({} {})", Exact(p.x), Exact(p.y))
}

/// A number of things: `1 run`, `2 runs`.
pub fn count(number: usize, thing: &str) -> String {
    format!("{number} {thing}{}", if number == 1 { "" } else { "s" })
}

#[cfg(test)]
mod tests {
    use super::*;

    #[test]
    fn written_as_documented() {
        let cases: [(f32, &str); 12] = [
            (0.1, "0.1"),
            (0.1 + 0.1, "0.2"),
            (12.0, "12"),
            (-0.0, "-0.0"),
            (0.0, "0"),
            (1e-5, "0.00001"),
            (1.5e-7, "1.5e-7"),
            (16777216.0, "16777216"),
            (3e20, "3e20"),
            (f32::MAX, "3.4028235e38"),
            (f32::NEG_INFINITY, "-Infinity"),
            (f32::NAN, "NaN"),
        ];
        for (value, text) in cases {
            assert_eq!(Exact(value).to_string(), text);
        }
        assert_eq!(Json(f32::NAN).to_string(), "\"NaN\"");
        assert_eq!(Json(0.25).to_string(), "0.25");
        assert_eq!(list(&[12.0, 0.5]), "12 0.5");
        assert_eq!([count(1, "run"), count(0, "run")], ["1 run", "0 runs"]);
    }

    #[test]
    fn every_float_reads_back() {
        let mut bits = 1u32;
        for _ in 0..300_000 {
            bits = bits.wrapping_mul(1_664_525).wrapping_add(1_013_904_223);
            let value = f32::from_bits(bits ^ (bits >> 15));
            let back: f32 = Exact(value).to_string().parse().unwrap();
            assert!(back.to_bits() == value.to_bits() || (back.is_nan() && value.is_nan()), "{value:?}");
        }
    }
}
