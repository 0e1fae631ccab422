//! Curves that the library held back at the most pieces it gives a curve, and the words for them.
use crate::curve::{curves, Curve};
use crate::number::{count, place};
use hizlaou::{held_curves, Path, Vec2, Verb, MAX_SEGMENTS};

/// The curves of an answer that were held back.
#[derive(Debug, PartialEq)]
pub struct Held {
    /// How many: the number that the library's answer carries.
    pub number: usize,
    /// Which, first to last, as the tool looked them up beside that answer.
    pub found: Vec<Curve>,
}

/// No curve was held back.
pub static NONE: Held = Held { number: 0, found: Vec::new() };

impl Held {
    /// So many were held back when a path was flattened at a tolerance; looks up which.
    pub fn look_up(number: usize, path: &Path, tolerance: f32) -> Held {
        let held = held_curves(path, tolerance);
        Held { number, found: curves(path).filter(|curve| held.binary_search(&curve.index).is_ok()).collect() }
    }

    /// Whether as many were found as the library says.
    pub fn agrees(&self) -> bool {
        self.found.len() == self.number
    }

    /// The curves, for their names and places. None where they are not as many as the library says: the list then tells nothing of its answer.
    pub fn curves(&self) -> &[Curve] {
        if self.agrees() {
            &self.found
        } else {
            &[]
        }
    }

    /// How many there are, in words; none where no curve was held back.
    pub fn in_words(&self) -> Option<String> {
        (self.number > 0).then(|| format!("{} held back at {MAX_SEGMENTS} pieces", count(self.number, "curve")))
    }
}

/// Which curve it is: the library's number of its verb, and where it ends, since that can be found in the path data and on the picture.
pub fn which(curve: &Curve) -> String {
    let kind = if curve.verb == Verb::QuadTo { "quad" } else { "cubic" };
    let end = curve.points.last().copied().unwrap_or(Vec2::ZERO);
    format!("verb {}, the {kind} to {}", curve.index, place(end))
}

#[cfg(test)]
impl Held {
    /// So many by the library's number, and so many quads found, whether or not these agree.
    pub fn made(number: usize, found: usize) -> Held {
        let quad = |index| Curve { index, verb: Verb::QuadTo, points: vec![Vec2::ZERO, Vec2::new(8.0, 8.0), Vec2::new(16.0, index as f32)] };
        Held { number, found: (1..=found).map(quad).collect() }
    }
}

#[cfg(test)]
mod tests {
    use super::*;
    use hizlaou::{flatten, PathBuilder};

    /// A quad, a line, a cubic and a quad that is nearly straight, in two subpaths.
    fn course() -> Path {
        let mut b = PathBuilder::new();
        b.move_to(Vec2::ZERO).unwrap().quad_to(Vec2::new(8.0, 8.0), Vec2::new(16.0, 0.0)).unwrap().line_to(Vec2::new(20.0, 0.0)).unwrap();
        b.close().unwrap().move_to(Vec2::new(1.0, 2.0)).unwrap();
        b.cubic_to(Vec2::new(1.0, 8.0), Vec2::new(9.0, 8.0), Vec2::new(9.5, 2.0)).unwrap();
        b.quad_to(Vec2::new(10.0, 2.0), Vec2::new(10.5, 2.015625)).unwrap();
        b.build()
    }

    fn look_up(path: &Path, tolerance: f32) -> Held {
        Held::look_up(flatten(path, tolerance).unwrap().totals().held, path, tolerance)
    }

    #[test]
    fn those_held_back_are_found_with_their_places() {
        let path = course();
        let held = look_up(&path, 1e-6);
        let words: Vec<String> = held.curves().iter().map(which).collect();
        assert_eq!(words, ["verb 1, the quad to (16 0)", "verb 5, the cubic to (9.5 2)"]);
        assert_eq!(held.curves()[1].points[0], Vec2::new(1.0, 2.0));
        assert_eq!(look_up(&path, 0.25), NONE);
    }

    #[test]
    fn words_only_where_there_are_some() {
        assert_eq!(look_up(&course(), 1e-6).in_words().as_deref(), Some("2 curves held back at 1000 pieces"));
        assert_eq!(Held::made(1, 1).in_words().as_deref(), Some("1 curve held back at 1000 pieces"));
        assert_eq!(NONE.in_words(), None);
    }

    #[test]
    fn the_number_is_the_librarys_whatever_was_found() {
        for (number, found) in [(3, 2), (2, 3), (1, 0), (0, 1)] {
            let held = Held::made(number, found);
            assert!(!held.agrees() && held.curves().is_empty(), "{number} {found}");
            assert_eq!(held.in_words().map(|words| words[..1].to_string()), (number > 0).then(|| number.to_string()));
        }
    }
}
