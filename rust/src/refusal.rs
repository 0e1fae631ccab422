//! The numbers by which calls are refused.
use std::fmt;

/// Why a call was refused. A refused call has changed nothing.
///
/// ```
/// let refusal = hizlaou::line_style(9).unwrap_err();
/// assert_eq!(refusal.number(), 9);
/// assert!(refusal.to_string().starts_with("refusal 9: "));
/// ```
#[derive(Debug, Clone, Copy, PartialEq, Eq, Hash)]
pub struct Refusal(u8);

impl Refusal {
    /// 1: a coordinate buffer has an odd number of floats.
    pub const ODD_FLOATS: Refusal = Refusal(1);
    /// 2: a builder call needs more verbs or points than its buffers or the limits have left.
    pub const BUILDER_FULL: Refusal = Refusal(2);
    /// 3: flattening or dashing yields more than an output can take.
    pub const OUTPUT_FULL: Refusal = Refusal(3);
    /// 4: a path or a list of points is over a limit.
    pub const OVER_LIMIT: Refusal = Refusal(4);
    /// 5: a verb byte is over 4.
    pub const NO_VERB: Refusal = Refusal(5);
    /// 6: a path doesn't begin with a move, or its verbs use another number of points than given.
    pub const BAD_PATH: Refusal = Refusal(6);
    /// 7: a builder state that no calls leave.
    pub const BAD_STATE: Refusal = Refusal(7);
    /// 8: a pattern has over 64 intervals.
    pub const LONG_PATTERN: Refusal = Refusal(8);
    /// 9: a line style is over 8.
    pub const NO_STYLE: Refusal = Refusal(9);

    /// The number, 1 to 9.
    pub fn number(self) -> u8 {
        self.0
    }

    /// What the number means.
    pub fn meaning(self) -> &'static str {
        match self.0 {
            1 => "a coordinate buffer has an odd number of floats",
            2 => "the builder has no room left for this call",
            3 => "flattening or dashing yields more than the output can take",
            4 => "a path has over 65,536 verbs or over 131,072 points",
            5 => "a verb byte is over 4",
            6 => "a path does not begin with a move, or its verbs use another number of points than it has",
            7 => "the builder's state is not one that builder calls leave",
            8 => "a dash pattern has over 64 intervals",
            9 => "a line style is over 8",
            _ => "a number that this library does not give",
        }
    }

    /// What to change so that the call isn't refused.
    pub fn remedy(self) -> &'static str {
        match self.0 {
            1 => "lend two floats for each point",
            2 => "keep a path to 65,536 verbs and 131,072 points: start another path",
            3 => "use a coarser pattern, a larger tolerance or a shorter path: dashes are limited to 65,536 verbs",
            4 => "split the path",
            5 => "use 0 move, 1 line, 2 quad, 3 cubic, 4 close",
            6 => "begin with a move, and give 1, 1, 2, 3, 0 points for move, line, quad, cubic, close",
            7 => "hand in the state that the call before returned, with the same buffers",
            8 => "give 64 intervals or fewer",
            9 => "give a style from 0 to 8",
            _ => "report it",
        }
    }

    /// Nothing for 0, else the refusal.
    pub(crate) fn check(number: u8) -> Result<(), Refusal> {
        if number == 0 {
            Ok(())
        } else {
            Err(Refusal(number))
        }
    }
}

impl fmt::Display for Refusal {
    fn fmt(&self, f: &mut fmt::Formatter<'_>) -> fmt::Result {
        write!(f, "refusal {}: {}; {}", self.0, self.meaning(), self.remedy())
    }
}

impl std::error::Error for Refusal {}
