//! An order: outline, pattern and tolerance, and whether it would be drawn whole.
use crate::number::{list, Exact};
use hizlaou::{Dash, FillRule};

/// How the outline is to be drawn.
pub struct Order {
    /// The line style, unless a pattern was given.
    pub style: Option<usize>,
    pub dash: Dash,
    /// The tolerance that is used: what was asked, divided by the scale.
    pub tolerance: f32,
    pub asked_tolerance: f32,
    pub scale: Option<f32>,
    pub rule: FillRule,
}

impl Order {
    /// The style or the pattern, in words.
    pub fn pattern_in_words(&self) -> String {
        let intervals = if self.dash.intervals.is_empty() { "no intervals".into() } else { list(&self.dash.intervals) };
        match self.style {
            Some(number) => format!("style {number} ({intervals})"),
            None => format!("pattern {intervals}"),
        }
    }

    /// The tolerance, in words.
    pub fn tolerance_in_words(&self) -> String {
        match self.scale {
            Some(scale) => format!("{} ({} at scale {})", Exact(self.tolerance), Exact(self.asked_tolerance), Exact(scale)),
            None => Exact(self.tolerance).to_string(),
        }
    }

    /// The intervals as they are walked: an odd number of them is laid twice.
    pub fn cycle(&self) -> Vec<f32> {
        let mut cycle = self.dash.intervals.clone();
        if cycle.len() % 2 == 1 {
            cycle.extend_from_slice(&self.dash.intervals);
        }
        cycle
    }

    /// The sum of the cycle, added first to last.
    pub fn period(&self) -> f32 {
        sum(&self.cycle())
    }

    /// Why the outline would be drawn whole, by the first test that fails; none if it would be cut.
    pub fn reason_for_whole(&self) -> Option<String> {
        let intervals = &self.dash.intervals;
        if intervals.is_empty() {
            return Some(match self.style {
                Some(number) => format!("style {number} has no intervals"),
                None => "the pattern has no intervals".into(),
            });
        }
        if let Some(bad) = intervals.iter().find(|v| !(v.is_finite() && **v >= 0.0)) {
            return Some(format!("interval {} is not a finite length of 0 or more", Exact(*bad)));
        }
        let total = sum(intervals);
        if total.is_nan() || total <= 0.0 {
            return Some(format!("the intervals add up to {}, which is not over 0", Exact(total)));
        }
        if !self.dash.phase.is_finite() {
            return Some(format!("phase {} is not finite", Exact(self.dash.phase)));
        }
        let period = self.period();
        if !period.is_finite() {
            return Some(format!("period {} is not finite", Exact(period)));
        }
        let is_over = period > self.tolerance;
        (!is_over).then(|| format!("period {} is not over tolerance {}", Exact(period), Exact(self.tolerance)))
    }
}

fn sum(values: &[f32]) -> f32 {
    values.iter().fold(0.0, |total, v| total + v)
}

/// The fill rule's name.
pub fn rule_name(rule: FillRule) -> &'static str {
    match rule {
        FillRule::NonZero => "nonzero",
        FillRule::EvenOdd => "evenodd",
    }
}

#[cfg(test)]
mod tests {
    use super::*;
    use hizlaou::{dash_path, Dashed, PathBuilder, Vec2};

    fn order(intervals: &[f32], phase: f32, tolerance: f32) -> Order {
        let dash = Dash::new(intervals.to_vec(), phase);
        Order { style: None, dash, tolerance, asked_tolerance: tolerance, scale: None, rule: FillRule::NonZero }
    }

    #[test]
    fn each_reason_is_named() {
        let cases: [(&[f32], f32, f32, &str); 9] = [
            (&[0.1, 0.1], 0.0, 0.25, "period 0.2 is not over tolerance 0.25"),
            (&[], 0.0, 0.25, "the pattern has no intervals"),
            (&[2.0, -1.0], 0.0, 0.25, "interval -1 is not a finite length of 0 or more"),
            (&[f32::INFINITY], 0.0, 0.25, "interval Infinity is not a finite length of 0 or more"),
            (&[0.0, 0.0], 0.0, 0.25, "the intervals add up to 0, which is not over 0"),
            (&[2.0, 1.0], f32::INFINITY, 0.25, "phase Infinity is not finite"),
            (&[f32::MAX], 0.0, 0.25, "period Infinity is not finite"),
            (&[2.0, 1.0], 0.0, f32::NAN, "period 3 is not over tolerance NaN"),
            (&[0.125, 0.125], 0.0, 0.25, "period 0.25 is not over tolerance 0.25"),
        ];
        for (intervals, phase, tolerance, reason) in cases {
            assert_eq!(order(intervals, phase, tolerance).reason_for_whole().as_deref(), Some(reason));
        }
        assert_eq!(order(&[0.125, 0.25], 0.0, 0.25).reason_for_whole(), None);
        // An odd pattern is judged by the sum of the doubled cycle.
        assert_eq!(order(&[0.125, 0.03125, 0.03125], 0.0, 0.25).reason_for_whole(), None);
    }

    #[test]
    fn the_reason_agrees_with_the_library() {
        let mut b = PathBuilder::new();
        b.move_to(Vec2::ZERO).unwrap().line_to(Vec2::new(1.0, 0.0)).unwrap();
        let path = b.build();
        let lengths = [0.0, -0.0, 0.1, 0.125, 0.25, 1.0, -1.0, f32::MAX, f32::INFINITY, f32::NAN];
        let tolerances = [0.25, 0.0, -1.0, f32::NAN, f32::INFINITY, f32::NEG_INFINITY, 0.5];
        for a in lengths {
            for b in lengths {
                for tolerance in tolerances {
                    for intervals in [vec![], vec![a], vec![a, b], vec![a, b, a]] {
                        let order = order(&intervals, if a == 1.0 { b } else { 0.0 }, tolerance);
                        let is_whole = dash_path(&path, &order.dash, tolerance).unwrap() == Dashed::Whole;
                        assert_eq!(order.reason_for_whole().is_some(), is_whole, "{intervals:?} {tolerance}");
                    }
                }
            }
        }
    }
}
