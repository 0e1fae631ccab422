//! The loud warnings: drawn whole, nothing drawn, a dash or a gap that runs on, curves that look faceted.
use crate::answer::Answer;
use crate::held::{which, Held};
use crate::number::{count, place, Exact};
use crate::walk::RunOn;

/// Why nothing is drawn of a pattern such as 0 5.
pub const NO_DASH: &str = "no dash is above 0";

/// The most run-ons, and the most curves held back, that are told one by one.
const MOST: usize = 10;

/// A warning: what happens, and why.
#[derive(Debug, Clone, PartialEq)]
pub struct Warning {
    pub headline: String,
    /// In one line, or a line for each place.
    pub reason: String,
    /// Nothing breaks the line: what `--refuse-whole` is for.
    pub is_barrier: bool,
}

/// The warnings of an answer, the worst first.
pub fn warnings(answer: &Answer) -> Vec<Warning> {
    let mut list = unbroken(answer);
    list.extend(faceted(answer.held()));
    list
}

/// What goes to air without gaps, or not at all.
pub fn unbroken(answer: &Answer) -> Vec<Warning> {
    match answer {
        Answer::Whole { reason, .. } => {
            let headline = "DRAWN WHOLE: the lane goes to air as one unbroken line".into();
            vec![Warning { headline, reason: reason.clone(), is_barrier: true }]
        }
        Answer::Cut { found, .. } if !found.agrees => {
            let headline = "NOT CHECKED: whether a dash runs on could not be found out".into();
            let reason = "the walk made again does not lay the library's dashes; report it".into();
            vec![Warning { headline, reason, is_barrier: true }]
        }
        Answer::Cut { found, .. } if found.is_without_dash() => {
            let headline = "NOTHING DRAWN: the lane does not go to air".into();
            vec![Warning { headline, reason: NO_DASH.into(), is_barrier: false }]
        }
        Answer::Cut { found, .. } => {
            let (dashes, gaps): (Vec<&RunOn>, Vec<&RunOn>) = found.run_ons.iter().partition(|r| r.is_dash);
            let dash = "A DASH RUNS ON: the rest of its polyline is one unbroken line";
            let gap = "A GAP RUNS ON: the rest of its polyline is not drawn";
            [told(dash, &dashes, true), told(gap, &gaps, false)].concat()
        }
        _ => Vec::new(),
    }
}

fn told(headline: &str, run_ons: &[&RunOn], is_barrier: bool) -> Vec<Warning> {
    let mut list: Vec<Warning> =
        run_ons.iter().take(MOST).map(|r| Warning { headline: headline.into(), reason: where_and_why(r), is_barrier }).collect();
    if run_ons.len() > MOST {
        list.push(Warning { headline: headline.into(), reason: format!("and {} more places", run_ons.len() - MOST), is_barrier });
    }
    list
}

/// The curves held back, in one warning: a conic alone can have 64 of them.
pub fn faceted(held: &Held) -> Option<Warning> {
    if !held.agrees() {
        let headline = "NOT NAMED: which curves look faceted could not be found out".into();
        let reason = format!("the library held back {}, the list of them has {}; report it", count(held.number, "curve"), held.found.len());
        return Some(Warning { headline, reason, is_barrier: false });
    }
    let headline = format!("FACETED: {}, too few for the tolerance", held.in_words()?);
    let mut lines: Vec<String> = held.curves().iter().take(MOST).map(which).collect();
    if held.number > MOST {
        lines.push(format!("and {}", count(held.number - MOST, "more curve")));
    }
    Some(Warning { headline, reason: lines.join("\n"), is_barrier: false })
}

fn where_and_why(run_on: &RunOn) -> String {
    let why = "the interval is too short to move on and never ends";
    format!("polyline {}, from {} on, {} long: {why}", run_on.polyline + 1, place(run_on.at), Exact(run_on.length as f32))
}

#[cfg(test)]
mod tests {
    use super::*;
    use crate::walk::Found;
    use hizlaou::{flatten, PathBuilder, Polylines, Vec2};

    fn cut(found: Found) -> Answer {
        Answer::Cut { dashes: PathBuilder::new().build(), polylines: Polylines::default(), found, held: Held::made(0, 0) }
    }

    #[test]
    fn dashes_come_before_gaps_and_many_are_counted() {
        let place = |is_dash| RunOn { polyline: 0, at: Vec2::ZERO, next: 1, is_dash, length: 2.5 };
        let list = warnings(&cut(Found { run_ons: (0..24).map(|i| place(i % 2 == 1)).collect(), has_dash: true, agrees: true }));
        assert_eq!((list.len(), list.iter().filter(|w| w.is_barrier).count()), (22, 11));
        assert_eq!(list[0].reason, "polyline 1, from (0 0) on, 2.5 long: the interval is too short to move on and never ends");
        assert_eq!(list[10].reason, "and 2 more places");
        assert!(list[11].headline.starts_with("A GAP RUNS ON"));
    }

    #[test]
    fn nothing_drawn_is_loud_and_no_barrier() {
        let answer = cut(Found { run_ons: Vec::new(), has_dash: false, agrees: true });
        let headline = "NOTHING DRAWN: the lane does not go to air".into();
        assert_eq!(warnings(&answer), [Warning { headline, reason: "no dash is above 0".into(), is_barrier: false }]);
        assert!(!answer.is_barrier());
        let not_met = cut(Found { run_ons: Vec::new(), has_dash: false, agrees: false });
        assert!(warnings(&not_met)[0].headline.starts_with("NOT CHECKED") && not_met.is_barrier());
    }

    fn flattened(held: Held) -> Answer {
        Answer::Flattened { polylines: Polylines::default(), held }
    }

    #[test]
    fn curves_held_back_are_one_warning_and_many_are_counted() {
        assert_eq!(warnings(&flattened(Held::made(0, 0))), []);
        let [ten, twelve] = [10, 12].map(|number| warnings(&flattened(Held::made(number, number))));
        assert_eq!((ten.len(), ten[0].reason.lines().count(), ten[0].reason.lines().last()), (1, 10, Some("verb 10, the quad to (16 10)")));
        assert_eq!((twelve.len(), twelve[0].reason.lines().count(), twelve[0].reason.lines().last()), (1, 11, Some("and 2 more curves")));
        assert_eq!(twelve[0].headline, "FACETED: 12 curves held back at 1000 pieces, too few for the tolerance");
        assert!(!twelve[0].is_barrier);
    }

    #[test]
    fn a_list_that_is_not_as_long_as_the_librarys_number_is_loud() {
        for (number, found, reason) in [(3, 2, "3 curves, the list of them has 2"), (0, 1, "0 curves, the list of them has 1")] {
            let list = warnings(&flattened(Held::made(number, found)));
            assert_eq!((list.len(), list[0].is_barrier), (1, false));
            assert_eq!(list[0].headline, "NOT NAMED: which curves look faceted could not be found out");
            assert_eq!(list[0].reason, format!("the library held back {reason}; report it"));
        }
    }

    #[test]
    fn a_walk_that_does_not_lay_the_answer_is_loud() {
        let mut b = PathBuilder::new();
        b.move_to(Vec2::ZERO).unwrap().line_to(Vec2::new(8.0, 0.0)).unwrap();
        let polylines = flatten(&b.build(), 0.25).unwrap();
        let dash = hizlaou::Dash::new(vec![2.0, 1.0], 0.0);
        let found = crate::walk::find(&polylines, &dash, &[2.0, 1.0], 3.0, &PathBuilder::new().build(), |_| ());
        assert!(!found.agrees);
        let answer = cut(found);
        assert!(answer.is_barrier());
        assert!(warnings(&answer)[0].headline.starts_with("NOT CHECKED"));
    }
}
