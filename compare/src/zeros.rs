//! Dashing with zeros and corners, written from the request: the runs that a path is cut to, and who judges them. The Rust source does where the
//! pattern has no zero and no walked segment begins with exactly nothing left, the request elsewhere.
//!
//! The source steps from interval to interval and lays verbs on its way. Here zeros are taken out of the pattern before anything is walked, so that
//! the walk has none to pass over: of a zero only its place counts, for whether the intervals behind it are drawn. Each walked segment is then divided
//! among the intervals, and runs are made of the drawn shares. The float operations are the source's, each rounded once.
use crate::case::Case;
use crate::reference::source_runs;
use source::path::PathBuilder;
use source::Vec2;

/// A move to the first point, and lines to the others.
pub type Run = Vec<Vec2>;

/// An interval above zero.
#[derive(Clone, Copy)]
struct Interval {
    length: f32,
    /// Whether its number in the working cycle, where zeros are numbered too, is even.
    drawn: bool,
}

/// A pattern that cuts, without its zeros.
pub struct Pattern {
    intervals: Vec<Interval>,
    /// The working cycle's sum.
    period: f32,
    phase: f32,
}

/// How far a walk has come: an interval, and how much of it is left.
#[derive(Clone, Copy)]
struct Place {
    interval: usize,
    left: f32,
}

/// A segment with finite length above 0; the others are not walked.
struct Walked {
    from: Vec2,
    to: Vec2,
    length: f32,
    /// Whether segments that are not walked lie between it and the walked one before it.
    apart: bool,
}

/// Where an interval's share of a segment begins: where the interval came from, over the corner; at the segment's first point, copied; or at a part
/// of the segment.
enum Begins {
    Before,
    Copied,
    At(f32),
}

/// One interval's share of a segment. It ends at a part of it, or with it.
struct Share {
    drawn: bool,
    begins: Begins,
    ends: Option<f32>,
}

/// A walked segment that began with exactly nothing left.
#[derive(Clone, Copy)]
pub struct Met {
    /// Whether it is the first walked segment; else the interval before ended at a corner.
    pub start: bool,
    /// Whether segments that are not walked lie between that corner and the segment.
    pub apart: bool,
    /// Whether the interval that ended and the one that began are drawn.
    pub ended: bool,
    pub begun: bool,
    /// Whether the first point, computed, would have other bits than copied.
    pub bits: bool,
}

/// What walks come to.
#[derive(Default)]
struct Walks {
    runs: Vec<Run>,
    met: Vec<Met>,
    /// Whether a segment began with very little left, under a millionth of the interval.
    little: bool,
    /// Whether one began with less than nothing left: the position stopped growing before.
    less: bool,
}

fn sum(lengths: &[f32]) -> f32 {
    lengths.iter().fold(0.0, |sum, length| sum + length)
}

fn same_bits(p: Vec2, q: Vec2) -> bool {
    let same = |a: f32, b: f32| a.to_bits() == b.to_bits() || (a.is_nan() && b.is_nan());
    same(p.x, q.x) && same(p.y, q.y)
}

impl Walked {
    /// The walked segments of a polyline.
    fn all(polyline: &[Vec2]) -> Vec<Walked> {
        let mut all: Vec<Walked> = Vec::new();
        let mut apart = false;
        for ends in polyline.windows(2) {
            let length = (ends[1] - ends[0]).length();
            let walked = length > 0.0 && length < f32::INFINITY;
            if walked {
                all.push(Walked { from: ends[0], to: ends[1], length, apart: apart && !all.is_empty() });
            }
            apart = !walked;
        }
        all
    }
    /// The point at a part of it.
    fn at(&self, part: f32) -> Vec2 {
        self.from + (self.to - self.from) * part
    }
}

impl Pattern {
    /// The pattern of a case; None where the path is drawn whole: an interval is no length, or none is above zero, or the phase is not finite, or the
    /// period isn't or is not over the tolerance.
    pub fn of(c: &Case) -> Option<Pattern> {
        let lengths = c.intervals.iter().all(|v| *v >= 0.0 && v.is_finite());
        let usable = lengths && c.intervals.iter().any(|v| *v > 0.0) && c.phase.is_finite();
        let cycle = c.intervals.repeat(1 + c.intervals.len() % 2);
        let period = sum(&cycle);
        let numbered = cycle.iter().enumerate().filter(|(_, length)| **length != 0.0);
        let intervals = numbered.map(|(number, length)| Interval { length: *length, drawn: number % 2 == 0 }).collect();
        (usable && period.is_finite() && period > c.tolerance).then_some(Pattern { intervals, period, phase: c.phase })
    }

    /// Whether an interval above zero is drawn. Where none is, nothing is, however long the path, and nothing needs to be walked.
    pub fn draws(&self) -> bool {
        self.intervals.iter().any(|i| i.drawn)
    }

    /// Where every walk starts. The phase passes intervals while it reaches over them. Where one is too small to be taken from it, the walk starts in
    /// that one, of which the phase leaves less than nothing: nothing.
    fn start(&self) -> Place {
        let phase = self.phase % self.period;
        let mut phase = if phase < 0.0 { phase + self.period } else { phase };
        let mut interval = 0;
        loop {
            let length = self.intervals[interval].length;
            if phase < length {
                return Place { interval, left: length - phase };
            }
            if phase - length >= phase {
                return Place { interval, left: 0.0 };
            }
            phase -= length;
            interval = (interval + 1) % self.intervals.len();
        }
    }

    fn drawn(&self, place: Place) -> bool {
        self.intervals[place.interval].drawn
    }

    /// The next interval, all of it left.
    fn behind(&self, place: Place) -> Place {
        let interval = (place.interval + 1) % self.intervals.len();
        Place { interval, left: self.intervals[interval].length }
    }

    /// Divides a segment's length among the intervals. The first share begins as is said, or, where nothing is, at a part; the last one ends with the
    /// segment: its interval reaches over it, or just to it, or is too small to go on. Says too how far the walk has come then.
    fn divided(&self, length: f32, mut place: Place, mut first: Option<Begins>) -> (Vec<Share>, Place) {
        let (mut shares, mut traveled) = (Vec::new(), 0.0);
        loop {
            let (drawn, left, rest, next) = (self.drawn(place), place.left, length - traveled, traveled + place.left);
            let last = left >= rest || next <= traveled;
            let part = if last { traveled / length } else { (next - left) / length };
            let begins = first.take().unwrap_or(Begins::At(part));
            if last {
                shares.push(Share { drawn, begins, ends: None });
                return (shares, Place { left: left - rest, ..place });
            }
            shares.push(Share { drawn, begins, ends: Some(next / length) });
            (place, traveled) = (self.behind(place), next);
        }
    }

    /// The walk of one polyline.
    fn walk(&self, polyline: &[Vec2], walks: &mut Walks) {
        let mut place = self.start();
        for (i, segment) in Walked::all(polyline).iter().enumerate() {
            let mut first = (i > 0).then_some(Begins::Before);
            walks.little |= place.left > 0.0 && place.left < 1e-6 * self.intervals[place.interval].length;
            walks.less |= place.left < 0.0;
            if place.left == 0.0 {
                let ended = self.drawn(place);
                place = self.behind(place);
                first = Some(Begins::Copied);
                let bits = !same_bits(segment.from, segment.at(0.0));
                walks.met.push(Met { start: i == 0, apart: segment.apart, ended, begun: self.drawn(place), bits });
            }
            let (shares, end) = self.divided(segment.length, place, first);
            place = end;
            shares.iter().filter(|share| share.drawn).for_each(|share| walks.lay(segment, share));
        }
    }

    /// The walks of all polylines.
    fn walks(&self, polylines: &[Vec<Vec2>]) -> Walks {
        let mut walks = Walks::default();
        if self.draws() {
            polylines.iter().for_each(|line| self.walk(line, &mut walks));
        }
        walks
    }
}

impl Walks {
    /// Lays a drawn share: it goes on with the latest run, or begins a new one.
    fn lay(&mut self, segment: &Walked, share: &Share) {
        match share.begins {
            Begins::Before => (),
            Begins::Copied => self.runs.push(vec![segment.from]),
            Begins::At(part) => self.runs.push(vec![segment.at(part)]),
        }
        let to = share.ends.map_or(segment.to, |part| segment.at(part));
        self.runs.last_mut().expect("an interval that comes from before has a run").push(to);
    }
}

#[derive(Clone, Copy, PartialEq)]
pub enum Judge {
    Source,
    /// The request, for a zero in the pattern.
    Zero,
    /// The request, for a walked segment that begins with exactly nothing left, without a zero in the pattern.
    Met,
}

impl Judge {
    pub fn name(self) -> &'static str {
        match self {
            Judge::Source => "judged by the source",
            Judge::Zero => "judged by W6 for a zero",
            Judge::Met => "judged by W6 for nothing left",
        }
    }
}

/// What a dashing gives.
pub struct Judged {
    pub judge: Judge,
    /// None where the path is drawn whole.
    pub runs: Option<Vec<Run>>,
    /// Whether the source gives something else.
    pub unlike: bool,
    pub met: Vec<Met>,
    pub little: bool,
    pub less: bool,
}

/// Whether the runs are the same bit for bit, NaNs aside.
pub fn same_runs(a: &Option<Vec<Run>>, b: &Option<Vec<Run>>) -> bool {
    let same = |a: &Run, b: &Run| a.len() == b.len() && a.iter().zip(b).all(|(p, q)| same_bits(*p, *q));
    match (a, b) {
        (Some(a), Some(b)) => a.len() == b.len() && a.iter().zip(b).all(|(a, b)| same(a, b)),
        _ => a.is_none() && b.is_none(),
    }
}

/// What the path that `b` has built is cut to along these polylines, and who says so. Up to the first segment that begins with nothing left the source
/// walks as is walked here, if there is no zero: so it meets one where this walk does. Where the source judges, what is worked out here must be the
/// same, and which paths are drawn whole the request doesn't change: else the driver itself is wrong, and it is said in what.
pub fn judged(b: &PathBuilder, c: &Case, polylines: &[Vec<Vec2>]) -> Result<Judged, &'static str> {
    let pattern = Pattern::of(c);
    let Walks { runs, met, little, less } = pattern.as_ref().map_or(Walks::default(), |pattern| pattern.walks(polylines));
    let (runs, source) = (pattern.map(|_| runs), source_runs(b.clone(), c));
    if runs.is_some() != source.is_some() {
        return Err("drawn whole by the source alone, or by the driver's own answer alone");
    }
    let unlike = !same_runs(&runs, &source);
    let judge = if c.intervals.contains(&0.0) {
        Judge::Zero
    } else if !met.is_empty() {
        Judge::Met
    } else if !unlike {
        Judge::Source
    } else {
        return Err("the source's walk and the driver's own differ");
    };
    Ok(Judged { judge, runs: if judge == Judge::Source { source } else { runs }, unlike, met, little, less })
}
