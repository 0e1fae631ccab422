//! Zeros in a pattern, and intervals that are used up exactly at a corner, as the safe calls say it and in buffers that are lent to the C interface.
use hizlaou::*;

type Checked = Result<(), Refusal>;

/// A polyline's points, the pattern, its phase, and the runs that are drawn.
type Case<'a> = (&'a [(f32, f32)], &'a [f32], f32, &'a [&'a [(f32, f32)]]);

const LINE: &[(f32, f32)] = &[(0., 0.), (8., 0.)];
const HOOK: &[(f32, f32)] = &[(0., 0.), (2., 0.), (2., 4.)];
const INF: f32 = f32::INFINITY;

fn outline(points: &[(f32, f32)]) -> Result<Path, Refusal> {
    let mut b = PathBuilder::new();
    b.move_to(points[0].into())?;
    for &q in &points[1..] {
        b.line_to(q.into())?;
    }
    Ok(b.build())
}

/// Each verb with the bits of its point, so that −0 is not 0.
fn bits(verb: Verb, p: Vec2) -> (Verb, u32, u32) {
    (verb, p.x.to_bits(), p.y.to_bits())
}

/// What these runs are laid as: a move, then lines.
fn laid(runs: &[&[(f32, f32)]]) -> Vec<(Verb, u32, u32)> {
    let verbs = |i| if i == 0 { Verb::MoveTo } else { Verb::LineTo };
    runs.iter().flat_map(|run| run.iter().enumerate().map(move |(i, &p)| bits(verbs(i), p.into()))).collect()
}

/// Dashes the outline, and again with each 0 of the pattern as −0, which is passed over alike.
fn check((points, pattern, phase, runs): Case) -> Checked {
    let path = outline(points)?;
    let minus: Vec<f32> = pattern.iter().map(|&v| if v == 0. { -0. } else { v }).collect();
    for intervals in [pattern.to_vec(), minus] {
        let words = format!("{points:?} {intervals:?} {phase}");
        let Dashed::Cut { path: cut, polylines } = dash_path(&path, &Dash::new(intervals, phase), 0.25)? else { panic!("{words}") };
        let found: Vec<_> = cut.segments().map(|(verb, p)| bits(verb, p[0])).collect();
        assert_eq!(found, laid(runs), "{words}");
        assert_eq!(polylines.totals(), flatten(&path, 0.25)?.totals(), "{words}");
    }
    Ok(())
}

fn check_all(cases: &[Case]) -> Checked {
    cases.iter().try_for_each(|&case| check(case))
}

#[test]
fn zeros_are_passed_over() -> Checked {
    check_all(&[
        (LINE, &[3., 0., 0., 0., 4., 1.], 0., &[&[(0., 0.), (3., 0.)], &[(3., 0.), (7., 0.)]]),
        (LINE, &[3., 1., 0., 1.], 0., &[&[(0., 0.), (3., 0.)], &[(5., 0.), (8., 0.)]]),
        (LINE, &[3., 0.], 0., &[&[(0., 0.), (3., 0.)], &[(3., 0.), (6., 0.)], &[(6., 0.), (8., 0.)]]),
        (LINE, &[2., 0., 0., 1.], 0., &[&[(0., 0.), (2., 0.)], &[(3., 0.), (5., 0.)], &[(6., 0.), (8., 0.)]]),
        // an odd pattern is laid twice, so that its third interval, here a dash of 0, is followed by its first as a gap
        (LINE, &[2., 1., 0.], 0., &[&[(0., 0.), (2., 0.)], &[(5., 0.), (6., 0.)], &[(6., 0.), (8., 0.)]]),
        (LINE, &[0., 5., 0.], 0., &[&[(5., 0.), (8., 0.)]]),
    ])
}

#[test]
fn zeros_are_passed_over_where_the_phase_is_placed() -> Checked {
    check_all(&[
        (LINE, &[0., 0., 2., 1.], 0., &[&[(0., 0.), (2., 0.)], &[(3., 0.), (5., 0.)], &[(6., 0.), (8., 0.)]]),
        (LINE, &[0., 1., 2., 0.], 0., &[&[(1., 0.), (3., 0.)], &[(4., 0.), (6., 0.)], &[(7., 0.), (8., 0.)]]),
        (LINE, &[0., 1., 2., 0.], 1., &[&[(0., 0.), (2., 0.)], &[(3., 0.), (5., 0.)], &[(6., 0.), (8., 0.)]]),
        (LINE, &[0., 1., 2., 0.], -1., &[&[(0., 0.), (1., 0.)], &[(2., 0.), (4., 0.)], &[(5., 0.), (7., 0.)]]),
        (LINE, &[3., 0., 0., 0., 4., 1.], 3., &[&[(0., 0.), (4., 0.)], &[(5., 0.), (8., 0.)]]),
        (LINE, &[3., 0., 0., 0., 4., 1.], 4., &[&[(0., 0.), (3., 0.)], &[(4., 0.), (7., 0.)], &[(7., 0.), (8., 0.)]]),
        // the first point is computed there, not copied: −0 + 8·0 is 0
        (&[(-0., 0.), (8., 0.)], &[0., 0., 9., 1.], 0., &[&[(0., 0.), (8., 0.)]]),
        (&[(-0., 0.), (8., 0.)], &[3., 0., 9., 1.], 3., &[&[(0., 0.), (8., 0.)]]),
    ])
}

#[test]
fn what_is_used_up_at_a_corner_ends_there() -> Checked {
    check_all(&[
        (HOOK, &[2., 1.], 0., &[&[(0., 0.), (2., 0.)], &[(2., 1.), (2., 3.)]]),
        (HOOK, &[1., 1.], 0., &[&[(0., 0.), (1., 0.)], &[(2., 0.), (2., 1.)], &[(2., 2.), (2., 3.)]]),
        (HOOK, &[2., 1.], 1., &[&[(0., 0.), (1., 0.)], &[(2., 0.), (2., 2.)], &[(2., 3.), (2., 4.)]]),
        // two corners on the way of one dash, and one that is met exactly behind them
        (&[(0., 0.), (1., 0.), (1., 1.), (3., 1.), (3., 4.)], &[4., 2.], 0., &[&[(0., 0.), (1., 0.), (1., 1.), (3., 1.)], &[(3., 3.), (3., 4.)]]),
        // a gap of 0 at a corner begins a new run there
        (HOOK, &[2., 0.], 0., &[&[(0., 0.), (2., 0.)], &[(2., 0.), (2., 2.)], &[(2., 2.), (2., 4.)]]),
        // a dash of 0 at a corner draws nothing
        (HOOK, &[1., 1., 0., 1.], 0., &[&[(0., 0.), (1., 0.)], &[(2., 1.), (2., 2.)]]),
    ])
}

#[test]
fn the_next_interval_begins_at_the_next_walked_segments_first_point_copied() -> Checked {
    check_all(&[
        (&[(3., 0.), (-0., 0.), (0., 2.)], &[2., 1.], 0., &[&[(3., 0.), (1., 0.)], &[(-0., 0.), (0., 2.)]]),
        (&[(3., 0.), (-0., -0.), (0., 2.)], &[2., 1.], 0., &[&[(3., 0.), (1., 0.)], &[(-0., -0.), (0., 2.)]]),
        // segments that are not walked lie between: one of no length, two to and from a point that is not finite
        (&[(0., 0.), (2., 0.), (2., 0.), (2., 4.)], &[2., 1.], 0., &[&[(0., 0.), (2., 0.)], &[(2., 1.), (2., 3.)]]),
        (&[(0., 0.), (2., 0.), (INF, 0.), (5., 0.), (5., 2.)], &[2., 0.], 0., &[&[(0., 0.), (2., 0.)], &[(5., 0.), (5., 2.)]]),
        (&[(3., 0.), (0., 0.), (-0., 0.), (0., 2.)], &[2., 1.], 0., &[&[(3., 0.), (1., 0.)], &[(-0., 0.), (0., 2.)]]),
    ])
}

#[test]
fn behind_the_last_corner_nothing_more_is_laid() -> Checked {
    let line = &HOOK[..2];
    check_all(&[
        (line, &[2., 0.], 0., &[&[(0., 0.), (2., 0.)]]),
        (line, &[1., 1.], 0., &[&[(0., 0.), (1., 0.)]]),
        (&[(0., 0.), (2., 0.), (2., 0.), (f32::NAN, 0.)], &[2., 0.], 0., &[&[(0., 0.), (2., 0.)]]),
    ])
}

/// 1.5e8 less the first interval is 5e7, and that less 1 is 5e7 still: the phase is placed no further, and the floor at 0 leaves nothing of the 1.
#[test]
fn nothing_left_at_the_start_ends_there() -> Checked {
    let pattern = &[1e8, 1., 1e8, 1.];
    check_all(&[
        (LINE, pattern, 1.5e8, &[LINE]),
        (&[(-0., 0.), (8., 0.)], pattern, 1.5e8, &[&[(-0., 0.), (8., 0.)]]),
        // the first segment that is walked, and not the polyline's first point
        (&[(0., 0.), (-0., 0.), (8., 0.)], pattern, 1.5e8, &[&[(-0., 0.), (8., 0.)]]),
        (&[(INF, 0.), (-0., 0.), (8., 0.)], pattern, 1.5e8, &[&[(-0., 0.), (8., 0.)]]),
        // of a dash
        (LINE, &[1e8, 1e8, 1., 1e8], 2.5e8, &[]),
    ])
}

/// The phase starts anew at each polyline, whatever was left at the end of the one before.
#[test]
fn each_polyline_begins_anew() -> Checked {
    let mut b = PathBuilder::new();
    b.move_to(Vec2::ZERO)?.line_to(Vec2::new(2., 0.))?;
    b.move_to(Vec2::new(0., 5.))?.line_to(Vec2::new(2., 5.))?.line_to(Vec2::new(2., 9.))?;
    let Dashed::Cut { path, .. } = dash_path(&b.build(), &Dash::new(vec![2., 1.], 0.), 0.25)? else { panic!("cut") };
    let found: Vec<_> = path.segments().map(|(verb, p)| bits(verb, p[0])).collect();
    assert_eq!(found, laid(&[&[(0., 0.), (2., 0.)], &[(0., 5.), (2., 5.)], &[(2., 6.), (2., 8.)]]));
    Ok(())
}

/// A dash that is too short to move the position leaves less than nothing at the next corner, and runs on.
#[test]
fn less_than_nothing_left_is_not_exactly_nothing() -> Checked {
    check((&[(0., 0.), (8., 0.), (8., 8.)], &[2., 1., 1e-9, 1.], 0., &[&[(0., 0.), (2., 0.)], &[(3., 0.), (8., 0.), (8., 8.)]]))
}

#[test]
fn where_no_dash_is_above_0_nothing_is_drawn() -> Checked {
    let patterns: [&[f32]; 6] = [&[0., 5.], &[0., 0.001], &[0., 5., 0., 1.], &[0., 0., 0., 1e-3], &[0., 1e38], &[0., 8.]];
    for pattern in patterns {
        for phase in [0., 0.5, -3., 5., 1e30] {
            for points in [LINE, HOOK, &[(0., 0.), (1e6, 0.), (INF, 0.), (0., 1e6), (0., 0.)]] {
                let (path, dash) = (outline(points)?, Dash::new(pattern.to_vec(), phase));
                let Dashed::Cut { path: cut, polylines } = dash_path(&path, &dash, -1.)? else { panic!("{pattern:?}") };
                assert!(cut.is_empty() && cut.points().is_empty(), "{pattern:?} {phase}");
                assert_eq!(polylines.points().len(), points.len());
            }
        }
    }
    // the tolerance is asked first, as ever
    assert_eq!(dash_path(&outline(LINE)?, &Dash::new(vec![0., 0.001], 0.), 0.25)?, Dashed::Whole);
    Ok(())
}

#[test]
fn zeros_alone_are_whole_at_every_tolerance() -> Checked {
    let path = outline(HOOK)?;
    for pattern in [&[0.][..], &[-0.], &[0., 0.], &[0., -0., 0.], &[-0.; 2], &[0.; 64], &[-0.; 63]] {
        for tolerance in [0.25, 0., -0., -1., -1e38, f32::NEG_INFINITY, INF, f32::NAN] {
            for phase in [0., -0., 1., -7.] {
                let dash = Dash::new(pattern.to_vec(), phase);
                assert!(!dash.is_usable());
                assert_eq!(dash_path(&path, &dash, tolerance)?, Dashed::Whole, "{pattern:?} {tolerance} {phase}");
            }
        }
    }
    Ok(())
}

/// Buffers that a caller lends.
#[derive(Debug, Clone, PartialEq)]
struct Lent {
    points: [f32; 8],
    ends: [usize; 2],
    marks: [u8; 2],
    dash_verbs: [u8; 8],
    dash_points: [f32; 16],
}

const FRESH: Lent = Lent { points: [-7.; 8], ends: [77; 2], marks: [7; 2], dash_verbs: [7; 8], dash_points: [-7.; 16] };

/// Dashes these points by a pattern with room for so many points of scratch and so many verbs and points of dashes.
fn lent(points: &[f32], pattern: &[f32], scratch: usize, verbs: usize, dashes: usize) -> (ffi::Dashed, Lent) {
    let (mut lent, v) = (FRESH, [0, 1, 1, 1]);
    let (out, drawn, v) = (&mut lent.points[..2 * scratch], &mut lent.dash_points[..2 * dashes], &v[..points.len() / 2]);
    // SAFETY: path and pattern are read, the outputs are lent for the call with their own lengths.
    let r = unsafe {
        ffi::hz_dash_path(
            v.as_ptr(),
            v.len(),
            points.as_ptr(),
            points.len(),
            0,
            pattern.as_ptr(),
            pattern.len(),
            0.,
            -1.,
            out.as_mut_ptr(),
            out.len(),
            lent.ends.as_mut_ptr(),
            lent.ends.len(),
            lent.marks.as_mut_ptr(),
            lent.marks.len(),
            lent.dash_verbs.as_mut_ptr(),
            verbs,
            drawn.as_mut_ptr(),
            drawn.len(),
        )
    };
    (r, lent)
}

/// What stands in the lent buffers once the polyline of these points is in the scratch, and nothing else.
fn kept(points: &[f32]) -> Lent {
    let mut kept = FRESH;
    kept.points[..points.len()].copy_from_slice(points);
    (kept.ends[0], kept.marks[0]) = (points.len() / 2, 0);
    kept
}

#[test]
fn with_gaps_alone_no_dash_buffer_is_needed_and_the_scratch_is_filled() {
    let way = [0., 0., 1e6, 0., 1e6, 1e6];
    for (verbs, dashes) in [(0, 0), (1, 1), (8, 8)] {
        let (r, found) = lent(&way, &[0., 0.001], 3, verbs, dashes);
        assert_eq!((r.kind, r.refused, r.verbs, r.points, r.scratch, r.polylines), (1, 0, 0, 0, 3, 1));
        assert_eq!(found, kept(&way));
    }
    let (r, found) = lent(&way, &[0., 0.001], 2, 8, 8);
    assert_eq!((r.kind, r.refused, r.scratch, found), (2, 3, 0, FRESH));
}

#[test]
fn a_gap_of_0_at_a_corner_needs_a_move_there() {
    let (hook, pattern) = ([0., 0., 2., 0., 2., 4.], [2., 0.]);
    let (r, found) = lent(&hook, &pattern, 3, 6, 6);
    assert_eq!((r.kind, r.refused, r.verbs, r.points), (1, 0, 6, 6));
    assert_eq!((found.dash_verbs, &found.dash_points[..12]), ([0, 1, 0, 1, 0, 1, 7, 7], &[0., 0., 2., 0., 2., 0., 2., 2., 2., 2., 2., 4.][..]));
    assert_eq!(found.dash_points[12..], FRESH.dash_points[12..]);
    // one verb short, and one point
    for (verbs, dashes) in [(5, 6), (6, 5), (5, 5), (0, 0)] {
        let (r, found) = lent(&hook, &pattern, 3, verbs, dashes);
        assert_eq!((r.kind, r.refused, r.verbs, r.scratch), (2, 3, 0, 0));
        assert_eq!(found, kept(&hook));
    }
}

#[test]
fn whole_by_zeros_alone_needs_no_buffer() {
    for pattern in [&[0.][..], &[-0., 0.]] {
        let (r, found) = lent(&[0., 0., 2., 0., 2., 4.], pattern, 0, 0, 0);
        assert_eq!((r.kind, r.refused, r.verbs, r.scratch, found), (0, 0, 0, 0, FRESH));
    }
}
