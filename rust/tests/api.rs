//! The safe interface: the checked examples of the scope, refusals at the limits, and growth.
use hizlaou::*;

type Checked = Result<(), Refusal>;

fn p(x: f32, y: f32) -> Vec2 {
    Vec2::new(x, y)
}

fn outline(points: &[(f32, f32)]) -> Result<Path, Refusal> {
    let mut b = PathBuilder::new();
    b.move_to(points[0].into())?;
    for q in &points[1..] {
        b.line_to((*q).into())?;
    }
    Ok(b.build())
}

fn runs(points: &[(f32, f32)], intervals: &[f32]) -> Result<Vec<(Verb, Vec2)>, Refusal> {
    let Dashed::Cut { path, .. } = dash_path(&outline(points)?, &Dash::new(intervals.to_vec(), 0.0), 0.25)? else {
        return Ok(vec![]);
    };
    Ok(path.segments().map(|(v, p)| (v, p[0])).collect())
}

const M: Verb = Verb::MoveTo;
const L: Verb = Verb::LineTo;
const ONE: SegmentCount = SegmentCount { count: 1, held: false };
const HELD: SegmentCount = SegmentCount { count: 1000, held: true };

#[test]
fn roots_are_rounded_by_the_remainder() {
    // 1 + 2^-23 and the largest float: the remainder is the root, so not up; 1 + 2^-22: it is twice the root; 2^-149; zeros and the infinity
    for (operand, root) in [
        (0x3f80_0001, 0x3f80_0000),
        (0x7f7f_ffff, 0x5f7f_ffff),
        (0x3f80_0002, 0x3f80_0001),
        (0x0000_0001, 0x1a35_04f3),
        (0x0000_0000, 0x0000_0000),
        (0x8000_0000, 0x8000_0000),
        (0x7f80_0000, 0x7f80_0000),
    ] {
        assert_eq!(hizlaou::sqrt(f32::from_bits(operand)).to_bits(), root, "of {operand:08x}");
    }
    for operand in [0x8000_0001, 0xbf80_0000, 0xff80_0000, 0x7fc0_0000] {
        assert!(hizlaou::sqrt(f32::from_bits(operand)).is_nan(), "of {operand:08x}");
    }
}

#[test]
fn counts() {
    for (s, n) in [(1.0, 1), (1.000_000_1, 1), (1.000_000_24, 2), (998_001.0, 999), (1e6, 1000), (f32::NAN, 1), (f32::NEG_INFINITY, 1), (-1e38, 1)] {
        assert_eq!(segment_count(s), SegmentCount { count: n, held: false }, "{s}");
    }
    assert_eq!(quad_segment_count(p(0., 0.), p(8., 0.), p(16., 0.), 0.25), ONE);
    assert_eq!(eval_cubic(p(0., 0.), p(0., 8.), p(16., 8.), p(16., 0.), 0.5), p(8., 6.));
}

#[test]
fn counts_that_were_held_back() {
    for s in [f32::from_bits(1e6f32.to_bits() + 1), f32::MAX, f32::INFINITY] {
        assert_eq!(segment_count(s), HELD, "{s}");
    }
    let cubic = |from, to| cubic_segment_count(from, p(1., 0.), p(2., 0.), to, 0.25);
    let (from, to, far, nan) = (p(0., 0.), p(3., 0.), p(1e6, 0.), p(f32::NAN, 0.));
    // each of the two differences alone asks for more than 1,000 lines; of the straight one both are 0
    assert_eq!([cubic(from, to), cubic(far, to), cubic(from, far)], [ONE, HELD, HELD]);
    // a difference that has a NaN is passed over, and the other decides
    assert_eq!([cubic(nan, far), cubic(far, nan)], [HELD, HELD]);
    assert_eq!([cubic(nan, to), cubic(p(1e6, f32::NAN), to), cubic(nan, nan)], [ONE, ONE, ONE]);
}

#[test]
fn a_tolerance_that_is_a_nan_counts_as_the_smallest_normal_float() -> Checked {
    let quad = |y| quad_segment_count(p(0., 0.), p(8., y), p(16., 0.), f32::NAN);
    let little = 32. * f32::MIN_POSITIVE;
    assert_eq!([quad(8.), quad(little), quad(0.)], [HELD, SegmentCount { count: 5, held: false }, ONE]);
    let mut b = PathBuilder::new();
    b.move_to(p(0., 0.))?.quad_to(p(8., 8.), p(16., 0.))?.quad_to(p(24., 0.), p(32., 0.))?;
    assert_eq!(held_by_all_calls(&b.build(), f32::NAN)?, [1]);
    Ok(())
}

/// The curves that are held back, on which all calls that tell of them agree.
fn held_by_all_calls(path: &Path, tolerance: f32) -> Result<Vec<usize>, Refusal> {
    let found = held_curves(path, tolerance);
    assert_eq!(flatten(path, tolerance)?.totals().held, found.len());
    let carried: Vec<SegmentCount> = (0..=path.verbs().len()).map(|i| carried_count(path, tolerance, i)).collect::<Result<_, _>>()?;
    assert_eq!((0..carried.len()).filter(|&i| carried[i].held).collect::<Vec<_>>(), found);
    assert!(found.iter().all(|&i| carried[i].count == MAX_SEGMENTS));
    Ok(found)
}

#[test]
fn held_curves_are_counted_and_found() -> Checked {
    let mut b = PathBuilder::new();
    b.move_to(p(0., 0.))?.quad_to(p(8., 8.), p(16., 0.))?.quad_to(p(2e6, 0.), p(0., 0.))?.line_to(p(1., 1.))?;
    b.cubic_to(p(2., 1.), p(3., 1.), p(1e6, 1.))?.close()?.quad_to(p(f32::INFINITY, 0.), p(1., 0.))?;
    let path = b.build();
    assert_eq!(held_by_all_calls(&path, 0.25)?, [2, 4, 6]);
    // at a wide tolerance only the infinite one
    assert_eq!(held_by_all_calls(&path, 1e6)?, [6]);
    assert_eq!(dash_path(&path, &Dash::new(vec![1e6, 1e5], 0.), 0.25)?.held(), 3);
    assert_eq!(dash_path(&path, &Dash::new(vec![], 0.), 0.25)?.held(), 0);
    assert_eq!(dash_path(&path, &Dash::new(vec![1e6; 65], 0.), 0.25), Err(Refusal::LONG_PATTERN));
    Ok(())
}

/// From the move's point the first two curves are straight and the last bends; from the line's end it is the other way round.
#[test]
fn a_curve_after_a_close_starts_at_the_moves_point() -> Checked {
    let mut b = PathBuilder::new();
    b.move_to(p(0., 0.))?.line_to(p(1e6, 0.))?.close()?.quad_to(p(1., 0.), p(2., 0.))?;
    b.move_to(p(1e6, 0.))?.line_to(p(0., 0.))?.close()?.cubic_to(p(1e6 + 1., 0.), p(1e6 + 2., 0.), p(1e6 + 3., 0.))?;
    b.move_to(p(0., 0.))?.line_to(p(1e6, 0.))?.close()?.quad_to(p(1e6, 0.), p(1e6, 0.))?;
    let path = b.build();
    assert_eq!(held_by_all_calls(&path, 0.25)?, [11]);
    assert_eq!([carried_count(&path, 0.25, 3)?, carried_count(&path, 0.25, 7)?], [ONE, ONE]);
    Ok(())
}

#[test]
fn dashes() -> Checked {
    let line = [(0., 0.), (8., 0.)];
    assert_eq!(runs(&line, &[5.])?, [(M, p(0., 0.)), (L, p(5., 0.))]);
    assert_eq!(runs(&[(0., 0.), (4., 0.), (4., 4.)], &[6., 2.])?, [(M, p(0., 0.)), (L, p(4., 0.)), (L, p(4., 2.))]);
    assert_eq!(runs(&line, &[0.125, 0.125])?, []);
    assert!(!runs(&line, &[0.125, 0.25])?.is_empty());
    Ok(())
}

#[test]
fn a_cut_has_the_polylines_and_totals_that_flattening_gives() -> Checked {
    let mut b = PathBuilder::new().with_fill_rule(FillRule::EvenOdd);
    b.move_to(p(1., 1.))?.move_to(p(0., 0.))?.quad_to(p(8., 8.), p(16., 0.))?.line_to(p(16., 4.))?.close()?;
    b.as_rounded_rect(Rect::new(p(0., 0.), p(16., 8.)), 2.0).move_to(p(3., 3.))?;
    let path = b.build();
    let flat = flatten(&path, 0.25)?;
    assert_eq!(flat.totals(), Totals { points: 8, polylines: 1, starts: 1, lines: 1, counts: 5, closings: 1, held: 0 });
    assert_eq!((flat.len(), flat.ends(), flat.get(0).map(<[Vec2]>::len), flat.get(1)), (1, &[8][..], Some(8), None));
    assert_eq!((flat.marks(), flat.is_closed(0), flat.is_closed(1)), (&[1][..], Some(true), None));
    assert_eq!(flat.iter().flatten().count(), flat.points().len());
    assert_eq!(carried_count(&path, 0.25, 2)?, SegmentCount { count: 5, held: false });
    let dashed = dash_path(&path, &Dash::new(line_style(3)?, 1.5), 0.25)?;
    let Dashed::Cut { path: cut, polylines } = &dashed else { panic!("cut") };
    assert_eq!(*polylines, flat);
    assert_eq!((cut.fill_rule(), cut.as_rounded_rect()), (FillRule::EvenOdd, None));
    assert_eq!(dashed.outline(&path), cut);
    assert_eq!(path.as_rounded_rect(), Some((Rect::new(p(0., 0.), p(16., 8.)), 2.0)));
    assert_eq!(dash_path(&path, &Dash::new(line_style(0)?, 0.0), 0.25)?.outline(&path), &path);
    Ok(())
}

#[test]
fn conics() -> Checked {
    let mut b = PathBuilder::new();
    b.move_to(p(f32::NAN, 0.))?.conic_to(p(1., 1.), p(2., 0.), 100.)?;
    assert_eq!(b.conic_quads(), 64);
    b.conic_to(p(1., 1.), p(2., 0.), 0.)?;
    assert_eq!(b.conic_quads(), 0);
    assert_eq!(b.build().verbs().last(), Some(&Verb::LineTo));
    Ok(())
}

#[test]
fn questions() -> Checked {
    let hook = [(50., 70.), (0., 70.), (0., 0.), (40., 70.), (40., 70.)];
    assert_eq!(outline(&hook)?.convexity(), Convexity::Concave);
    let arrow = [(0., 0.), (4., 0.), (1., 1.), (0., 4.)];
    assert_eq!(outline(&arrow)?.convexity(), Convexity::Concave);
    let small = arrow.map(|(x, y)| p(x / 32768., y / 32768.));
    assert_eq!(polygon_convexity(&small)?, Convexity::Convex);
    let path = outline(&arrow)?;
    let bounds = path.bounds();
    assert_eq!((bounds, bounds.width(), bounds.height()), (Rect::new(p(0., 0.), p(4., 4.)), 4., 4.));
    assert!(bounds.contains(p(4., 0.)) && !bounds.contains(p(5., 0.)) && !bounds.is_empty());
    assert!(path.is_finite() && path.is_within_tessellation_range() && !path.is_empty());
    assert!(Path::default().bounds().is_empty() && Path::default().is_empty());
    assert_eq!(Path::default().bounds(), Rect::empty());
    assert_eq!(polygon_convexity(&vec![Vec2::ZERO; MAX_POINTS + 1]), Err(Refusal::OVER_LIMIT));
    Ok(())
}

#[test]
fn copied_nans_keep_their_bits() -> Checked {
    let odd = p(f32::from_bits(0x7fab_cdef), f32::from_bits(0xff92_3456));
    let mut b = PathBuilder::new();
    b.move_to(odd)?.line_to(p(1., 1.))?;
    let path = b.build();
    for q in [path.points()[0], flatten(&path, 0.25)?.points()[0]] {
        assert_eq!((q.x.to_bits(), q.y.to_bits()), (0x7fab_cdef, 0xff92_3456));
    }
    Ok(())
}

#[test]
fn a_builder_grows_to_the_limits_and_no_further() -> Checked {
    let mut b = PathBuilder::new();
    b.move_to(p(0., 0.))?;
    for i in 1..MAX_VERBS {
        b.line_to(p(i as f32, 0.))?;
    }
    assert_eq!(b.line_to(p(0., 0.)).err(), Some(Refusal::BUILDER_FULL));
    assert_eq!(b.conic_to(p(0., 0.), p(0., 0.), 2.).err(), Some(Refusal::BUILDER_FULL));
    assert_eq!(b.current_point(), Some(p((MAX_VERBS - 1) as f32, 0.)));
    let path = b.build();
    assert_eq!((path.verbs().len(), flatten(&path, 0.25)?.points().len()), (MAX_VERBS, MAX_VERBS));
    let dotted = Dash::new(vec![0.3, 0.3], 0.0);
    assert_eq!(dash_path(&path, &dotted, 0.25).err(), Some(Refusal::OUTPUT_FULL));
    assert_eq!(dash_path(&path, &Dash::new(vec![1.0; 65], 0.0), 0.25).err(), Some(Refusal::LONG_PATTERN));

    let mut b = PathBuilder::new();
    b.move_to(p(0., 0.))?;
    for _ in 0..(MAX_POINTS - 1) / 3 {
        b.cubic_to(p(0., 1.), p(1., 1.), p(1., 0.))?;
    }
    assert_eq!(b.cubic_to(p(0., 1.), p(1., 1.), p(1., 0.)).err(), Some(Refusal::BUILDER_FULL));
    b.line_to(p(2., 2.))?;
    assert_eq!(b.build().points().len(), MAX_POINTS);
    Ok(())
}

#[test]
fn parts_and_refusals() {
    let q = Vec2::ZERO;
    assert_eq!(Path::from_parts(vec![M, L], vec![q], FillRule::NonZero).err(), Some(Refusal::BAD_PATH));
    assert_eq!(Path::from_parts(vec![M; MAX_VERBS + 1], vec![q; MAX_VERBS + 1], FillRule::NonZero).err(), Some(Refusal::OVER_LIMIT));
    assert_eq!(Verb::from_byte(5), Err(Refusal::NO_VERB));
    assert_eq!(line_style(9), Err(Refusal::NO_STYLE));
    let all = [
        Refusal::ODD_FLOATS,
        Refusal::BUILDER_FULL,
        Refusal::OUTPUT_FULL,
        Refusal::OVER_LIMIT,
        Refusal::NO_VERB,
        Refusal::BAD_PATH,
        Refusal::BAD_STATE,
        Refusal::LONG_PATTERN,
        Refusal::NO_STYLE,
    ];
    for (i, r) in all.iter().enumerate() {
        assert_eq!(r.number() as usize, i + 1);
        assert!(r.to_string().starts_with(&format!("refusal {}: ", i + 1)));
    }
}
