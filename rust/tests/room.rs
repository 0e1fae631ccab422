//! Dashings that need more than is lent for their runs at first, up to the limit and over it, and less. The C interface with the whole room decides.
use hizlaou::*;

type Checked = Result<(), Refusal>;

/// A line of two points, for whose runs 4 · 2 + 256 verbs are lent at first.
const FIRST: usize = 264;

/// Dashes and gaps of 1: a move and a line for each dash, so as many verbs as a line is long.
const PATTERN: [f32; 2] = [1., 1.];

fn line(length: usize) -> Result<Path, Refusal> {
    let mut b = PathBuilder::new().with_fill_rule(FillRule::EvenOdd);
    b.move_to(Vec2::ZERO)?.line_to(Vec2::new(length as f32, 0.))?;
    Ok(b.build())
}

fn dashed(path: &Path, pattern: &[f32]) -> Result<Dashed, Refusal> {
    dash_path(path, &Dash::new(pattern.to_vec(), 0.), 0.25)
}

/// The verbs and points of the runs of a line with all the room that the limit allows, or the number that refuses it.
fn with_whole_room(length: usize) -> Result<(Vec<u8>, Vec<f32>), u8> {
    let (path, mut scratch, mut end, mut mark) = ([0., 0., length as f32, 0.], [0.; 4], 0, 0);
    let (mut verbs, mut points) = (vec![0; MAX_VERBS], vec![0.; 2 * MAX_VERBS]);
    // SAFETY: path and pattern are read, the outputs are lent for the call with their own lengths.
    let r = unsafe {
        ffi::hz_dash_path(
            [0, 1].as_ptr(),
            2,
            path.as_ptr(),
            4,
            1,
            PATTERN.as_ptr(),
            2,
            0.,
            0.25,
            scratch.as_mut_ptr(),
            4,
            &mut end,
            1,
            &mut mark,
            1,
            verbs.as_mut_ptr(),
            verbs.len(),
            points.as_mut_ptr(),
            points.len(),
        )
    };
    verbs.truncate(r.verbs);
    points.truncate(2 * r.points);
    if r.refused == 0 {
        Ok((verbs, points))
    } else {
        Err(r.refused)
    }
}

/// A line that is as long as its runs have verbs is cut as with the whole room.
fn check(length: usize) -> Checked {
    let path = line(length)?;
    let Dashed::Cut { path: runs, polylines } = dashed(&path, &PATTERN)? else { panic!("{length}") };
    let verbs: Vec<u8> = runs.verbs().iter().map(|&verb| verb as u8).collect();
    let points: Vec<f32> = runs.points().iter().flat_map(|p| [p.x, p.y]).collect();
    assert_eq!((verbs.len(), runs.fill_rule()), (length, FillRule::EvenOdd));
    assert!(with_whole_room(length) == Ok((verbs, points)), "{length}");
    assert_eq!(polylines, flatten(&path, 0.25)?, "{length}");
    Ok(())
}

#[test]
fn what_fits_at_first() -> Checked {
    [2, 100, FIRST - 2, FIRST].into_iter().try_for_each(check)
}

#[test]
fn what_needs_more_than_was_lent_at_first() -> Checked {
    [FIRST + 2, 1000, MAX_VERBS - 2, MAX_VERBS].into_iter().try_for_each(check)
}

#[test]
fn what_is_over_the_limit_is_refused() -> Checked {
    for length in [MAX_VERBS + 2, 4 * MAX_VERBS] {
        assert_eq!(with_whole_room(length).err(), Some(Refusal::OUTPUT_FULL.number()), "{length}");
        assert_eq!(dashed(&line(length)?, &PATTERN), Err(Refusal::OUTPUT_FULL), "{length}");
    }
    Ok(())
}

/// So long a path is lent the whole room at first.
#[test]
fn what_needs_no_second_call() -> Checked {
    let mut b = PathBuilder::new();
    for i in 0..MAX_VERBS / 4 {
        b.line_to(Vec2::new(5. * i as f32, 0.))?;
    }
    let path = b.build();
    assert_eq!(dashed(&path, &PATTERN), Err(Refusal::OUTPUT_FULL));
    let Dashed::Cut { path: runs, .. } = dashed(&path, &[5., 5.])? else { panic!("cut") };
    assert_eq!(runs.verbs().len(), MAX_VERBS / 4);
    Ok(())
}

/// Other refusals, and a path that is drawn whole or has nothing to cut.
#[test]
fn what_does_not_depend_on_the_room() -> Checked {
    let long = line(4 * MAX_VERBS)?;
    assert_eq!(dashed(&long, &[1.; 65]), Err(Refusal::LONG_PATTERN));
    assert_eq!(dashed(&long, &[0.1, 0.1])?, Dashed::Whole);
    assert!(dashed(&Path::builder().build(), &PATTERN)?.outline(&long).is_empty());
    Ok(())
}
