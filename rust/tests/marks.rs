//! Marks: whether a polyline is closed, as the safe calls say it and in buffers that are lent to the C interface.
use hizlaou::*;

type Checked = Result<(), Refusal>;

/// Paths by the letters of their verbs, and the marks of their polylines. A subpath with no drawn verb has none.
const CASES: [(&str, &[u8]); 21] = [
    ("", &[]),
    ("M", &[]),
    ("MZ", &[]),
    ("MZZ", &[]),
    ("ML", &[0]),
    ("MLZ", &[1]),
    ("MLZL", &[0]),
    ("MLZLZ", &[1]),
    ("MLZZ", &[1]),
    ("MZL", &[0]),
    ("MZLZ", &[1]),
    ("MQ", &[0]),
    ("MCZ", &[1]),
    ("MLZC", &[0]),
    ("MQZQZ", &[1]),
    ("MLM", &[0]),
    ("MLZM", &[1]),
    ("MLZMMLMLZ", &[1, 0, 1]),
    ("MLMZMLZ", &[0, 1]),
    ("MZMLZMZ", &[1]),
    ("MLZMLMLZML", &[1, 0, 1, 0]),
];
/// Three polylines, two of them closed, and between them a move with nothing drawn.
const THREE: &str = "MLZMMLMLZ";

/// The path whose verbs have these letters. Its points lie on a parabola, so that no verb ends where its subpath starts.
fn lettered(letters: &str) -> Result<Path, Refusal> {
    let mut x = 0.0;
    let mut next = || {
        x += 1.0;
        Vec2::new(x, x * x)
    };
    let mut b = PathBuilder::new();
    for letter in letters.chars() {
        match letter {
            'M' => b.move_to(next())?,
            'L' => b.line_to(next())?,
            'Q' => b.quad_to(next(), next())?,
            'C' => b.cubic_to(next(), next(), next())?,
            _ => b.close()?,
        };
    }
    Ok(b.build())
}

#[test]
fn a_polyline_is_closed_where_the_last_verb_of_its_subpath_is_a_close() -> Checked {
    for (letters, marks) in CASES {
        let flat = flatten(&lettered(letters)?, 0.25)?;
        assert_eq!((flat.marks(), flat.len()), (marks, marks.len()), "{letters}");
        assert!(flat.closed().eq(marks.iter().map(|&mark| mark == 1)), "{letters}");
        assert!((0..flat.len()).all(|i| flat.is_closed(i) == Some(marks[i] == 1)), "{letters}");
        assert_eq!(flat.is_closed(flat.len()), None, "{letters}");
    }
    Ok(())
}

#[test]
fn marks_keep_pace_with_ends() -> Checked {
    let flat = flatten(&lettered(THREE)?, 0.25)?;
    assert_eq!((flat.ends(), flat.marks()), (&[3, 5, 8][..], &[1, 0, 1][..]));
    let lines: Vec<_> = flat.iter().zip(flat.closed()).map(|(points, is_closed)| (points[0].x, points.len(), is_closed)).collect();
    assert_eq!(lines, [(1., 3, true), (4., 2, false), (6., 3, true)]);
    Ok(())
}

/// None is added where the last point equals the first already, by value, or where the first is a NaN, which equals nothing.
#[test]
fn a_mark_does_not_depend_on_an_added_closing() -> Checked {
    let nan = f32::NAN;
    for (first, last, closings) in [(0., 0., 0), (0., -0., 0), (-0., 0., 0), (nan, 0., 0), (nan, nan, 0), (0., 1., 1), (0., nan, 1)] {
        let mut b = PathBuilder::new();
        b.move_to(Vec2::new(first, 0.))?.line_to(Vec2::new(4., 0.))?.line_to(Vec2::new(last, 0.))?;
        let before = flatten(&b.clone().build(), 0.25)?;
        let closed = flatten(&b.close()?.clone().build(), 0.25)?;
        let after = flatten(&b.line_to(Vec2::new(4., 4.))?.clone().build(), 0.25)?;
        assert_eq!([before.marks(), closed.marks(), after.marks()], [[0], [1], [0]], "{first} {last}");
        assert_eq!([&before, &closed, &after].map(|flat| flat.totals().closings), [0, closings, closings], "{first} {last}");
    }
    Ok(())
}

#[test]
fn a_cut_keeps_the_marks_of_its_polylines_and_its_runs_are_open() -> Checked {
    for (letters, marks) in CASES {
        let path = lettered(letters)?;
        let Dashed::Cut { path: runs, polylines } = dash_path(&path, &Dash::new(vec![1e6, 1.], 0.), 0.25)? else { panic!("cut") };
        assert_eq!((polylines.marks(), &polylines), (marks, &flatten(&path, 0.25)?), "{letters}");
        assert_eq!(flatten(&runs, 0.25)?.marks(), vec![0; marks.len()], "{letters}");
    }
    Ok(())
}

/// Buffers that a caller lends.
#[derive(Debug, Clone, PartialEq)]
struct Lent {
    points: [f32; 64],
    ends: [usize; 5],
    marks: [u8; 5],
    dash_verbs: [u8; 32],
    dash_points: [f32; 64],
}

const FRESH: Lent = Lent { points: [-7.; 64], ends: [77; 5], marks: [7; 5], dash_verbs: [7; 32], dash_points: [-7.; 64] };

/// A path as the C interface takes it.
fn encoded(letters: &str) -> Result<(Vec<u8>, Vec<f32>), Refusal> {
    let path = lettered(letters)?;
    Ok((path.verbs().iter().map(|&v| v as u8).collect(), path.points().iter().flat_map(|p| [p.x, p.y]).collect()))
}

/// Flattens with room for so many marks.
fn flattened(letters: &str, marks: usize) -> Result<(ffi::Flattened, Lent), Refusal> {
    let ((v, p), mut lent) = (encoded(letters)?, FRESH);
    let (out, ends, marks) = (&mut lent.points, &mut lent.ends, &mut lent.marks[..marks]);
    let (v, v_len, p, p_len) = (v.as_ptr(), v.len(), p.as_ptr(), p.len());
    // SAFETY: the path is read, the outputs are lent for the call with their own lengths.
    let r = unsafe {
        ffi::hz_flatten(v, v_len, p, p_len, 0.25, out.as_mut_ptr(), out.len(), ends.as_mut_ptr(), ends.len(), marks.as_mut_ptr(), marks.len())
    };
    Ok((r, lent))
}

/// Dashes by a pattern with room for so many marks and so many verbs of dashes.
fn dashed(letters: &str, pattern: &[f32], marks: usize, dashes: usize) -> Result<(ffi::Dashed, Lent), Refusal> {
    let ((v, p), mut lent) = (encoded(letters)?, FRESH);
    let (out, ends, marks) = (&mut lent.points, &mut lent.ends, &mut lent.marks[..marks]);
    let (verbs, points) = (&mut lent.dash_verbs[..dashes], &mut lent.dash_points);
    // SAFETY: path and pattern are read, the outputs are lent for the call with their own lengths.
    let r = unsafe {
        ffi::hz_dash_path(
            v.as_ptr(),
            v.len(),
            p.as_ptr(),
            p.len(),
            0,
            pattern.as_ptr(),
            pattern.len(),
            0.,
            0.25,
            out.as_mut_ptr(),
            out.len(),
            ends.as_mut_ptr(),
            ends.len(),
            marks.as_mut_ptr(),
            marks.len(),
            verbs.as_mut_ptr(),
            verbs.len(),
            points.as_mut_ptr(),
            points.len(),
        )
    };
    Ok((r, lent))
}

#[test]
fn as_many_marks_as_polylines_are_enough_and_bytes_past_the_last_stay() -> Checked {
    for (letters, marks) in CASES {
        let n = marks.len();
        for room in n..=5 {
            let (r, lent) = flattened(letters, room)?;
            assert_eq!((r.refused, r.polylines), (0, n), "{letters}");
            assert_eq!((&lent.marks[..n], &lent.marks[n..], &lent.ends[n..]), (marks, &FRESH.marks[n..], &FRESH.ends[n..]), "{letters}");
        }
    }
    Ok(())
}

#[test]
fn with_one_mark_less_nothing_is_written() -> Checked {
    for (letters, marks) in CASES.iter().filter(|(_, marks)| !marks.is_empty()) {
        let (r, lent) = flattened(letters, marks.len() - 1)?;
        assert_eq!((r.refused, r.points, r.polylines), (3, 0, 0), "{letters}");
        assert_eq!(lent, FRESH, "{letters}");
    }
    Ok(())
}

#[test]
fn a_dashing_without_room_writes_nothing_or_just_the_scratch_with_its_marks() -> Checked {
    let pattern = [1e6, 1.];
    let (cut, lent) = dashed(THREE, &pattern, 3, 32)?;
    assert_eq!((cut.kind, cut.polylines, lent.marks), (1, 3, [1, 0, 1, 7, 7]));
    // the marks' room is one short, alone and beside the dashes'
    for dashes in [32, cut.verbs - 1] {
        let (r, lent) = dashed(THREE, &pattern, 2, dashes)?;
        assert_eq!((r.kind, r.refused, lent), (2, 3, FRESH));
    }
    let (r, scratch) = dashed(THREE, &pattern, 3, cut.verbs - 1)?;
    assert_eq!((r.kind, r.refused, r.polylines), (2, 3, 0));
    assert_eq!(scratch, Lent { dash_verbs: FRESH.dash_verbs, dash_points: FRESH.dash_points, ..lent });
    Ok(())
}

#[test]
fn whole_touches_no_marks_and_needs_none() -> Checked {
    for pattern in [&[][..], &[0.125, 0.125]] {
        for room in [0, 5] {
            let (r, lent) = dashed(THREE, pattern, room, 0)?;
            assert_eq!((r.kind, r.refused, r.polylines, lent), (0, 0, 0, FRESH));
        }
    }
    assert_eq!(dashed(THREE, &[1.; 65], 0, 32).map(|(r, lent)| (r.refused, lent))?, (8, FRESH));
    Ok(())
}
