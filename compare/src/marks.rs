//! The marks of polylines, written from the request: 1 if the last verb of a polyline's subpath was a close, even where no closing point was added,
//! else 0. The source says nothing of them. They are read off the verbs alone: neither polylines nor added points are looked at.
use source::path::Verb;

/// The subpaths of a path: each is a move with all that follows up to the next move.
pub fn subpaths(verbs: &[Verb]) -> impl Iterator<Item = &[Verb]> {
    verbs.chunk_by(|_, next| *next != Verb::MoveTo)
}

/// Whether a subpath has a polyline: it has a drawn verb.
fn has_polyline(subpath: &[Verb]) -> bool {
    subpath.iter().any(|v| matches!(v, Verb::LineTo | Verb::QuadTo | Verb::CubicTo))
}

/// The mark of a subpath's polyline.
pub fn mark(subpath: &[Verb]) -> u8 {
    u8::from(subpath.last() == Some(&Verb::Close))
}

/// The marks of a path, one for each of its polylines.
pub fn marks(verbs: &[Verb]) -> Vec<u8> {
    subpaths(verbs).filter(|s| has_polyline(s)).map(mark).collect()
}

/// What a subpath is like: M for its move, D for drawn verbs in a row, Z for a close, ZZ for two or more in a row.
pub fn shape(subpath: &[Verb]) -> String {
    let mut shape = String::new();
    for verb in subpath {
        let (letter, full) = match verb {
            Verb::MoveTo => ('M', "M"),
            Verb::LineTo | Verb::QuadTo | Verb::CubicTo => ('D', "D"),
            Verb::Close => ('Z', "ZZ"),
        };
        if !shape.ends_with(full) {
            shape.push(letter);
        }
    }
    shape
}
