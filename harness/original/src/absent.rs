//! What stands for the original's functions where its source is not there.
use crate::{Band, Cut, Point, Samples, Solved};

/// A mesh as the original has it.
pub struct Mesh {
    /// The points.
    pub points: Vec<Point>,
    /// The triangles.
    pub faces: Vec<[usize; 3]>,
    /// A label for each triangle.
    pub labels: Vec<u8>,
}

/// No answer.
pub fn validate(_: &Mesh) -> Option<Result<(f64, f64), String>> {
    None
}

/// No answer.
pub fn improve(_: &mut Mesh, _: &Band, _: usize) -> Option<Result<usize, String>> {
    None
}

/// No answer.
pub fn improve_skipping(_: &mut Mesh, _: &Band, _: usize) -> Option<Result<usize, String>> {
    None
}

/// No answer.
pub fn sample(_: &Band, _: usize) -> Option<Result<Samples, String>> {
    None
}

/// No answer.
pub fn roots(_: &Band, _: usize) -> Option<Result<impl Sized, String>> {
    None::<Result<(), String>>
}

/// No answer.
pub fn cut(_: &Band, _: usize) -> Option<Result<Solved<Vec<Cut>>, String>> {
    None
}
