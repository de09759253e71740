//! Improving the triangles of a surface.
use crate::{Field, Refusal, raw};

/// What improving leaves.
#[derive(Clone, Copy, Debug, PartialEq, Eq)]
pub struct Improved {
    /// How many points are left; the list is 0 behind them.
    pub points: u32,
    /// How many triangles are left; the lists are 0 behind them.
    pub triangles: u32,
    /// How many sides were flipped.
    pub flips: u32,
}

/// Runs rounds of improving: short sides of bad triangles are collapsed, the points are numbered
/// anew, and sides are flipped where that makes the triangles better. The surface stays closed.
///
/// ```
/// // An octahedron of a sphere, with a seventh point too close to the first.
/// let mut points = [
///     1., 0., 0., -1., 0., 0., 0., 1., 0., 0., -1., 0., 0., 0., 1., 0., 0., -1., 0.96, 0.28, 0.,
/// ];
/// let mut corners = [
///     0, 6, 4, 6, 2, 4, 2, 1, 4, 1, 3, 4, 3, 0, 4, 2, 6, 5, 6, 0, 5, 1, 2, 5, 3, 1, 5, 0, 3, 5,
/// ];
/// let mut work = vec![0; lanovishel::work_words(7, 10)];
/// let field = lanovishel::Field {
///     coefficients: &[1., 1., 1.],
///     powers: &[2, 0, 0, 0, 2, 0, 0, 0, 2],
///     levels: [f64::NEG_INFINITY, 1.],
///     bounds: [-2., -2., -2., 2., 2., 2.],
/// };
/// // Without the last triangle nothing runs from 5 to 0.
/// let open = &mut corners[..27];
/// let refused = lanovishel::improve(&mut points, open, &mut [0; 9], &mut work, &field, 1);
/// assert_eq!(refused, Err(lanovishel::Refusal::Lone { from: 0, to: 5 }));
///
/// let left = lanovishel::improve(&mut points, &mut corners, &mut [0; 10], &mut work, &field, 1);
/// assert_eq!(left, Ok(lanovishel::Improved { points: 6, triangles: 8, flips: 0 }));
/// assert_eq!(corners[..3], [0, 1, 2]);
/// assert_eq!(points[3..6], [0., 1., 0.]);
/// ```
///
/// # Errors
/// [`Refusal`], by its number 1 to 5, 9 to 14, or 31 to 33.
pub fn improve(
    points: &mut [f64],
    corners: &mut [u32],
    labels: &mut [u8],
    work: &mut [u32],
    field: &Field,
    rounds: u32,
) -> Result<Improved, Refusal> {
    let (mut answer, mut place) = ([0; 3], [0; 2]);
    // SAFETY: each pointer comes with its own slice's length, and what is written is borrowed
    // alone.
    let number = unsafe {
        raw::lanovishel_improve(
            points.as_mut_ptr(),
            points.len(),
            corners.as_mut_ptr(),
            corners.len(),
            labels.as_mut_ptr(),
            labels.len(),
            work.as_mut_ptr(),
            work.len(),
            field.coefficients.as_ptr(),
            field.coefficients.len(),
            field.powers.as_ptr(),
            field.powers.len(),
            &field.levels,
            &field.bounds,
            rounds,
            &mut answer,
            &mut place,
        )
    };
    Refusal::unless_0(number, place)?;
    let [points, triangles, flips] = answer;
    Ok(Improved {
        points,
        triangles,
        flips,
    })
}
