//! Checking a surface.
use crate::{Refusal, raw};

/// What checking says of an accepted surface.
#[derive(Clone, Copy, Debug, PartialEq)]
pub struct Measured {
    /// The smallest quality of a triangle, in 0 to 1; 0 where there is no triangle.
    pub quality: f64,
    /// The volume enclosed: of m triangles with all coordinates in whole 1/1024 within ±32, within
    /// m·m/2^33 of the exact one, however the surface is listed.
    pub volume: f64,
}

/// The work words that a surface of so many points and triangles needs.
#[must_use]
pub const fn work_words(points: usize, triangles: usize) -> usize {
    16 * points + 32 * triangles
}

/// Whether the triangles are a closed oriented surface with a positive volume, and how good they
/// are.
///
/// `points` has three values a point, `corners` three numbers of points a triangle in turning
/// order, `labels` one label a triangle. `work` has at least [`work_words`] words; those that are
/// needed end as 0.
///
/// ```
/// let points = [0., 0., 0., 1., 0., 0., 0., 1., 0., 0., 0., 1.];
/// let corners = [0, 2, 1, 0, 1, 3, 0, 3, 2, 1, 2, 3];
/// let mut work = vec![0; lanovishel::work_words(4, 4)];
/// let found = lanovishel::check(&points, &corners, &[0; 4], &mut work).unwrap();
/// assert_eq!(found.volume, 1.0 / 6.0);
///
/// // Without the last triangle nothing runs from 3 to 1.
/// let open = lanovishel::check(&points, &corners[..9], &[0; 3], &mut work).unwrap_err();
/// assert_eq!(open, lanovishel::Refusal::Lone { from: 1, to: 3 });
/// assert_eq!(open.to_string(), "the directed side from 1 to 3 has no reverse (32)");
/// ```
///
/// # Errors
/// [`Refusal`], by its number 1 to 6, 8, or 31 to 33.
pub fn check(
    points: &[f64],
    corners: &[u32],
    labels: &[u8],
    work: &mut [u32],
) -> Result<Measured, Refusal> {
    let (mut numbers, mut place) = ([0.0; 2], [0; 2]);
    // SAFETY: each pointer comes with its own slice's length, and what is written is borrowed
    // alone.
    let number = unsafe {
        raw::lanovishel_check(
            points.as_ptr(),
            points.len(),
            corners.as_ptr(),
            corners.len(),
            labels.as_ptr(),
            labels.len(),
            work.as_mut_ptr(),
            work.len(),
            &mut numbers,
            &mut place,
        )
    };
    Refusal::unless_0(number, place)?;
    let [quality, volume] = numbers;
    Ok(Measured { quality, volume })
}
