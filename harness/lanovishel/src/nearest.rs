//! Finding the corners of a surface that are nearest to probes.
use crate::{Refusal, raw};

/// What stands for a corner where a surface has no triangles.
pub const NO_CORNER: u64 = 4_294_967_295;

/// Finds the nearest corner to each of up to 64 probes, among the corners that a triangle names,
/// and says how many probes there are.
///
/// The lists of the surface are those of [`check`](crate::check), but it may be open, and its
/// labels are not read. `probes` has three values a probe. Every coordinate is in whole 1/1024
/// within ±32, also that of a point which no triangle names.
///
/// `answers` has at least two words a probe, and each probe gets what it would get alone: the
/// corner, of equally near ones the smallest, and the squared distance in (1/1024)². Without
/// triangles that is [`NO_CORNER`] and 0. The words behind become 0; after a refusal all do.
///
/// ```
/// let points = [0., 0., 0., 1., 0., 0., 0., 1., 0., 0., 0., 1.];
/// let corners = [0, 2, 1, 0, 1, 3, 0, 3, 2, 1, 2, 3];
/// let mut work = vec![0; lanovishel::work_words(4, 4)];
///
/// // Midway between corners 0 and 1, and a quarter off corner 3.
/// let probes = [0.5, 0., 0., /* and */ 0., 0.25, 1.];
/// let mut answers = [0; 4];
/// let count =
///     lanovishel::nearest(&points, &corners, &[0; 4], &mut work, &probes, &mut answers);
/// assert_eq!(count, Ok(2));
/// assert_eq!(answers, [0, 512 * 512, 3, 256 * 256]);
///
/// // Of the last triangle alone, corner 1 is the nearest to the first probe.
/// let (corners, labels) = (&corners[9..], &[0]);
/// lanovishel::nearest(&points, corners, labels, &mut work, &probes, &mut answers).unwrap();
/// assert_eq!(answers, [1, 512 * 512, 3, 256 * 256]);
///
/// // 0.1 is no whole number of 1/1024.
/// let refused =
///     lanovishel::nearest(&points, corners, labels, &mut work, &[0.1; 3], &mut answers);
/// assert_eq!(refused, Err(lanovishel::Refusal::Probes));
/// assert_eq!(answers, [0; 4]);
/// ```
///
/// # Errors
/// [`Refusal`], by its number 1 to 5, or 42.
pub fn nearest(
    points: &[f64],
    corners: &[u32],
    labels: &[u8],
    work: &mut [u32],
    probes: &[f64],
    answers: &mut [u64],
) -> Result<u32, Refusal> {
    let mut count = [0; 1];
    // SAFETY: each pointer comes with its own slice's length, and what is written is borrowed
    // alone.
    let number = unsafe {
        raw::lanovishel_nearest(
            points.as_ptr(),
            points.len(),
            corners.as_ptr(),
            corners.len(),
            labels.as_ptr(),
            labels.len(),
            work.as_mut_ptr(),
            work.len(),
            probes.as_ptr(),
            probes.len(),
            answers.as_mut_ptr(),
            answers.len(),
            &mut count,
        )
    };
    Refusal::unless_0(number, [0; 2])?;
    let [count] = count;
    Ok(count)
}
