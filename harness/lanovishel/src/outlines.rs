//! Listing the outlines of a layer.
use crate::{Refusal, raw};

/// What a list of outlines holds.
#[derive(Clone, Copy, Debug, PartialEq, Eq)]
pub struct Outlines {
    /// How many places of three words are filled, one for each crossed side; the list is 0 behind
    /// them.
    pub places: u32,
    /// How many loops they are.
    pub loops: u32,
}

/// Lists the loops in which the plane z = (`height` + 1/2)/1024 crosses a closed surface.
///
/// The surface is one that editing takes. Every coordinate is in whole 1/1024 within ±32, also that
/// of a point which no triangle names, so no point lies in the plane; `height` is in
/// -32,768..=32,767.
///
/// `outline` has at least three words for each side that is crossed. Such a side gets a place: its
/// smaller corner, its larger corner, and the number of its loop, from 0. Sides that follow one
/// another in a loop, the last and the first too, share a triangle. A loop begins with its smallest
/// side and goes on through the triangle that runs this from the smaller to the larger corner; loops
/// come in the order of the sides that they begin with. Sides are compared by the smaller corner, and
/// then by the larger. The words behind become 0; after a refusal all do.
///
/// ```
/// // An octahedron of radius 1, cut halfway up: the four sides at its top corner, 4.
/// let mut points = [
///     1., 0., 0., -1., 0., 0., 0., 1., 0., 0., -1., 0., 0., 0., 1., 0., 0., -1.,
/// ];
/// let corners = [
///     0, 2, 4, 2, 1, 4, 1, 3, 4, 3, 0, 4, 2, 0, 5, 1, 2, 5, 3, 1, 5, 0, 3, 5,
/// ];
/// let mut work = vec![0; lanovishel::work_words(6, 8)];
/// let mut outline = [0; 12];
/// let mut cut = |points: &[f64], height| {
///     let found = lanovishel::outlines(points, &corners, &[0; 8], &mut work, height, &mut outline);
///     (found, outline)
/// };
/// let square = [0, 4, 0, /* then */ 3, 4, 0, /* then */ 1, 4, 0, /* then */ 2, 4, 0];
/// let listed = Ok(lanovishel::Outlines { places: 4, loops: 1 });
/// assert_eq!(cut(&points, 512), (listed, square));
///
/// // Above its top there is nothing.
/// let nothing = Ok(lanovishel::Outlines { places: 0, loops: 0 });
/// assert_eq!(cut(&points, 1_024), (nothing, [0; 12]));
///
/// // With corner 0 above the plane too, six sides are crossed, and there are four places.
/// points[2] = 1.;
/// assert_eq!(cut(&points, 512), (Err(lanovishel::Refusal::TooFewPlaces), [0; 12]));
/// ```
///
/// # Errors
/// [`Refusal`], by its number 1 to 5, 9 to 12, 31 to 33, 40 or 41.
pub fn outlines(
    points: &[f64],
    corners: &[u32],
    labels: &[u8],
    work: &mut [u32],
    height: i32,
    outline: &mut [u32],
) -> Result<Outlines, Refusal> {
    let (mut counts, mut place) = ([0; 2], [0; 2]);
    // SAFETY: each pointer comes with its own slice's length, and what is written is borrowed
    // alone.
    let number = unsafe {
        raw::lanovishel_outlines(
            points.as_ptr(),
            points.len(),
            corners.as_ptr(),
            corners.len(),
            labels.as_ptr(),
            labels.len(),
            work.as_mut_ptr(),
            work.len(),
            height,
            outline.as_mut_ptr(),
            outline.len(),
            &mut counts,
            &mut place,
        )
    };
    Refusal::unless_0(number, place)?;
    let [places, loops] = counts;
    Ok(Outlines { places, loops })
}
