//! A model of document 01's questions: `Err` has the first "no".
use crate::{closed, finder, surfaces::Surface};

/// The most points, and the most triangles, that are taken.
pub const MOST: usize = 32_768;

/// A "no": its number, and the place that is answered with it.
#[derive(Clone, Copy, Debug, Default, PartialEq, Eq)]
pub struct No {
    /// The number.
    pub number: u32,
    /// The corners of a side after 31 and 32, a corner and 0 after 33, else 0 and 0.
    pub place: [u32; 2],
}

/// Questions 1 to 4.
pub fn first(surface: &Surface, work_words: usize) -> Result<(), No> {
    let threes = surface.points.len().is_multiple_of(3) && surface.corners.len().is_multiple_of(3);
    ask(
        threes && surface.labels.len() == surface.triangle_count(),
        1,
    )?;
    ask(
        surface.point_count() <= MOST && surface.triangle_count() <= MOST,
        2,
    )?;
    ask(work_words >= surface.work_words(), 3)?;
    ask(surface.points.iter().all(|x| x.is_finite()), 4)
}

/// Whether the corners of a triangle are on the list: 5.
pub fn on_the_list(surface: &Surface, triangle: &[u32; 3]) -> Result<(), No> {
    ask(
        triangle
            .iter()
            .all(|&corner| (corner as usize) < surface.point_count()),
        5,
    )
}

/// Whether all corners are on the list: 5.
pub fn all_on_the_list(surface: &Surface) -> Result<(), No> {
    surface
        .triangles()
        .iter()
        .try_for_each(|triangle| on_the_list(surface, triangle))
}

/// (b) and (c): 31 to 33. The finder must find nothing where the rules hold, and only there.
pub fn sides_and_rings(surface: &Surface) -> Result<(), No> {
    let triangles = surface.triangles();
    let found = finder::finding(&triangles);
    assert_eq!(found.is_ok(), closed::sides_and_rings(&triangles));
    found
}

/// Questions 1 to 4, then 9, 5, 10, 11, 31 to 33 and 12: what improving and editing ask of a
/// surface.
pub fn editing(surface: &Surface, work_words: usize) -> Result<(), No> {
    first(surface, work_words)?;
    let triangles = surface.triangles();
    ask(surface.labels.iter().all(|&label| label <= 7), 9)?;
    all_on_the_list(surface)?;
    ask(triangles.iter().all(closed::corners_differ), 10)?;
    let mut carried = vec![0u8; surface.point_count()];
    for (triangle, label) in triangles.iter().zip(&surface.labels) {
        triangle
            .iter()
            .for_each(|&corner| carried[corner as usize] |= 1 << label);
    }
    let both = |set: u8| (0..4).any(|pair| set >> (2 * pair) & 3 == 3);
    ask(!carried.into_iter().any(both), 11)?;
    sides_and_rings(surface)?;
    ask(closed::no_two_alike(&triangles), 12)
}

/// The number where the answer is "no".
pub fn ask(yes: bool, number: u32) -> Result<(), No> {
    let place = [0, 0];
    if yes {
        Ok(())
    } else {
        Err(No { number, place })
    }
}
