//! Editing a surface by a run of entries.
use crate::{Refusal, raw};

/// What an edit run leaves.
#[derive(Clone, Copy, Debug, PartialEq, Eq)]
pub struct Edited {
    /// How many triangles are left; the lists are 0 behind them.
    pub triangles: u64,
    /// How many edits are in force, each with 12 words in the journal.
    pub in_force: u64,
}

/// Runs the entries in order. The surface stays closed, whatever they are.
///
/// An entry is three words: kind, a, b. Kind 1 flips the side a b, kind 2 keeps the corner a and
/// removes b, kind 3 takes back the last a edits (and b is 0). Each entry gets a verdict word: 0 for
/// accepted, or else
///
/// | word | why the entry changed nothing |
/// |---|---|
/// | 21 | another kind, or kind 3 with b not 0 |
/// | 22 | no such side |
/// | 23 | a flip between unlike labels |
/// | 24 | a collapse where b carries a label that a lacks |
/// | 25 | the surface would not be closed |
/// | 26 | more to take back than is in force |
/// | 27 | the journal is full: it holds an edit for every 12 words |
///
/// ```
/// // An octahedron; its side 0 2 becomes the side 4 5, and then 0 2 again.
/// let points = [
///     1., 0., 0., -1., 0., 0., 0., 1., 0., 0., -1., 0., 0., 0., 1., 0., 0., -1.,
/// ];
/// let octahedron = [
///     0, 2, 4, 2, 1, 4, 1, 3, 4, 3, 0, 4, 2, 0, 5, 1, 2, 5, 3, 1, 5, 0, 3, 5,
/// ];
/// let (mut corners, mut labels) = (octahedron, [0; 8]);
/// let mut work = vec![0; lanovishel::work_words(6, 8)];
/// let (mut verdicts, mut journal) = ([0; 3], [0; 24]);
/// let entries = [1, 0, 2, /* then */ 1, 4, 0, /* then */ 3, 1, 0];
/// let run = lanovishel::edit(
///     &points, &mut corners, &mut labels, &mut work, &entries, &mut verdicts, &mut journal,
/// );
/// assert_eq!(run, Ok(lanovishel::Edited { triangles: 8, in_force: 0 }));
/// assert_eq!(verdicts, [0, 25, 0]);
/// assert_eq!(corners, octahedron);
///
/// // Without the last triangle nothing runs from 5 to 0.
/// let open = lanovishel::edit(
///     &points, &mut corners[..21], &mut labels[..7], &mut work, &[], &mut [], &mut journal,
/// );
/// assert_eq!(open, Err(lanovishel::Refusal::Lone { from: 0, to: 5 }));
/// ```
///
/// # Errors
/// [`Refusal`], by its number 1 to 5, 9 to 12, 15, or 31 to 33.
pub fn edit(
    points: &[f64],
    corners: &mut [u32],
    labels: &mut [u8],
    work: &mut [u32],
    entries: &[u32],
    verdicts: &mut [u32],
    journal: &mut [u32],
) -> Result<Edited, Refusal> {
    let (mut answer, mut place) = ([0; 2], [0; 2]);
    // SAFETY: each pointer comes with its own slice's length, and what is written is borrowed
    // alone.
    let number = unsafe {
        raw::lanovishel_edit(
            points.as_ptr(),
            points.len(),
            corners.as_mut_ptr(),
            corners.len(),
            labels.as_mut_ptr(),
            labels.len(),
            work.as_mut_ptr(),
            work.len(),
            entries.as_ptr(),
            entries.len(),
            verdicts.as_mut_ptr(),
            verdicts.len(),
            journal.as_mut_ptr(),
            journal.len(),
            &mut answer,
            &mut place,
        )
    };
    Refusal::unless_0(number, place)?;
    let [triangles, in_force] = answer;
    Ok(Edited {
        triangles,
        in_force,
    })
}
