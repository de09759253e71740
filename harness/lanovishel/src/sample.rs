//! Sampling a field on the lattice of a box.
use crate::{Field, Refusal, raw};
use std::ops::RangeInclusive;

/// How far each step of an edge goes along x, y and z: three axes, three diagonals of the faces of a
/// cell, and its diagonal through the inside.
///
/// With n nodes a side, the edge of a node and a step \[i, j, k\] ends at the node number
/// node + i + n·j + n·n·k.
pub const STEPS: [[u32; 3]; 7] = [
    [1, 0, 0],
    [0, 1, 0],
    [0, 0, 1],
    [1, 1, 0],
    [1, 0, 1],
    [0, 1, 1],
    [1, 1, 1],
];

/// How many nodes the lattice of so many cells a side has.
#[must_use]
pub const fn node_count(cells: u32) -> usize {
    let n = (cells as usize).saturating_add(1);
    n.saturating_mul(n).saturating_mul(n)
}

/// A field on the lattice of its box.
#[derive(Clone, Debug, PartialEq)]
pub struct Lattice {
    /// Where each node lies.
    pub grid: Vec<[f64; 3]>,
    /// The field at each node, near-level values set onto the level.
    pub values: Vec<f64>,
    /// The edges that a level crosses: the node where it begins, its step, and its label.
    pub edges: Vec<[u32; 3]>,
}

/// Samples a field on the lattice of its box, with so many cells a side, 4 to 128.
///
/// Nodes are numbered along x, then y, then z. A node that is c cells from the lower end of an axis
/// has the coordinate lower + ((upper - lower)·c)/cells there. The field's value is the sum, from +0
/// and in order, of its terms ((q·x^i)·y^j)·z^k, with the powers 1, v, v·v and (v·v)·v.
///
/// A value is near a finite level where they differ, in f64, by at most 2^-46 of the largest
/// magnitude among all values, the finite levels and 2^-1022. A value near the lower level is set
/// onto that; then what is near the upper level is set onto this.
///
/// An edge joins a node to one that is a [step](STEPS) further on in the lattice. It is listed once
/// for each finite level that crosses it, so that one end is below the level and the other is not,
/// with label 0 for the upper level and 1 for the lower: by rising nodes, then steps, then labels.
///
/// ```
/// // A ball, x² + y² + z² up to ½, on 5 nodes a side.
/// let mut ball = lanovishel::Field {
///     coefficients: &[1., 1., 1.],
///     powers: &[2, 0, 0, 0, 2, 0, 0, 0, 2],
///     levels: [f64::NEG_INFINITY, 0.5],
///     bounds: [-1., -1., -1., 1., 1., 1.],
/// };
/// let lattice = lanovishel::sample(&ball, 4).unwrap();
/// assert_eq!((lattice.grid.len(), lattice.edges.len()), (125, 74));
///
/// // The first edge goes a step along each axis, to the lowest of the seven nodes inside.
/// assert_eq!(lattice.edges[0], [6, 6, 0]);
/// let end = 6 + 1 + 5 + 25;
/// assert_eq!([lattice.grid[6], lattice.grid[end]], [[-0.5, -0.5, -1.], [0., 0., -0.5]]);
/// assert_eq!([lattice.values[6], lattice.values[end]], [1.5, 0.25]);
///
/// // 3 cells are too few, and x⁴ is no term of a field sheet.
/// assert_eq!(lanovishel::sample(&ball, 3), Err(lanovishel::Refusal::Cells));
/// ball.powers = &[4, 0, 0, 0, 2, 0, 0, 0, 2];
/// assert_eq!(lanovishel::sample(&ball, 4), Err(lanovishel::Refusal::FieldSheet));
/// ```
///
/// # Errors
/// [`Refusal`], by its number 13, 34 or 36.
pub fn sample(field: &Field, cells: u32) -> Result<Lattice, Refusal> {
    let (lattice, ()) = listed(cells, |grid, values, edges| {
        let found = sample_into(field, cells, grid, values, edges)?;
        Ok((found.edges, ()))
    })?;
    Ok(lattice)
}

/// A lattice in lists that are made for it. `fill` fills its grid, its values and its edges, and says
/// how many edges there are, and what else it has; it is asked again with the most places where the
/// likely ones are too few.
pub(crate) fn listed<T>(
    cells: u32,
    fill: impl Fn(&mut [f64], &mut [f64], &mut [u32]) -> Result<(u32, T), Refusal>,
) -> Result<(Lattice, T), Refusal> {
    // Another number of cells is refused whatever the lists are.
    let taken = if CELLS.contains(&cells) { cells } else { 0 };
    let nodes = node_count(taken);
    let (mut grid, mut values) = (vec![[0.0; 3]; nodes], vec![0.0; nodes]);
    let mut list = |places| {
        let mut edges = vec![[0; 3]; places];
        let words = edges.as_flattened_mut();
        let (count, other) = fill(grid.as_flattened_mut(), &mut values, words)?;
        edges.truncate(count as usize);
        edges.shrink_to_fit();
        Ok((edges, other))
    };
    let (edges, other) = match list(likely_edges(taken)) {
        Err(Refusal::ListTooShort) => list(most_edges(taken))?,
        listed => listed?,
    };
    let lattice = Lattice {
        grid,
        values,
        edges,
    };
    Ok((lattice, other))
}

/// How many cells a side are taken.
const CELLS: RangeInclusive<u32> = 4..=128;

/// As many edges as are listed but for rounding: less memory than the grid takes, where
/// [`most_edges`] may take seven times as much as that.
///
/// Along a line of the lattice the field is a polynomial, of degree 3 along an axis, 6 along the
/// diagonal of a face and 9 along that of a cell. With n nodes a side there are n², fewer than 2·n²
/// and fewer than 3·n² such lines of one step. So a level crosses fewer than
/// 3·3·n² + 3·6·2·n² + 9·3·n² = 72·n² edges.
fn likely_edges(cells: u32) -> usize {
    let n = cells as usize + 1;
    (2 * 72 * n * n).min(most_edges(cells))
}

/// As many edges as are listed where both levels cross each.
fn most_edges(cells: u32) -> usize {
    let along = |step: u32| (cells + 1 - step) as usize;
    let of_step = |[i, j, k]: [u32; 3]| along(i) * along(j) * along(k);
    2 * STEPS.into_iter().map(of_step).sum::<usize>()
}

/// What the lists of a sampled field hold.
#[derive(Clone, Copy, Debug, PartialEq, Eq)]
pub struct Sampled {
    /// How many nodes there are, each with three values in the grid and one in the list of values;
    /// both are 0 behind them.
    pub nodes: u32,
    /// How many edges are listed, of three words each; the list is 0 behind them.
    pub edges: u32,
}

/// Samples a field as [`sample`] does, into lists of the caller's own.
///
/// `grid` has at least three values for each of [`node_count`] nodes, `values` at least one, and
/// `edges` at least three words for each edge that is listed. What is behind becomes 0; after a
/// refusal all of the three lists does.
///
/// ```
/// // The half x < 0 of a box.
/// let half = lanovishel::Field {
///     coefficients: &[1.],
///     powers: &[1, 0, 0],
///     levels: [f64::NEG_INFINITY, 0.],
///     bounds: [-1., -1., -1., 1., 1., 1.],
/// };
/// let nodes = lanovishel::node_count(4);
/// let (mut grid, mut values) = (vec![0.; 3 * nodes], vec![0.; nodes]);
///
/// // From each of the 25 nodes with x = -½ to those with x = 0, by the steps 0, 3, 4 and 6.
/// let crossed = 25 + 20 + 20 + 16;
/// let mut edges = vec![0; 3 * crossed];
/// let found = lanovishel::sample_into(&half, 4, &mut grid, &mut values, &mut edges);
/// assert_eq!(found, Ok(lanovishel::Sampled { nodes: 125, edges: 81 }));
/// assert_eq!(edges[..12], [1, 0, 0, /* then */ 1, 3, 0, /* then */ 1, 4, 0, /* then */ 1, 6, 0]);
///
/// // One word less is too short.
/// edges.pop();
/// let refused = lanovishel::sample_into(&half, 4, &mut grid, &mut values, &mut edges);
/// assert_eq!(refused, Err(lanovishel::Refusal::ListTooShort));
/// assert_eq!(values, [0.; 125]);
/// ```
///
/// # Errors
/// [`Refusal`], by its number 13, 34, 35 or 36. The edges are counted last: 36 comes before their 35.
pub fn sample_into(
    field: &Field,
    cells: u32,
    grid: &mut [f64],
    values: &mut [f64],
    edges: &mut [u32],
) -> Result<Sampled, Refusal> {
    let mut counts = [0; 3];
    // SAFETY: each pointer comes with its own slice's length, and what is written is borrowed
    // alone.
    let number = unsafe {
        raw::lanovishel_sample(
            field.coefficients.as_ptr(),
            field.coefficients.len(),
            field.powers.as_ptr(),
            field.powers.len(),
            &field.levels,
            &field.bounds,
            cells,
            grid.as_mut_ptr(),
            grid.len(),
            values.as_mut_ptr(),
            values.len(),
            edges.as_mut_ptr(),
            edges.len(),
            &mut counts,
        )
    };
    Refusal::unless_0(number, [0; 2])?;
    let [nodes, _, edges] = counts;
    Ok(Sampled { nodes, edges })
}
