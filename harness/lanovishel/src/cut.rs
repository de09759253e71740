//! Where the levels of a field cut the edges of a lattice.
use crate::{Field, Lattice, Refusal, raw, sample::listed};

/// A field on the lattice of its box, and where its levels cut the edges.
#[derive(Clone, Debug, PartialEq)]
pub struct Cuts {
    /// The nodes, the values and the edges, as [`sample`](crate::sample) gives them.
    pub lattice: Lattice,
    /// For each edge, in the order of the list, the point where its level cuts it.
    pub cuts: Vec<[f64; 3]>,
    /// How many values of the field were taken on the edges, those at the nodes not counted.
    pub fields: u64,
}

/// Samples a field as [`sample`](crate::sample) does and finds where the levels cut the listed edges.
///
/// The residual at a point is the field there less the level, in f64; at a node it is the node's value,
/// as it is listed, less the level. An edge whose first node has the residual 0 is cut there; else, one
/// whose second node has it, there.
///
/// On every other edge the two nodes have residuals of opposite sign. The parameter t is 0 at the first
/// node a and 1 at the second node b, and its point is a·(1 - t) + b·t. From the ends lo = 0 and hi = 1,
/// each round takes the field at one t: lo - flo·(hi - lo)/(fhi - flo), with the residuals flo and fhi at
/// the ends; or (lo + hi)·0.5 where that is not strictly between the ends, and in the rounds 3, 7, 11,
/// 12, 13 and so on, counted from 0. Where the residual is at most 2^-46 of the largest magnitude among
/// both nodes' residuals, the level and 2^-1022, the edge is cut at t. Else t becomes the end whose
/// node has a residual of the same sign. After 52 rounds the edge is cut at (lo + hi)·0.5.
///
/// The parameter stays within 0..1. On a field that is curved along the edge the secants come in from
/// one side, so that one end of the interval stays far off until it is halved: on a coarse lattice many
/// edges take all 52 values, and some of them end midway, a little outside of the tolerance. On a finer
/// one few do. The original's `solve` is the same.
///
/// ```
/// // A ball, x² + y² + z² up to ½, on 5 nodes a side.
/// let mut ball = lanovishel::Field {
///     coefficients: &[1., 1., 1.],
///     powers: &[2, 0, 0, 0, 2, 0, 0, 0, 2],
///     levels: [f64::NEG_INFINITY, 0.5],
///     bounds: [-1., -1., -1., 1., 1., 1.],
/// };
/// let found = lanovishel::cut(&ball, 4).unwrap();
/// assert_eq!((found.lattice.edges.len(), found.cuts.len()), (74, 74));
///
/// // The first edge leads from (-½, -½, -1) to (0, 0, -½), and the sphere cuts it after two thirds.
/// assert_eq!(found.lattice.edges[0], [6, 6, 0]);
/// let [x, y, z] = found.cuts[0];
/// assert!((x + 1. / 6.).abs() < 1e-12 && x == y && (z + 2. / 3.).abs() < 1e-12);
///
/// // Of the 74 edges 36 have a node on the sphere; each of the others takes all 52 values.
/// assert_eq!(found.fields, 38 * 52);
///
/// // Where x + y + z is ¼, the first value on each edge is near enough.
/// (ball.powers, ball.levels[1]) = (&[1, 0, 0, 0, 1, 0, 0, 0, 1], 0.25);
/// let plane = lanovishel::cut(&ball, 4).unwrap();
/// assert_eq!(plane.fields, plane.cuts.len() as u64);
/// ```
///
/// # Errors
/// [`Refusal`], by its number 13, 34, 36 or 37.
pub fn cut(field: &Field, cells: u32) -> Result<Cuts, Refusal> {
    let (lattice, (cuts, fields)) = listed(cells, |grid, values, edges| {
        let mut cuts = vec![[0.0; 3]; edges.len() / 3];
        let places = cuts.as_flattened_mut();
        let found = cut_into(field, cells, grid, values, edges, places)?;
        cuts.truncate(found.edges as usize);
        cuts.shrink_to_fit();
        Ok((found.edges, (cuts, found.fields)))
    })?;
    Ok(Cuts {
        lattice,
        cuts,
        fields,
    })
}

/// What the lists of a cut lattice hold.
#[derive(Clone, Copy, Debug, PartialEq, Eq)]
pub struct CutCounts {
    /// How many nodes there are, each with three values in the grid and one in the list of values;
    /// both are 0 behind them.
    pub nodes: u32,
    /// How many edges are listed, of three words each, and how many cut places are filled, of three
    /// values each; both lists are 0 behind them.
    pub edges: u32,
    /// How many values of the field were taken on the edges, those at the nodes not counted.
    pub fields: u64,
}

/// Finds where the levels cut the edges as [`cut`] does, into lists of the caller's own.
///
/// The lists are those of [`sample_into`](crate::sample_into), and `cuts` has at least three values
/// for each edge that is listed. What is behind becomes 0; after a refusal all of the four lists does.
///
/// ```
/// // The half x < 0 of a box: the second node of each edge lies on the level.
/// let mut half = lanovishel::Field {
///     coefficients: &[1.],
///     powers: &[1, 0, 0],
///     levels: [f64::NEG_INFINITY, 0.],
///     bounds: [-1., -1., -1., 1., 1., 1.],
/// };
/// let nodes = lanovishel::node_count(4);
/// let (mut grid, mut values) = (vec![0.; 3 * nodes], vec![0.; nodes]);
/// let (mut edges, mut cuts) = (vec![0; 3 * 81], vec![0.; 3 * 81]);
/// let found = lanovishel::cut_into(&half, 4, &mut grid, &mut values, &mut edges, &mut cuts);
/// assert_eq!(found, Ok(lanovishel::CutCounts { nodes: 125, edges: 81, fields: 0 }));
/// assert_eq!(cuts[..6], [0., -1., -1., /* then */ 0., -0.5, -1.]);
///
/// // The level ¼ cuts the edges from there in their middles.
/// half.levels[1] = 0.25;
/// let found = lanovishel::cut_into(&half, 4, &mut grid, &mut values, &mut edges, &mut cuts);
/// assert_eq!(found, Ok(lanovishel::CutCounts { nodes: 125, edges: 81, fields: 81 }));
/// assert_eq!(cuts[..6], [0.25, -1., -1., /* then */ 0.25, -0.75, -1.]);
///
/// // One value less is too short.
/// cuts.pop();
/// let refused = lanovishel::cut_into(&half, 4, &mut grid, &mut values, &mut edges, &mut cuts);
/// assert_eq!(refused, Err(lanovishel::Refusal::ListTooShort));
/// assert_eq!(edges, [0; 3 * 81]);
/// ```
///
/// # Errors
/// [`Refusal`], by its number 13, 34, 35, 36 or 37. The edges are counted after 36, the cut places after
/// the edges, and 37 comes last.
pub fn cut_into(
    field: &Field,
    cells: u32,
    grid: &mut [f64],
    values: &mut [f64],
    edges: &mut [u32],
    cuts: &mut [f64],
) -> Result<CutCounts, Refusal> {
    let (mut counts, mut fields) = ([0; 4], [0]);
    // SAFETY: each pointer comes with its own slice's length, and what is written is borrowed
    // alone.
    let number = unsafe {
        raw::lanovishel_cut(
            field.coefficients.as_ptr(),
            field.coefficients.len(),
            field.powers.as_ptr(),
            field.powers.len(),
            &field.levels,
            &field.bounds,
            cells,
            grid.as_mut_ptr(),
            grid.len(),
            values.as_mut_ptr(),
            values.len(),
            edges.as_mut_ptr(),
            edges.len(),
            &mut counts,
            cuts.as_mut_ptr(),
            cuts.len(),
            &mut fields,
        )
    };
    Refusal::unless_0(number, [0; 2])?;
    let [nodes, _, edges, _] = counts;
    Ok(CutCounts {
        nodes,
        edges,
        fields: fields[0],
    })
}
