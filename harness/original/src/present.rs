//! The original's functions.
use crate::{
    Band, Cut, FieldSheet, Samples, Solved, cutting, field::Counted, implicit::ScalarField, oracle,
    quads, sampling, skipping, solving,
};

pub use oracle::TriangleMesh as Mesh;

/// Smallest quality and volume, or the original's message.
pub fn validate(mesh: &Mesh) -> Option<Result<(f64, f64), String>> {
    Some(oracle::validate(mesh).map_err(|error| error.to_string()))
}

/// So many rounds of `improve` without its closing smoothing: the count of flips.
pub fn improve(mesh: &mut Mesh, band: &Band, rounds: usize) -> Option<Result<usize, String>> {
    Some(oracle::improve(mesh, &theirs(band), rounds).map_err(|error| error.to_string()))
}

/// The same, where a side of a piece of just four corners is skipped; [`crate::skipped`] counts
/// them.
pub fn improve_skipping(
    mesh: &mut Mesh,
    band: &Band,
    rounds: usize,
) -> Option<Result<usize, String>> {
    let mut twin = skipping::TriangleMesh {
        points: std::mem::take(&mut mesh.points),
        faces: std::mem::take(&mut mesh.faces),
        labels: std::mem::take(&mut mesh.labels),
    };
    let flips = skipping::improve(&mut twin, &theirs(band), rounds);
    (mesh.points, mesh.faces, mesh.labels) = (twin.points, twin.faces, twin.labels);
    Some(flips.map_err(|error| error.to_string()))
}

/// `extract` up to its keys, on as many threads as rayon has here.
pub fn sample(band: &Band, cells: usize) -> Option<Result<Samples, String>> {
    Some(sampling::extract(&theirs(band), cells).map_err(|error| error.to_string()))
}

/// `extract` up to its roots, on as many threads as rayon has here.
pub fn roots(band: &Band, cells: usize) -> Option<Result<impl Sized, String>> {
    Some(solving::extract(&theirs(band), cells).map_err(|error| error.to_string()))
}

/// The same, each edge on its own: one without a root keeps none from the others. The root that is a
/// node has this node's point.
pub fn cut(band: &Band, cells: usize) -> Option<Result<Solved<Vec<Cut>>, String>> {
    let field = Counted(&band.field);
    let solved = match cutting::extract(&of(band, &field), cells) {
        Ok(solved) => solved,
        Err(error) => return Some(Err(error.to_string())),
    };
    let samples = solved.samples;
    let point = |root| match root {
        cutting::Root::Node(node) => samples.grid[node],
        cutting::Root::Point(point) => point,
    };
    let roots = solved
        .roots
        .into_iter()
        .map(|(root, taken)| (root.map(point).map_err(|error| error.to_string()), taken))
        .collect();
    Some(Ok(Solved { samples, roots }))
}

fn theirs(band: &Band) -> quads::Band<'_, FieldSheet> {
    of(band, &band.field)
}

fn of<'a, F: ScalarField>(band: &Band, field: &'a F) -> quads::Band<'a, F> {
    quads::Band {
        field,
        bounds: band.bounds,
        levels: band.levels,
    }
}
