//! Improving, beside the original without its closing smoothing.
use crate::table::{head, means, once, row};
use differential::{
    call::Call,
    checking::mesh,
    field::told,
    improving::pinch,
    random::Random,
    surfaces::{Surface, bipyramid, sphere},
};
use lanovishel::{Field, Improved};

/// Spheres with uneven triangles and short sides, and bipyramids, which have two corners of half the triangles each.
pub fn table() {
    head("improving", "ours, µs", "`improve`, µs");
    for times in 4..=6 {
        let mut surface = sphere(times);
        let mut random = Random::new(1);
        surface.jitter(&mut random, 0.3 / f64::powi(2.0, times as i32));
        (0..surface.triangle_count() / 16).for_each(|_| pinch(&mut surface, &mut random));
        for rounds in [1, 5] {
            measure("sphere", &surface, rounds);
        }
    }
    for around in [1024, 4096, 16384] {
        measure("bipyramid", &bipyramid(around), 1);
    }
}

fn measure(name: &str, surface: &Surface, rounds: u32) {
    let calls = if surface.triangle_count() > 10_000 {
        5
    } else {
        20
    };
    let mut call = Call::new(surface.clone(), surface.work_words());
    call.coefficients = vec![1.0; 3];
    call.powers = vec![2, 0, 0, 0, 2, 0, 0, 0, 2];
    call.levels = [0.0, 1.0];
    call.bounds = [-2.0, -2.0, -2.0, 2.0, 2.0, 2.0];
    call.rounds = rounds;
    let left = improve(&mut call.clone());
    let ours = once(|| call.clone(), improve);
    let band = told(&call);
    let theirs = once(
        || mesh(surface),
        |mesh| original::improve(mesh, &band, rounds as usize),
    );
    let triangles = surface.triangle_count();
    let collapses = (triangles - left.triangles as usize) / 2;
    let done = format!("{collapses} collapses, {} flips", left.flips);
    let what = format!("{name}, {triangles} triangles, rounds: {rounds} ({done})");
    row(&what, means(calls, ours, theirs));
}

fn improve(call: &mut Call) -> Improved {
    let field = Field {
        coefficients: &call.coefficients,
        powers: &call.powers,
        levels: call.levels,
        bounds: call.bounds,
    };
    let Surface {
        points,
        corners,
        labels,
    } = &mut call.surface;
    lanovishel::improve(points, corners, labels, &mut call.work, &field, call.rounds).unwrap()
}
