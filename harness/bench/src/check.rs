//! Checking, beside `validate`.
use crate::table::{head, means, once, row};
use differential::{
    checking::{mesh, quality},
    random::Random,
    surfaces::{Surface, bipyramid, sphere, torus},
};

const CALLS: u32 = 20;

/// Tori, and tori listed so that the minimum falls at every triangle; and of the largest size a sphere
/// and a bipyramid, which has two corners of half the triangles each.
pub fn table() {
    head("checking", "ours, µs", "`validate`, µs");
    for [around, across] in [[32, 32], [64, 32], [64, 64], [128, 64], [128, 128]] {
        let mut surface = torus(around, across);
        measure("torus", &surface);
        surface.jitter(&mut Random::new(1), 0.01);
        list_by_falling_quality(&mut surface);
        measure("worst listing", &surface);
    }
    measure("sphere", &sphere(6));
    measure("bipyramid", &bipyramid(16_384));
}

fn measure(name: &str, surface: &Surface) {
    let Surface {
        points,
        corners,
        labels,
    } = surface;
    let ours = once(
        || vec![1; surface.work_words()],
        |work| lanovishel::check(points, corners, labels, work).unwrap(),
    );
    let mesh = mesh(surface);
    let theirs = once(|| (), |()| original::validate(&mesh));
    let what = format!("{name}, {} triangles", surface.triangle_count());
    row(&what, means(CALLS, ours, theirs));
}

fn list_by_falling_quality(surface: &mut Surface) {
    let points = surface.points();
    let quality = |triangle: &[u32; 3]| quality(triangle.map(|corner| points[corner as usize]));
    let mut triangles = surface.triangles();
    triangles.sort_by(|a, b| quality(b).total_cmp(&quality(a)));
    surface.corners = triangles.concat();
}
