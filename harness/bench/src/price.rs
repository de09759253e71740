//! Pricing, beside checking, which it begins with.
use crate::table::{head, leasts, once, row};
use differential::{
    surfaces::{Surface, sphere},
    whole,
};
use lanovishel::Tariff;

const CALLS: u32 = 100;

/// Eight steps: a sphere of radius 32 has some 137,000 unit cubes, and so a part in each.
const TARIFF: Tariff = Tariff {
    uppers: &[1, 10, 100, 1_000, 10_000, 50_000, 100_000],
    prices: &[800, 700, 600, 500, 400, 300, 200, 100],
};

/// Spheres on whole units: the least of so many calls, in turn.
pub fn table() {
    head("pricing", "pricing, µs", "checking, µs");
    for times in [4, 5, 6] {
        measure("sphere", &whole::stretched(sphere(times)));
    }
}

fn measure(name: &str, surface: &Surface) {
    let Surface {
        points,
        corners,
        labels,
    } = surface;
    let work = || vec![1; surface.work_words()];
    let price = once(work, |work| {
        lanovishel::price(points, corners, labels, work, &TARIFF).unwrap()
    });
    let check = once(work, |work| {
        lanovishel::check(points, corners, labels, work).unwrap()
    });
    let what = format!("{name}, {} triangles", surface.triangle_count());
    row(&what, leasts(CALLS, [&price, &check]));
}
