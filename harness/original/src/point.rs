//! What the original takes from its crate's root: points, and the operations on them, each
//! rounding once, in the original's order.

/// Three coordinates.
pub type Point = [f64; 3];

pub fn sub(a: Point, b: Point) -> Point {
    [a[0] - b[0], a[1] - b[1], a[2] - b[2]]
}

pub fn dot(a: Point, b: Point) -> f64 {
    (a[0] * b[0] + a[1] * b[1]) + a[2] * b[2]
}

pub fn cross(a: Point, b: Point) -> Point {
    let part = |i: usize, j: usize| a[i] * b[j] - a[j] * b[i];
    [part(1, 2), part(2, 0), part(0, 1)]
}

pub fn norm(a: Point) -> f64 {
    dot(a, a).sqrt()
}
