//! Damage to a surface, a kind at a time. What it leads to is the model's to say.
use crate::{
    questions::MOST,
    random::Random,
    surfaces::{Surface, octahedron},
};

/// A kind of damage; it meets a surface of at least four whole triangles.
type Damage = fn(&mut Surface, &mut Random);

/// Every kind of damage.
const KINDS: [Damage; 20] = [
    value_too_many,
    corner_too_many,
    label_gone,
    label_too_many,
    value_not_finite,
    corner_off_the_list,
    points_gone,
    corner_twice_in_a_triangle,
    point_onto_another,
    point_between_two,
    triangle_gone,
    triangle_twice,
    triangle_turned_round,
    corner_replaced,
    two_corners_made_one,
    piece_touching_at_a_corner,
    triangles_exchange_a_corner,
    all_turned_round,
    all_flat,
    one_coordinate_far_away,
];

/// What opens a surface and leaves its lists fit. Those behind the first two seldom repeat a directed
/// side, and those behind the third leave each its reverse.
const INJURIES: [Damage; 5] = [
    triangle_twice,
    triangle_turned_round,
    triangle_gone,
    two_corners_made_one,
    piece_touching_at_a_corner,
];

/// Opens a surface at one to five places.
pub fn injure(surface: &mut Surface, random: &mut Random) {
    let kinds = &INJURIES[random.below(INJURIES.len())..];
    for _ in 0..random.within(1, 5) {
        if surface.triangle_count() > 1 {
            random.pick(kinds)(surface, random);
        }
    }
}

/// Damages a surface up to `times` times, as long as its lists still fit one another.
pub fn some(surface: &mut Surface, random: &mut Random, times: usize) {
    for _ in 0..times {
        let points = surface.point_count() as u32;
        let fits = surface.labels.len() == surface.triangle_count()
            && surface.corners.iter().all(|&corner| corner < points);
        if !fits || surface.triangle_count() < 4 {
            return;
        }
        random.pick(&KINDS)(surface, random);
    }
}

/// As many points or triangles as are taken, or one more.
pub fn grow_to_the_limit(surface: &mut Surface, random: &mut Random) {
    let most = MOST + random.below(2);
    if random.one_in(2) {
        surface
            .points
            .resize(3 * most.max(surface.point_count()), 0.25);
    } else {
        surface
            .corners
            .resize(3 * most.max(surface.triangle_count()), 0);
        surface.labels.resize(surface.triangle_count(), 0);
    }
}

fn any_triangle(surface: &Surface, random: &mut Random) -> usize {
    3 * random.below(surface.triangle_count())
}

fn any_place(surface: &Surface, random: &mut Random) -> usize {
    random.below(surface.corners.len())
}

fn any_corner(surface: &Surface, random: &mut Random) -> u32 {
    surface.corners[any_place(surface, random)]
}

fn point(surface: &Surface, corner: u32) -> [f64; 3] {
    std::array::from_fn(|axis| surface.points[3 * corner as usize + axis])
}

fn set_point(surface: &mut Surface, corner: u32, point: [f64; 3]) {
    surface.points[3 * corner as usize..][..3].copy_from_slice(&point);
}

fn value_too_many(surface: &mut Surface, random: &mut Random) {
    surface.points.extend(vec![0.5; random.within(1, 2)]);
}

fn corner_too_many(surface: &mut Surface, random: &mut Random) {
    surface.corners.extend(vec![0; random.within(1, 2)]);
}

fn label_gone(surface: &mut Surface, _: &mut Random) {
    surface.labels.pop();
}

fn label_too_many(surface: &mut Surface, _: &mut Random) {
    surface.labels.push(0);
}

fn value_not_finite(surface: &mut Surface, random: &mut Random) {
    let place = random.below(surface.points.len());
    surface.points[place] = random.pick(&[f64::NAN, f64::INFINITY, f64::NEG_INFINITY]);
}

fn corner_off_the_list(surface: &mut Surface, random: &mut Random) {
    let (place, points) = (any_place(surface, random), surface.point_count() as u32);
    surface.corners[place] = random.pick(&[points, points + 1, 1 << 31, u32::MAX]);
}

fn points_gone(surface: &mut Surface, random: &mut Random) {
    let left = random.pick(&[0, 1, surface.point_count() - 1]);
    surface.points.truncate(3 * left);
}

fn corner_twice_in_a_triangle(surface: &mut Surface, random: &mut Random) {
    let place = any_triangle(surface, random);
    surface.corners[place] = surface.corners[place + random.within(1, 2)];
}

fn point_onto_another(surface: &mut Surface, random: &mut Random) {
    let place = any_triangle(surface, random);
    let [a, b] = [surface.corners[place], surface.corners[place + 1]];
    set_point(surface, a, point(surface, b));
}

fn point_between_two(surface: &mut Surface, random: &mut Random) {
    let place = any_triangle(surface, random);
    let [a, b, c] = [0, 1, 2].map(|j| surface.corners[place + j]);
    let (b, c) = (point(surface, b), point(surface, c));
    set_point(surface, a, std::array::from_fn(|k| (b[k] + c[k]) / 2.0));
}

fn triangle_gone(surface: &mut Surface, random: &mut Random) {
    surface.remove(random.below(surface.triangle_count()));
}

fn triangle_twice(surface: &mut Surface, random: &mut Random) {
    surface.double(random.below(surface.triangle_count()));
}

fn triangle_turned_round(surface: &mut Surface, random: &mut Random) {
    let place = any_triangle(surface, random);
    surface.corners.swap(place, place + 1);
}

fn corner_replaced(surface: &mut Surface, random: &mut Random) {
    let place = any_place(surface, random);
    surface.corners[place] = random.below(surface.point_count()) as u32;
}

fn two_corners_made_one(surface: &mut Surface, random: &mut Random) {
    let [a, b] = [any_corner(surface, random), any_corner(surface, random)];
    surface.rename(b, a);
}

/// A further piece, with the label of the triangle at whose corner it is.
fn piece_touching_at_a_corner(surface: &mut Surface, random: &mut Random) {
    // Of a whole triangle.
    let place = any_place(surface, random).min(3 * surface.labels.len() - 1);
    let (corner, first) = (surface.corners[place], surface.point_count() as u32);
    let mut piece = octahedron();
    piece.labels.fill(surface.labels[place / 3]);
    piece.shift(point(surface, corner));
    surface.join(&piece);
    surface.rename(first, corner);
}

fn triangles_exchange_a_corner(surface: &mut Surface, random: &mut Random) {
    let [a, b] = [any_place(surface, random), any_place(surface, random)];
    surface.corners.swap(a, b);
}

fn all_turned_round(surface: &mut Surface, _: &mut Random) {
    surface.reverse();
}

fn all_flat(surface: &mut Surface, random: &mut Random) {
    let mut factors = [1.0, 1.0, 1.0];
    factors[random.below(3)] = 0.0;
    surface.scale(factors);
}

fn one_coordinate_far_away(surface: &mut Surface, random: &mut Random) {
    let place = random.below(surface.points.len());
    surface.points[place] = random.pick(&[f64::MAX, -f64::MAX, 1e155, 1e77, -1e39]);
}
