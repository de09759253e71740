//! Surfaces on whole units: random ones of 4 to 32,768 triangles, other listings of them, and some
//! whose volume is known.
use crate::{
    questions,
    random::Random,
    surfaces::{Surface, bipyramid, sphere, tetrahedron, torus, walled_box},
    volume::{MOST, Point, in_line, six, units},
};
use std::cmp::Reverse;

/// The lowest and the highest value on an axis.
pub type Span = [i64; 2];

/// The whole range.
pub const RANGE: Span = [-MOST, MOST];

/// A unit, as it is lent.
pub const UNIT: f64 = 1.0 / 1_024.0;

/// The first number of units beyond the range.
pub const BEYOND: f64 = 32.0 + UNIT;

/// How often a surface is drawn at most, before a plain one is taken.
const DRAWS: u64 = 100;

/// A closed surface without a degenerate triangle, with a positive volume, and how often it was
/// drawn again.
pub fn any(random: &mut Random) -> (Surface, u64) {
    let triangles = size(random);
    any_of(random, triangles)
}

/// The same, of so many triangles: an even number from 4 on.
pub fn any_of(random: &mut Random, triangles: usize) -> (Surface, u64) {
    for again in 0..DRAWS {
        let mut surface = drawn(random, triangles);
        if turned_out(&mut surface) {
            return (surface, again);
        }
    }
    (stretched(plain(triangles)), DRAWS)
}

/// A shape from -1 to 1, stretched to the whole range.
pub fn stretched(mut shape: Surface) -> Surface {
    shape.points = lent(&fitted(&shape, [RANGE; 3])).concat();
    shape
}

/// A torus as wide as the range, a third as high, around the z axis.
pub fn lying_torus(around: usize, across: usize) -> Surface {
    let mut shape = torus(around, across);
    shape.scale([1.0 / 3.0; 3]);
    stretched(shape)
}

/// A torus as wide and as high as the range, around the x axis.
pub fn standing_torus(around: usize, across: usize) -> Surface {
    let mut torus = lying_torus(around, across);
    torus
        .points
        .chunks_exact_mut(3)
        .for_each(|point| point.rotate_right(1));
    torus
}

/// A box with its lowest corner at `low`, each wall of `cells` times `cells` squares: six is six
/// times the product of the sides.
pub fn boxed(low: Point, sides: Point, cells: i64) -> Surface {
    let mut shape = walled_box(cells as usize);
    let node = |x: f64| ((x + 1.0) / 2.0 * cells as f64).round() as i64;
    let place = |p: [f64; 3]| std::array::from_fn(|k| low[k] + node(p[k]) * sides[k] / cells);
    let points: Vec<Point> = shape.points().into_iter().map(place).collect();
    shape.points = lent(&points).concat();
    shape
}

/// A tetrahedron with three legs along the axes, from 0: six is the product of the legs.
pub fn with_legs(legs: Point) -> Surface {
    let mut shape = tetrahedron();
    shape.scale(legs.map(|leg| leg as f64 * UNIT));
    shape
}

/// A flat tetrahedron beside an unused first point: six is 0. As it is listed here, checking finds
/// its volume above 0.
pub fn flat() -> Surface {
    let points = [[0, 1, -1], [-1, 1, 0], [1, 0, 0], [0, -1, 0], [-1, 0, 0]];
    let triangles = [[2, 3, 4], [1, 4, 3], [1, 3, 2], [1, 2, 4]];
    Surface::new(&lent(&points), &triangles)
}

/// How many triangles: an even number, each doubling as often as any other, at times an end.
fn size(random: &mut Random) -> usize {
    if random.one_in(20) {
        return random.pick(&[4, questions::MOST]);
    }
    let pairs = 2 << random.below(13);
    2 * random.within(pairs, 2 * pairs)
}

/// Turns the surface round where its volume is negative; false where it is 0 or a triangle is
/// degenerate.
fn turned_out(surface: &mut Surface) -> bool {
    let points = units(&surface.points).unwrap();
    let triangles = surface.triangles();
    let six = six(&points, &triangles, points[0]);
    if six < 0 {
        surface.reverse();
    }
    let degenerate = |t: &[u32; 3]| in_line(t.map(|corner| points[corner as usize]));
    six != 0 && !triangles.iter().any(degenerate)
}

/// The same surface: triangles and points listed in any order, with up to four more unused points,
/// often one of them first; at times the triangles by their shares.
pub fn listed_anew(surface: &Surface, random: &mut Random) -> Surface {
    let mut listed = surface.clone();
    shuffle(&mut listed, random);
    if random.one_in(2) {
        let first = [0; 3].map(|_| {
            let any = between(random, RANGE);
            random.pick(&[-MOST, MOST, any])
        });
        put_first(&mut listed, first);
    }
    if random.one_in(4) {
        list_by_falling_share(&mut listed);
    }
    listed
}

/// Lists triangles and points in any order, with up to three more unused points.
pub fn shuffle(surface: &mut Surface, random: &mut Random) {
    surface.relist(random);
    let room = questions::MOST - surface.point_count();
    let unused = random.within(0, room.min(3));
    let unused = scattered(random, unused, [RANGE; 3]);
    surface.renumber_with(random, &lent(&unused));
}

/// Lists the triangles by their shares of the volume, so that no order has larger partial sums. Labels
/// stay where they are.
pub fn list_by_falling_share(surface: &mut Surface) {
    let points = units(&surface.points).unwrap();
    let mut triangles = surface.triangles();
    triangles.sort_by_cached_key(|&triangle| Reverse(six(&points, &[triangle], points[0])));
    surface.corners = triangles.concat();
}

/// Lists an unused point first, where there is room for one.
fn put_first(surface: &mut Surface, point: Point) {
    if surface.point_count() < questions::MOST {
        let mut listed = Surface::new(&lent(&[point]), &[]);
        listed.join(surface);
        *surface = listed;
    }
}

/// A surface whose points are anywhere in the range or near its ends, or in a part of the range,
/// there anywhere or as the shape has them; often with an unused first point far from the others.
pub fn drawn(random: &mut Random, triangles: usize) -> Surface {
    let mut surface = pieces(random, triangles);
    let count = surface.point_count();
    let part = some_part(random);
    let points = match random.below(4) {
        0 => scattered(random, count, [RANGE; 3]),
        1 => near_ends(random, count),
        2 => scattered(random, count, part),
        _ => fitted(&surface, part),
    };
    surface.points = lent(&points).concat();
    if random.one_in(2) {
        let far = points[0].map(|x| if x > 0 { -MOST } else { MOST });
        put_first(&mut surface, far);
    }
    surface
}

/// Any part of the range, often a small one.
pub fn some_part(random: &mut Random) -> [Span; 3] {
    let longest = random.pick(&[8, 64, 1_024, 2 * MOST, 2 * MOST]);
    [0; 3].map(|_| {
        let side = between(random, [1, longest]);
        let low = between(random, [-MOST, MOST - side]);
        [low, low + side]
    })
}

/// A value of a span.
pub fn between(random: &mut Random, [low, high]: Span) -> i64 {
    low + random.below((high - low + 1) as usize) as i64
}

fn anywhere(random: &mut Random, part: [Span; 3]) -> Point {
    part.map(|span| between(random, span))
}

/// Points anywhere in a part of the range.
pub fn scattered(random: &mut Random, count: usize, part: [Span; 3]) -> Vec<Point> {
    (0..count).map(|_| anywhere(random, part)).collect()
}

/// Points near the corners of the range, or some of them near its sides and walls.
pub fn near_ends(random: &mut Random, count: usize) -> Vec<Point> {
    let farthest = random.pick(&[0, 4, 30, 300]);
    let corners = random.one_in(2);
    let mut coordinate = || {
        if !corners && random.one_in(4) {
            return between(random, RANGE);
        }
        random.pick(&[-1, 1]) * between(random, [MOST - farthest, MOST])
    };
    (0..count).map(|_| [0; 3].map(|_| coordinate())).collect()
}

/// The points of a shape from -1 to 1, stretched to a part of the range and rounded.
fn fitted(shape: &Surface, part: [Span; 3]) -> Vec<Point> {
    let fit = |x: f64, [low, high]: Span| {
        let half = (high - low) as f64 / 2.0;
        low + ((x + 1.0) * half).round() as i64
    };
    let points = shape.points().into_iter();
    points
        .map(|p| std::array::from_fn(|axis| fit(p[axis], part[axis])))
        .collect()
}

/// Puts one of the values off the units or the range.
pub fn put_off(values: &mut [f64], random: &mut Random) {
    let place = random.below(values.len());
    let half = values[place] + 0.5 * UNIT;
    let next = values[place].next_up();
    values[place] = random.pick(&[BEYOND, -BEYOND, half, next]);
}

/// Finite values that are not in whole units within the range.
pub fn off() -> Vec<f64> {
    let just_off = [0.0, UNIT, 1.0, -5.5, 32.0, -32.0]
        .into_iter()
        .flat_map(|x: f64| [x.next_up(), x.next_down()]);
    let far = [33.0, 1e3, 1e19, 2f64.powi(54), 1e300, f64::MAX];
    [BEYOND, 0.5 * UNIT, 31.0 + 0.5 * UNIT, 0.1, 1e-300]
        .into_iter()
        .chain(far)
        .flat_map(|x| [x, -x])
        .chain(just_off)
        .collect()
}

/// Values that are not finite.
pub const NOT_FINITE: [f64; 3] = [f64::NAN, f64::INFINITY, f64::NEG_INFINITY];

/// Points in units as they are lent.
pub fn lent(points: &[Point]) -> Vec<[f64; 3]> {
    points
        .iter()
        .map(|point| point.map(|x| x as f64 * UNIT))
        .collect()
}

/// One piece or several with so many triangles in all, from -1 to 1.
fn pieces(random: &mut Random, triangles: usize) -> Surface {
    let largest = random.pick(&[4, 40, 400, triangles, triangles, triangles]);
    let mut surface = Surface::default();
    while surface.triangle_count() < triangles {
        let left = triangles - surface.triangle_count();
        let mut piece = piece(random, left.min(largest));
        if left - piece.triangle_count() == 2 {
            // No piece has 2 triangles.
            piece = plain(left);
        }
        if piece.triangle_count() < triangles {
            let size = random.pick(&[0.1, 0.5, 1.0]);
            piece.scale([size; 3]);
            piece.shift([0; 3].map(|_| (1.0 - size) * random.signed()));
        }
        surface.join(&piece);
    }
    surface
}

/// A piece with at most so many triangles, which are at least 4, from -1 to 1.
fn piece(random: &mut Random, most: usize) -> Surface {
    match random.below(6) {
        0 => tetrahedron(),
        1 if most >= 8 => sphere((most / 8).ilog2() as usize / 2),
        2 | 3 if most >= 18 => {
            let across = random.within(3, (most / 2).isqrt());
            let mut torus = torus(most / 2 / across, across);
            torus.scale([1.0 / 3.0; 3]);
            torus
        }
        4 if most >= 12 => walled_box((most / 12).isqrt()),
        _ => plain(most),
    }
}

/// A piece with just so many triangles, an even number from 4 on.
fn plain(triangles: usize) -> Surface {
    match triangles {
        4 => tetrahedron(),
        _ => bipyramid(triangles / 2),
    }
}
