//! Pricing beside the model: the number, the cents, every list. And prices that need no model.
use differential::{
    call::Call,
    cases,
    price::{self, CUBE},
    random::Random,
    report,
    surfaces::{Surface, bipyramid, tetrahedron, touching},
    volume::{MOST, Point, range_corners, six, units},
    whole::{self, BEYOND, UNIT},
};

/// What the random calls met.
#[derive(Default)]
struct Met {
    numbers: Vec<u32>,
    /// The steps of accepted calls.
    steps: Vec<u32>,
    /// Their volumes within a unit cube of a bound: below it, below it by a sixth of (1/1024)^3, at it,
    /// above it by such a sixth, above it.
    beside: [u64; 5],
    /// 47 where every coordinate is as it must be, and where one is not.
    no_price: [u64; 2],
}

impl Met {
    fn enter(&mut self, call: &Call) {
        self.numbers.push(call.number);
        match (call.number, units(&call.surface.points)) {
            (0, Some(points)) => self.enter_accepted(call, &points),
            (47, points) => self.no_price[usize::from(points.is_none())] += 1,
            _ => {}
        }
    }

    fn enter_accepted(&mut self, call: &Call, points: &[Point]) {
        self.steps.push(call.prices.len() as u32);
        let six = six(points, &call.surface.triangles(), [0; 3]);
        for &upper in &call.uppers {
            let above = six - i128::from(upper) * CUBE;
            if above.abs() < CUBE {
                self.beside[(above.clamp(-2, 2) + 2) as usize] += 1;
            }
        }
    }

    /// Prints what was met, each often enough in so many calls.
    fn report(&self, runs: u64) {
        let numbers = [0, 1, 2, 3, 4, 5, 6, 8, 31, 32, 33, 47];
        report("number", &numbers, &self.numbers, runs / 1_000);
        report("steps", &[1, 2, 3, 4, 5, 6, 7, 8], &self.steps, runs / 50);
        println!(
            "volumes below, just below, at, just above, above a bound: {:?}",
            self.beside
        );
        println!(
            "47 by the price sheet, by a coordinate: {:?}",
            self.no_price
        );
        let rarest = self.beside.iter().chain(&self.no_price).min();
        assert!(*rarest.unwrap() >= runs / 100);
    }
}

#[test]
fn random_calls() {
    let mut met = Met::default();
    let runs = cases(20_000, |random| case(random, &mut met));
    println!("{runs} calls of pricing");
    met.report(runs);
}

/// Compares a call with the model, and where it is accepted its price with that of another listing.
fn case(random: &mut Random, met: &mut Met) -> Result<(), String> {
    let call = price::random_call(random);
    let wanted = price::model(&call);
    met.enter(&wanted);
    price::ours(&call).difference(&wanted)?;
    if wanted.number != 0 || call.surface.corners.is_empty() {
        return Ok(());
    }
    let anew = whole::listed_anew(&call.surface, random);
    let anew = answered(&lent(&anew, &call.uppers, &call.prices))?;
    // Checking may refuse a listing and not the other.
    if anew.number == 0 && anew.cents != wanted.cents {
        return Err(format!("{:?}, {:?} listed anew", wanted.cents, anew.cents));
    }
    Ok(())
}

/// A call with work words to spare.
fn lent(surface: &Surface, uppers: &[u64], prices: &[u64]) -> Call {
    Call {
        uppers: uppers.to_vec(),
        prices: prices.to_vec(),
        ..Call::new(surface.clone(), surface.work_words() + 3)
    }
}

/// The call as ours leaves it, which must be as the model does.
fn answered(call: &Call) -> Result<Call, String> {
    let after = price::ours(call);
    after.difference(&price::model(call))?;
    Ok(after)
}

/// What a surface costs, or the number that refuses it.
fn price(surface: &Surface, uppers: &[u64], prices: &[u64]) -> Result<u64, u32> {
    let after = answered(&lent(surface, uppers, prices)).unwrap();
    match after.number {
        0 => Ok(after.cents[0]),
        number => Err(number),
    }
}

/// A surface and a further piece.
fn and(surface: &Surface, piece: &Surface) -> Surface {
    let mut both = surface.clone();
    both.join(piece);
    both
}

fn inside_out(surface: &Surface) -> Surface {
    let mut turned = surface.clone();
    turned.reverse();
    turned
}

/// A box in the lowest corner of the range, its sides in unit cubes.
fn cubes(sides: Point) -> Surface {
    whole::boxed([-MOST; 3], sides.map(|side| 1_024 * side), 1)
}

/// Nothing but points.
fn unused(points: &[f64]) -> Surface {
    Surface {
        points: points.to_vec(),
        ..Surface::default()
    }
}

/// Ten unit cubes and a half.
fn ten_and_a_half() -> Surface {
    whole::boxed([7, -1_500, 0], [1_024, 2_048, 5_376], 1)
}

#[test]
fn two_steps() {
    let price = |surface: &Surface| price(surface, &[10], &[500, 300]);
    assert_eq!(price(&tetrahedron()), Ok(500));
    assert_eq!(price(&ten_and_a_half()), Ok(5_300));
}

/// Seven boxes, each as large as the upper volume of a step, and what they cost.
const BOXES: [(Point, u64); 7] = [
    ([1, 1, 1], 700),
    ([1, 1, 2], 1_300),
    ([1, 2, 5], 8_500),
    ([2, 5, 10], 44_500),
    ([10, 10, 10], 314_500),
    ([10, 25, 40], 7_514_500),
    ([64, 64, 64], 32_728_900),
];

const UPPERS: [u64; 7] = [1, 2, 10, 100, 1_000, 10_000, 262_144];
const PRICES: [u64; 8] = [700, 600, 900, 400, 300, 800, 100, 500];

/// At a bound as many unit cubes are started as there are, and no more below it by less than one;
/// above it one of the next step is started, by (1/1024)^3 and by a sixth of that.
#[test]
fn beside_every_bound() {
    for (step, (sides, cents)) in BOXES.into_iter().enumerate() {
        let price = |surface: &Surface| price(surface, &UPPERS, &PRICES);
        let full = cubes(sides);
        let started = PRICES[step + 1];
        assert_eq!(price(&full), Ok(cents));
        for tiny in [[1, 2, 3], [1, 1, 1]].map(whole::with_legs) {
            assert_eq!(price(&and(&full, &tiny)), Ok(cents + started));
            assert_eq!(price(&and(&full, &inside_out(&tiny))), Ok(cents));
        }
    }
}

/// Below a bound by one unit cube, that one is not started, and by a little less it is.
#[test]
fn a_unit_cube_below_every_bound() {
    for (step, (sides, cents)) in BOXES.into_iter().enumerate().skip(1) {
        let price = |surface: &Surface| price(surface, &UPPERS, &PRICES);
        let less = and(&cubes(sides), &inside_out(&cubes([1; 3])));
        assert_eq!(price(&less), Ok(cents - PRICES[step]));
        assert_eq!(price(&and(&less, &whole::with_legs([1; 3]))), Ok(cents));
    }
}

/// As many tetrahedra as are taken, each of four corners of the range; the first point is `corner`.
/// From the middle of the range each triangle adds 2^47, and none can add more.
fn largest(corner: Point) -> Surface {
    let [x, y, z] = corner;
    let points = [corner, [x, -y, -z], [-x, y, -z], [-x, -y, z]];
    let mut one = Surface {
        points: whole::lent(&points).concat(),
        ..tetrahedron()
    };
    if x * y * z > 0 {
        one.reverse();
    }
    let mut all = Surface::default();
    (0..8_192).for_each(|_| all.join(&one));
    all
}

/// 2^62 / CUBE is 715,827,882 and 4/6.
#[test]
fn the_largest_volume() {
    for corner in range_corners() {
        let mut surface = largest(corner);
        let points = units(&surface.points).unwrap();
        assert_eq!([points.len(), surface.triangle_count()], [32_768; 2]);
        assert_eq!(six(&points, &surface.triangles(), corner), 1 << 62);
        assert_eq!(price(&surface, &[], &[100_000]), Ok(71_582_788_300_000));
        assert_eq!(price(&inside_out(&surface), &[], &[100_000]), Err(8));
        // The first point a unit inward along an axis is 2^32 less, just that 4/6; along another,
        // as much again.
        for (axis, end) in corner.into_iter().enumerate().take(2) {
            surface.points[axis] -= UNIT * end.signum() as f64;
            assert_eq!(price(&surface, &[], &[100_000]), Ok(71_582_788_200_000));
        }
    }
}

#[test]
fn the_largest_volume_by_steps() {
    let (mut surface, mut random) = (largest([MOST; 3]), Random::new(1));
    surface.relist(&mut random);
    surface.renumber(&mut random, 0);
    let price = |uppers: &[u64], prices: &[u64]| price(&surface, uppers, prices);
    assert_eq!(price(&[715_827_882], &[0, 7]), Ok(7));
    assert_eq!(price(&[715_827_883], &[1, 7]), Ok(715_827_883));
    let uppers = [0, 1, 2, 1_000, 715_827_881, 715_827_882, 715_827_883];
    assert_eq!(price(&uppers, &[100_000; 8]), Ok(71_582_788_300_000));
}

/// Steps that begin and end at 0, or that no volume comes to.
#[test]
fn uppers_at_both_ends() {
    const LAST: u64 = u64::MAX;
    let surfaces = [
        (tetrahedron(), 1),
        (ten_and_a_half(), 11),
        (largest([MOST; 3]), 715_827_883),
    ];
    for (surface, started) in surfaces {
        let price = |uppers: &[u64], prices: &[u64]| price(&surface, uppers, prices);
        assert_eq!(price(&[0], &[5, 7]), Ok(7 * started));
        assert_eq!(price(&[LAST], &[5, 7]), Ok(5 * started));
        assert_eq!(price(&[0, LAST], &[5, 7, 9]), Ok(7 * started));
        assert_eq!(price(&[LAST - 1, LAST], &[5, 7, 9]), Ok(5 * started));
        assert_eq!(price(&[0, 1, LAST], &[5, 7, 9, 11]), Ok(9 * started - 2));
        // In 32 bits the first is 0; in 64 bits so is `six` of the second, 3·2^64.
        for upper in [1 << 32, 1 << 33] {
            assert_eq!(price(&[upper], &[5, 7]), Ok(5 * started));
            assert_eq!(
                price(&[0, upper, upper + 1], &[5, 7, 9, 11]),
                Ok(7 * started)
            );
        }
    }
}

/// A price sheet of so many steps: uppers of 10, 20 and on, prices of 100, 101 and on.
fn sheet(steps: u64) -> (Vec<u64>, Vec<u64>) {
    let uppers = (1..steps).map(|step| 10 * step).collect();
    (uppers, (100..100 + steps).collect())
}

/// The price sheet of eight steps, altered.
fn eight_but(alter: impl Fn(&mut Vec<u64>, &mut Vec<u64>)) -> (Vec<u64>, Vec<u64>) {
    let (mut uppers, mut prices) = sheet(8);
    alter(&mut uppers, &mut prices);
    (uppers, prices)
}

#[test]
fn sheets_that_break_a_rule() {
    let mut broken = vec![sheet(0), sheet(9)];
    for steps in 1..=8 {
        let (uppers, prices) = sheet(steps);
        broken.push(([uppers.clone(), vec![1_000]].concat(), prices.clone()));
        if let Some((_, fewer)) = uppers.split_last() {
            broken.push((fewer.to_vec(), prices));
        }
    }
    for k in 0..6 {
        broken.push(eight_but(|uppers, _| uppers[k + 1] = uppers[k]));
        broken.push(eight_but(|uppers, _| uppers[k + 1] = uppers[k] - 1));
    }
    for k in 0..8 {
        broken.push(eight_but(|_, prices| prices[k] = 100_001));
        broken.push(eight_but(|_, prices| prices[k] = u64::MAX));
    }
    for (uppers, prices) in broken {
        for surface in [tetrahedron(), Surface::default()] {
            assert_eq!(
                price(&surface, &uppers, &prices),
                Err(47),
                "{uppers:?} {prices:?}"
            );
        }
    }
}

#[test]
fn sheets_just_within_the_rules() {
    let price = |(uppers, prices): (Vec<u64>, Vec<u64>)| price(&tetrahedron(), &uppers, &prices);
    for steps in 1..=8 {
        assert_eq!(price(sheet(steps)), Ok(100));
    }
    for k in 0..6 {
        assert_eq!(
            price(eight_but(|uppers, _| uppers[k + 1] = uppers[k] + 1)),
            Ok(100)
        );
    }
    for k in 0..8 {
        let cents = if k == 0 { 100_000 } else { 100 };
        assert_eq!(price(eight_but(|_, prices| prices[k] = 100_000)), Ok(cents));
    }
}

/// In a point of a triangle; in an unused one that is listed first, which triangles are measured
/// from; in one that is listed last, or alone.
#[test]
fn coordinates_that_have_no_price() {
    let refused = |surface: &Surface, x: f64| {
        assert_eq!(price(surface, &[], &[1]), Err(47), "{x}");
    };
    let half = UNIT / 2.0;
    for (place, x) in [(11, BEYOND), (2, -BEYOND), (11, half), (2, -half)] {
        let mut surface = tetrahedron();
        surface.points[place] = x;
        refused(&surface, x);
    }
    let off = [BEYOND, -BEYOND, half, 33.0 + half, 0.1, 1e-300, 1e3];
    let far = [f64::MAX, -f64::MAX, 1e19, 2f64.powi(54), 5e-324];
    for axis in 0..3 {
        let point = |x: f64| {
            let mut point = [0.0; 3];
            point[axis] = x;
            unused(&point)
        };
        for x in off {
            refused(&and(&point(x), &tetrahedron()), x);
        }
        for x in off.into_iter().chain(far) {
            refused(&and(&tetrahedron(), &point(x)), x);
            refused(&point(x), x);
        }
    }
}

#[test]
fn coordinates_at_the_ends() {
    let price = |surface: &Surface| price(surface, &[], &[1]);
    let ends = unused(&[32.0, -32.0, -0.0, UNIT, -UNIT, 32.0 - UNIT]);
    assert_eq!(price(&ends), Ok(0));
    assert_eq!(price(&and(&ends, &tetrahedron())), Ok(1));
    // The corner of the cube of side 64: 64^3 / 6 is 43,690 and 4/6.
    let mut corner = tetrahedron();
    corner.scale([64.0; 3]);
    corner.shift([-32.0; 3]);
    assert_eq!(price(&corner), Ok(43_691));
    // A mirror image, turned round: every 0 is -0.
    let mut mirrored = inside_out(&tetrahedron());
    mirrored.scale([-1.0; 3]);
    assert!(mirrored.points[0].is_sign_negative());
    assert_eq!(price(&mirrored), Ok(1));
}

type Alter = fn(&mut Surface);

/// What checking asks comes first, whatever the price sheet and the coordinates are; the place is
/// checking's, and the work words are as lent after 1 to 3, else 0 where they are needed.
#[test]
fn in_turn() {
    let refused: [(Alter, u32, [u32; 2]); 10] = [
        (|s| s.labels.truncate(3), 1, [0, 0]),
        (|s| s.points.resize(3 * 32_769, 0.0), 2, [0, 0]),
        (|s| s.points[5] = f64::NAN, 4, [0, 0]),
        (|s| s.corners[0] = 4, 5, [0, 0]),
        (|s| s.corners[0] = 1, 6, [0, 0]),
        (|s| s.double(0), 31, [0, 2]),
        (|s| s.remove(3), 32, [1, 3]),
        (|s| *s = touching(), 33, [0, 0]),
        (Surface::reverse, 8, [0, 0]),
        (|s| s.points[2] = -BEYOND, 47, [0, 0]),
    ];
    for (alter, number, place) in refused {
        for (shift, prices) in [(0.0, &[1][..]), (0.0, &[]), (0.1, &[1]), (0.1, &[])] {
            let mut surface = tetrahedron();
            alter(&mut surface);
            surface.shift([shift; 3]);
            let before = lent(&surface, &[], prices);
            let after = answered(&before).unwrap();
            assert_eq!(
                (after.number, after.place, after.cents),
                (number, place, [0])
            );
            let words = surface.work_words();
            let needed = if number > 3 {
                vec![0; words]
            } else {
                before.work[..words].to_vec()
            };
            assert_eq!(after.work, [&needed, &before.work[words..]].concat());
        }
    }
}

#[test]
fn too_few_work_words() {
    for prices in [&[1][..], &[]] {
        let mut before = lent(&tetrahedron(), &[], prices);
        before.work.truncate(191);
        let after = answered(&before).unwrap();
        assert_eq!((after.number, after.cents), (3, [0]));
        assert_eq!(after.work, before.work);
    }
}

#[test]
fn no_triangles() {
    let nothing = Surface::default();
    for surface in [&nothing, &unused(&[0.0; 3]), &unused(&tetrahedron().points)] {
        assert_eq!(price(surface, &[], &[100]), Ok(0));
        assert_eq!(price(surface, &[0, 1], &[100, 200, 300]), Ok(0));
    }
}

/// A bipyramid on three corners of the range: its triangles are one and the same, half of them turned
/// round. A fourth corner, far from all three, is an unused first point, and the triangles that add
/// to the volume from there are listed first.
fn pleated(around: usize) -> Surface {
    let [a, b, c] = [[32., 32., -32.], [32., -32., 32.], [-32., 32., 32.]];
    let ring = (0..around).map(|i| [a, b][i % 2]);
    let points: Vec<[f64; 3]> = ring.chain([c, c]).collect();
    let pleated = Surface {
        points: points.concat(),
        ..bipyramid(around)
    };
    let mut surface = and(&unused(&[-32.0; 3]), &pleated);
    whole::list_by_falling_share(&mut surface);
    surface
}

/// Holds a surface to its exact volume, and to cost nothing.
fn costs_nothing(surface: &Surface, exact: i128) {
    let points = units(&surface.points).unwrap();
    assert_eq!(six(&points, &surface.triangles(), points[0]), exact);
    assert_eq!(price(surface, &[], &[100]), Ok(0));
    assert_eq!(price(surface, &[0], &[100, 200]), Ok(0));
}

/// Since what it reports is rounded, checking accepts surfaces whose exact volume is 0 or less.
#[test]
fn no_volume() {
    costs_nothing(&whole::flat(), 0);
    // Each of 16,384 triangles adds 2^49: the sum from the first point is 2^63 before it falls.
    costs_nothing(&pleated(16_384), 0);
    let pleated = pleated(16_382);
    for (legs, exact) in [([1, 1, 1], -1), ([1, 2, 3], -6), ([4, 5, 5], -100)] {
        let piece = whole::with_legs(legs);
        costs_nothing(&and(&pleated, &inside_out(&piece)), exact);
        assert_eq!(price(&and(&pleated, &piece), &[], &[100]), Ok(100));
    }
}
