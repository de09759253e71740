//! Layer outlines beside the model and beside request F-9's sentences: the number, the list, every
//! list. And lists that need no model.
use differential::{
    call::{Call, FILLINGS},
    cases,
    outlines::{self, Place, Side, crossed_sides, holds, places},
    random::Random,
    report,
    surfaces::{Surface, bipyramid, octahedron, pillow, sphere, tetrahedron, torus},
    volume::{MOST, Point, units},
    whole::{self, BEYOND, NOT_FINITE, UNIT, off},
};

/// What the random calls met.
#[derive(Default)]
struct Met {
    numbers: Vec<u32>,
    /// The loops of accepted calls.
    loops: Vec<u32>,
    /// Accepted calls that list as many sides as there are places, that have a point half a unit below
    /// the plane, one half a unit above it, an unused point.
    accepted: [u64; 4],
    /// 40 by a height below the range, above it, by a coordinate.
    off: [u64; 3],
}

impl Met {
    fn enter(&mut self, call: &Call) {
        self.numbers.push(call.number);
        let points = units(&call.surface.points);
        match (call.number, points) {
            (0, Some(points)) => self.enter_accepted(call, &points),
            (40, _) => {
                let height = i64::from(call.height);
                let why = [height < -MOST, height >= MOST, true];
                self.off[why.iter().position(|&so| so).unwrap()] += 1;
            }
            _ => {}
        }
    }

    fn enter_accepted(&mut self, call: &Call, points: &[Point]) {
        let [sides, loops] = call.counts;
        self.loops.push(loops);
        let at = |z: i32| points.iter().any(|point| point[2] == z.into());
        let met = [
            loops > 0 && call.outline.len() == 3 * sides as usize,
            at(call.height),
            at(call.height + 1),
            (0..points.len() as u32).any(|corner| !call.surface.corners.contains(&corner)),
        ];
        (0..4).for_each(|kind| self.accepted[kind] += u64::from(met[kind]));
    }

    /// Prints what was met, each often enough in so many calls.
    fn report(&self, runs: u64) {
        let numbers = [0, 1, 2, 3, 4, 5, 9, 10, 11, 12, 31, 32, 33, 40, 41];
        report("number", &numbers, &self.numbers, runs / 1_000);
        report("loops", &[0, 1, 2, 3, 4, 5, 6], &self.loops, runs / 200);
        println!("most loops: {}", self.loops.iter().max().unwrap());
        println!(
            "a full list, a point just below, just above, unused: {:?}",
            self.accepted
        );
        println!(
            "40 by a height below, above, by a coordinate: {:?}",
            self.off
        );
        assert!(*self.accepted.iter().min().unwrap() >= runs / 10);
        assert!(*self.off.iter().min().unwrap() >= runs / 200);
    }
}

#[test]
fn random_calls() {
    let mut met = Met::default();
    let runs = cases(20_000, |random| {
        let call = outlines::random_call(random);
        let after = answered(&call)?;
        met.enter(&after);
        Ok(())
    });
    println!("{runs} calls for outlines");
    met.report(runs);
}

/// The call as ours leaves it, which must be as the model does; a list must be as the request says.
fn answered(call: &Call) -> Result<Call, String> {
    let after = outlines::ours(call);
    after.difference(&outlines::model(call))?;
    if after.number == 0 {
        holds(places(&after), &call.surface, call.height)?;
    }
    Ok(after)
}

/// A call with work words and places to spare.
fn lent(surface: &Surface, height: i32) -> Call {
    let mut call = Call::new(surface.clone(), surface.work_words() + 3);
    outlines::lend(&mut call, height, 3 * crossed_sides(surface, height) + 7);
    call
}

/// The places that are listed.
fn listed(surface: &Surface, height: i32) -> Vec<Place> {
    let after = answered(&lent(surface, height)).unwrap();
    assert_eq!(after.number, 0);
    places(&after).to_vec()
}

/// The sides of each loop.
fn outline(surface: &Surface, height: i32) -> Vec<Vec<Side>> {
    let list = listed(surface, height);
    let loops = list.chunk_by(|a, b| a[2] == b[2]);
    loops
        .map(|places| places.iter().map(|&[low, high, _]| [low, high]).collect())
        .collect()
}

/// How many sides are listed, in how many loops.
fn counted(surface: &Surface, height: i32) -> [u32; 2] {
    answered(&lent(surface, height)).unwrap().counts
}

/// The triangles of a surface with all points on the z axis, at such heights in units.
fn raised(surface: Surface, height: impl Fn(u32) -> i64) -> Surface {
    let points: Vec<Point> = (0..surface.point_count() as u32)
        .map(|corner| [0, 0, height(corner)])
        .collect();
    Surface {
        points: whole::lent(&points).concat(),
        ..surface
    }
}

fn inside_out(surface: &Surface) -> Surface {
    let mut turned = surface.clone();
    turned.reverse();
    turned
}

/// Half a unit above the middle of the octahedron only its corner 4 is above the plane, half a unit
/// below it all are but corner 5.
#[test]
fn octahedron_by_hand() {
    let top = [[0, 4, 0], [3, 4, 0], [1, 4, 0], [2, 4, 0]];
    let bottom = [[0, 5, 0], [2, 5, 0], [1, 5, 0], [3, 5, 0]];
    for height in [0, 1, 512, 1_023] {
        assert_eq!(listed(&octahedron(), height), top);
        assert_eq!(listed(&octahedron(), -1 - height), bottom);
    }
    for height in [1_024, -1_025] {
        assert_eq!(counted(&octahedron(), height), [0, 0]);
    }
}

/// Two tetrahedra whose corners take turns: the even ones are above the plane at corner 6 alone, the
/// odd ones at corners 1 and 5. The second loop begins between sides of the first.
#[test]
fn two_loops_by_hand() {
    let even = tetrahedron().triangles().into_iter();
    let even: Vec<[u32; 3]> = even.map(|t| t.map(|corner| 2 * corner)).collect();
    let odd: Vec<[u32; 3]> = even.iter().map(|t| t.map(|corner| corner + 1)).collect();
    let surface = Surface::new(&[[0.0; 3]; 8], &[odd, even].concat());
    let surface = raised(surface, |corner| i64::from([1, 5, 6].contains(&corner)));
    let first = [[0, 6, 0], [4, 6, 0], [2, 6, 0]];
    let second = [[1, 3, 1], [1, 7, 1], [5, 7, 1], [3, 5, 1]];
    assert_eq!(listed(&surface, 0), [&first[..], &second].concat());
}

/// Around the top of a bipyramid the ring is met falling, around its bottom rising.
#[test]
fn bipyramids_by_hand() {
    for around in [3, 4, 5, 100, 16_384] {
        let surface = whole::stretched(bipyramid(around as usize));
        let (top, bottom) = (around, around + 1);
        let falling = [0].into_iter().chain((1..around).rev());
        let above: Vec<Side> = falling.map(|corner| [corner, top]).collect();
        let below: Vec<Side> = (0..around).map(|corner| [corner, bottom]).collect();
        for height in [0, 32_767] {
            assert_eq!(outline(&surface, height), [&above[..]]);
            assert_eq!(outline(&surface, -1 - height), [&below[..]]);
        }
    }
}

/// Every triangle is crossed, in one loop: up and down through the ring of a bipyramid, whose corners
/// are above the plane and below it in turn.
#[test]
fn one_loop_through_all() {
    for around in [4, 6, 100, 16_384] {
        let (top, bottom) = (around, around + 1);
        let surface = raised(bipyramid(around as usize), |corner| match corner {
            corner if corner == top => 1,
            corner if corner == bottom => 0,
            corner => i64::from(corner % 2 == 0),
        });
        let step = |i: u32| {
            let next = (i + 1) % around;
            let far = if next % 2 == 1 { top } else { bottom };
            [[i.min(next), i.max(next)], [next, far]]
        };
        let all: Vec<Side> = (0..around).flat_map(step).collect();
        assert_eq!(all.len(), surface.triangle_count());
        assert_eq!(outline(&surface, 0), [all]);
    }
}

/// As many pieces as are taken, each with a loop of three sides.
#[test]
fn tetrahedra_by_hand() {
    for count in [1, 2, 300, 8_192] {
        let mut surface = Surface::default();
        (0..count).for_each(|_| surface.join(&tetrahedron()));
        let sides = |n: u32| [0, 2, 1].map(|corner| [4 * n + corner, 4 * n + 3, n]);
        let all: Vec<Place> = (0..count).flat_map(sides).collect();
        assert_eq!(listed(&surface, 511), all);
        assert_eq!(counted(&surface, 1_024), [0, 0]);
    }
}

/// Each set of corners above the plane, of small surfaces; the triangles in another order, and turned
/// round.
#[test]
fn every_set_of_corners_above() {
    let mut random = Random::new(1);
    let cube = whole::boxed([0; 3], [1; 3], 1);
    for shape in [tetrahedron(), octahedron(), bipyramid(5), cube] {
        for set in 0..1 << shape.point_count() {
            let surface = raised(shape.clone(), |corner| set >> corner & 1);
            let loops = outline(&surface, 0);
            hold_to_listings(&surface, 0, &loops, &mut random);
            assert_eq!([-1, 1].map(|height| counted(&surface, height)), [[0; 2]; 2]);
        }
    }
}

/// The triangles in any order, each beginning anywhere, have the same loops; turned round, they have
/// them with the same starts, the other way.
fn hold_to_listings(surface: &Surface, height: i32, loops: &[Vec<Side>], random: &mut Random) {
    let mut anew = surface.clone();
    anew.relist(random);
    assert_eq!(outline(&anew, height), loops);
    let mut other_way = loops.to_vec();
    other_way.iter_mut().for_each(|sides| sides[1..].reverse());
    assert_eq!(outline(&inside_out(&anew), height), other_way);
}

/// How many loops a height has, and in what order triangles are listed does not matter.
#[test]
fn tori_and_spheres() {
    let mut random = Random::new(1);
    let mut hold = |surface: &Surface, height: i32, count: usize| {
        let loops = outline(surface, height);
        assert_eq!(loops.len(), count, "{height}");
        hold_to_listings(surface, height, &loops, &mut random);
    };
    for [around, across] in [[24, 12], [40, 31]] {
        let torus = whole::standing_torus(around, across);
        for (height, count) in [(0, 2), (6_000, 2), (15_000, 1), (30_000, 1), (32_767, 1)] {
            hold(&torus, height, count);
            hold(&torus, -1 - height, count);
        }
        let torus = whole::lying_torus(around, across);
        for (height, count) in [(0, 2), (5_000, 2), (10_000, 2), (11_000, 0), (32_767, 0)] {
            hold(&torus, height, count);
            hold(&torus, -1 - height, count);
        }
    }
    let sphere = whole::stretched(sphere(3));
    for height in [-32_768, -20_000, -1, 0, 77, 32_000, 32_767] {
        hold(&sphere, height, 1);
    }
}

/// Half a unit above every point and half a unit below it.
#[test]
fn beside_every_point() {
    let shapes = [
        whole::standing_torus(12, 7),
        whole::lying_torus(9, 6),
        whole::stretched(sphere(2)),
        whole::boxed([-5, 2, -40], [11, 9, 100], 4),
    ];
    for surface in shapes {
        for [.., z] in units(&surface.points).unwrap() {
            for height in [z - 1, z].map(|h| h.clamp(-MOST, MOST - 1)) {
                listed(&surface, height as i32);
            }
        }
    }
}

/// Each wall of a box has as many upright sides as slanting ones. A point at the height is below the
/// plane.
#[test]
fn at_every_height_of_a_box() {
    for (low, high, cells) in [(-3, 2, 1), (-3, 2, 5), (0, 9, 3), (-32_768, -32_760, 2)] {
        let side = high - low;
        let surface = whole::boxed([0, 0, low.into()], [side.into(); 3], cells);
        for height in (low - 2).max(-32_768)..high + 3 {
            let crossed = (low..high).contains(&height);
            let counts = if crossed {
                [8 * cells as u32, 1]
            } else {
                [0, 0]
            };
            assert_eq!(counted(&surface, height), counts, "{height}");
        }
    }
}

/// The ends of the range are heights, and are coordinates; beyond them there is no height, whether a
/// surface has triangles, points, or neither.
#[test]
fn the_range() {
    let range = whole::boxed([-MOST; 3], [2 * MOST; 3], 1);
    let points = Surface {
        points: range.points.clone(),
        ..Surface::default()
    };
    for height in [-32_768, -32_767, -1, 0, 32_766, 32_767] {
        assert_eq!(counted(&range, height), [8, 1]);
        assert_eq!(counted(&points, height), [0, 0]);
        assert_eq!(counted(&Surface::default(), height), [0, 0]);
    }
    let beyond = [32_768, 32_769, 40_000, 65_535, 65_536, 98_304, 1 << 30];
    let below = beyond.map(|height| -1 - height);
    for height in [&beyond[..], &below, &[i32::MIN, i32::MAX]].concat() {
        for surface in [&range, &points, &Surface::default()] {
            let mut call = lent(surface, 0);
            call.height = height;
            assert_eq!(answered(&call).unwrap().number, 40, "{height}");
            call.outline.clear();
            assert_eq!(answered(&call).unwrap().number, 40, "{height}");
        }
    }
}

/// At a height at which all points lie, above it and below.
#[test]
fn flat_surfaces() {
    for z in [-32_768, -1, 0, 5, 32_768] {
        let surface = raised(octahedron(), |_| z);
        for height in [-32_768, z - 1, z, z + 1, 32_767] {
            let height = height.clamp(-MOST, MOST - 1) as i32;
            assert_eq!(counted(&surface, height), [0, 0]);
        }
    }
}

/// -0 is 0: half a unit below the plane, or half a unit above it.
#[test]
fn negative_zero() {
    let mut surface = octahedron();
    let zeros = surface.points.iter_mut().filter(|x| **x == 0.0);
    zeros.for_each(|x| *x = -0.0);
    for height in [-2, -1, 0, 1] {
        assert_eq!(listed(&surface, height), listed(&octahedron(), height));
    }
}

/// A box with `side` times `side` prongs on its top, at z = 100. Each is a point that is raised, the
/// first by one unit, the second by two, and so on.
fn comb(side: i64) -> Surface {
    let cells = 2 * side;
    let mut surface = whole::boxed([0; 3], [cells, cells, 100], cells);
    let mut prongs = 0;
    for point in surface.points.chunks_exact_mut(3) {
        let [x, y, z] = [0, 1, 2].map(|axis| (point[axis] / UNIT) as i64);
        if z == 100 && x % 2 == 1 && y % 2 == 1 {
            prongs += 1;
            point[2] += prongs as f64 * UNIT;
        }
    }
    assert_eq!(prongs, side * side);
    surface
}

/// Above the box each prong that is higher has a loop of the six sides at its point.
#[test]
fn combs() {
    let comb = comb(5);
    for height in 0..100 {
        assert_eq!(counted(&comb, height), [80, 1]);
    }
    for below in 0..=26 {
        let higher = 25u32.saturating_sub(below);
        assert_eq!(counted(&comb, 100 + below as i32), [6 * higher, higher]);
    }
}

/// Every triangle is crossed, in loops of three sides: no surface has more loops. Of a bipyramid each
/// triangle is cut in three around a point of its own, above the others.
#[test]
fn most_loops() {
    let base = bipyramid(10_922 / 2);
    let first = base.point_count() as u32;
    let mut triangles = base.triangles();
    triangles.iter_mut().for_each(|triangle| {
        let least = (0..3).min_by_key(|&place| triangle[place]);
        triangle.rotate_left(least.unwrap());
    });
    let tips = first..first + triangles.len() as u32;
    let cut = |([a, b, c], tip): ([u32; 3], u32)| [[a, b, tip], [b, c, tip], [c, a, tip]];
    let around = triangles.iter().copied().zip(tips);
    let mut loops: Vec<Vec<Side>> = around
        .clone()
        .map(|([a, b, c], tip)| vec![[a, tip], [c, tip], [b, tip]])
        .collect();
    loops.sort_unstable();
    let points = vec![[0.0; 3]; first as usize + triangles.len()];
    let surface = Surface::new(&points, &around.flat_map(cut).collect::<Vec<_>>());
    assert_eq!(surface.triangle_count(), 32_766);
    let surface = raised(surface, |corner| i64::from(corner >= first));
    assert_eq!(outline(&surface, 0), loops);
}

/// The largest surfaces, their triangles and points listed in any order: a torus with every second
/// column above the plane, a sphere, and a torus that stands.
#[test]
fn the_largest() {
    let mut random = Random::new(1);
    let columns = raised(torus(128, 128), |corner| i64::from(corner % 2));
    assert_eq!(counted(&columns, 0), [32_768, 128]);
    for (mut surface, height, loops) in [
        (columns, 0, 128),
        (whole::stretched(sphere(6)), -7, 1),
        (whole::standing_torus(128, 128), 1_000, 2),
    ] {
        let counts = counted(&surface, height);
        assert_eq!(counts[1], loops);
        whole::shuffle(&mut surface, &mut random);
        assert_eq!(counted(&surface, height), counts);
    }
}

/// The loops of a second piece come behind those of the first, and unused points do not matter.
#[test]
fn one_piece_after_another() {
    let torus = whole::standing_torus(9, 8);
    let pieces = [comb(2), torus, octahedron(), tetrahedron()];
    for first in &pieces {
        for second in &pieces {
            for height in [0, 101, 511] {
                let (mut joined, unused) = (first.clone(), [0.5; 9]);
                joined.points.extend(unused);
                let shift = joined.point_count() as u32;
                joined.join(second);
                let mut loops = outline(first, height);
                let moved = |sides: Vec<Side>| {
                    let sides = sides.into_iter();
                    sides
                        .map(|side| side.map(|corner| corner + shift))
                        .collect()
                };
                loops.extend(outline(second, height).into_iter().map(moved));
                assert_eq!(outline(&joined, height), loops);
            }
        }
    }
}

/// Labels that editing takes do not matter.
#[test]
fn any_labels() {
    let list = listed(&octahedron(), 0);
    for labels in [[7; 8], [0, 2, 4, 6, 6, 4, 2, 0], [1, 1, 3, 3, 5, 5, 7, 7]] {
        let labels = labels.to_vec();
        let surface = Surface {
            labels,
            ..octahedron()
        };
        assert_eq!(listed(&surface, 0), list);
    }
}

/// Where there are three words a side, those behind are 0; else all are.
#[test]
fn any_number_of_words() {
    let subjects = [
        (octahedron(), 0),
        (octahedron(), 1_024),
        (Surface::default(), 0),
        (whole::boxed([0; 3], [9; 3], 3), 4),
        (comb(3), 100),
    ];
    for (surface, height) in subjects {
        let list = listed(&surface, height);
        let most = 3 * list.len() + 9;
        for words in (0..=most).chain([10 * most, 10 * most + 1]) {
            let mut call = lent(&surface, height);
            outlines::lend(&mut call, height, words);
            let after = answered(&call).unwrap();
            let fits = words >= 3 * list.len();
            assert_eq!(after.number, if fits { 0 } else { 41 }, "{words}");
            let mut wanted = if fits { list.concat() } else { Vec::new() };
            wanted.resize(words, 0);
            assert_eq!(after.outline, wanted);
        }
    }
}

/// In any coordinate of any point, the first and the last of them unused; with triangles, with none,
/// and with too few places.
#[test]
fn values_that_are_refused() {
    let mut surface = Surface::new(&[[1.0; 3]], &[]);
    surface.join(&tetrahedron());
    surface.points.extend([2.0; 3]);
    let call = lent(&surface, 511);
    assert_eq!(answered(&call).unwrap().number, 0);
    let numbers = off()
        .into_iter()
        .map(|x| (x, 40))
        .chain(NOT_FINITE.map(|x| (x, 4)));
    for (x, number) in numbers {
        for place in 0..call.surface.points.len() {
            let mut altered = call.clone();
            altered.surface.points[place] = x;
            assert_eq!(answered(&altered).unwrap().number, number, "{x}");
            altered.outline.clear();
            assert_eq!(answered(&altered).unwrap().number, number, "{x}");
            altered.surface.corners.clear();
            altered.surface.labels.clear();
            assert_eq!(answered(&altered).unwrap().number, number, "{x}");
        }
    }
}

/// A corner beyond the points, at any place of the list.
#[test]
fn corners_that_are_not_listed() {
    for place in 0..12 {
        for beyond in [4, 5, 32_768, u32::MAX] {
            let mut call = lent(&tetrahedron(), 511);
            call.surface.corners[place] = beyond;
            assert_eq!(answered(&call).unwrap().number, 5);
        }
    }
}

/// Whatever the work words hold, and however many they are from 16 · 5 + 32 · 4 on; where sides are
/// crossed, where none is, and where there are too few places. Corner 0 is unused.
#[test]
fn any_work_words() {
    let mut surface = Surface::new(&[[1.0; 3]], &[]);
    surface.join(&tetrahedron());
    let list = [[1, 4, 0], [3, 4, 0], [2, 4, 0]].concat();
    for filling in FILLINGS {
        for (words, height, places) in (207..=209)
            .chain([300])
            .flat_map(|words| [(words, 511, 3), (words, 1_024, 0), (words, 511, 2)])
        {
            let mut call = lent(&surface, height);
            outlines::lend(&mut call, height, 3 * places);
            call.work = (0..words).map(filling).collect();
            let after = answered(&call).unwrap();
            if words < 208 {
                assert_eq!((after.number, after.work), (3, call.work));
                continue;
            }
            if places == 3 {
                assert_eq!(after.outline, list);
            }
            assert_eq!(after.number, if places == 2 { 41 } else { 0 });
            assert_eq!(after.work[..208], [0; 208]);
            assert_eq!(after.work[208..], call.work[208..]);
        }
    }
}

type Alter = fn(&mut Call);

/// What is asked, in turn: how eight tetrahedra come not to be so, and what is then answered. Each has
/// four corners and four triangles, and three sides that the plane crosses.
const TURN: [(Alter, u32, [u32; 2]); 20] = [
    (|call| call.surface.points.push(0.0), 1, [0, 0]),
    (|call| call.surface.labels.push(0), 1, [0, 0]),
    (
        |call| call.surface.points.resize(3 * 32_769, 0.0),
        2,
        [0, 0],
    ),
    (|call| grow(&mut call.surface, 32_769), 2, [0, 0]),
    (|call| call.work.clear(), 3, [0, 0]),
    (|call| call.surface.points[5] = f64::NAN, 4, [0, 0]),
    (|call| call.surface.labels[0] = 8, 9, [0, 0]),
    (|call| call.surface.corners[12] = 32_769, 5, [0, 0]),
    (|call| call.surface.corners[24] = 9, 10, [0, 0]),
    (|call| call.surface.labels[12] = 1, 11, [0, 0]),
    (|call| call.surface.double(16), 31, [16, 18]),
    (|call| call.surface.remove(31), 32, [29, 31]),
    (|call| call.surface.rename(24, 20), 33, [20, 0]),
    (|call| call.surface.join(&pillow()), 12, [0, 0]),
    (|call| call.height = -32_769, 40, [0, 0]),
    (|call| call.height = 32_768, 40, [0, 0]),
    (|call| call.surface.points[2] = -BEYOND, 40, [0, 0]),
    (|call| call.surface.points[0] = 0.5 * UNIT, 40, [0, 0]),
    (|call| call.surface.points.extend([0.1; 3]), 40, [0, 0]),
    (|call| call.outline.truncate(3 * 24 - 1), 41, [0, 0]),
];

/// Lists so many triangles: behind those that there are, of corner 0 alone.
fn grow(surface: &mut Surface, triangles: usize) {
    surface.corners.resize(3 * triangles, 0);
    surface.labels.resize(triangles, 0);
}

/// Of two numbers the first in turn is answered. After a refusal no answer is left, and the
/// work words are as lent after 1 to 3, else 0 where they are needed.
#[test]
fn in_turn() {
    let mut eight = Surface::default();
    (0..8).for_each(|_| eight.join(&tetrahedron()));
    assert_eq!(counted(&eight, 511), [24, 8]);
    for (n, &(alter, number, place)) in TURN.iter().enumerate() {
        let alone: Alter = |_| ();
        for later in TURN[n + 1..].iter().map(|turn| turn.0).chain([alone]) {
            let mut before = lent(&eight, 511);
            before.work.resize(before.work.len() + 200, 1);
            later(&mut before);
            alter(&mut before);
            let after = answered(&before).unwrap();
            assert_eq!((after.number, after.place), (number, place));
            assert_eq!(after.counts, [0, 0]);
            assert_eq!(after.outline, vec![0; before.outline.len()]);
            let needed = before.surface.work_words();
            let mut work = before.work;
            if number > 3 {
                work[..needed].fill(0);
            }
            assert_eq!(after.work, work);
        }
    }
}

type Break = fn(&mut Vec<Place>);

/// The sentences refuse a list that breaks one of them.
#[test]
fn lists_that_do_not_hold() {
    // Two loops of four sides each.
    let mut surface = octahedron();
    surface.join(&octahedron());
    let list = listed(&surface, 0);
    let breaks: [Break; 17] = [
        Vec::clear,
        |list| list.truncate(7),
        |list| list.truncate(4),
        |list| list.push([0, 4, 1]),
        |list| list.push([0, 2, 1]),
        |list| list[1] = list[0],
        |list| list[1].swap(0, 1),
        |list| list.swap(1, 2),
        |list| list[1..4].reverse(),
        |list| list[..4].rotate_left(1),
        |list| list.rotate_left(4),
        |list| {
            list.rotate_left(4);
            (0..8).for_each(|n| list[n][2] = n as u32 / 4);
        },
        |list| (0..8).for_each(|n| list[n][2] = 0),
        |list| (0..8).for_each(|n| list[n][2] += 1),
        |list| (4..8).for_each(|n| list[n][2] = 2),
        |list| (6..8).for_each(|n| list[n][2] = 2),
        |list| list[3][2] = 1,
    ];
    assert_eq!(holds(&list, &surface, 0), Ok(()));
    for (n, alter) in breaks.into_iter().enumerate() {
        let mut broken = list.clone();
        alter(&mut broken);
        assert!(holds(&broken, &surface, 0).is_err(), "{n}: {broken:?}");
    }
    assert!(holds(&list, &surface, -1).is_err());
    assert!(holds(&list, &inside_out(&surface), 0).is_err());
}
