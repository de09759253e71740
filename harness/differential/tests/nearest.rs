//! Nearest corners beside the model: the number, the answers, every list. And answers that need no
//! model.
use differential::{
    call::{Call, FILLINGS},
    cases,
    nearest::{self, Answer, MOST_PROBES, NONE, in_use, squared},
    questions,
    random::Random,
    report,
    surfaces::{Surface, sphere, tetrahedron},
    volume::{MOST, Point, range_corners, units},
    whole::{self, BEYOND, NOT_FINITE, RANGE, UNIT, off},
};

/// What the random calls met.
#[derive(Default)]
struct Met {
    numbers: Vec<u32>,
    /// The probes of accepted calls.
    counts: Vec<u32>,
    /// Of these: without triangles, on the corner, with several corners equally near, with an unused
    /// point nearer.
    probes: [u64; 4],
    /// 42 by probe values not in threes, more than 64 probes, fewer answer places, a probe, a point.
    refused: [u64; 5],
}

impl Met {
    fn enter(&mut self, call: &Call) {
        self.numbers.push(call.number);
        match call.number {
            0 => self.enter_accepted(call),
            42 => self.refused[why(call)] += 1,
            _ => {}
        }
    }

    fn enter_accepted(&mut self, call: &Call) {
        self.counts.push(call.count[0]);
        let points = units(&call.surface.points).unwrap();
        let in_use = in_use(&call.surface);
        let probes = units(&call.probes).unwrap();
        for (probe, answer) in probes.into_iter().zip(call.answers.chunks(2)) {
            let distance = |corner: u32| squared(probe, points[corner as usize]);
            let nearest = in_use.iter().filter(|&&c| distance(c) == answer[1]).count();
            let nearer = points
                .iter()
                .any(|&point| squared(probe, point) < answer[1]);
            let met = [
                nearest == 0,
                nearest > 0 && answer[1] == 0,
                nearest > 1,
                nearer,
            ];
            (0..4).for_each(|kind| self.probes[kind] += u64::from(met[kind]));
        }
    }

    /// Prints what was met, each often enough in so many calls.
    fn report(&self, runs: u64) {
        let numbers = [0, 1, 2, 3, 4, 5, 42];
        report("number", &numbers, &self.numbers, runs / 1_000);
        report("probes", &[0, 1, 2, 64], &self.counts, runs / 50);
        println!(
            "probes without triangles, on a corner, with equally near corners, with an unused point nearer: {:?}",
            self.probes
        );
        println!(
            "42 by threes, 64 probes, answer places, a probe, a point: {:?}",
            self.refused
        );
        assert!(*self.probes.iter().min().unwrap() >= runs / 10);
        assert!(*self.refused.iter().min().unwrap() >= runs / 200);
    }
}

/// The first of what 42 asks that is not so.
fn why(call: &Call) -> usize {
    let probes = call.probes.len() / 3;
    let broken = [
        !call.probes.len().is_multiple_of(3),
        probes > MOST_PROBES,
        probes > call.answers.len() / 2,
        units(&call.probes).is_none(),
        units(&call.surface.points).is_none(),
    ];
    broken.iter().position(|&rule| rule).unwrap()
}

#[test]
fn random_calls() {
    let mut met = Met::default();
    let runs = cases(30_000, |random| case(random, &mut met));
    println!("{runs} calls for nearest corners");
    met.report(runs);
}

/// Compares a call with the model, and where it is accepted a probe with the same alone.
fn case(random: &mut Random, met: &mut Met) -> Result<(), String> {
    let call = nearest::random_call(random);
    let wanted = nearest::model(&call);
    met.enter(&wanted);
    nearest::ours(&call).difference(&wanted)?;
    if wanted.number != 0 || wanted.count == [0] {
        return Ok(());
    }
    let probe = random.below(wanted.count[0] as usize);
    let (among, alone) = (&wanted.answers[2 * probe..][..2], alone(&call, probe));
    if among != alone {
        return Err(format!("probe {probe}: {among:?}, alone {alone:?}"));
    }
    Ok(())
}

/// What a probe of an accepted call is answered where it is the only one.
fn alone(call: &Call, probe: usize) -> Answer {
    let after = nearest::ours(&Call {
        probes: call.probes[3 * probe..][..3].to_vec(),
        ..call.clone()
    });
    assert_eq!((after.number, after.count), (0, [1]));
    [after.answers[0], after.answers[1]]
}

/// A call with work words and answer places to spare.
fn lent(surface: &Surface, probes: &[Point]) -> Call {
    let mut call = Call::new(surface.clone(), surface.work_words() + 3);
    nearest::lend(&mut call, probes, 2 * probes.len() + 5);
    call
}

/// The call as ours leaves it, which must be as the model does.
fn answered(call: &Call) -> Call {
    let after = nearest::ours(call);
    after.difference(&nearest::model(call)).unwrap();
    after
}

/// What the probes are answered, or the number that refuses them.
fn nearest(surface: &Surface, probes: &[Point]) -> Result<Vec<Answer>, u32> {
    let after = answered(&lent(surface, probes));
    let (places, _) = after.answers.as_chunks();
    match after.number {
        0 => Ok(places[..after.count[0] as usize].to_vec()),
        number => Err(number),
    }
}

/// What one probe is answered.
fn nearest_to(probe: Point, surface: &Surface) -> Answer {
    nearest(surface, &[probe]).unwrap()[0]
}

/// Points with a triangle for each corner in use, which names it three times.
fn using(corners: &[u32], points: &[Point]) -> Surface {
    let triangles: Vec<[u32; 3]> = corners.iter().map(|&corner| [corner; 3]).collect();
    Surface::new(&whole::lent(points), &triangles)
}

fn plus(a: Point, b: Point) -> Point {
    [a[0] + b[0], a[1] + b[1], a[2] + b[2]]
}

#[test]
fn on_every_point() {
    let sphere = whole::stretched(sphere(3));
    let points = units(&sphere.points).unwrap();
    for (first, probes) in (0..).step_by(MOST_PROBES).zip(points.chunks(MOST_PROBES)) {
        let corners = first..first + probes.len() as u64;
        assert_eq!(
            nearest(&sphere, probes),
            Ok(corners.map(|corner| [corner, 0]).collect())
        );
    }
}

/// Points that are 5 from the middle.
const AROUND: [Point; 6] = [
    [0, 3, 4],
    [-5, 0, 0],
    [4, 0, -3],
    [0, 0, 5],
    [-3, -4, 0],
    [0, -5, 0],
];

/// Any of six corners, rising.
fn some_of_six() -> impl Iterator<Item = Vec<u32>> {
    (0..64).map(|set| (0..6).filter(|corner| set >> corner & 1 == 1).collect())
}

/// The smallest corner in use is answered, whichever these are and however they are listed.
#[test]
fn equally_near() {
    for (middle, size) in [([0; 3], 6_553), ([-20_000, 40, 7_777], 1), ([9; 3], 4_000)] {
        let points = AROUND.map(|step| plus(middle, step.map(|x| size * x)));
        for mut corners in some_of_six().skip(1) {
            let answer = [corners[0].into(), 25 * (size * size) as u64];
            assert_eq!(nearest_to(middle, &using(&corners, &points)), answer);
            corners.reverse();
            assert_eq!(nearest_to(middle, &using(&corners, &points)), answer);
        }
    }
}

/// Points that no triangle names lie on the probe, and are not answered.
#[test]
fn unused_points() {
    let probe = [100, -32_768, 7];
    for corners in some_of_six() {
        let mut points = [probe; 6];
        corners.iter().for_each(|&c| points[c as usize][2] += 3);
        let answer = corners.first().map_or(NONE, |&first| [first.into(), 9]);
        assert_eq!(nearest_to(probe, &using(&corners, &points)), answer);
    }
}

/// Midway between two points the smaller corner is answered, and a unit beside the nearer one.
#[test]
fn midway_and_beside() {
    for far in [1, 2, 1_000, MOST] {
        for (axis, sign) in [(0, 1), (0, -1), (1, 1), (1, -1), (2, 1), (2, -1)] {
            let at = |x: i64| {
                let mut point = [0; 3];
                point[axis] = sign * x;
                point
            };
            let surface = using(&[1, 0], &[at(far), at(-far)]);
            let [midway, beside] = [far, far - 1].map(|x| (x * x) as u64);
            assert_eq!(
                nearest(&surface, &[at(0), at(1), at(-1)]),
                Ok(vec![[0, midway], [0, beside], [1, beside]])
            );
        }
    }
}

/// Squared distances beyond 32 bits that differ by little; of one the lower 32 bits are 0.
#[test]
fn nearly_as_near() {
    const SIDE: i64 = 2 * MOST;
    let pairs = [
        [[SIDE, SIDE, 0], [SIDE, SIDE, 1]],
        [[SIDE - 1, 1, 1], [SIDE, 0, 0]],
        [[1, SIDE, SIDE - 1], [SIDE, SIDE, 0]],
        [[SIDE, SIDE - 1, SIDE], [SIDE; 3]],
    ];
    let probe = [-MOST; 3];
    for [near, far] in pairs {
        let squared = near.iter().map(|x| (x * x) as u64).sum();
        let [near, far] = [near, far].map(|step| plus(probe, step));
        let answers = [[near, far], [far, near]].map(|p| nearest_to(probe, &using(&[0, 1], &p)));
        assert_eq!(answers, [[0, squared], [1, squared]]);
    }
}

/// From a corner of the range to any other, each axis on which they differ adds 65,536².
#[test]
fn across_the_range() {
    let ends: Vec<Point> = range_corners().collect();
    let all: Vec<u32> = (0..8).collect();
    for (n, &probe) in (0..).zip(&ends) {
        for &corner in &all {
            let axes = (0..3).filter(|&axis| ends[corner as usize][axis] != probe[axis]);
            assert_eq!(
                nearest_to(probe, &using(&[corner], &ends)),
                [corner.into(), (axes.count() as u64) << 32]
            );
        }
        assert_eq!(nearest_to(probe, &using(&all, &ends)), [n, 0]);
    }
    assert_eq!(nearest_to([0; 3], &using(&all, &ends)), [0, 3 << 30]);
}

#[test]
fn no_triangles() {
    let unused = using(&[], &[[1, 2, 3], [5, 0, -5]]);
    for surface in [Surface::default(), unused] {
        for count in [0, 1, 2, 63, 64] {
            let probes = vec![[5, 0, -5]; count];
            assert_eq!(nearest(&surface, &probes), Ok(vec![NONE; count]));
        }
    }
    assert_eq!(NONE, [lanovishel::NO_CORNER, 0]);
    assert_eq!(nearest(&using(&[0], &[]), &[]), Err(5));
}

#[test]
fn any_number_of_probe_values() {
    let mut call = lent(&tetrahedron(), &[[0; 3]; 70]);
    for values in (0..=210).rev() {
        call.probes.truncate(values);
        let after = answered(&call);
        let accepted = (0, [values as u32 / 3]);
        let fits = values % 3 == 0 && values / 3 <= 64;
        let answer = if fits { accepted } else { (42, [0]) };
        assert_eq!((after.number, after.count), answer, "{values}");
    }
}

/// Where there are two words a probe, those behind are 0; else all are.
#[test]
fn any_number_of_answer_words() {
    for count in [0, 1, 2, 63, 64] {
        // Corner 0 of the tetrahedron is at 0.
        let probes: Vec<Point> = (0..count).map(|x| [x, 0, 0]).collect();
        let answers: Vec<u64> = (0..count as u64).flat_map(|x| [0, x * x]).collect();
        let most = answers.len() + 6;
        for words in (0..=most).chain([10 * most, 10 * most + 1]) {
            let mut call = lent(&tetrahedron(), &[]);
            nearest::lend(&mut call, &probes, words);
            let after = answered(&call);
            let fits = words >= answers.len();
            assert_eq!(after.number, if fits { 0 } else { 42 });
            let mut wanted = if fits { answers.clone() } else { Vec::new() };
            wanted.resize(words, 0);
            assert_eq!(after.answers, wanted);
        }
    }
}

/// In any value of two probes, and in any of four points, of which the first and the last are unused;
/// also where there are no probes, and no triangles either.
#[test]
fn values_that_are_refused() {
    let points = [[1; 3], [2; 3], [3; 3], [4; 3]];
    let call = lent(&using(&[1, 2], &points), &[[0; 3], [5; 3]]);
    assert_eq!(answered(&call).number, 0);
    let numbers = off()
        .into_iter()
        .map(|x| (x, 42))
        .chain(NOT_FINITE.map(|x| (x, 4)));
    for (x, number) in numbers {
        for place in 0..6 {
            let mut altered = call.clone();
            altered.probes[place] = x;
            assert_eq!(answered(&altered).number, 42, "{x}");
        }
        for place in 0..12 {
            let mut altered = call.clone();
            altered.surface.points[place] = x;
            assert_eq!(answered(&altered).number, number, "{x}");
            altered.probes.clear();
            assert_eq!(answered(&altered).number, number, "{x}");
            altered.surface.corners.clear();
            altered.surface.labels.clear();
            assert_eq!(answered(&altered).number, number, "{x}");
        }
    }
}

#[test]
fn values_at_the_ends() {
    let ends = [0.0, UNIT, 32.0 - UNIT, 32.0].map(|x: f64| [x, -x]);
    for x in ends.concat() {
        for y in ends.concat() {
            let mut call = lent(&using(&[0], &[[0; 3]]), &[[0; 3]]);
            call.surface.points = vec![x; 3];
            call.probes = vec![y; 3];
            let after = answered(&call);
            let side = ((x - y) / UNIT) as i64;
            assert_eq!(after.number, 0);
            assert_eq!(after.answers[..2], [0, 3 * (side * side) as u64]);
        }
    }
}

type Alter = fn(&mut Call);

/// What the first questions ask, each broken.
const FIRST: [(Alter, u32); 5] = [
    (|call| call.surface.labels.push(0), 1),
    (|call| call.surface.points.resize(3 * 32_769, 0.0), 2),
    (|call| call.work.truncate(191), 3),
    (|call| call.surface.points[11] = f64::NAN, 4),
    (|call| call.surface.corners[11] = 4, 5),
];

/// What 42 asks.
const LAST: [Alter; 5] = [
    |call| call.probes.push(0.0),
    |call| nearest::lend(call, &[[0; 3]; 65], 130),
    |call| call.answers.truncate(3),
    |call| call.probes[5] = 0.1,
    |call| call.surface.points[0] = -BEYOND,
];

/// Of all that is broken the first in turn is answered. After a refusal no answer is left, and the
/// work words are as lent after 1 to 3, else 0 where they are needed.
#[test]
fn in_turn() {
    for alter in LAST {
        for set in 0..32 {
            let mut before = lent(&tetrahedron(), &[[0; 3], [9; 3]]);
            alter(&mut before);
            let broken = (0..5).filter(|n| set >> n & 1 == 1);
            broken.clone().for_each(|n| FIRST[n].0(&mut before));
            let number = broken.clone().next().map_or(42, |n| FIRST[n].1);
            let after = answered(&before);
            assert_eq!((after.number, after.count), (number, [0]));
            assert_eq!(after.answers, vec![0; before.answers.len()]);
            let mut work = before.work;
            if number > 3 {
                work[..192].fill(0);
            }
            assert_eq!(after.work, work);
        }
    }
}

/// A corner is in use that is named once, at any place of the list; one beyond the points is refused
/// there, with probes and without.
#[test]
fn named_once() {
    let points = [[9; 3], [1; 3], [0; 3]];
    for place in 0..12 {
        let mut surface = using(&[0; 4], &points);
        surface.corners[place] = 2;
        assert_eq!(nearest_to([0; 3], &surface), [2, 0]);
        for beyond in [3, 4, 32_768, u32::MAX] {
            surface.corners[place] = beyond;
            assert_eq!(nearest(&surface, &[[0; 3]]), Err(5));
            assert_eq!(nearest(&surface, &[]), Err(5));
        }
    }
}

/// Whatever the work words hold, and however many they are from 16 · 5 + 32 · 4 on. Corner 0, on the
/// first probe, is unused.
#[test]
fn any_work_words() {
    let mut surface = using(&[], &[[0, 0, 1]]);
    surface.join(&tetrahedron());
    let probes = [[0, 0, 1], [0, 1_000, 0], [1_024, 0, 0]];
    let answers = [1, 1, 3, 24 * 24, 2, 0];
    for filling in FILLINGS {
        for words in [207, 208, 209, 300] {
            let mut call = lent(&surface, &probes);
            call.work = (0..words).map(filling).collect();
            let after = answered(&call);
            if words < 208 {
                assert_eq!((after.number, after.work), (3, call.work));
            } else {
                assert_eq!(after.answers[..6], answers);
                assert_eq!(after.work[..208], [0; 208]);
                assert_eq!(after.work[208..], call.work[208..]);
            }
        }
    }
}

/// Nothing is asked of the triangles but that their corners are listed, and nothing of the labels.
#[test]
fn any_triangles() {
    let mut surface = tetrahedron();
    let probes = [[0; 3], [600, 0, 0], [0, 600, 0], [0, 3, 1_020]];
    let answers = [[0, 0], [1, 424 * 424], [2, 424 * 424], [3, 25]];
    let lists: [&[[u32; 3]]; 6] = [
        &[[0, 2, 1], [0, 1, 3], [0, 3, 2], [1, 2, 3]],
        &[[0, 2, 1], [0, 1, 3], [0, 3, 2]],
        &[[3, 2, 1], [3, 2, 1], [1, 2, 0], [1, 2, 0]],
        &[[0, 0, 1], [2, 3, 3]],
        &[[3, 3, 3], [2, 2, 2], [1, 1, 1], [0, 0, 0]],
        &[[2, 1, 3], [0, 2, 0]],
    ];
    for triangles in lists {
        surface.corners = triangles.concat();
        for label in [0, 7, 8, 255] {
            surface.labels = vec![label; triangles.len()];
            assert_eq!(nearest(&surface, &probes), Ok(answers.to_vec()));
        }
    }
}

/// Each of 64 probes gets what it gets alone, and what it gets in another order.
#[test]
fn each_by_itself() {
    let mut random = Random::new(1);
    let sphere = whole::stretched(sphere(4));
    let mut probes = whole::scattered(&mut random, MOST_PROBES, [RANGE; 3]);
    let mut answers = nearest(&sphere, &probes).unwrap();
    for (&probe, &answer) in probes.iter().zip(&answers) {
        assert_eq!(nearest_to(probe, &sphere), answer);
    }
    probes.reverse();
    answers.reverse();
    assert_eq!(nearest(&sphere, &probes), Ok(answers));
}

/// The probes may lie in the same memory as the points: neither is written.
#[test]
fn points_as_probes() {
    let Surface {
        points,
        corners,
        labels,
    } = &tetrahedron();
    let (mut work, mut answers) = (vec![1; 192], [1; 9]);
    let count = lanovishel::nearest(points, corners, labels, &mut work, points, &mut answers);
    assert_eq!(count, Ok(4));
    assert_eq!(answers, [0, 0, 1, 0, 2, 0, 3, 0, 0]);
}

/// As many points and triangles as are taken, with 64 probes: scattered, at few places, and all at
/// one; every corner in use, every second and one alone.
#[test]
fn the_largest() {
    let mut random = Random::new(1);
    let most = questions::MOST;
    let probes = whole::scattered(&mut random, MOST_PROBES, [RANGE; 3]);
    for part in [RANGE, [-4, 4], [7, 7]] {
        let points = whole::scattered(&mut random, most, [part; 3]);
        for (first, step) in [(0, 1), (1, 2), (most - 1, most)] {
            let mut in_use: Vec<u32> = (first..most).step_by(step).map(|c| c as u32).collect();
            random.shuffle(&mut in_use);
            let corners: Vec<u32> = in_use.into_iter().cycle().take(most).collect();
            let answers = nearest(&using(&corners, &points), &probes).unwrap();
            assert_eq!(answers.len(), MOST_PROBES);
            if part[0] == part[1] {
                assert!(answers.iter().all(|answer| answer[0] == first as u64));
            }
        }
    }
}
