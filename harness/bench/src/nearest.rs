//! Nearest corners, beside a plain loop over the points in use.
use crate::table::{head, leasts, once, row};
use differential::{
    nearest::{Answer, MOST_PROBES, in_use},
    questions::MOST,
    random::Random,
    surfaces::{Surface, sphere},
    volume::{Point, units},
    whole::{self, RANGE},
};

const CALLS: u32 = 100;

/// As many scattered points as are taken, all in use and every second; and a sphere. The least of
/// so many calls, in turn.
pub fn table() {
    head("nearest corners", "ours, µs", "plain loop, µs");
    for count in [MOST_PROBES, 8, 1] {
        measure("scattered", &scattered(1), count);
        measure("every second in use", &scattered(2), count);
        measure("sphere", &whole::stretched(sphere(6)), count);
    }
}

/// As many points and triangles as are taken, anywhere in the range. Triangles name every
/// `step`-th point, three that follow one another.
fn scattered(step: usize) -> Surface {
    let points = whole::scattered(&mut Random::new(1), MOST, [RANGE; 3]);
    let corner = |n: usize| (step * n % MOST) as u32;
    let triangles: Vec<[u32; 3]> = (0..MOST).map(|n| [n, n + 1, n + 2].map(corner)).collect();
    Surface::new(&whole::lent(&points), &triangles)
}

fn measure(name: &str, surface: &Surface, count: usize) {
    let Surface {
        points,
        corners,
        labels,
    } = surface;
    let probes = whole::scattered(&mut Random::new(2), count, [RANGE; 3]);
    let values = whole::lent(&probes).concat();
    let lists = || (vec![1; surface.work_words()], vec![1; 2 * count]);
    let ours = |(work, answers): &mut (Vec<u32>, Vec<u64>)| {
        lanovishel::nearest(points, corners, labels, work, &values, answers).unwrap()
    };

    let all = units(points).unwrap();
    let numbers: Vec<u32> = in_use(surface).into_iter().collect();
    let used: Vec<Point> = numbers.iter().map(|&corner| all[corner as usize]).collect();
    let plain = |probes: &mut Vec<Point>| plain(probes, &used);

    let mut after = lists();
    ours(&mut after);
    let found: Vec<Answer> = plain(&mut probes.clone())
        .into_iter()
        .map(|(place, distance)| [numbers[place].into(), distance as u64])
        .collect();
    assert_eq!(after.1, found.concat());

    let what = format!("{name}, {} points in use, probes: {count}", used.len());
    let times = leasts(CALLS, [&once(lists, ours), &once(|| probes.clone(), plain)]);
    row(&what, times);
}

/// For each probe the first of the nearest points, by its place on the list, and the squared distance.
fn plain(probes: &[Point], points: &[Point]) -> Vec<(usize, i64)> {
    let nearest = |&[x, y, z]: &Point| {
        let (mut best, mut least) = (0, i64::MAX);
        for (place, &[a, b, c]) in points.iter().enumerate() {
            let distance = (a - x) * (a - x) + (b - y) * (b - y) + (c - z) * (c - z);
            if distance < least {
                (best, least) = (place, distance);
            }
        }
        (best, least)
    };
    probes.iter().map(nearest).collect()
}
