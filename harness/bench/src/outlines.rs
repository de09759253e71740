//! Layer outlines, beside editing's questions and beside a plain listing of the same layers.
use crate::table::{leasts, once};
use differential::{
    outlines::Place,
    questions::MOST,
    random::Random,
    surfaces::{Surface, sphere},
    volume::units,
    whole,
};
use lanovishel::Outlines;

/// How many layers there are from end to end of the range.
const LAYERS: i32 = 1_000;

/// Surfaces as high as the range: two small ones for the growth, then of as many triangles as are taken.
/// The least of 100 calls for a layer, and of 3 runs through all layers, in turn.
pub fn table() {
    println!("| outlines | ours, µs | questions, µs | ratio | plain listing, µs | ratio |");
    println!("|---|---|---|---|---|---|");
    for side in [32, 64] {
        measure("torus", &whole::standing_torus(side, side), &[0], 100);
    }
    let torus = whole::standing_torus(128, 128);
    let mut shuffled = torus.clone();
    shuffled.relist(&mut Random::new(1));
    shuffled.renumber(&mut Random::new(1), 0);
    for (name, surface) in [
        ("torus", torus),
        ("torus in any order", shuffled),
        ("sphere", whole::stretched(sphere(6))),
    ] {
        measure(name, &surface, &[0], 100);
        let heights: Vec<i32> = (0..LAYERS).map(|n| 65_536 * n / LAYERS - 32_768).collect();
        measure(name, &surface, &heights, 3);
    }
}

/// Work words, and a place for each side that may be crossed: no more than there are triangles.
type Lists = (Vec<u32>, Vec<u32>);

fn measure(name: &str, surface: &Surface, heights: &[i32], calls: u32) {
    let Surface {
        points,
        corners,
        labels,
    } = surface;
    let lists = || (vec![1; surface.work_words()], vec![1; 3 * MOST]);
    let layer = |(work, outline): &mut Lists, height| {
        lanovishel::outlines(points, corners, labels, work, height, outline).unwrap()
    };
    let ours = once(lists, |lists| {
        let found = heights.iter().map(|&height| layer(lists, height));
        found.map(|Outlines { loops, .. }| loops).sum::<u32>()
    });
    // Runs of editing without entries: they ask what outlining asks first, and nothing more.
    let lent = || {
        (
            corners.clone(),
            labels.clone(),
            vec![1; surface.work_words()],
        )
    };
    let questions = once(lent, |(corners, labels, work)| {
        for _ in heights {
            lanovishel::edit(points, corners, labels, work, &[], &mut [], &mut []).unwrap();
        }
    });

    let triangles = surface.triangles();
    let z: Vec<i64> = units(points)
        .unwrap()
        .iter()
        .map(|point| point[2])
        .collect();
    let plain_layer = |height| plain(&triangles, &z, height);
    let plain = once(
        || (),
        |()| {
            heights
                .iter()
                .map(|&height| plain_layer(height).len())
                .sum::<usize>()
        },
    );

    let mut after = lists();
    for &height in heights {
        let places = layer(&mut after, height).places as usize;
        assert_eq!(after.1[..3 * places], plain_layer(height).concat());
    }
    let [ours, questions, plain] = leasts(calls, [&ours, &questions, &plain]);
    println!(
        "| {name}, {} triangles, layers: {} | {ours:.1} | {questions:.1} | {:.2} | {plain:.1} | {:.2} |",
        triangles.len(),
        heights.len(),
        ours / questions,
        ours / plain
    );
}

/// A side as a triangle runs it.
struct Half {
    from: u32,
    to: u32,
}

impl Half {
    fn low(&self) -> u32 {
        self.from.min(self.to)
    }

    fn high(&self) -> u32 {
        self.from.max(self.to)
    }
}

/// The list of a closed surface, in linear time; nothing is asked.
fn plain(triangles: &[[u32; 3]], z: &[i64], height: i32) -> Vec<Place> {
    let is_above: Vec<bool> = z.iter().map(|&z| z > height.into()).collect();
    // Two for each crossed triangle: the other one of half n is n ^ 1.
    let mut halves = Vec::new();
    for &[a, b, c] in triangles {
        for [from, to] in [[a, b], [b, c], [c, a]] {
            if is_above[from as usize] != is_above[to as usize] {
                halves.push(Half { from, to });
            }
        }
    }
    // Two for each crossed side, which rise.
    let all: Vec<usize> = (0..halves.len()).collect();
    let order = sorted(&all, z.len(), |half| halves[half].high());
    let order = sorted(&order, z.len(), |half| halves[half].low());
    let mut beyond = vec![0; halves.len()];
    let (pairs, _) = order.as_chunks();
    for &[a, b] in pairs {
        (beyond[a], beyond[b]) = (b, a);
    }
    let mut list = Vec::with_capacity(pairs.len());
    let (mut met, mut loops) = (vec![false; halves.len()], 0);
    for &[a, b] in pairs {
        if met[a] {
            continue;
        }
        let first = if halves[a].from < halves[a].to { a } else { b };
        let mut half = first;
        loop {
            (met[half], met[beyond[half]]) = (true, true);
            list.push([halves[half].low(), halves[half].high(), loops]);
            half = beyond[half ^ 1];
            if half == first {
                break;
            }
        }
        loops += 1;
    }
    list
}

/// Sorts by a number below `end`; equal ones keep their order.
fn sorted(items: &[usize], end: usize, number: impl Fn(usize) -> u32) -> Vec<usize> {
    let mut next = vec![0; end + 1];
    items
        .iter()
        .for_each(|&item| next[number(item) as usize + 1] += 1);
    (0..end).for_each(|n| next[n + 1] += next[n]);
    let mut sorted = vec![0; items.len()];
    for &item in items {
        let place = &mut next[number(item) as usize];
        sorted[*place] = item;
        *place += 1;
    }
    sorted
}
