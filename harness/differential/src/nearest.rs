//! Nearest corners: random calls, a model from request F-11, and ours.
use crate::{
    call::{Call, filling},
    checking, damage,
    questions::{self, No, ask},
    random::Random,
    surfaces::Surface,
    volume::{MOST, Point, range_corners, units},
    whole::{self, RANGE},
};
use lanovishel::raw;
use std::collections::BTreeSet;

/// The most probes that are taken.
pub const MOST_PROBES: usize = 64;

/// What a probe is answered: the corner, and the squared distance in units.
pub type Answer = [u64; 2];

/// The answer where there are no triangles.
pub const NONE: Answer = [4_294_967_295, 0];

/// The call as the model leaves it.
pub fn model(before: &Call) -> Call {
    let (number, found) = match found(before) {
        Ok(found) => (0, found),
        Err(no) => (no.number, Vec::new()),
    };
    let mut after = before.clone();
    after.number = number;
    after.clear_work();
    after.count = [found.len() as u32];
    after.answers.fill(0);
    after.answers[..2 * found.len()].copy_from_slice(&found.concat());
    after
}

/// What each probe is answered, or the refusal.
fn found(call: &Call) -> Result<Vec<Answer>, No> {
    let surface = &call.surface;
    questions::first(surface, call.work.len())?;
    questions::all_on_the_list(surface)?;
    let probes = call.probes.len() / 3;
    ask(call.probes.len().is_multiple_of(3), 42)?;
    ask(probes <= MOST_PROBES, 42)?;
    ask(probes <= call.answers.len() / 2, 42)?;
    let (points, probes) = (units(&surface.points), units(&call.probes));
    ask(points.is_some() && probes.is_some(), 42)?;
    let (points, probes) = (points.unwrap(), probes.unwrap());
    let in_use = in_use(surface);
    let answer = |probe| nearest(probe, &points, &in_use).unwrap_or(NONE);
    Ok(probes.into_iter().map(answer).collect())
}

/// The corners that a triangle names.
pub fn in_use(surface: &Surface) -> BTreeSet<u32> {
    surface.corners.iter().copied().collect()
}

/// Of the corners in use the first by distance, and then by number.
fn nearest(probe: Point, points: &[Point], in_use: &BTreeSet<u32>) -> Option<Answer> {
    in_use
        .iter()
        .map(|&corner| (squared(probe, points[corner as usize]), corner))
        .min()
        .map(|(distance, corner)| [corner.into(), distance])
}

/// The squared distance of two points.
pub fn squared(a: Point, b: Point) -> u64 {
    (0..3).map(|axis| a[axis].abs_diff(b[axis]).pow(2)).sum()
}

/// The call as ours leaves it.
pub fn ours(before: &Call) -> Call {
    let mut after = before.clone();
    let Surface {
        points,
        corners,
        labels,
    } = &after.surface;
    // SAFETY: the lists are whole vectors, apart from one another.
    after.number = unsafe {
        raw::lanovishel_nearest(
            points.as_ptr(),
            points.len(),
            corners.as_ptr(),
            corners.len(),
            labels.as_ptr(),
            labels.len(),
            after.work.as_mut_ptr(),
            after.work.len(),
            after.probes.as_ptr(),
            after.probes.len(),
            after.answers.as_mut_ptr(),
            after.answers.len(),
            &mut after.count,
        )
    };
    after
}

/// Lends probes, and so many words for the answers with something in them.
pub fn lend(call: &mut Call, probes: &[Point], words: usize) {
    call.probes = whole::lent(probes).concat();
    let both_halves = |word| u64::from(word) << 32 | u64::from(word);
    call.answers = filling(words).into_iter().map(both_halves).collect();
}

/// A random call: mostly few points in whole units with any triangles on them, and a few probes near
/// them; one in four is damaged, and one in eight breaks a rule of the probes.
pub fn random_call(random: &mut Random) -> Call {
    let mut surface = match random.below(16) {
        0 => checking::random_call(random).surface,
        1 | 2 => {
            let pairs = random.within(2, 60);
            whole::any_of(random, 2 * pairs).0
        }
        _ => some_triangles(random),
    };
    let points = units(&surface.points).unwrap_or_default();
    if random.one_in(4) {
        damage::some(&mut surface, random, 1);
    }
    if random.one_in(200) {
        damage::grow_to_the_limit(&mut surface, random);
    }
    let words = checking::some_work_words(&surface, random);
    let mut call = Call::new(surface, words);
    if random.one_in(2) {
        call.work.fill_with(|| random.below(3) as u32);
    }
    let count = random.pick(&[0, 1, 2, 3, 4, 5, 6, MOST_PROBES]);
    let spare = random.pick(&[0, 0, 1, 2, 9]);
    lend(
        &mut call,
        &some_probes(random, count, &points),
        2 * count + spare,
    );
    if random.one_in(8) {
        break_a_rule(&mut call, random, &points);
    }
    if random.one_in(8) {
        // A mirror image: where there was 0 is -0.
        call.surface.scale([-1.0; 3]);
        call.probes.iter_mut().for_each(|x| *x = -*x);
    }
    call
}

/// A few points, many of them equally far from others, with any triangles on them.
fn some_triangles(random: &mut Random) -> Surface {
    let count = random.within(0, 12);
    let points = if random.one_in(4) {
        whole::near_ends(random, count)
    } else {
        let part = whole::some_part(random);
        whole::scattered(random, count, part)
    };
    let triangles = if count > 0 { random.below(9) } else { 0 };
    let triangles: Vec<[u32; 3]> = (0..triangles)
        .map(|_| [0; 3].map(|_| random.below(count) as u32))
        .collect();
    let mut surface = Surface::new(&whole::lent(&points), &triangles);
    surface.labels.fill_with(|| random.bits() as u8);
    surface
}

/// On points, beside them, midway between two, at the corners of the range, or anywhere.
fn some_probes(random: &mut Random, count: usize, points: &[Point]) -> Vec<Point> {
    let corners: Vec<Point> = range_corners().collect();
    let mut some_probe = || {
        if points.is_empty() || random.one_in(8) {
            return whole::scattered(random, 1, [RANGE; 3])[0];
        }
        let [a, b] = [0; 2].map(|_| random.pick(points));
        match random.below(8) {
            0 => random.pick(&corners),
            1 | 2 => a,
            3 | 4 => a.map(|x| (x + whole::between(random, [-2, 2])).clamp(-MOST, MOST)),
            _ => [0, 1, 2].map(|axis| (a[axis] + b[axis]).div_euclid(2)),
        }
    };
    (0..count).map(|_| some_probe()).collect()
}

/// Breaks what 42 asks, where there is something to break.
fn break_a_rule(call: &mut Call, random: &mut Random, points: &[Point]) {
    let values = call.probes.len();
    match random.below(6) {
        0 => call.probes.extend(vec![0.0; random.within(1, 2)]),
        1 => {
            let count = MOST_PROBES + random.within(1, 3);
            lend(call, &some_probes(random, count, points), 2 * count);
        }
        2 => {
            let needed = values / 3 * 2;
            let missing = random.pick(&[1, 1, 2, 3, needed]);
            call.answers.truncate(needed.saturating_sub(missing));
        }
        3 if values > 0 => {
            let place = random.below(values);
            call.probes[place] = random.pick(&[f64::NAN, f64::INFINITY, f64::NEG_INFINITY, 1e300]);
        }
        4 if values > 0 => whole::put_off(&mut call.probes, random),
        _ if !points.is_empty() && !call.surface.points.is_empty() => {
            whole::put_off(&mut call.surface.points, random);
        }
        _ => {}
    }
}
