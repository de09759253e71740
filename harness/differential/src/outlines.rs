//! Layer outlines: random calls, a model from request F-9, its sentences held to a list, and ours.
use crate::{
    call::{Call, filling},
    checking::some_work_words,
    editing::{label, scramble, set_then_0, spoil},
    questions::{self, No, ask},
    random::Random,
    surfaces::Surface,
    volume::{MOST, Point, units},
    whole,
};
use lanovishel::raw;
use std::collections::{BTreeMap, BTreeSet};

type Triangle = [u32; 3];

/// A side, its smaller corner first.
pub type Side = [u32; 2];

/// A place of a list: a side and the number of its loop.
pub type Place = [u32; 3];

/// The call as the model leaves it.
pub fn model(before: &Call) -> Call {
    let (asked, loops) = match found(before) {
        Ok(loops) => (Ok(()), loops),
        Err(no) => (Err(no), Vec::new()),
    };
    let mut after = before.clone();
    after.end(asked);
    let numbered = loops.iter().zip(0..);
    let places: Vec<Place> = numbered
        .flat_map(|(sides, n)| sides.iter().map(move |&[low, high]| [low, high, n]))
        .collect();
    after.counts = [places.len(), loops.len()].map(|count| count as u32);
    set_then_0(&mut after.outline, &places.concat());
    after
}

/// The loops, or the refusal.
fn found(call: &Call) -> Result<Vec<Vec<Side>>, No> {
    let surface = &call.surface;
    questions::editing(surface, call.work.len())?;
    ask((-MOST..MOST).contains(&call.height.into()), 40)?;
    ask(units(&surface.points).is_some(), 40)?;
    let loops = loops(&crossed_triangles(surface, call.height));
    let sides: usize = loops.iter().map(Vec::len).sum();
    ask(sides <= call.outline.len() / 3, 41)?;
    Ok(loops)
}

/// The triangles of a surface on whole units that the plane crosses, each with the sides in which it
/// does: those with one end above it and one below.
fn crossed_triangles(surface: &Surface, height: i32) -> BTreeMap<Triangle, BTreeSet<Side>> {
    let points = units(&surface.points).unwrap();
    let is_above = |corner: u32| points[corner as usize][2] > height.into();
    let crossed = |triangle: &Triangle| {
        let sides = directed(triangle).into_iter();
        sides
            .filter(|&[a, b]| is_above(a) != is_above(b))
            .map(|[a, b]| [a.min(b), a.max(b)])
            .collect::<BTreeSet<Side>>()
    };
    let triangles = surface.triangles().into_iter();
    triangles
        .map(|triangle| (triangle, crossed(&triangle)))
        .filter(|(_, sides)| !sides.is_empty())
        .collect()
}

/// The sides of a triangle, each from the corner where it begins.
fn directed(&[a, b, c]: &Triangle) -> [[u32; 2]; 3] {
    [[a, b], [b, c], [c, a]]
}

/// How many sides of a closed surface on whole units the plane crosses.
pub fn crossed_sides(surface: &Surface, height: i32) -> usize {
    let crossed = crossed_triangles(surface, height);
    crossed.values().flatten().collect::<BTreeSet<_>>().len()
}

/// From the smallest side that is left, through the triangle that runs it from smaller to larger
/// corner, from side to side until the first is met again; and so on while sides are left.
fn loops(crossed: &BTreeMap<Triangle, BTreeSet<Side>>) -> Vec<Vec<Side>> {
    let mut around: BTreeMap<Side, BTreeSet<Triangle>> = BTreeMap::new();
    for (&triangle, sides) in crossed {
        for &side in sides {
            around.entry(side).or_default().insert(triangle);
        }
    }
    let mut left: BTreeSet<Side> = around.keys().copied().collect();
    let mut loops = Vec::new();
    while let Some(&first) = left.first() {
        let runs = |triangle: &&Triangle| directed(triangle).contains(&first);
        let (mut side, mut triangle) = (first, *around[&first].iter().find(runs).unwrap());
        let mut sides = Vec::new();
        loop {
            left.remove(&side);
            sides.push(side);
            side = other(&crossed[&triangle], side);
            if side == first {
                break;
            }
            triangle = other(&around[&side], triangle);
        }
        loops.push(sides);
    }
    loops
}

/// Of two, the one that is not `this`.
fn other<T: Copy + Ord>(two: &BTreeSet<T>, this: T) -> T {
    assert!(two.len() == 2 && two.contains(&this));
    *two.iter().find(|&&one| one != this).unwrap()
}

/// Holds a list to the request's sentences, one after another.
pub fn holds(list: &[Place], surface: &Surface, height: i32) -> Result<(), String> {
    let (crossed, mut joining) = crossings(surface, height);
    let side = |&[low, high, _]: &Place| [low, high];
    let mut sides: Vec<Side> = list.iter().map(side).collect();
    sides.sort_unstable();
    hold(
        sides.iter().eq(&crossed),
        "each crossed side and no other is in exactly one loop, once",
    )?;
    let loops: Vec<&[Place]> = list.chunk_by(|a, b| a[2] == b[2]).collect();
    let numbers = loops.iter().map(|places| places[0][2]);
    hold(
        numbers.eq(0..loops.len() as u32),
        "a place holds the loop's number, from 0",
    )?;
    for places in &loops {
        let first = side(&places[0]);
        let goes_on = places.iter().map(side).cycle().skip(1);
        for (n, (this, next)) in places.iter().map(side).zip(goes_on).enumerate() {
            let joined = joining.remove(&BTreeSet::from([this, next]));
            let triangle = joined.ok_or_else(|| {
                format!("not so: {this:?} and {next:?} share a triangle, which joins no other pair")
            })?;
            hold(first <= this, "a loop starts at its smallest side")?;
            hold(
                n > 0 || directed(&triangle).contains(&first),
                "a loop goes on through the triangle that runs its first side",
            )?;
        }
    }
    hold(joining.is_empty(), "each crossed triangle joins a pair")?;
    hold(
        loops.is_sorted_by_key(|places| side(&places[0])),
        "loops come by starting side",
    )
}

fn hold(yes: bool, sentence: &str) -> Result<(), String> {
    yes.then_some(())
        .ok_or_else(|| format!("not so: {sentence}"))
}

/// The crossed sides; and for each crossed triangle the two sides that it joins. No two triangles of
/// a closed surface have the same two sides.
fn crossings(
    surface: &Surface,
    height: i32,
) -> (BTreeSet<Side>, BTreeMap<BTreeSet<Side>, Triangle>) {
    let points = units(&surface.points).unwrap();
    // How far a corner is from the plane, in half units: never 0.
    let distance = |corner: u32| 2 * points[corner as usize][2] - (2 * i64::from(height) + 1);
    let (mut crossed, mut joining) = (BTreeSet::new(), BTreeMap::new());
    for triangle in surface.triangles() {
        let mut sides = directed(&triangle).to_vec();
        sides.retain(|&[a, b]| distance(a) * distance(b) < 0);
        sides.iter_mut().for_each(|side| side.sort_unstable());
        if !sides.is_empty() {
            joining.insert(sides.iter().copied().collect(), triangle);
        }
        crossed.extend(sides);
    }
    (crossed, joining)
}

/// The call as ours leaves it.
pub fn ours(before: &Call) -> Call {
    let mut after = before.clone();
    let Surface {
        points,
        corners,
        labels,
    } = &after.surface;
    // SAFETY: the lists are whole vectors, apart from one another.
    after.number = unsafe {
        raw::lanovishel_outlines(
            points.as_ptr(),
            points.len(),
            corners.as_ptr(),
            corners.len(),
            labels.as_ptr(),
            labels.len(),
            after.work.as_mut_ptr(),
            after.work.len(),
            after.height,
            after.outline.as_mut_ptr(),
            after.outline.len(),
            &mut after.counts,
            &mut after.place,
        )
    };
    after
}

/// The places that a call has filled.
pub fn places(call: &Call) -> &[Place] {
    let (places, _) = call.outline.as_chunks();
    &places[..call.counts[0] as usize]
}

/// Lends a height, and so many words for the list with something in them.
pub fn lend(call: &mut Call, height: i32, words: usize) {
    call.height = height;
    call.outline = filling(words);
}

/// A random call: a surface on whole units and a height near its points, with places enough or not;
/// one surface in six is damaged.
pub fn random_call(random: &mut Random) -> Call {
    let mut surface = some_surface(random);
    let height = some_height(random, &units(&surface.points).unwrap());
    let needed = 3 * crossed_sides(&surface, height);
    let words = match random.below(12) {
        0 => needed.saturating_sub(random.pick(&[1, 1, 2, 3, 4, needed])),
        1..6 => needed,
        _ => needed + random.pick(&[1, 2, 3, 60]),
    };
    if random.one_in(6) && surface.triangle_count() > 0 {
        spoil(&mut surface, random);
    }
    if random.one_in(12) && surface.point_count() > 0 {
        whole::put_off(&mut surface.points, random);
    }
    let work_words = match random.below(8) {
        0 => some_work_words(&surface, random),
        _ => surface.work_words() + random.pick(&[0, 1, 50]),
    };
    let mut call = Call::new(surface, work_words);
    if random.one_in(2) {
        call.work.fill_with(|| random.below(3) as u32);
    }
    lend(&mut call, height, words);
    call
}

/// A closed surface of one piece or several, labelled, often edited, listed anew, often turned inside
/// out; or its points alone.
fn some_surface(random: &mut Random) -> Surface {
    let most = random.pick(&[2, 4, 10, 20, 60]);
    let pairs = random.within(2, most);
    let mut surface = whole::drawn(random, 2 * pairs);
    label(&mut surface, random);
    if random.one_in(2) {
        scramble(&mut surface, random);
    }
    whole::shuffle(&mut surface, random);
    if random.one_in(2) {
        surface.reverse();
    }
    if random.one_in(8) {
        // A mirror image: where there was 0 is -0.
        surface.scale([-1.0; 3]);
    }
    if random.one_in(20) {
        surface.corners.clear();
        surface.labels.clear();
    }
    surface
}

/// At a point, just below it, midway between two; at the ends of the range, or beyond them.
fn some_height(random: &mut Random, points: &[Point]) -> i32 {
    let [a, b] = [0; 2].map(|_| random.pick(points)[2]);
    let height = match random.below(16) {
        0 => return random.pick(&[-32_769, 32_768, -65_536, 65_536, i32::MIN, i32::MAX]),
        1 => random.pick(&[-MOST, MOST - 1]),
        2..6 => a,
        6..10 => a - 1,
        _ => (a + b).div_euclid(2),
    };
    height.clamp(-MOST, MOST - 1) as i32
}
