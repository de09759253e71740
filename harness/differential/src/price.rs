//! Pricing: random calls, a model from request F-14, and ours.
use crate::{
    call::Call,
    checking, damage,
    questions::{self, No, ask},
    random::Random,
    surfaces::Surface,
    volume::{MOST, six, units},
    whole,
};
use lanovishel::raw;
use std::{collections::BTreeSet, iter::once};

/// `six` of a unit cube, which has 1,024 units to a side.
pub const CUBE: i128 = 6 << 30;

/// The call as the model leaves it.
pub fn model(before: &Call) -> Call {
    let priced = priced(before);
    let mut after = before.clone();
    after.end(priced.map(|_| ()));
    after.cents = [priced.unwrap_or(0)];
    after
}

/// The price, or the refusal.
fn priced(call: &Call) -> Result<u64, No> {
    let surface = &call.surface;
    checking::measured(surface, call.work.len())?;
    ask(is_tariff(&call.uppers, &call.prices), 47)?;
    let points = units(&surface.points);
    ask(points.is_some(), 47)?;
    let six = six(&points.unwrap(), &surface.triangles(), [0; 3]);
    Ok(cost(six, &call.uppers, &call.prices))
}

/// One to eight steps, an upper volume for each but the last, rising, and prices up to 100,000.
fn is_tariff(uppers: &[u64], prices: &[u64]) -> bool {
    (1..=8).contains(&prices.len())
        && prices.len() == uppers.len() + 1
        && uppers.windows(2).all(|w| w[0] < w[1])
        && prices.iter().all(|&price| price <= 100_000)
}

/// The sum over the steps of the unit cubes that are started within each, at its price.
fn cost(six: i128, uppers: &[u64], prices: &[u64]) -> u64 {
    let volume = six.max(0);
    let bounds = uppers.iter().map(|&upper| i128::from(upper) * CUBE);
    let from = once(0).chain(bounds.clone());
    let to = bounds.chain(once(i128::MAX));
    from.zip(to)
        .zip(prices)
        .map(|((from, to), price)| started((volume.min(to) - from).max(0)) * price)
        .sum()
}

/// The unit cubes that a part of a volume starts.
fn started(part: i128) -> u64 {
    (part as u128).div_ceil(CUBE as u128) as u64
}

/// The call as ours leaves it.
pub fn ours(before: &Call) -> Call {
    let mut after = before.clone();
    let Surface {
        points,
        corners,
        labels,
    } = &after.surface;
    // SAFETY: the lists are whole vectors, apart from one another.
    after.number = unsafe {
        raw::lanovishel_price(
            points.as_ptr(),
            points.len(),
            corners.as_ptr(),
            corners.len(),
            labels.as_ptr(),
            labels.len(),
            after.work.as_mut_ptr(),
            after.work.len(),
            after.uppers.as_ptr(),
            after.uppers.len(),
            after.prices.as_ptr(),
            after.prices.len(),
            &mut after.cents,
            &mut after.place,
        )
    };
    after
}

/// A random call: three in four on whole units with bounds near the volume, the others as checking
/// is called; one price sheet in eight breaks a rule.
pub fn random_call(random: &mut Random) -> Call {
    let (mut call, cubes) = if random.one_in(4) {
        (checking::random_call(random), random.below(20))
    } else {
        on_units(random)
    };
    lend_tariff(&mut call, random, cubes);
    if random.one_in(8) {
        break_tariff(&mut call, random);
    }
    call
}

/// A call on a surface in whole units, at times damaged, and the whole unit cubes in its volume.
fn on_units(random: &mut Random) -> (Call, usize) {
    let (mut surface, _) = if random.one_in(100) {
        whole::any(random)
    } else {
        let pairs = random.within(2, 60);
        whole::any_of(random, 2 * pairs)
    };
    let points = units(&surface.points).unwrap();
    let six = six(&points, &surface.triangles(), points[0]);
    if random.one_in(2) {
        fill_up(&mut surface, six, random);
    }
    match random.below(72) {
        0..9 => damage::some(&mut surface, random, 1),
        9..15 => whole::put_off(&mut surface.points, random),
        15 => damage::grow_to_the_limit(&mut surface, random),
        _ => {}
    }
    let words = checking::some_work_words(&surface, random);
    (Call::new(surface, words), (six / CUBE) as usize)
}

/// Adds pieces up to a whole number of unit cubes, where there is room for them; often with the
/// smallest tetrahedron besides, or the same inside out.
fn fill_up(surface: &mut Surface, six: i128, random: &mut Random) {
    if surface.point_count().max(surface.triangle_count()) + 16 > questions::MOST {
        return;
    }
    let missing = (-six).rem_euclid(CUBE) as i64;
    let pieces = [
        [missing >> 30, MOST, MOST],
        [missing >> 15 & (MOST - 1), MOST, 1],
        [missing & (MOST - 1), 1, 1],
    ];
    for legs in pieces.into_iter().filter(|legs| legs[0] > 0) {
        surface.join(&whole::with_legs(legs));
    }
    let mut smallest = whole::with_legs([1; 3]);
    match random.below(4) {
        0 => surface.join(&smallest),
        1 => {
            smallest.reverse();
            surface.join(&smallest);
        }
        _ => {}
    }
}

/// Lends a price sheet with bounds near a number of unit cubes, or anywhere.
fn lend_tariff(call: &mut Call, random: &mut Random, cubes: usize) {
    let steps = random.within(1, 8);
    let mut uppers = BTreeSet::new();
    while uppers.len() < steps - 1 {
        uppers.insert(some_upper(random, cubes));
    }
    call.uppers = uppers.into_iter().collect();
    call.prices = (0..steps).map(|_| some_price(random)).collect();
}

fn some_upper(random: &mut Random, cubes: usize) -> u64 {
    match random.below(8) {
        0 => random.pick(&[0, 1, 1 << 32, 1 << 33, u64::MAX - 1, u64::MAX]),
        1 => random.bits(),
        2 | 3 => random.within(0, 2 * cubes) as u64,
        _ => (cubes + random.below(5)).saturating_sub(2) as u64,
    }
}

fn some_price(random: &mut Random) -> u64 {
    let any = random.within(0, 100_000) as u64;
    random.pick(&[0, 1, 99_999, 100_000, any, any, any, any])
}

/// Breaks a rule of the price sheet, where it has what that takes.
fn break_tariff(call: &mut Call, random: &mut Random) {
    let (uppers, prices) = (&mut call.uppers, &mut call.prices);
    let step = random.below(prices.len());
    match random.below(6) {
        0 => prices.clear(),
        1 => {
            *uppers = (0..8 + step as u64).collect();
            prices.resize(uppers.len() + 1, 1);
        }
        2 => uppers.push(u64::MAX),
        3 => drop(uppers.pop()),
        4 if step > 1 => uppers[step - 1] = uppers[step - 2].saturating_sub(random.below(2) as u64),
        _ => prices[step] = random.pick(&[100_001, 1 << 32, u64::MAX]),
    }
}
