//! Sampling a field: random calls, a model from request F-2, the original's `extract` up to its
//! keys, and ours.
use crate::{
    call::{Call, filling, float_filling},
    editing::set_then_0,
    field::{self, BALL, Term, some_terms},
    questions::{No, ask},
    random::Random,
};
use lanovishel::raw;
use original::Point;

/// An edge: its node, its step, its label.
pub type Edge = [u32; 3];

/// From a node along the axes, across the faces of a cell, and through its inside.
pub const STEPS: [[usize; 3]; 7] = [
    [1, 0, 0],
    [0, 1, 0],
    [0, 0, 1],
    [1, 1, 0],
    [1, 0, 1],
    [0, 1, 1],
    [1, 1, 1],
];

/// What a call is answered.
#[derive(Clone, Debug, Default)]
pub struct Samples {
    /// The nodes.
    pub grid: Vec<Point>,
    /// The field at each.
    pub values: Vec<f64>,
    /// The crossed edges.
    pub edges: Vec<Edge>,
}

/// The call as the model leaves it.
pub fn model(before: &Call) -> Call {
    ended(before, found(before).map_err(|no| no.number))
}

/// The call as the original has it, where it is one that passes what only we ask, and the original's
/// source was there.
pub fn originals(before: &Call, wanted: &Call) -> Option<Call> {
    if !matches!(wanted.number, 0 | 36) {
        return None;
    }
    let theirs = original::sample(&field::told(before), before.cells as usize)?;
    let outcome = match theirs {
        Ok(samples) => Ok(named(samples)),
        Err(message) if message == "Non-finite sampled field" => Err(36),
        Err(message) => panic!("{message}"),
    };
    Some(ended(before, outcome))
}

/// What the original samples, as we name it.
pub fn named(samples: original::Samples) -> Samples {
    Samples {
        grid: samples.grid,
        values: samples.values,
        edges: samples
            .keys
            .into_iter()
            .map(|(node, step, label)| [node as u32, step.into(), label.into()])
            .collect(),
    }
}

/// The call after such an outcome: the samples, then 0; all 0 after a refusal.
fn ended(before: &Call, outcome: Result<Samples, u32>) -> Call {
    let mut after = before.clone();
    after.number = outcome.as_ref().err().copied().unwrap_or(0);
    let samples = outcome.unwrap_or_default();
    let counts = [
        samples.grid.len(),
        samples.values.len(),
        samples.edges.len(),
    ];
    after.filled = counts.map(|count| count as u32);
    set_then_0(&mut after.grid, samples.grid.as_flattened());
    set_then_0(&mut after.values, &samples.values);
    set_then_0(&mut after.edges, samples.edges.as_flattened());
    after
}

/// The samples, or the refusal.
pub fn found(call: &Call) -> Result<Samples, No> {
    field::asked(call)?;
    ask((4..=128).contains(&call.cells), 34)?;
    let nodes = nodes(call.cells);
    ask(
        call.grid.len() >= 3 * nodes && call.values.len() >= nodes,
        35,
    )?;
    let samples = samples(call)?;
    ask(call.edges.len() >= 3 * samples.edges.len(), 35)?;
    Ok(samples)
}

/// The samples of a field, levels, a box and cells that are taken, or 36.
pub fn samples(call: &Call) -> Result<Samples, No> {
    let grid = grid(call);
    let mut values = field_values(call, &grid);
    ask(values.iter().all(|value| value.is_finite()), 36)?;
    let near = tolerance(call.levels, &values);
    values
        .iter_mut()
        .for_each(|value| *value = set_onto(call.levels, near, *value));
    let edges = edges(call, &values);
    Ok(Samples {
        grid,
        values,
        edges,
    })
}

/// How many nodes there are.
pub fn nodes(cells: u32) -> usize {
    (cells as usize + 1).pow(3)
}

/// How many cells each node is from the lower corner, along x, y and z. The x changes first.
fn places(cells: u32) -> impl Iterator<Item = [usize; 3]> {
    let n = cells as usize + 1;
    let rows = (0..n).flat_map(move |z| (0..n).map(move |y| [y, z]));
    rows.flat_map(move |[y, z]| (0..n).map(move |x| [x, y, z]))
}

/// Where the nodes lie.
pub fn grid(call: &Call) -> Vec<Point> {
    let coordinate = |axis: usize, place: usize| {
        let [lower, upper] = [call.bounds[axis], call.bounds[axis + 3]];
        let part = ((upper - lower) * place as f64) / f64::from(call.cells);
        lower + part
    };
    places(call.cells)
        .map(|[x, y, z]| [coordinate(0, x), coordinate(1, y), coordinate(2, z)])
        .collect()
}

/// The field at the nodes.
pub fn field_values(call: &Call, grid: &[Point]) -> Vec<f64> {
    let terms = field::terms(call);
    grid.iter()
        .map(|&point| field::value(&terms, point))
        .collect()
}

/// How far from a level a value is set onto it: 64 times 2^-52 of the largest magnitude of a value or
/// a finite level, or of the smallest normal number.
pub fn tolerance(levels: [f64; 2], values: &[f64]) -> f64 {
    let numbers = values.iter().chain(&levels).map(|number| number.abs());
    let largest = numbers.filter(|size| size.is_finite()).reduce(f64::max);
    2f64.powi(-46) * largest.unwrap().max(f64::MIN_POSITIVE)
}

/// What a value becomes by the lower level, and that by the upper.
pub fn set_onto([lower, upper]: [f64; 2], near: f64, value: f64) -> f64 {
    let by = |level: f64, value: f64| {
        // An infinite level is near to no value.
        if (value - level).abs() <= near {
            level
        } else {
            value
        }
    };
    by(upper, by(lower, value))
}

/// The edges that a finite level crosses: one end is below it, the other is not.
fn edges(call: &Call, values: &[f64]) -> Vec<Edge> {
    let n = call.cells as usize + 1;
    let number = |[x, y, z]: [usize; 3]| x + n * (y + n * z);
    let [lower, upper] = call.levels;
    let mut edges = Vec::new();
    for (label, level) in [(0, upper), (1, lower)] {
        if !level.is_finite() {
            continue;
        }
        for (step, [i, j, k]) in (0..).zip(STEPS) {
            for [x, y, z] in places(call.cells) {
                let end = [x + i, y + j, z + k];
                if end.contains(&n) {
                    continue;
                }
                let node = number([x, y, z]);
                let [here, there] = [node, number(end)].map(|node| values[node] < level);
                if here != there {
                    edges.push([node as u32, step, label]);
                }
            }
        }
    }
    edges.sort_unstable();
    edges
}

/// The call as ours leaves it.
pub fn ours(before: &Call) -> Call {
    let mut after = before.clone();
    // SAFETY: the lists are whole vectors and arrays, apart from one another.
    after.number = unsafe {
        raw::lanovishel_sample(
            after.coefficients.as_ptr(),
            after.coefficients.len(),
            after.powers.as_ptr(),
            after.powers.len(),
            &after.levels,
            &after.bounds,
            after.cells,
            after.grid.as_mut_ptr(),
            after.grid.len(),
            after.values.as_mut_ptr(),
            after.values.len(),
            after.edges.as_mut_ptr(),
            after.edges.len(),
            &mut after.filled,
        )
    };
    after
}

/// A call without lists for its answers.
pub fn call_of(terms: &[Term], levels: [f64; 2], bounds: [f64; 6], cells: u32) -> Call {
    let mut call = Call {
        levels,
        bounds,
        cells,
        filled: [17, 18, 19],
        ..Call::default()
    };
    field::lend(&mut call, terms);
    call
}

/// Lends lists of such lengths with something in them: the grid, the values, the edges.
pub fn lend(call: &mut Call, [grid, values, edges]: [usize; 3]) {
    call.grid = float_filling(grid);
    call.values = float_filling(values);
    call.edges = filling(edges);
}

/// The lengths that the lists must have, of a field that is taken; without edges where it is not
/// finite.
pub fn needed(call: &Call) -> [usize; 3] {
    let nodes = nodes(call.cells);
    let edges = samples(call).map_or(0, |samples| samples.edges.len());
    [3 * nodes, nodes, 3 * edges]
}

/// A random call: any terms in any box that is taken, the levels mostly at a value of the field or
/// near it; one in eight has a list that may be too short, one in eight breaks a rule of the field
/// and one in sixteen that of the cells.
pub fn random_call(random: &mut Random) -> Call {
    let mut call = random_field(random, &[4, 4, 4, 5, 5, 6, 7, 8, 9, 12, 16]);
    lend_some(&mut call, random);
    break_rules(&mut call, random);
    call
}

/// A field that is taken, and some of the cells.
pub fn random_field(random: &mut Random, cells: &[u32]) -> Call {
    let cells = random.pick(cells);
    let mut call = call_of(&any_terms(random), [0.0, 1.0], some_box(random), cells);
    call.levels = some_levels(&call, random);
    if field::asked(&call).is_err() {
        // Levels that are the same.
        call.levels[1] = call.levels[0].next_up();
    }
    call
}

/// Lends lists that are long enough; one call in eight has a list that may be too short. Says how many
/// words the edges need.
pub fn lend_some(call: &mut Call, random: &mut Random) -> usize {
    let spare = [0; 3].map(|_| random.pick(&[0, 0, 1, 2, 3, 50]));
    let needed = needed(call);
    let mut lengths = [0, 1, 2].map(|list| needed[list] + spare[list]);
    if random.one_in(8) {
        let list = random.below(3);
        let missing = random.pick(&[1, 1, 2, 3, 4, 50]) + spare[list];
        lengths[list] = lengths[list].saturating_sub(missing);
    }
    lend(call, lengths);
    needed[2]
}

/// In one call in eight breaks a rule of the field, and in one in sixteen that of the cells.
pub fn break_rules(call: &mut Call, random: &mut Random) {
    if random.one_in(8) {
        let rule = random.below(field::RULES);
        field::break_a_rule(call, rule, random);
    }
    if random.one_in(16) {
        call.cells = random.pick(&[0, 1, 2, 3, 129, 130, 260, u32::MAX]);
    }
}

/// Few terms or many, with coefficients of any size.
fn any_terms(random: &mut Random) -> Vec<Term> {
    let count = match random.below(4) {
        0 => random.below(4),
        1 => random.within(4, 16),
        2 => random.below(65),
        _ => random.pick(&[0, 1, 2, 3, 64]),
    };
    let size = match random.below(6) {
        0 => 2f64.powi(random.within(0, 400) as i32 - 200),
        1 => random.pick(&[f64::MAX, 1e300, 1e-300, f64::MIN_POSITIVE, 1e-322]),
        _ => 1.0,
    };
    let mut terms = some_terms(random, count, size);
    match random.below(6) {
        0 => terms.splice(..count.min(3), BALL).for_each(drop),
        1 => terms
            .iter_mut()
            .for_each(|(q, _)| *q = f64::from(random.below(9) as u32) - 4.0),
        2 => terms
            .iter_mut()
            .for_each(|(q, _)| *q *= random.pick(&[1.0, 0.0, -0.0, 1e5, 1e-5])),
        // A third coefficient leaves little of two others.
        3 => terms
            .splice(..count.min(3), cancelling(random))
            .for_each(drop),
        _ => {}
    }
    terms
}

/// Three terms whose sum is 0 but for rounding.
fn cancelling(random: &mut Random) -> [Term; 3] {
    let powers = [0; 3].map(|_| random.below(4) as u32);
    [(0.1, powers), (0.2, powers), (-0.3, powers)]
}

/// A box that is taken: around 0, anywhere, as large as there is, or as thin.
fn some_box(random: &mut Random) -> [f64; 6] {
    let (limit, least) = (2f64.powi(20), 2f64.powi(-20));
    let mut bounds = [-1.0, -1.0, -1.0, 1.0, 1.0, 1.0];
    for axis in 0..3 {
        let size = random.pick(&[1.0, 1.0, 1.0, 1e-3, 1e3, 1e5]);
        let some = size * random.signed();
        let sides = [
            [-1.0, 1.0],
            [0.0, 4.0],
            [-0.0, 1.0],
            [-some.abs(), 0.0],
            [some, some + size * (1.0 + random.signed()) + least],
            [some, some + size],
            [-limit, limit],
            [some.floor(), some.floor() + least],
            [-limit, least - limit],
            [limit - least, limit],
            [some, limit],
        ];
        [bounds[axis], bounds[axis + 3]] = random.pick(&sides);
    }
    bounds
}

/// Levels for a field: on its values, beside them, as near as they are set onto it and just not as
/// near, between them, or far away.
fn some_levels(call: &Call, random: &mut Random) -> [f64; 2] {
    let mut values = field_values(call, &grid(call));
    values.retain(|value| value.is_finite());
    if values.is_empty() {
        return [-1.0, 1.0];
    }
    let near = tolerance([0.0; 2], &values);
    let value = random.pick(&values);
    let mut level = |value: f64| {
        let sign = random.pick(&[1.0, -1.0]);
        let beside = random.pick(&[f64::next_down, |x| x, f64::next_up]);
        match random.below(8) {
            0 => value,
            1 => beside(value),
            2 => beside(value + sign * near),
            3 => beside(value) + sign * near,
            4 | 5 => value + 2.0 * random.signed() * near,
            6 => random.pick(&values),
            _ => sign * near * 2f64.powi(random.within(0, 100) as i32),
        }
    };
    let [a, b] = [level(value), level(value)];
    match random.below(8) {
        0 => [f64::NEG_INFINITY, a],
        1 => [-0.0, a.abs()],
        2 => [-a.abs(), random.pick(&[0.0, -0.0])],
        _ => [a.min(b), a.max(b)],
    }
}
