//! Where levels cut the edges of a lattice: random calls, a model from request F-7, the original's
//! `extract` up to its roots, and ours.
use crate::{
    call::{Call, float_filling},
    editing::set_then_0,
    field::{self, Term},
    questions::{No, ask},
    random::Random,
    sampling::{self, Edge, STEPS, Samples, call_of},
};
use lanovishel::raw;
use original::Point;

/// How the search on an edge ends.
#[derive(Clone, Copy, Debug, PartialEq, Eq)]
pub enum End {
    /// At the first node, which is on the level.
    First,
    /// At the second.
    Second,
    /// Near enough.
    Near,
    /// Midway, after the last round.
    Midway,
    /// With 37, since the residual of a node is not finite.
    NoNode,
    /// With 37, since that of a value between the nodes is not finite.
    NoValue,
}

/// What is found on an edge.
#[derive(Clone, Copy, Debug)]
pub struct Found {
    /// How the search ends.
    pub end: End,
    /// Where the edge is cut, unless it ends with 37.
    pub point: Point,
    /// How many values of the field are taken, one a round.
    pub taken: u64,
    /// In how many rounds the secant, where it is asked for, is at the lower place or below, and at the
    /// upper or above.
    pub outside: [u64; 2],
}

impl Found {
    /// Whether it is 37.
    pub fn is_refused(&self) -> bool {
        matches!(self.end, End::NoNode | End::NoValue)
    }
}

/// The most values of the field on an edge.
pub const ROUNDS: u64 = 52;

/// A place on an edge: its parameter, from 0 at the first node to 1 at the second, and the residual.
type Place = [f64; 2];

/// An edge that a level crosses.
struct Crossed<'a> {
    terms: &'a [Term],
    level: f64,
    nodes: [Point; 2],
    values: [f64; 2],
}

impl Crossed<'_> {
    fn point(&self, t: f64) -> Point {
        let [from, to] = self.nodes;
        [0, 1, 2].map(|axis| from[axis] * (1.0 - t) + to[axis] * t)
    }

    /// The largest residual that is near enough.
    fn near(&self) -> f64 {
        let [a, b] = self.values.map(|value| (value - self.level).abs());
        let sizes = [a, b, self.level.abs(), f64::MIN_POSITIVE];
        2f64.powi(-46) * sizes.into_iter().reduce(f64::max).unwrap()
    }

    fn found(&self) -> Found {
        let [a, b] = self.values.map(|value| value - self.level);
        let at_once = |end, point| Found {
            end,
            point,
            taken: 0,
            outside: [0; 2],
        };
        if !(a.is_finite() && b.is_finite()) {
            return at_once(End::NoNode, [f64::NAN; 3]);
        }
        match (a == 0.0, b == 0.0) {
            (true, _) => at_once(End::First, self.nodes[0]),
            (false, true) => at_once(End::Second, self.nodes[1]),
            (false, false) => self.searched([[0.0, a], [1.0, b]], 0, [0; 2]),
        }
    }

    /// The rounds from this one on, between places whose residuals have opposite signs.
    fn searched(&self, between: [Place; 2], round: u64, mut outside: [u64; 2]) -> Found {
        let [low, high] = between;
        let middle = (low[0] + high[0]) * 0.5;
        if round == ROUNDS {
            return Found {
                end: End::Midway,
                point: self.point(middle),
                taken: round,
                outside,
            };
        }
        let t = if round >= 12 || round % 4 == 3 {
            middle
        } else {
            let secant = low[0] - (low[1] * (high[0] - low[0])) / (high[1] - low[1]);
            let is_outside = [secant <= low[0], secant >= high[0]];
            (0..2).for_each(|side| outside[side] += u64::from(is_outside[side]));
            if low[0] < secant && secant < high[0] {
                secant
            } else {
                middle
            }
        };
        let point = self.point(t);
        let residual = field::value(self.terms, point) - self.level;
        let end = if !residual.is_finite() {
            End::NoValue
        } else if residual.abs() <= self.near() {
            End::Near
        } else {
            let here = [t, residual];
            let is_low = (residual > 0.0) == (low[1] > 0.0);
            let rest = if is_low { [here, high] } else { [low, here] };
            return self.searched(rest, round + 1, outside);
        };
        Found {
            end,
            point,
            taken: round + 1,
            outside,
        }
    }
}

/// The level of a label.
fn level(call: &Call, label: u32) -> f64 {
    let [lower, upper] = call.levels;
    [upper, lower][label as usize]
}

/// The nodes where an edge begins and ends.
pub fn ends(cells: u32, [node, step, _]: Edge) -> [usize; 2] {
    let n = cells as usize + 1;
    let [i, j, k] = STEPS[step as usize];
    let node = node as usize;
    [node, node + i + n * (j + n * k)]
}

/// What is found on each edge.
pub fn each(call: &Call, samples: &Samples) -> Vec<Found> {
    let terms = field::terms(call);
    let crossed = |&edge: &Edge| {
        let ends = ends(call.cells, edge);
        Crossed {
            terms: &terms,
            level: level(call, edge[2]),
            nodes: ends.map(|node| samples.grid[node]),
            values: ends.map(|node| samples.values[node]),
        }
    };
    let edges = samples.edges.iter();
    edges.map(|edge| crossed(edge).found()).collect()
}

/// The call as the model leaves it, and what it finds on each edge, where it comes to that.
pub fn model(before: &Call) -> (Call, Vec<Found>) {
    let samples = match listed(before) {
        Ok(samples) => samples,
        Err(no) => return (ended(before, Err(no.number)), Vec::new()),
    };
    let found = each(before, &samples);
    let outcome = if found.iter().any(Found::is_refused) {
        Err(37)
    } else {
        let cuts = found.iter().map(|found| found.point).collect();
        let taken = found.iter().map(|found| found.taken).sum();
        Ok((samples, cuts, taken))
    };
    (ended(before, outcome), found)
}

/// The samples, or the refusal before 37.
fn listed(call: &Call) -> Result<Samples, No> {
    let samples = sampling::found(call)?;
    ask(call.cuts.len() >= 3 * samples.edges.len(), 35)?;
    Ok(samples)
}

/// The call as the original has it, where it is one that passes what only we ask, and the original's
/// source was there. Each edge must be as the model has it; but where the residual of a node is not
/// finite, which the original does not ask, it is taken to refuse.
pub fn originals(before: &Call, wanted: &Call, found: &[Found]) -> Option<Result<Call, String>> {
    if !matches!(wanted.number, 0 | 36 | 37) {
        return None;
    }
    let theirs = original::cut(&field::told(before), before.cells as usize)?;
    let solved = match theirs {
        Ok(solved) => solved,
        Err(message) if message == "Non-finite sampled field" => {
            return Some(Ok(ended(before, Err(36))));
        }
        Err(message) => return Some(Err(message)),
    };
    let samples = sampling::named(solved.samples);
    if solved.roots.len() != found.len() {
        return Some(Err(format!(
            "roots: {}, not {}",
            solved.roots.len(),
            found.len()
        )));
    }
    let mut outcome = Ok((Vec::new(), 0));
    for ((edge, found), (root, taken)) in (0..).zip(found).zip(solved.roots) {
        if found.end == End::NoNode {
            outcome = Err(37);
            continue;
        }
        let point = match &root {
            Ok(point) => *point,
            Err(message) if message == "Non-finite field during edge solve" => found.point,
            Err(message) => return Some(Err(format!("edge {edge}: {message}"))),
        };
        let is_same = root.is_err() == (found.end == End::NoValue)
            && point.map(f64::to_bits) == found.point.map(f64::to_bits)
            && taken == found.taken;
        if !is_same {
            let said = format!("edge {edge}: {root:?} by {taken} values, not {found:?}");
            return Some(Err(said));
        }
        match (&mut outcome, root) {
            (Ok((cuts, sum)), Ok(point)) => {
                cuts.push(point);
                *sum += taken;
            }
            _ => outcome = Err(37),
        }
    }
    let outcome = outcome.map(|(cuts, taken)| (samples, cuts, taken));
    Some(Ok(ended(before, outcome)))
}

/// The call after such an outcome: the samples and the cuts, then 0; all 0 after a refusal.
fn ended(before: &Call, outcome: Result<(Samples, Vec<Point>, u64), u32>) -> Call {
    let mut after = before.clone();
    after.number = outcome.as_ref().err().copied().unwrap_or(0);
    let (samples, cuts, taken) = outcome.unwrap_or_default();
    let counts = [
        samples.grid.len(),
        samples.values.len(),
        samples.edges.len(),
        cuts.len(),
    ];
    after.cut_filled = counts.map(|count| count as u32);
    after.fields = [taken];
    set_then_0(&mut after.grid, samples.grid.as_flattened());
    set_then_0(&mut after.values, &samples.values);
    set_then_0(&mut after.edges, samples.edges.as_flattened());
    set_then_0(&mut after.cuts, cuts.as_flattened());
    after
}

/// The call as ours leaves it.
pub fn ours(before: &Call) -> Call {
    let mut after = before.clone();
    // SAFETY: the lists are whole vectors and arrays, apart from one another.
    after.number = unsafe {
        raw::lanovishel_cut(
            after.coefficients.as_ptr(),
            after.coefficients.len(),
            after.powers.as_ptr(),
            after.powers.len(),
            &after.levels,
            &after.bounds,
            after.cells,
            after.grid.as_mut_ptr(),
            after.grid.len(),
            after.values.as_mut_ptr(),
            after.values.len(),
            after.edges.as_mut_ptr(),
            after.edges.len(),
            &mut after.cut_filled,
            after.cuts.as_mut_ptr(),
            after.cuts.len(),
            &mut after.fields,
        )
    };
    after
}

/// Lends lists of such lengths with something in them: the grid, the values, the edges, the cuts.
pub fn lend(call: &mut Call, [grid, values, edges, cuts]: [usize; 4]) {
    sampling::lend(call, [grid, values, edges]);
    lend_cuts(call, cuts);
}

fn lend_cuts(call: &mut Call, cuts: usize) {
    call.cuts = float_filling(cuts);
    (call.cut_filled, call.fields) = ([20, 21, 22, 23], [24]);
}

/// The lengths that the lists must have, of a field that is taken.
pub fn needed(call: &Call) -> [usize; 4] {
    let [grid, values, edges] = sampling::needed(call);
    [grid, values, edges, edges]
}

/// A random call: half of them as sampling has them; the others cut by a level at which a residual
/// of a node may not be finite, or one between nodes, or at which secants fall onto the ends. One in
/// eight has a list of sampling's that may be too short, one in eight a list of cuts that is, and rules
/// are broken as they are for sampling.
pub fn random_call(random: &mut Random) -> Call {
    let mut call = match random.below(8) {
        0 => far_apart(random),
        1 => peaked(random),
        2 => rounded_out(random),
        3 => narrow(random),
        _ => sampling::random_field(random, &[4, 4, 4, 4, 4, 5, 6, 8]),
    };
    let edge_words = sampling::lend_some(&mut call, random);
    let spare = random.pick(&[0, 0, 1, 2, 3, 50]);
    let missing = random.pick(&[1, 1, 2, 3, 4, 50]);
    let cuts = match random.below(8) {
        0 => edge_words.saturating_sub(missing),
        _ => edge_words + spare,
    };
    lend_cuts(&mut call, cuts);
    sampling::break_rules(&mut call, random);
    call
}

/// Neighbours whose values may be further apart than there are numbers, about the level.
fn far_apart(random: &mut Random) -> Call {
    let sign = random.pick(&[1.0, -1.0]);
    let mut size = || sign * f64::MAX * (1.0 - random.signed().abs() / 16.0);
    let terms = [(size(), [3, 0, 0]), (size(), [0, 3, 0])];
    let bounds = [-1.0, 0.0, 0.0, 0.0, 1.0, 1.0];
    let mut call = call_of(&terms, [0.0; 2], bounds, 4);
    let ends = [[-1.0, 0.75, 0.0], [-0.75, 1.0, 0.0]];
    let at_end = field::value(&terms, random.pick(&ends));
    let level = match random.below(3) {
        0 => at_end,
        1 => at_end * (1.0 - random.signed().abs() / 4.0),
        _ => f64::MAX * random.signed(),
    };
    set_levels(&mut call, level, random);
    turned(call, random)
}

/// Between the nodes 1 and 2 of an axis the sum of the first three terms has a peak at 3/2, and is
/// infinite where that is nearer than a width. The level is about there.
fn peaked(random: &mut Random) -> Call {
    let sign = random.pick(&[1.0, -1.0]);
    let q = sign * f64::MAX / 16.0;
    let halvings = random.below(24);
    let width = 2f64.powi(-(random.below(halvings + 1) as i32) - 2);
    let most = sign * f64::MAX - 2.25 * q + q * (width * width);
    let power = random.pick(&[1, 2, 3]);
    let part = (1.0 - 0.7 * random.signed().abs()) / f64::powi(4.0, power as i32);
    let fall = -q * (25.0 * part);
    let terms = [
        (3.0 * q, [1, 0, 0]),
        (-q, [2, 0, 0]),
        (most, [0; 3]),
        (fall, [power, 0, 0]),
    ];
    let bounds = [0.0, 0.0, 0.0, 4.0, 4.0, 4.0];
    let mut call = call_of(&terms, [0.0; 2], bounds, 4);
    let beside = random.pick(&[0.0, width, 4.0 * width, 0.5]) * random.signed();
    let level = sign * f64::MAX + fall * f64::powi(1.5 + beside, power as i32);
    set_levels(&mut call, level, random);
    turned(call, random)
}

/// Two terms that cancel, and are as large as there is at the far nodes of an axis: between nodes there
/// the rounded coordinate may lie beyond, and the field is no number.
fn rounded_out(random: &mut Random) -> Call {
    let far = random.pick(&[5.0, 1.1, 1.9]);
    let mut q = f64::MAX / far;
    if q * far == f64::INFINITY {
        q = q.next_down();
    }
    let terms = [
        (q, [1, 0, 0]),
        (-q, [1, 0, 0]),
        (1.0, [0, random.pick(&[2, 3]), 0]),
    ];
    let bounds = [0.0, 0.0, 0.0, far, 1.0, 1.0];
    let mut call = call_of(&terms, [0.0; 2], bounds, 4);
    let level = random.signed().abs();
    set_levels(&mut call, level, random);
    turned(call, random)
}

/// Between the nodes -1 and 1 of an axis the field is far larger than at them, and cut near 0, where
/// from one parameter to the next it changes by more than the tolerance.
fn narrow(random: &mut Random) -> Call {
    let less = 2f64.powi(-(random.within(3, 34) as i32));
    let terms = [(1.0, [1, 0, 0]), (less - 1.0, [3, 0, 0])];
    let bounds = [-1.0, -1.0, -1.0, 7.0, 1.0, 1.0];
    let mut call = call_of(&terms, [0.0; 2], bounds, 4);
    let level = less * random.signed();
    set_levels(&mut call, level, random);
    turned(call, random)
}

/// Sets a level, as the upper one or as the lower.
fn set_levels(call: &mut Call, level: f64, random: &mut Random) {
    let level = level.clamp(-f64::MAX / 1.5, f64::MAX);
    call.levels = match random.below(3) {
        0 => [f64::NEG_INFINITY, level],
        1 => [level.min(0.0) - f64::MAX / 4.0, level],
        _ => [level.min(f64::MAX.next_down()), f64::MAX],
    };
}

/// The same along other axes.
fn turned(mut call: Call, random: &mut Random) -> Call {
    let by = random.below(3);
    let (threes, _) = call.powers.as_chunks_mut::<3>();
    threes.iter_mut().for_each(|powers| powers.rotate_right(by));
    let (corners, _) = call.bounds.as_chunks_mut::<3>();
    corners
        .iter_mut()
        .for_each(|corner| corner.rotate_right(by));
    call
}
