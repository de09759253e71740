//! Sampling beside the model and the original: the number, grid and values to the bit, every list.
//! And lattices that need neither.
use differential::{
    call::Call,
    cases,
    field::{self, BALL, Term, some_terms},
    note_absence,
    random::Random,
    report,
    sampling::{self, Edge, STEPS, call_of, lend, needed, nodes},
};
use lanovishel::{Lattice, Sampled};

const X: Term = (1.0, [1, 0, 0]);

/// A box of side 2 around the middle.
const AROUND: [f64; 6] = [-1.0, -1.0, -1.0, 1.0, 1.0, 1.0];

/// A box of side 8: with 8 cells the coordinates of the nodes are 0 to 8.
const EIGHT: [f64; 6] = [0.0, 0.0, 0.0, 8.0, 8.0, 8.0];

/// What the random calls met.
#[derive(Default)]
struct Met {
    numbers: Vec<u32>,
    /// Of accepted calls: the terms, and how many levels are finite.
    terms: Vec<u32>,
    levels: Vec<u32>,
    /// Edges by step, by label, and those that have both labels.
    steps: [u64; 7],
    labels: [u64; 2],
    twice: u64,
    /// Values that become the lower level; the upper level; the upper one because the lower one
    /// brought them near; and such as the lower one took away from the upper.
    set: [u64; 4],
    /// 35 by the grid or the values, and by the edges.
    short: [u64; 2],
}

impl Met {
    fn enter(&mut self, before: &Call, after: &Call) {
        self.numbers.push(after.number);
        match after.number {
            0 => self.enter_accepted(before, after),
            35 => {
                let nodes = nodes(before.cells);
                let room = before.grid.len() >= 3 * nodes && before.values.len() >= nodes;
                self.short[usize::from(room)] += 1;
            }
            _ => {}
        }
    }

    fn enter_accepted(&mut self, before: &Call, after: &Call) {
        self.terms.push(before.coefficients.len() as u32);
        let finite = before.levels.iter().filter(|level| level.is_finite());
        self.levels.push(finite.count() as u32);
        let edges = edges(after);
        for &[_, step, label] in edges {
            self.steps[step as usize] += 1;
            self.labels[label as usize] += 1;
        }
        let twice = edges.windows(2).filter(|two| two[0][..2] == two[1][..2]);
        self.twice += twice.count() as u64;
        let values = sampling::field_values(before, &sampling::grid(before));
        let near = sampling::tolerance(before.levels, &values);
        let [lower, upper] = before.levels;
        for (value, &set) in values.into_iter().zip(&after.values) {
            let is_near = (value - upper).abs() <= near;
            let met = [
                set == lower,
                set == upper,
                set == upper && !is_near,
                set == lower && is_near,
            ];
            (0..4).for_each(|kind| self.set[kind] += u64::from(met[kind]));
        }
    }

    /// Prints what was met, each often enough in so many calls.
    fn report(&self, runs: u64) {
        report("number", &[0, 13, 34, 35, 36], &self.numbers, runs / 50);
        report("terms", &[0, 1, 2, 3, 63, 64], &self.terms, runs / 500);
        report("finite levels", &[1, 2], &self.levels, runs / 20);
        println!(
            "edges by step {:?}, by label {:?}, with both {}",
            self.steps, self.labels, self.twice
        );
        println!(
            "values set onto the lower level, the upper, this by way of the lower, kept from it: {:?}",
            self.set
        );
        println!("35 by grid or values, by edges: {:?}", self.short);
        assert!(*self.steps.iter().min().unwrap() >= 10 * runs);
        assert!(self.twice >= runs);
        assert!(*self.set.iter().min().unwrap() >= runs / 10);
        assert!(*self.short.iter().min().unwrap() >= runs / 50);
    }
}

#[test]
fn random_calls() {
    note_absence();
    let mut met = Met::default();
    let runs = cases(10_000, |random| {
        let call = sampling::random_call(random);
        met.enter(&call, &compared(&call)?);
        Ok(())
    });
    println!("{runs} calls of sampling");
    met.report(runs);
}

/// The call as ours leaves it, which must be as the model does, and this as the original.
fn compared(call: &Call) -> Result<Call, String> {
    let wanted = sampling::model(call);
    if let Some(theirs) = sampling::originals(call, &wanted) {
        theirs
            .difference(&wanted)
            .map_err(|d| format!("the original differs from the model: {d}"))?;
    }
    let after = sampling::ours(call);
    after.difference(&wanted)?;
    Ok(after)
}

/// The same with lists of the lengths that are needed, and those so much longer.
fn answered(call: &Call, spare: usize) -> Call {
    let mut call = call.clone();
    let lengths = needed(&call).map(|length| length + spare);
    lend(&mut call, lengths);
    compared(&call).unwrap()
}

/// The number that a call is answered, with lists of the lengths that are needed and with none.
fn number(call: &Call) -> u32 {
    let number = answered(call, 0).number;
    let without = compared(call).unwrap().number;
    assert_eq!(without, if matches!(number, 0 | 36) { 35 } else { number });
    number
}

/// The edges of an accepted call.
fn edges(call: &Call) -> &[Edge] {
    let (edges, _) = call.edges.as_chunks();
    &edges[..call.filled[2] as usize]
}

/// Inside are the middle and the six nodes next to it. The middle has 14 edges, six of them to the
/// others; each of these has 14, one of them to the middle and two to others.
#[test]
fn ball_by_hand() {
    let inside = [37, 57, 61, 62, 63, 67, 87];
    for levels in [[f64::NEG_INFINITY, 0.5], [-1.0, 0.5], [0.5, 7.0]] {
        let after = answered(&call_of(&BALL, levels, AROUND, 4), 3);
        assert_eq!(after.filled, [125, 125, 8 + 6 * 11]);
        let squares = [1.0, 0.25, 0.0, 0.25, 1.0];
        let values: Vec<f64> = (0..125)
            .map(|node| squares[node % 5] + squares[node / 5 % 5] + squares[node / 25])
            .collect();
        assert_eq!(after.values[..125], values);
        assert_eq!(after.grid[3 * 87..][..3], [0.0, 0.0, 0.5]);

        let edges = edges(&after);
        let label = u32::from(levels[0] == 0.5);
        let first = [[6, 6], [7, 5], [11, 4]].map(|[node, step]| [node, step, label]);
        assert_eq!(edges[..3], first);
        assert_eq!(edges[73], [87, 6, label]);
        assert!(edges.is_sorted_by(|a, b| a < b));
        for &[node, step, _] in edges {
            let further = [1, 5, 25, 6, 26, 30, 31][step as usize];
            let ends = [node, node + further].map(|end| inside.contains(&end));
            assert_ne!(ends[0], ends[1]);
        }
    }
}

/// Between two layers of nodes run the steps along the axis, from each node of the first that they
/// do not lead out from.
#[test]
fn planes() {
    for (axis, cells) in [(0, 4), (1, 4), (2, 4), (0, 5), (1, 7), (2, 6)] {
        let n = cells as usize + 1;
        let side = f64::from(cells);
        let term = (1.0, [0, 1, 2].map(|k| u32::from(k == axis)));
        for layer in 0..n - 1 {
            let level = layer as f64 + 0.5;
            let bounds = [0.0, 0.0, 0.0, side, side, side];
            let after = answered(&call_of(&[term], [level, level + 0.25], bounds, cells), 1);
            let mut wanted: Vec<Edge> = Vec::new();
            for node in 0..n * n * n {
                let place = [node % n, node / n % n, node / n / n];
                for (step, along) in (0..).zip(STEPS) {
                    let stays = (0..3).all(|k| place[k] + along[k] < n);
                    if place[axis] == layer && along[axis] == 1 && stays {
                        wanted.extend([0, 1].map(|label| [node as u32, step, label]));
                    }
                }
            }
            assert_eq!(edges(&after), wanted);
        }
    }
}

#[test]
fn steps() {
    let steps = lanovishel::STEPS.map(|step| step.map(|along| along as usize));
    assert_eq!(steps, STEPS);
}

/// A ball that is a little askew, from few cells to the most.
#[test]
fn every_number_of_cells() {
    let terms = [BALL.as_slice(), &[(0.3, [1, 0, 0]), (-0.1, [1, 1, 1])]].concat();
    for cells in (4..=36).chain([47, 63, 64, 65, 99, 127, 128]) {
        let bounds = [-1.0, -1.1, -1.2, 1.25, 1.0, 0.7];
        let after = answered(&call_of(&terms, [0.4, 0.5], bounds, cells), 2);
        let nodes = (cells + 1).pow(3);
        assert_eq!(
            (after.number, after.filled[..2].to_vec()),
            (0, vec![nodes; 2])
        );
    }
    for cells in [
        0,
        1,
        2,
        3,
        129,
        130,
        255,
        256,
        260,
        1 << 16,
        1 << 31,
        u32::MAX,
    ] {
        let mut call = call_of(&terms, [0.4, 0.5], AROUND, cells);
        assert_eq!(compared(&call).unwrap().number, 34);
        lend(&mut call, [6_591, 2_197, 99]);
        assert_eq!(compared(&call).unwrap().number, 34);
    }
}

#[test]
fn every_number_of_terms() {
    let mut random = Random::new(1);
    for count in 0..=64 {
        let terms = some_terms(&mut random, count, 1.0);
        let call = call_of(&terms, [-0.2, 0.3], AROUND, 5);
        assert_eq!(number(&call), 0);
    }
    assert_eq!(number(&call_of(&[X; 65], [0.0, 1.0], AROUND, 4)), 13);
}

/// The most nodes and the most terms.
#[test]
fn the_largest() {
    let terms = some_terms(&mut Random::new(1), 64, 1.0);
    let after = answered(&call_of(&terms, [-0.2, 0.3], AROUND, 128), 5);
    assert_eq!(after.filled[..2], [2_146_689; 2]);
    assert!(after.filled[2] > 100_000);
}

/// How near the values 0 to 8 are to a level that they are set onto: 2^-46 of 8.
const NEAR: f64 = 1.0 / (1u64 << 43) as f64;

/// The values along x of the field x, which are 0 to 8 where none is set onto a level.
fn along_x(levels: [f64; 2]) -> [f64; 9] {
    let after = answered(&call_of(&[X], levels, EIGHT, 8), 0);
    assert_eq!(after.number, 0);
    after.values[..9].try_into().unwrap()
}

#[test]
fn as_near_and_just_not() {
    for value in [1.0, 3.0, 6.0] {
        let [above, below] = [value + NEAR, value - NEAR];
        for (level, is_set) in [
            (value, true),
            (value.next_up(), true),
            (value.next_down(), true),
            (above, true),
            (below, true),
            (above.next_up(), false),
            (below.next_down(), false),
        ] {
            let mut wanted: [f64; 9] = std::array::from_fn(|x| x as f64);
            if is_set {
                wanted[value as usize] = level;
            }
            for levels in [[f64::NEG_INFINITY, level], [-7.5, level], [level, 7.5]] {
                assert_eq!(along_x(levels), wanted);
            }
        }
    }
}

/// 2^-100 is further from the level than what is near, but not as f64 have it.
#[test]
fn differences_are_rounded() {
    let small = 2f64.powi(-100);
    let after = answered(&call_of(&[X, (small, [0; 3])], [-NEAR, 8.0], EIGHT, 8), 0);
    assert_eq!(after.values[..2], [-NEAR, 1.0]);
}

/// A value that is set onto a level above it is not below it: the edge before it is crossed, and not
/// the edge behind it.
#[test]
fn crossed_before_it() {
    for (level, first) in [
        (3.0 + NEAR, 2),
        ((3.0 + NEAR).next_up(), 3),
        (3.0 - NEAR, 2),
    ] {
        let after = answered(&call_of(&[X], [f64::NEG_INFINITY, level], EIGHT, 8), 0);
        assert_eq!(edges(&after)[0], [first, 0, 0]);
        assert_eq!(after.filled[2], 81 + 72 + 72 + 64);
    }
}

/// In quarters of what is near: the lower level takes 3 or does not, and the upper takes what that
/// left.
#[test]
fn one_level_after_the_other() {
    let at = |quarters: i32| 3.0 + f64::from(quarters) * NEAR / 4.0;
    for upper in -9..=9_i32 {
        for lower in -9..upper {
            let first = if lower.abs() <= 4 { lower } else { 0 };
            let second = if (first - upper).abs() <= 4 {
                upper
            } else {
                first
            };
            assert_eq!(
                along_x([at(lower), at(upper)])[3],
                at(second),
                "{lower} {upper}"
            );
        }
    }
}

/// Beside 3.5 and a level of 2^45, 3 and 4 are just near; not if that is the least bit smaller, or
/// infinite.
#[test]
fn large_levels() {
    let large = 2f64.powi(45);
    let set = [0.0, 1.0, 2.0, 3.5, 3.5, 5.0, 6.0, 7.0, 8.0];
    let kept: [f64; 9] = std::array::from_fn(|x| x as f64);
    for (levels, wanted) in [
        ([3.5, large], set),
        ([3.5, large.next_down()], kept),
        ([-large, 3.5], set),
        ([(-large).next_up(), 3.5], kept),
        ([f64::NEG_INFINITY, 3.5], kept),
    ] {
        assert_eq!(along_x(levels), wanted);
    }
}

/// The same for a large value at the last node alone, or at the first, of either sign: the others are
/// below (7/8)^3 of it.
#[test]
fn large_values() {
    let large = 2f64.powi(45);
    for size in [large, large - 1.0, -large, 1.0 - large] {
        let set = if size.abs() == large { 3.5 } else { 3.0 };
        let corner = (size - 8.0, [3, 3, 3]);
        let terms = [corner, (8.0, [1, 0, 0])];
        let unit = [0.0, 0.0, 0.0, 1.0, 1.0, 1.0];
        let last = answered(&call_of(&terms, [-9.0, 3.5], unit, 8), 0);
        assert_eq!((last.values[3], last.values[728]), (set, size));

        // From the other end: the values along x are -8 to 0, and the first is the large one.
        let mirrored = [-1.0, -1.0, -1.0, 0.0, 0.0, 0.0];
        let first = answered(&call_of(&terms, [-3.5, 9.0], mirrored, 8), 0);
        assert_eq!((first.values[728 - 3], first.values[0]), (-set, -size));
    }
}

/// The same in the middle alone: there are at most three quarters of it at the walls, and one at the
/// corners.
#[test]
fn large_value_inside() {
    for size in [2f64.powi(45), -2f64.powi(45)] {
        let parts = BALL.map(|(_, powers)| (-size / 4.0, powers));
        let terms = [[(size, [0; 3])].as_slice(), &parts].concat();
        let level = size / 4.0 + 0.5;
        for (level, set) in [(level, level), (level.next_up(), size / 4.0)] {
            let after = answered(&call_of(&terms, [f64::NEG_INFINITY, level], AROUND, 8), 0);
            assert_eq!((after.values[0], after.values[364]), (set, size));
        }
    }
}

/// Where all is 0 or subnormal, 64 of the smallest are near.
#[test]
fn small_values() {
    let tiny = |count: i32| f64::from(count) * f64::from_bits(1);
    for (levels, set) in [
        ([tiny(-64), 1e-308], -64),
        ([tiny(-65), 1e-308], 0),
        ([tiny(-200), tiny(64)], 64),
        ([tiny(-200), tiny(65)], 0),
    ] {
        let after = answered(&call_of(&[], levels, AROUND, 4), 0);
        assert_eq!(after.values, [tiny(set); 125]);
        assert_eq!(after.filled, [125, 125, 0]);
    }
    // Of -100, -50, 0, 50 and 100 the second comes by way of the lower level.
    let term = (tiny(100), [1, 0, 0]);
    let after = answered(&call_of(&[term], [tiny(-20), tiny(20)], AROUND, 4), 0);
    assert_eq!(after.values[..5], [-100, 20, 20, 20, 100].map(tiny));
}

/// A sum begins at +0, and what is set onto the level -0 becomes -0.
#[test]
fn zeros() {
    let minus = (-0.0, [0, 0, 0]);
    for terms in [vec![], vec![minus], vec![minus; 64], vec![X, (-1.0, X.1)]] {
        for (levels, zero) in [
            ([-1.0, 1.0], 0.0f64),
            ([-1.0, -0.0], -0.0),
            ([-0.0, 1.0], -0.0),
            ([-1.0, 0.0], 0.0),
        ] {
            let after = answered(&call_of(&terms, levels, AROUND, 4), 1);
            let values = &after.values[..125];
            assert!(values.iter().all(|value| value.to_bits() == zero.to_bits()));
        }
    }
    assert_eq!(number(&call_of(&[X], [-0.0, 0.0], AROUND, 4)), 13);
    // A box from -0 begins at +0.
    let after = answered(
        &call_of(&[X], [0.5, 1.0], [-0.0, -0.0, -0.0, 1.0, 1.0, 1.0], 4),
        0,
    );
    assert!(after.grid[..3].iter().all(|x| x.to_bits() == 0));
}

/// The powers and the order of the factors and of the terms, to the bit.
#[test]
fn rounded_in_this_order() {
    let terms = [
        (0.1, [1, 3, 2]),
        (0.7, [3, 0, 1]),
        (1e16, [0, 0, 1]),
        (-1e16, [0, 0, 1]),
    ];
    let [x, y, z] = [0.3, -0.7, 1.1f64];
    let call = call_of(
        &terms,
        [f64::NEG_INFINITY, 1e9],
        [x, y, z, 1e3, 2e3, 3e3],
        4,
    );
    let after = answered(&call, 0);
    let sum = ((0.1 * x) * ((y * y) * y)) * (z * z) + ((0.7 * ((x * x) * x)) * 1.0) * z;
    let sum = (sum + (1e16 * 1.0) * 1.0 * z) + ((-1e16 * 1.0) * 1.0) * z;
    assert_eq!(after.values[0].to_bits(), sum.to_bits());
    let last = x + ((1e3 - x) * 4.0) / 4.0;
    assert_eq!(after.grid[3 * 124].to_bits(), last.to_bits());
}

const LIMIT: f64 = 1_048_576.0;
const LEAST: f64 = 1.0 / LIMIT;

/// The largest box, and the thinnest at its ends and in its middle.
#[test]
fn boxes_at_the_limits() {
    let terms = [(1.0, [1, 0, 0]), (0.5, [0, 2, 0]), (-0.25, [0, 1, 3])];
    for [low, high] in [
        [-LIMIT, LIMIT],
        [-LIMIT, LEAST - LIMIT],
        [LIMIT - LEAST, LIMIT],
        [0.0, LEAST],
        [-LEAST, -0.0],
        [-0.0, LEAST],
        [-LEAST / 3.0, LEAST / 3.0 * 2.0 + 1e-20],
        [1.0, 1.0 + LEAST],
    ] {
        for axis in 0..3 {
            let mut bounds = AROUND;
            (bounds[axis], bounds[axis + 3]) = (low, high);
            let call = call_of(&terms, [-0.5, 0.5], bounds, 6);
            assert_eq!(number(&call), 0);
        }
        let bounds = [low, low, low, high, high, high];
        assert_eq!(number(&call_of(&terms, [-0.5, 0.5], bounds, 6)), 0);
    }
}

#[test]
fn what_13_asks() {
    let fine = call_of(&BALL, [0.25, 0.5], AROUND, 4);
    assert_eq!(number(&fine), 0);
    let refused = |change: &dyn Fn(&mut Call)| {
        let mut call = fine.clone();
        change(&mut call);
        lend(&mut call, [375, 125, 3_000]);
        assert_eq!(compared(&call).unwrap().number, 13);
    };
    let not_finite = [f64::NAN, f64::INFINITY, f64::NEG_INFINITY];
    for place in 0..3 {
        not_finite
            .iter()
            .for_each(|&q| refused(&|call| call.coefficients[place] = q));
    }
    for place in 0..9 {
        [4, 5, 256, 1 << 31, u32::MAX]
            .iter()
            .for_each(|&power| refused(&|call| call.powers[place] = power));
    }
    for length in [0, 1, 2, 6, 7, 8, 10, 11, 12] {
        refused(&|call| call.powers.resize(length, 1));
    }
    for count in [0, 1, 2, 4] {
        refused(&|call| call.coefficients.resize(count, 1.0));
    }
    for count in [65, 66, 128, 1_000] {
        refused(&|call| field::lend(call, &vec![X; count]));
    }
    for levels in [
        [0.5, 0.25],
        [0.5, 0.5],
        [0.5, f64::INFINITY],
        [f64::NEG_INFINITY, f64::INFINITY],
        [f64::NEG_INFINITY; 2],
        [f64::INFINITY, 0.5],
        [f64::NAN, 0.5],
        [0.5, f64::NAN],
    ] {
        refused(&|call| call.levels = levels);
    }
    for (low, high) in [
        (1.0, 1.0),
        (1.0, -1.0),
        (0.0, LEAST.next_down()),
        (1.0, (1.0 + LEAST).next_down()),
        // Less than the least by what the rounded difference leaves out.
        (1e-30, LEAST),
        (-1.0, LIMIT.next_up()),
        ((-LIMIT).next_down(), 1.0),
        (-1.0, f64::INFINITY),
        (f64::NEG_INFINITY, 1.0),
        (f64::NAN, 1.0),
        (-1.0, f64::NAN),
    ] {
        for axis in 0..3 {
            refused(&|call| (call.bounds[axis], call.bounds[axis + 3]) = (low, high));
        }
    }
}

/// The smallest inputs of docs/DIFFERENCES.md: the original takes what is beyond our field sheet and
/// our box.
#[test]
fn narrower_than_the_original() {
    let refused = |terms: &[Term], upper: f64| {
        let call = call_of(terms, [0.0, 0.5], [0.0, 0.0, 0.0, 1.0, 1.0, upper], 4);
        assert_eq!(number(&call), 13);
        if let Some(theirs) = original::sample(&field::told(&call), 4) {
            assert_eq!(theirs.unwrap().values.len(), 125);
        }
    };
    refused(&[X; 65], 1.0);
    refused(&[X], LIMIT.next_up());
    refused(&[X], LEAST.next_down());
}

/// At one node alone, in one factor, one term or their sum.
#[test]
fn values_that_are_not_finite() {
    let huge = f64::MAX;
    let unit = [0.0, 0.0, 0.0, 1.0, 1.0, 1.0];
    let number = |terms: &[Term], bounds| number(&call_of(terms, [-1.0, 1.0], bounds, 4));
    // Twice this is too large at one corner alone, where x·y·z is 1 or -1, and not where it is 3/4.
    let [corner, minus] = [0.6, -0.6].map(|part| (part * huge, [1, 1, 1]));
    // The last node, and the first.
    for bounds in [unit, [-1.0, -1.0, -1.0, 0.0, 0.0, 0.0]] {
        assert_eq!(number(&[corner], bounds), 0);
        assert_eq!(number(&[corner; 2], bounds), 36);
        assert_eq!(number(&[minus; 2], bounds), 36);
        assert_eq!(number(&[corner, corner, minus], bounds), 36);
        assert_eq!(number(&[corner, minus, corner], bounds), 0);
    }
    // The middle, and none of the nodes next to it: 1.05 less at least 0.3/4.
    let mut middle = BALL.map(|(_, powers)| (-0.3 * huge, powers)).to_vec();
    assert_eq!(number(&middle, AROUND), 0);
    middle.extend([(0.525 * huge, [0; 3]); 2]);
    assert_eq!(number(&middle, AROUND), 36);
    middle[3].0 = 0.4 * huge;
    assert_eq!(number(&middle, AROUND), 0);
    // A side.
    for axis in 0..3 {
        let mut powers = [0; 3];
        powers[axis] = 3;
        let mut wide = AROUND;
        wide[axis + 3] = 2.0;
        assert_eq!(number(&[(huge / 8.0, powers)], wide), 0);
        assert_eq!(number(&[(huge / 7.9, powers)], wide), 36);
    }
    // An infinite factor times 0, and an infinite term less another.
    let wide = [0.0, 0.0, 0.0, 2.0, 2.0, 0.5];
    assert_eq!(
        number(&[(huge, [0, 1, 1])], [0.0, 0.0, 0.0, 0.5, 2.0, 0.5]),
        36
    );
    assert_eq!(number(&[(huge, [1, 0, 1])], wide), 36);
    assert_eq!(number(&[(huge, [1, 0, 0]), (-huge, [1, 0, 0])], wide), 36);
    assert_eq!(number(&[(huge, [0, 0, 1])], wide), 0);
}

/// Values and levels as large as there are: their differences are not finite, and nothing is set.
#[test]
fn largest_differences() {
    let terms = [(f64::MAX, [1, 0, 0])];
    for levels in [
        [-f64::MAX, f64::MAX],
        [f64::NEG_INFINITY, f64::MAX],
        [-f64::MAX, 0.0],
    ] {
        let after = answered(&call_of(&terms, levels, AROUND, 4), 0);
        let values = [-1.0, -0.5, 0.0, 0.5, 1.0].map(|x| x * f64::MAX);
        assert_eq!(after.values[..5], values);
    }
}

/// One list of any length about the one that it needs, the others just as long as they need.
#[test]
fn any_length_of_each_list() {
    let call = call_of(&BALL, [0.25, 0.5], AROUND, 4);
    let needed = needed(&call);
    assert_eq!(needed[..2], [375, 125]);
    for list in 0..3 {
        let least = needed[list];
        let about = (0..5).chain(least - 5..=least + 5).chain([2 * least]);
        for length in about {
            let mut lengths = needed;
            lengths[list] = length;
            let mut call = call.clone();
            lend(&mut call, lengths);
            let after = compared(&call).unwrap();
            assert_eq!(after.number, if length < least { 35 } else { 0 });
            if length < least {
                assert_eq!(after.filled, [0; 3]);
                assert!(after.grid.iter().all(|x| x.to_bits() == 0));
                assert!(after.values.iter().all(|x| x.to_bits() == 0));
                assert!(after.edges.iter().all(|&word| word == 0));
            }
        }
    }
}

/// Every choice of the questions is answered "no" at once; the first of them is given.
#[test]
fn in_turn() {
    let numbers = [13, 34, 35, 35, 36, 35];
    for broken in 1..64 {
        let is_broken = |question: u32| broken >> question & 1 == 1;
        for cells in [3, 129] {
            let mut call = call_of(&BALL, [0.25, 0.5], AROUND, 4);
            if is_broken(1) {
                call.cells = cells;
            }
            let lengths = match call.cells {
                129 => [375, 125, 3_000],
                cells => [3 * nodes(cells), nodes(cells), 3_000],
            };
            let missing = [2, 3].map(|question| usize::from(is_broken(question)));
            let edges = if is_broken(5) { 3 } else { lengths[2] };
            lend(
                &mut call,
                [lengths[0] - missing[0], lengths[1] - missing[1], edges],
            );
            if is_broken(4) {
                call.coefficients[2] = f64::MAX;
                call.bounds[5] = 2.0;
            }
            if is_broken(0) {
                call.powers[8] = 4;
            }
            let first = (0..6).find(|&question| is_broken(question)).unwrap();
            let after = compared(&call).unwrap();
            assert_eq!(after.number, numbers[first as usize], "{broken:b}");
        }
    }
}

/// The safe function that makes its lists, and the one that is lent them, give what the model does.
#[test]
fn safe_functions() {
    cases(300, |random| {
        let call = sampling::random_call(random);
        let wanted = sampling::model(&call);
        let (mut grid, mut values) = (call.grid.clone(), call.values.clone());
        let mut edges = call.edges.clone();
        let field = field::of(&call);
        let found = lanovishel::sample_into(&field, call.cells, &mut grid, &mut values, &mut edges);
        let [nodes, _, count] = wanted.filled;
        match wanted.number {
            0 => assert_eq!(
                found,
                Ok(Sampled {
                    nodes,
                    edges: count
                })
            ),
            number => assert_eq!(found.unwrap_err().number().get(), number),
        }
        assert_eq!(
            (grid, values, edges),
            (wanted.grid, wanted.values, wanted.edges)
        );

        let made = lanovishel::sample(&field, call.cells);
        let wanted = match wanted.number {
            number @ (13 | 34) => Err(number),
            _ => sampling::samples(&call).map_err(|no| no.number),
        };
        let made = made.map_err(|refusal| refusal.number().get());
        assert_eq!(made, wanted.map(lattice));
        Ok(())
    });
}

fn lattice(samples: sampling::Samples) -> Lattice {
    Lattice {
        grid: samples.grid,
        values: samples.values,
        edges: samples.edges,
    }
}

/// Rounding alone makes this field differ from 0, and so cross its levels more often than a
/// polynomial does: more edges than `sample` first has places for.
#[test]
fn more_edges_than_a_polynomial_has() {
    let noise = |powers| [(0.1, powers), (0.2, powers), (-0.3, powers)];
    let terms = [noise([1, 1, 1]), noise([2, 1, 3]), noise([1, 2, 2])].concat();
    let level = f64::EPSILON / 64.0;
    let call = call_of(&terms, [-level, level], [0.1, 0.2, 0.3, 1.1, 1.3, 1.7], 64);
    let samples = sampling::samples(&call).unwrap();
    assert!(samples.edges.len() > 144 * 65 * 65);
    assert_eq!(
        lanovishel::sample(&field::of(&call), 64),
        Ok(lattice(samples))
    );
}

#[test]
fn node_counts() {
    assert_eq!(
        [4, 5, 128].map(lanovishel::node_count),
        [125, 216, 2_146_689]
    );
    assert_eq!(lanovishel::node_count(u32::MAX), usize::MAX);
}
