//! Cutting beside the model and the original: the number, the lists to the bit, the values taken. And
//! edges that need neither.
use differential::{
    call::Call,
    cases,
    cutting::{self, End, Found, ROUNDS, lend, needed},
    field::{self, BALL, Term},
    note_absence, report,
    sampling::{self, Edge, call_of},
};
use lanovishel::{CutCounts, Cuts, Lattice};
use original::Point;
use std::collections::BTreeMap;

/// What the random calls met.
#[derive(Default)]
struct Met {
    numbers: Vec<u32>,
    /// Edges that end at the first node, at the second, and midway.
    nodes: [u64; 2],
    midway: u64,
    /// Those that end near, by the last round.
    near: BTreeMap<u64, u64>,
    /// Calls whose 37 is that of a node, and of a value by the round.
    no_node: u64,
    no_value: BTreeMap<u64, u64>,
    /// Edges on which a secant is at the lower end of the interval, and at the upper.
    outside: [u64; 2],
    /// 35 by the lists of sampling, and by the cuts.
    short: [u64; 2],
}

impl Met {
    fn enter(&mut self, before: &Call, number: u32, found: &[Found]) {
        self.numbers.push(number);
        match number {
            0 => self.enter_edges(found),
            35 => self.short[usize::from(sampling::found(before).is_ok())] += 1,
            37 => {
                let refused = found.iter().find(|found| found.is_refused()).unwrap();
                match refused.end {
                    End::NoNode => self.no_node += 1,
                    _ => *self.no_value.entry(refused.taken - 1).or_default() += 1,
                }
            }
            _ => {}
        }
    }

    fn enter_edges(&mut self, found: &[Found]) {
        for edge in found {
            (0..2).for_each(|side| self.outside[side] += edge.outside[side].min(1));
            match edge.end {
                End::First => self.nodes[0] += 1,
                End::Second => self.nodes[1] += 1,
                End::Midway => self.midway += 1,
                _ => *self.near.entry(edge.taken - 1).or_default() += 1,
            }
        }
    }

    /// Prints what was met, each often enough in so many calls.
    fn report(&self, runs: u64) {
        report("number", &[0, 13, 34, 35, 36, 37], &self.numbers, runs / 50);
        println!(
            "edges that end at a node {:?}, midway {}, near by round {:?}",
            self.nodes, self.midway, self.near
        );
        println!(
            "37 at a node {}, by round {:?}",
            self.no_node, self.no_value
        );
        println!(
            "edges on which a secant is at the lower end, at the upper: {:?}",
            self.outside
        );
        println!("35 by sampling, by cuts: {:?}", self.short);
        assert!(*self.nodes.iter().min().unwrap() >= runs && self.midway >= runs);
        let near = |round| self.near.get(&round).copied().unwrap_or(0);
        assert!((0..ROUNDS).map(near).min().unwrap() >= runs / 200);
        assert!(*self.outside.iter().min().unwrap() >= runs / 10);
        let late = self.no_value.range(1..).map(|(_, met)| met).sum();
        let first = self.no_value.get(&0).copied().unwrap_or(0);
        let least = [self.no_node, first, late].into_iter().chain(self.short);
        assert!(least.min().unwrap() >= runs / 500);
    }
}

/// What the model finds on each edge.
fn found(call: &Call) -> Vec<Found> {
    cutting::each(call, &sampling::samples(call).unwrap())
}

#[test]
fn random_calls() {
    note_absence();
    let mut met = Met::default();
    let runs = cases(10_000, |random| {
        let call = cutting::random_call(random);
        let (after, found) = compared(&call)?;
        met.enter(&call, after.number, &found);
        Ok(())
    });
    println!("{runs} calls of cutting");
    met.report(runs);
}

/// The call as ours leaves it, which must be as the model does, and this as the original; where sampling
/// refuses it, refused alike, and else with what sampling lists.
fn compared(call: &Call) -> Result<(Call, Vec<Found>), String> {
    let (wanted, found) = cutting::model(call);
    if let Some(theirs) = cutting::originals(call, &wanted, &found) {
        theirs
            .and_then(|theirs| theirs.difference(&wanted))
            .map_err(|d| format!("the original differs from the model: {d}"))?;
    }
    let after = cutting::ours(call);
    after.difference(&wanted)?;
    let mut sampled = sampling::ours(call);
    if sampled.number != 0 || after.number == 0 {
        let [nodes, values, edges, _] = after.cut_filled;
        if sampled.filled != [nodes, values, edges] {
            return Err(format!("sampling fills {:?}", sampled.filled));
        }
        // What sampling does not have.
        sampled.filled = call.filled;
        (sampled.cut_filled, sampled.fields) = (after.cut_filled, after.fields);
        sampled.cuts.clone_from(&after.cuts);
        after
            .difference(&sampled)
            .map_err(|d| format!("beside sampling: {d}"))?;
    }
    Ok((after, found))
}

/// The same with lists of the lengths that are needed, and those so much longer.
fn answered(call: &Call, spare: usize) -> Call {
    let mut call = call.clone();
    let lengths = needed(&call).map(|length| length + spare);
    lend(&mut call, lengths);
    compared(&call).unwrap().0
}

/// The edges of an accepted call and where they are cut.
fn cuts(call: &Call) -> Vec<(Edge, Point)> {
    let (edges, _) = call.edges.as_chunks();
    let (cuts, _) = call.cuts.as_chunks();
    let count = call.cut_filled[3] as usize;
    assert_eq!(call.cut_filled[2] as usize, count);
    let edges = edges[..count].iter().copied();
    edges.zip(cuts[..count].iter().copied()).collect()
}

const X: Term = (1.0, [1, 0, 0]);

/// A box of side 2 around the middle.
const AROUND: [f64; 6] = [-1.0, -1.0, -1.0, 1.0, 1.0, 1.0];

/// A box of side 8: with 8 cells the coordinates of the nodes are 0 to 8.
const EIGHT: [f64; 6] = [0.0, 0.0, 0.0, 8.0, 8.0, 8.0];

/// So many of the smallest number.
fn tiny(count: i32) -> f64 {
    f64::from(count) * f64::from_bits(1)
}

/// The nodes of an edge, where the coordinates are 0 to 8.
fn ends_of(edge: Edge) -> [Point; 2] {
    cutting::ends(8, edge).map(|node| [node % 9, node / 9 % 9, node / 81].map(|place| place as f64))
}

/// On a field that is linear the first value is near enough, at the part of the edge that each level
/// is on: label 0 has the upper one and 1 the lower.
#[test]
fn planes() {
    for axis in 0..3 {
        let powers = [0, 1, 2].map(|k| u32::from(k == axis));
        for sign in [1.0, -1.0] {
            for layer in [0.0, 3.0, 7.0] {
                let [a, b] = [0.25, 0.625].map(|part| sign * (layer + part));
                let levels = [f64::min(a, b), f64::max(a, b)];
                let after = answered(&call_of(&[(sign, powers)], levels, EIGHT, 8), 4);
                let count = 2 * (81 + 72 + 72 + 64);
                assert_eq!(after.cut_filled, [729, 729, count, count]);
                assert_eq!(after.fields, [count.into()]);
                for (edge, cut) in cuts(&after) {
                    let [from, to] = ends_of(edge);
                    let is_first = (edge[2] == 1) == (sign > 0.0);
                    let t = if is_first { 0.25 } else { 0.625 };
                    assert_eq!(cut, [0, 1, 2].map(|k| from[k] + (to[k] - from[k]) * t));
                }
            }
        }
    }
}

/// A node on the level is the cut, of the edges that lead to it or from it, and no value is taken; a
/// value that is set onto the level is on it.
#[test]
fn nodes_on_the_level() {
    for beside in [0.0, 2f64.powi(-43), -2f64.powi(-43)] {
        for (sign, first) in [(1.0, 2), (-1.0, 3)] {
            let level = sign * (3.0 + beside);
            let call = call_of(&[(sign, X.1)], [f64::NEG_INFINITY, level], EIGHT, 8);
            let after = answered(&call, 0);
            assert_eq!(after.fields, [0]);
            assert_eq!(after.cut_filled[3], 81 + 72 + 72 + 64);
            assert_eq!(cuts(&after)[0].0, [first, 0, 0]);
            for (edge, cut) in cuts(&after) {
                // The first node where x is 3 there, else the second.
                let [from, to] = ends_of(edge);
                assert_eq!(cut, if sign < 0.0 { from } else { to });
                assert_eq!(cut[0], 3.0);
            }
        }
    }
}

/// Twelve nodes, (1/2, 1/2, 0) and the like, are on the level, and 36 edges are cut there. On each other
/// edge secants come in from one side, and all 52 values are taken; the first is cut after two thirds.
#[test]
fn ball_by_hand() {
    let after = answered(&call_of(&BALL, [f64::NEG_INFINITY, 0.5], AROUND, 4), 3);
    assert_eq!(after.cut_filled, [125, 125, 74, 74]);
    assert_eq!(after.fields, [38 * ROUNDS]);
    let cuts = cuts(&after);
    let [third, sixth] = [1.0 / 3.0, 1.0 / 6.0];
    let (edge, first) = cuts[0];
    assert_eq!(edge, [6, 6, 0]);
    for (found, exact) in first.into_iter().zip([-sixth, -sixth, -2.0 * third]) {
        assert!((found - exact).abs() < 1e-13);
    }
    for (_, cut) in cuts {
        let distance: f64 = cut.iter().map(|x| x * x).sum();
        assert!((distance - 0.5).abs() < 2e-14);
    }
}

/// Of the searches that take 52 values some end with the last one, which is near enough, and some midway.
#[test]
fn all_rounds() {
    let call = call_of(&BALL, [f64::NEG_INFINITY, 0.5], AROUND, 4);
    let found = found(&call);
    let taking_all = |end| {
        let all = found.iter().filter(|found| found.taken == ROUNDS);
        all.filter(|found| found.end == end).count()
    };
    assert_eq!([End::Near, End::Midway].map(taking_all), [20, 18]);
    assert_eq!(answered(&call, 0).number, 0);
}

/// Where all is subnormal, a residual of 64 of the smallest is near and one of 65 is not. On q·x² from
/// 0 to 1 the first secant is at L/q, and the residual there L·L/q - L.
#[test]
fn as_near_and_just_not() {
    for sign in [1, -1] {
        for (q, level, is_near) in [(256, 128, true), (260, 130, false)] {
            let square = (tiny(sign * q), [2, 0, 0]);
            let levels = [f64::NEG_INFINITY, tiny(sign * level)];
            let call = call_of(&[square], levels, EIGHT, 8);
            let after = answered(&call, 0);
            let count = u64::from(after.cut_filled[3]);
            assert_eq!(count, 81 + 72 + 72 + 64);
            assert_eq!(after.fields[0] == count, is_near);
            if is_near {
                assert!(cuts(&after).iter().all(|(_, cut)| cut[0] == 0.5));
            }
        }
    }
}

/// Beside a level of 2^46 and 2, the residual 1 is near, and not beside one of 4: on a + q·x² from 0
/// to 1, the level half way up, the first secant is at 1/2 and the residual a quarter of q.
#[test]
fn near_a_large_level() {
    let large = 2f64.powi(46);
    for sign in [1.0, -1.0] {
        for (a, q, is_near) in [(large, 4.0, true), (large, 8.0, false), (4.0, 4.0, false)] {
            let terms = [(sign * a, [0; 3]), (sign * q, [2, 0, 0])];
            let levels = [f64::NEG_INFINITY, sign * (a + q / 2.0)];
            let after = answered(&call_of(&terms, levels, EIGHT, 8), 0);
            let count = u64::from(after.cut_filled[3]);
            assert_eq!(count, 81 + 72 + 72 + 64);
            assert_eq!(after.fields[0] == count, is_near);
        }
    }
}

/// As many times steeper or flatter as a power of 2, and of either sign, a field is cut at the same
/// points, after as many values.
#[test]
fn steep_and_flat() {
    let terms = [
        (1.0, [2, 0, 0]),
        (1.5, [0, 2, 0]),
        (0.7, [0, 0, 2]),
        (-0.3, [1, 1, 1]),
        (0.2, [3, 0, 1]),
    ];
    let scaled = |scale: f64| {
        let terms = terms.map(|(q, powers)| (scale * q, powers));
        let [a, b] = [0.4, 0.55].map(|level| scale * level);
        let levels = [a.min(b), a.max(b)];
        answered(&call_of(&terms, levels, AROUND, 6), 0)
    };
    let usual = scaled(1.0);
    assert!(usual.fields[0] > 2 * u64::from(usual.cut_filled[3]));
    for power in [-900, -300, -30, -1, 1, 30, 300, 900] {
        let other = scaled(2f64.powi(power));
        assert_eq!(other.fields, usual.fields);
        assert_eq!(cuts(&other), cuts(&usual));
        // The upper level is the lower one there.
        let other = scaled(-2f64.powi(power));
        assert_eq!(other.fields, usual.fields);
        let mut turned = cuts(&other);
        turned
            .iter_mut()
            .for_each(|(edge, _)| edge[2] = 1 - edge[2]);
        turned.sort_by_key(|(edge, _)| *edge);
        assert_eq!(turned, cuts(&usual));
    }
}

/// Values whose differences are subnormal: the first secant is exact where the field is linear.
#[test]
fn subnormal_differences() {
    let call = call_of(
        &[(tiny(1000), X.1)],
        [f64::NEG_INFINITY, tiny(3300)],
        EIGHT,
        8,
    );
    let after = answered(&call, 0);
    assert_eq!(after.fields, [81 + 72 + 72 + 64]);
    let x = 3.0 * (1.0 - 0.3) + 4.0 * 0.3;
    assert!(cuts(&after).iter().all(|(_, cut)| cut[0] == x));
    for (cube, level) in [(3_000, 100_000), (-777, -30_001), (99, 3_333), (40, 1_000)] {
        let call = call_of(
            &[(tiny(cube), [3, 0, 0]), (tiny(cube), [0, 1, 0])],
            [tiny(-100_000_000), tiny(level)],
            EIGHT,
            8,
        );
        let after = answered(&call, 0);
        assert!(after.cut_filled[3] > 0 && after.fields[0] > 0);
    }
}

/// The difference of the residuals is not finite, so that the secant is at the first node: the first
/// value is taken in the middle.
#[test]
fn secants_at_the_first_node() {
    let [most, half] = [f64::MAX, f64::MAX / 2.0];
    let terms = [(most, [3, 0, 0]), (most, [0, 3, 0])];
    let bounds = [-1.0, 0.0, 0.0, 0.0, 1.0, 1.0];
    let call = call_of(&terms, [f64::NEG_INFINITY, 0.0], bounds, 4);
    let after = answered(&call, 0);
    assert_eq!(after.number, 0);
    // From (-1, 3/4) to (-3/4, 1), whose values are opposite, and 0 is in the middle.
    let diagonal = |(edge, _): &&(Edge, Point)| edge[0] == 15 && edge[1] == 3;
    let cuts = cuts(&after);
    assert_eq!(cuts.iter().find(diagonal).unwrap().1, [-0.875, 0.875, 0.0]);
    let values = [15, 21].map(|node| after.values[node]);
    assert_eq!(values[0], -values[1]);
    assert!(values[1] > half);
}

/// Between -1 and 1 this field is far larger than there. Secants fall onto an end of the interval, since
/// the parameters between have come to an end.
#[test]
fn secants_at_the_ends() {
    let mut outside = [0; 2];
    for power in [10, 20, 30] {
        let less = 2f64.powi(-power);
        let terms = [X, (less - 1.0, [3, 0, 0])];
        for part in [0.1, 0.3, 0.7, -0.1, -0.3, -0.7] {
            for sign in [1.0, -1.0] {
                let terms = terms.map(|(q, powers)| (sign * q, powers));
                let levels = [-9.0, less * part];
                let bounds = [-1.0, -1.0, -1.0, 7.0, 1.0, 1.0];
                let call = call_of(&terms, levels, bounds, 4);
                assert_eq!(answered(&call, 0).number, 0);
                for found in found(&call) {
                    (0..2).for_each(|side| outside[side] += found.outside[side]);
                }
            }
        }
    }
    assert!(outside.iter().all(|&met| met > 0));
}

/// The largest number as a coefficient of x³ and of y³. From (-1, 3/4, z) to (-3/4, 1, z) the value goes
/// from -37/64 of it to 37/64, and so further than there are numbers; by each other edge less far.
fn far_apart(sign: f64, level: f64) -> Call {
    let terms = [[3, 0, 0], [0, 3, 0]].map(|powers| (sign * f64::MAX, powers));
    let bounds = [-1.0, 0.0, 0.0, 0.0, 1.0, 1.0];
    call_of(&terms, [f64::NEG_INFINITY, level], bounds, 4)
}

/// What the original has on the edge from a node by step 3.
fn originals_cut(call: &Call, node: usize) -> Option<original::Cut> {
    let solved = original::cut(&field::told(call), 4)?.unwrap();
    let place = solved
        .samples
        .keys
        .iter()
        .position(|key| *key == (node, 3, 0));
    Some(solved.roots[place.unwrap()].clone())
}

/// A node's value less the level is not finite: 37. The original goes on, and takes the first value, in
/// the middle, for near enough.
#[test]
fn residual_of_a_node() {
    for (sign, level, number) in [
        (1.0, 0.5, 37),
        (-1.0, 0.5, 37),
        (1.0, -0.5, 37),
        (-1.0, -0.5, 37),
        (1.0, 26.0 / 64.0, 0),
        (-1.0, 26.0 / 64.0, 0),
        (1.0, -26.0 / 64.0, 0),
        (1.0, 28.0 / 64.0, 37),
        (-1.0, 28.0 / 64.0, 37),
        (1.0, -28.0 / 64.0, 37),
    ] {
        let call = far_apart(sign, level * f64::MAX);
        assert_eq!(answered(&call, 2).number, number, "{sign} {level}");
        let Some(theirs) = originals_cut(&call, 15) else {
            continue;
        };
        if number == 37 {
            assert_eq!(theirs, (Ok([-0.875, 0.875, 0.0]), 1));
            assert!(original::roots(&field::told(&call), 4).unwrap().is_ok());
        }
    }
}

/// It is asked before whether the other node is on the level, which is the original's cut.
#[test]
fn residual_of_a_node_beside_one_on_the_level() {
    for (sign, end) in [(1.0, 1), (-1.0, 0)] {
        let nodes = [15, 21];
        let call = far_apart(sign, 0.0);
        let values = answered(&call, 0).values;
        let call = far_apart(sign, values[nodes[end]]);
        assert_eq!(call.levels[1] - values[nodes[1 - end]], f64::INFINITY);
        assert_eq!(answered(&call, 0).number, 37);
        if let Some(theirs) = originals_cut(&call, 15) {
            let cut = [[-1.0, 0.75, 0.0], [-0.75, 1.0, 0.0]][end];
            assert_eq!(theirs, (Ok(cut), 0));
        }
    }
}

/// 3·q·x - q·x² and a constant have a peak at x = 3/2, between the nodes at 1 and 2, that is `above` q
/// more than the largest number, of which q is a sixteenth; what is taken off behind makes the field
/// fall. It is finite at every node.
fn peaked(sign: f64, above: f64, fall: f64, power: u32, level: f64) -> Call {
    let q = sign * f64::MAX / 16.0;
    let terms = [
        (3.0 * q, [1, 0, 0]),
        (-q, [2, 0, 0]),
        (sign * f64::MAX - (2.25 - above) * q, [0; 3]),
        (-fall * q, [power, 0, 0]),
    ];
    let level = sign * f64::MAX - level * (fall * q);
    let bounds = [0.0, 0.0, 0.0, 4.0, 4.0, 4.0];
    call_of(&terms, [f64::NEG_INFINITY, level], bounds, 4)
}

/// What the first edge that is refused has taken, with the value that is not finite.
fn refused_in(call: &Call) -> u64 {
    assert_eq!(answered(call, 1).number, 37);
    let found = found(call);
    let refused = found.iter().find(|found| found.is_refused()).unwrap();
    assert_eq!(refused.end, End::NoValue);
    if let Some(Err(message)) = original::roots(&field::told(call), 4) {
        assert_eq!(message, "Non-finite field during edge solve");
    }
    refused.taken
}

/// The first value, at 3/2, is infinite.
#[test]
fn infinite_in_the_first_round() {
    for sign in [1.0, -1.0] {
        assert_eq!(refused_in(&peaked(sign, 0.125, 1.0, 1, 1.5)), 1);
    }
    // Without the peak it is not.
    let call = peaked(1.0, -0.125, 1.0, 1, 1.5);
    assert_eq!(answered(&call, 0).number, 0);
}

/// The peak is so narrow that only a later value is on it.
#[test]
fn infinite_in_a_later_round() {
    let least = 2f64.powi(-12);
    let rounds = [
        peaked(1.0, least, 0.5, 2, 2.125),
        peaked(-1.0, least, 0.5, 2, 2.125),
        peaked(1.0, least / 4.0, 0.25, 3, 3.25),
    ]
    .map(|call| refused_in(&call));
    assert_eq!(rounds, [13, 13, 14]);
}

/// Two terms that cancel are as large as there is where x is 5. Between such nodes x is 5·(1 - t) + 5·t,
/// which may be more: both are infinite, and their sum is no number.
#[test]
fn no_number_between() {
    let cancelling = |power, level| {
        let q = f64::MAX / 5.0;
        let terms = [(q, X.1), (-q, X.1), (1.0, [0, power, 0])];
        let bounds = [0.0, 0.0, 0.0, 5.0, 1.0, 1.0];
        call_of(&terms, [f64::NEG_INFINITY, level], bounds, 4)
    };
    let t = 0.02 * 4.0;
    assert!(5.0 * (1.0 - t) + 5.0 * t > 5.0);
    assert_eq!(refused_in(&cancelling(1, 0.02)), 1);
    assert_eq!(refused_in(&cancelling(2, 0.58)), 3);
    assert_eq!(refused_in(&cancelling(2, 0.3)), 34);
    assert_eq!(answered(&cancelling(1, 0.5), 0).number, 0);
}

/// One list of any length about the one that it needs, the others just as long as they need; behind the
/// answer, and after a refusal, all is 0.
#[test]
fn any_length_of_each_list() {
    let call = call_of(&BALL, [0.25, 0.6], AROUND, 4);
    let needed = needed(&call);
    assert_eq!(needed[2], needed[3]);
    for list in 0..4 {
        let least = needed[list];
        let about = (0..5).chain(least - 5..=least + 5).chain([2 * least]);
        for length in about {
            let mut lengths = needed;
            lengths[list] = length;
            let mut call = call.clone();
            lend(&mut call, lengths);
            let (after, _) = compared(&call).unwrap();
            assert_eq!(after.number, if length < least { 35 } else { 0 });
            if length < least {
                assert_blank(&after);
            } else {
                assert!(after.cuts[needed[3]..].iter().all(|x| x.to_bits() == 0));
            }
        }
    }
}

fn assert_blank(after: &Call) {
    assert_eq!((after.cut_filled, after.fields), ([0; 4], [0]));
    let floats = [&after.grid, &after.values, &after.cuts];
    assert!(floats.into_iter().flatten().all(|x| x.to_bits() == 0));
    assert!(after.edges.iter().all(|&word| word == 0));
}

/// Every choice of the questions is answered "no" at once; the first of them is given, and all is 0.
#[test]
fn in_turn() {
    let numbers = [13, 34, 35, 35, 36, 35, 35, 37];
    for broken in 0..256 {
        let is_broken = |question: u32| broken >> question & 1 == 1;
        for cells in [3, 129] {
            let part = if is_broken(7) { 0.5 } else { 0.25 };
            let mut call = far_apart(1.0, part * f64::MAX);
            let needed = needed(&call);
            if is_broken(1) {
                call.cells = cells;
            }
            let missing = [2, 3, 5, 6].map(|question| usize::from(is_broken(question)));
            lend(
                &mut call,
                [0, 1, 2, 3].map(|list| needed[list] - missing[list]),
            );
            if is_broken(4) {
                call.bounds[0] = -2.0;
            }
            if is_broken(0) {
                call.powers[0] = 4;
            }
            let (after, _) = compared(&call).unwrap();
            let Some(first) = (0..8).find(|&question| is_broken(question)) else {
                assert_eq!(after.number, 0);
                continue;
            };
            assert_eq!(after.number, numbers[first as usize], "{broken:b}");
            assert_blank(&after);
        }
    }
}

/// No edges, and so no cuts, of which there may be any number of places.
#[test]
fn no_edges() {
    for spare in [0, 1, 2, 3, 100] {
        let after = answered(&call_of(&BALL, [-2.0, -1.0], AROUND, 4), spare);
        assert_eq!((after.number, after.fields), (0, [0]));
        assert_eq!(after.cut_filled, [125, 125, 0, 0]);
    }
}

/// A ball that is a little askew, from few cells to many.
#[test]
fn every_number_of_cells() {
    let terms = [BALL.as_slice(), &[(0.3, [1, 0, 0]), (-0.1, [1, 1, 1])]].concat();
    for cells in (4..=20).chain([31, 32, 33, 50, 64]) {
        let bounds = [-1.0, -1.1, -1.2, 1.25, 1.0, 0.7];
        let after = answered(&call_of(&terms, [0.4, 0.5], bounds, cells), 2);
        assert_eq!(after.number, 0);
    }
    for cells in [0, 1, 2, 3, 129, 130, 260, 1 << 16, u32::MAX] {
        let mut call = call_of(&terms, [0.4, 0.5], AROUND, cells);
        lend(&mut call, [6_591, 2_197, 99, 99]);
        assert_eq!(compared(&call).unwrap().0.number, 34);
    }
}

/// The most nodes.
#[test]
fn the_largest() {
    let after = answered(&call_of(&BALL, [0.3, 0.6], AROUND, 128), 5);
    assert_eq!((after.number, after.cut_filled[0]), (0, 2_146_689));
    assert!(after.fields[0] > 1 << 20);
}

/// The safe function that makes its lists, and the one that is lent them, give what the model does.
#[test]
fn safe_functions() {
    cases(300, |random| {
        let call = cutting::random_call(random);
        let (wanted, _) = cutting::model(&call);
        let mut after = call.clone();
        let (field, cells) = (field::of(&call), call.cells);
        let found = lanovishel::cut_into(
            &field,
            cells,
            &mut after.grid,
            &mut after.values,
            &mut after.edges,
            &mut after.cuts,
        );
        let [nodes, _, edges, _] = wanted.cut_filled;
        let counts = CutCounts {
            nodes,
            edges,
            fields: wanted.fields[0],
        };
        match wanted.number {
            0 => assert_eq!(found, Ok(counts)),
            number => assert_eq!(found.unwrap_err().number().get(), number),
        }
        // What the safe function does not show.
        (after.number, after.cut_filled) = (wanted.number, wanted.cut_filled);
        after.fields = wanted.fields;
        after.difference(&wanted)?;

        let made = lanovishel::cut(&field, cells).map_err(|refusal| refusal.number().get());
        assert_eq!(made, with_long_lists(&call));
        Ok(())
    });
}

/// What the model has where the lists are as long as they must be.
fn with_long_lists(call: &Call) -> Result<Cuts, u32> {
    let mut call = call.clone();
    if field::asked(&call).is_ok() && (4..=128).contains(&call.cells) {
        let lengths = needed(&call);
        lend(&mut call, lengths);
    }
    let (after, _) = cutting::model(&call);
    if after.number != 0 {
        return Err(after.number);
    }
    let threes = |list: &[f64]| list.as_chunks().0.to_vec();
    let lattice = Lattice {
        grid: threes(&after.grid),
        edges: after.edges.as_chunks().0.to_vec(),
        values: after.values,
    };
    Ok(Cuts {
        lattice,
        cuts: threes(&after.cuts),
        fields: after.fields[0],
    })
}

/// Rounding alone makes this field differ from 0, and so cross its levels more often than a
/// polynomial does: more edges than `cut` first has places for.
#[test]
fn more_edges_than_a_polynomial_has() {
    let terms = [0.1, 0.2, -0.3].map(|q| (q, [1, 1, 1]));
    let level = f64::EPSILON / 256.0;
    let call = call_of(&terms, [-level, level], [0.1, 0.2, 0.3, 1.1, 1.3, 1.7], 40);
    let wanted = with_long_lists(&call).unwrap();
    assert!(wanted.lattice.edges.len() > 144 * 41 * 41);
    assert_eq!(lanovishel::cut(&field::of(&call), 40), Ok(wanted));
}
