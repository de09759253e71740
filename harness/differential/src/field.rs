//! The field sheet: its value, what 13 asks of it and of levels and box, how it is handed over, and
//! random ones.
use crate::{
    call::Call,
    questions::{No, ask},
    random::Random,
};
use lanovishel::Field;
use original::{Band, FieldSheet, Point};

/// A coefficient and the powers of x, y and z.
pub type Term = (f64, [u32; 3]);

/// x·x + y·y + z·z.
pub const BALL: [Term; 3] = [(1.0, [2, 0, 0]), (1.0, [0, 2, 0]), (1.0, [0, 0, 2])];

/// Lends a field sheet.
pub fn lend(call: &mut Call, terms: &[Term]) {
    call.coefficients = terms.iter().map(|term| term.0).collect();
    call.powers = terms.iter().flat_map(|term| term.1).collect();
}

/// The terms of a sheet with three powers each.
pub fn terms(call: &Call) -> Vec<Term> {
    let (powers, _) = call.powers.as_chunks();
    let coefficients = call.coefficients.iter().copied();
    coefficients.zip(powers.iter().copied()).collect()
}

/// The field at a point: from +0, the terms ((q·x^i)·y^j)·z^k in order.
pub fn value(terms: &[Term], [x, y, z]: Point) -> f64 {
    let power = |v: f64, n: u32| [1.0, v, v * v, (v * v) * v][n as usize];
    let mut sum = 0.0;
    for &(q, [i, j, k]) in terms {
        sum += ((q * power(x, i)) * power(y, j)) * power(z, k);
    }
    sum
}

/// The field of a call as the safe functions take it.
pub fn of(call: &Call) -> Field<'_> {
    Field {
        coefficients: &call.coefficients,
        powers: &call.powers,
        levels: call.levels,
        bounds: call.bounds,
    }
}

/// What the original is told.
pub fn told(call: &Call) -> Band {
    let [x0, y0, z0, x1, y1, z1] = call.bounds;
    Band {
        field: FieldSheet { terms: terms(call) },
        levels: call.levels,
        bounds: [[x0, y0, z0], [x1, y1, z1]],
    }
}

/// 13.
pub fn asked(call: &Call) -> Result<(), No> {
    let [lower, upper] = call.levels;
    let sheet = call.coefficients.len() <= 64
        && call.coefficients.iter().all(|q| q.is_finite())
        && call.powers.len() == 3 * call.coefficients.len()
        && call.powers.iter().all(|&power| power <= 3);
    let levels = (lower.is_finite() || lower == f64::NEG_INFINITY) && upper.is_finite();
    let wide = (0..3).all(|axis| is_side(call.bounds[axis], call.bounds[axis + 3]));
    ask(sheet && levels && lower < upper && wide, 13)
}

/// Whether a side of the box lies within ±2^20 and is 2^-20 or more, exactly.
fn is_side(low: f64, high: f64) -> bool {
    let (limit, least) = (2f64.powi(20), 2f64.powi(-20));
    let within = |x: f64| (-limit..=limit).contains(&x);
    if !within(low) || !within(high) || high <= low {
        return false;
    }
    // The rounded difference and what the rounding left out.
    let rounded = high - low;
    let part = rounded - high;
    let left_out = (high - (rounded - part)) - (low + part);
    rounded > least || rounded == least && left_out >= 0.0
}

/// So many terms of any powers.
pub fn some_terms(random: &mut Random, count: usize, size: f64) -> Vec<Term> {
    let mut term = || {
        (
            size * random.signed(),
            [0; 3].map(|_| random.below(4) as u32),
        )
    };
    (0..count).map(|_| term()).collect()
}

/// In how many ways a rule is broken.
pub const RULES: usize = 8;

/// A field sheet, levels or a box that may be refused.
pub fn break_a_rule(call: &mut Call, rule: usize, random: &mut Random) {
    let tiny = 2f64.powi(-20);
    match rule {
        0 => call.coefficients.push(1.0),
        1 => call.powers.push(1),
        2 => {
            let count = random.pick(&[64, 65]);
            lend(call, &vec![(0.5, [1; 3]); count]);
        }
        3 => {
            call.coefficients
                .push(random.pick(&[f64::NAN, f64::INFINITY]));
            call.powers.extend([0, 1, 0]);
        }
        4 => {
            call.coefficients.push(1.0);
            call.powers.extend([3, 2, random.pick(&[3, 4, u32::MAX])]);
        }
        5 => {
            let ends = [f64::NEG_INFINITY, -1.0, 0.0, 1.0, f64::INFINITY, f64::NAN];
            call.levels = [random.pick(&ends), random.pick(&ends)];
        }
        6 => {
            let high = random.pick(&[1_048_576.0, 1_048_576.0f64.next_up(), f64::NAN]);
            call.bounds[3 + random.below(3)] = high;
        }
        _ => {
            let side = random.pick(&[tiny, tiny.next_down(), tiny.next_up(), 0.0, -1.0]);
            let low = random.pick(&[0.0, -1e-30, 1e-30, 1.0, -tiny / 4.0]);
            let axis = random.below(3);
            (call.bounds[axis], call.bounds[axis + 3]) = (low, low + side);
        }
    }
}
