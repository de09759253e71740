//! The original's trait of fields, and document 01's field sheet, which stands for it.
use crate::Point;
use std::cell::Cell;

/// What the original asks of a field.
pub trait ScalarField: Sync {
    /// The field at a point.
    fn value(&self, point: Point) -> f64;

    /// The slopes at a point.
    fn gradient(&self, point: Point) -> Option<Point>;

    /// Whether `values` is to be preferred.
    fn prefers_batches(&self) -> bool {
        false
    }

    /// The field at many points.
    fn values(&self, points: &[Point]) -> Vec<f64> {
        points.iter().map(|&point| self.value(point)).collect()
    }

    /// Whether work may go on.
    fn check(&self) -> Result<(), String> {
        Ok(())
    }
}

/// Terms q·x^i·y^j·z^k, as a coefficient and three powers each.
pub struct FieldSheet {
    /// A coefficient and the powers i, j, k of each term.
    pub terms: Vec<(f64, [u32; 3])>,
}

fn power(v: f64, n: u32) -> f64 {
    match n {
        0 => 1.0,
        1 => v,
        2 => v * v,
        3 => (v * v) * v,
        _ => unreachable!("a power above 3"),
    }
}

/// q·x^i·y^j·z^k, the factors taken from the left.
fn monomial(q: f64, powers: [u32; 3], p: Point) -> f64 {
    (0..3).fold(q, |product, axis| product * power(p[axis], powers[axis]))
}

impl FieldSheet {
    fn slope(&self, axis: usize, p: Point) -> f64 {
        let mut sum = 0.0;
        for &(q, mut powers) in &self.terms {
            let n = powers[axis];
            if n > 0 {
                powers[axis] = n - 1;
                sum += monomial(q * f64::from(n), powers, p);
            }
        }
        sum
    }
}

impl ScalarField for FieldSheet {
    fn value(&self, p: Point) -> f64 {
        self.terms
            .iter()
            .fold(0.0, |sum, &(q, powers)| sum + monomial(q, powers, p))
    }

    fn gradient(&self, p: Point) -> Option<Point> {
        Some(std::array::from_fn(|axis| self.slope(axis, p)))
    }
}

thread_local! {
    static TAKEN: Cell<u64> = const { Cell::new(0) };
}

/// A field whose values are counted, in each thread.
pub struct Counted<'a>(pub &'a FieldSheet);

/// What `work` makes, and how many values of counted fields it takes in its thread.
pub fn counted<T>(work: impl FnOnce() -> T) -> (T, u64) {
    let before = TAKEN.get();
    let made = work();
    (made, TAKEN.get() - before)
}

impl ScalarField for Counted<'_> {
    fn value(&self, p: Point) -> f64 {
        TAKEN.set(TAKEN.get() + 1);
        self.0.value(p)
    }

    fn gradient(&self, p: Point) -> Option<Point> {
        self.0.gradient(p)
    }
}
