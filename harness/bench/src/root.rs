//! The root, beside the hardware's and, where `LANOVISHEL_BEFORE` names an earlier archive, beside
//! that one's.
use crate::table::{head, least, once, row};
use differential::random::Random;
use std::hint::black_box;

#[cfg(before)]
unsafe extern "C" {
    safe fn sqrt_before(x: f64) -> f64;
}

pub fn table() {
    beside("hardware, ns", f64::sqrt);
    #[cfg(before)]
    {
        println!();
        beside("before, ns", |x| sqrt_before(x));
    }
}

/// The roots of a thousand numbers: a microsecond for all is a nanosecond for each.
fn beside(theirs: &str, their_root: impl Fn(f64) -> f64) {
    let mut random = Random::new(1);
    let any: Vec<f64> = (0..1000)
        .map(|_| f64::from_bits(random.bits() >> 1))
        .collect();
    let usual: Vec<f64> = (0..1000).map(|_| 1.0 + random.signed()).collect();
    head("the root of", "ours, ns", theirs);
    for (name, numbers) in [
        ("any positive pattern", any),
        ("a number from 0 to 2", usual),
    ] {
        let ours = once(|| (), |()| all(&numbers, lanovishel::sqrt));
        let theirs = once(|| (), |()| all(&numbers, &their_root));
        row(name, [least(1000, ours), least(1000, theirs)]);
    }
}

fn all(numbers: &[f64], root: impl Fn(f64) -> f64) {
    for &x in numbers {
        black_box(root(black_box(x)));
    }
}
