//! Numbers to take the root of, as bits.
use crate::random::Random;

const SIGN: u64 = 1 << 63;
const FRACTION: u64 = (1 << 52) - 1;

/// Each exponent, those of zeros, subnormals, infinities and NaNs included, with each of the
/// chosen fractions and both signs.
pub fn every_exponent() -> impl Iterator<Item = u64> {
    let fractions = chosen_fractions();
    (0..2048u64).flat_map(move |exponent| {
        let fractions = fractions.clone();
        fractions.into_iter().flat_map(move |fraction| {
            let x = (exponent << 52) | fraction;
            [x, x | SIGN]
        })
    })
}

/// Single bits, runs of ones from either end, their neighbours, and patterns.
fn chosen_fractions() -> Vec<u64> {
    let mut chosen = vec![0x5_5555_5555_5555, 0xa_aaaa_aaaa_aaaa, 0x6_a09e_667f_3bcc];
    for bit in 0..=52 {
        let power = 1u64 << bit;
        for x in [power - 1, power, power + 1, (1 << 52) - power] {
            chosen.push(x & FRACTION);
        }
    }
    chosen.sort_unstable();
    chosen.dedup();
    chosen
}

/// A subnormal with any number of leading zeros.
pub fn subnormal(random: &mut Random) -> u64 {
    (random.bits() & FRACTION) >> random.below(52)
}

/// A square of a number of up to 26 bits, which is exact, or a rounded square of a number of 53
/// bits or of a midpoint between two of them, at any even exponent; and the numbers up to 3 ulp
/// from it.
pub fn near_square(random: &mut Random) -> [u64; 7] {
    let whole = match random.below(3) {
        0 => (random.bits() >> random.within(38, 63)) as f64,
        1 => (random.bits() >> 11) as f64,
        _ => (random.bits() >> 12) as f64 + 0.5,
    };
    let shift = random.within(0, 900) as i32 - 450;
    let square = (whole * whole * 4f64.powi(shift)).to_bits();
    std::array::from_fn(|i| square.wrapping_add(i as u64).wrapping_sub(3))
}

/// Every normal number just below a power of 4: the guess at its root is out of range, and the digits
/// decide.
pub fn below_powers_of_four() -> impl Iterator<Item = u64> {
    (2..2047u64)
        .step_by(2)
        .map(|exponent| (exponent << 52) | FRACTION)
}

/// The names of what may decide a root, in the order of the program `root_ways`.
pub const WAYS: [&str; 4] = ["guess", "above", "below", "digits"];

/// Which of `WAYS` decides the root of a normal number, by the guess of `float` and the hardware's
/// root: the guess, the number above it, the number below it, or, where it is none of them, the digits.
pub fn way(bits: u64) -> usize {
    let exponent = 1023 + u64::from(bits >> 52 & 1 == 0);
    let x = f64::from_bits((exponent << 52) | bits & FRACTION);
    let outer = 0.07726019 * x - 0.28001561 + x * x * (0.00079574 * x - 0.0121293);
    let first = 0.34354 + 0.87061227 * x + x * x * outer;
    let guess = (0..2).fold(first, |y, _| 0.5 * (y + x / y));
    let [root, guess] = [x.sqrt(), guess].map(|y| (y.to_bits() & FRACTION) as i64);
    match root - guess {
        0 => 0,
        1 => 1,
        -1 => 2,
        _ => 3,
    }
}

/// Marsaglia's xorshift numbers from x on, with the shifts 13, 7 and 17.
pub fn xorshift(x: u64) -> impl Iterator<Item = u64> {
    std::iter::successors(Some(x), |&x| {
        let y = x ^ (x << 13);
        let z = y ^ (y >> 7);
        Some(z ^ (z << 17))
    })
}
