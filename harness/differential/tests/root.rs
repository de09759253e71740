//! The root, bit by bit the hardware's, a NaN compared as a NaN; and what decides it.
use differential::{
    cases,
    roots::{self, WAYS, way, xorshift},
};

fn compare(bits: u64) -> Result<(), String> {
    let x = f64::from_bits(bits);
    let (ours, theirs) = (lanovishel::sqrt(x), x.sqrt());
    if ours.to_bits() == theirs.to_bits() || ours.is_nan() && theirs.is_nan() {
        return Ok(());
    }
    let [ours, theirs] = [ours, theirs].map(f64::to_bits);
    Err(format!(
        "root of {bits:016x}: {ours:016x}, the hardware has {theirs:016x}"
    ))
}

#[test]
fn every_exponent() {
    roots::every_exponent().try_for_each(compare).unwrap();
}

#[test]
fn subnormals() {
    cases(100_000, |random| compare(roots::subnormal(random)));
}

#[test]
fn squares_and_neighbours() {
    cases(100_000, |random| {
        roots::near_square(random).into_iter().try_for_each(compare)
    });
}

#[test]
fn random_patterns() {
    let runs = cases(1_000_000, |random| compare(random.bits()));
    println!("{runs} random patterns, all as the hardware's");
}

#[test]
fn digits_decide() {
    for bits in roots::below_powers_of_four() {
        assert_eq!(WAYS[way(bits)], "digits", "root of {bits:016x}");
        compare(bits).unwrap();
    }
}

/// What the program `root_ways` is held to is what the hardware's root says of the guess.
#[test]
fn what_decides() {
    let counts = |numbers: &mut dyn Iterator<Item = u64>| {
        let mut counts = [0u32; 4];
        numbers.for_each(|bits| counts[way(bits)] += 1);
        counts.map(|count| count.to_string()).join(" ")
    };
    let many = counts(&mut xorshift(1).take(10_000_000));
    let below_one = counts(&mut std::iter::once(0x3fef_ffff_ffff_ffff));
    let rows = [WAYS.join(" "), many, below_one].map(|row| row + "\n");
    assert_eq!(
        rows.concat(),
        include_str!("../../../crates/root_ways/stdout")
    );
}
