//! Times and rows.
use std::{hint::black_box, time::Instant};

/// The microseconds of one call on what `prepare` makes; making it is not measured.
pub fn once<T, R>(prepare: impl Fn() -> T, call: impl Fn(&mut T) -> R) -> impl Fn() -> f64 {
    move || {
        let mut lists = black_box(prepare());
        let start = Instant::now();
        black_box(call(&mut lists));
        start.elapsed().as_secs_f64() * 1e6
    }
}

/// The least of so many calls.
pub fn least(calls: u32, call: impl Fn() -> f64) -> f64 {
    leasts(calls, [&call])[0]
}

/// The least of so many calls of each, taken in turn.
pub fn leasts<const N: usize>(calls: u32, each: [&dyn Fn() -> f64; N]) -> [f64; N] {
    let mut leasts = [f64::INFINITY; N];
    for _ in 0..calls {
        for (least, call) in leasts.iter_mut().zip(each) {
            *least = least.min(call());
        }
    }
    leasts
}

/// The means of so many calls, ours and theirs in turn, after one of each that is not counted.
pub fn means(calls: u32, ours: impl Fn() -> f64, theirs: impl Fn() -> f64) -> [f64; 2] {
    let mut sums = [0.0; 2];
    ours();
    theirs();
    for _ in 0..calls {
        sums[0] += ours();
        sums[1] += theirs();
    }
    sums.map(|sum| sum / f64::from(calls))
}

/// The head of a table that compares two times.
pub fn head(what: &str, ours: &str, theirs: &str) {
    println!("| {what} | {ours} | {theirs} | ratio |");
    println!("|---|---|---|---|");
}

/// A row of it.
pub fn row(what: &str, [ours, theirs]: [f64; 2]) {
    println!(
        "| {what} | {ours:.1} | {theirs:.1} | {:.2} |",
        ours / theirs
    );
}
