//! Sampling a field, beside `extract` up to its keys on one thread.
use crate::table::{leasts, once};
use differential::{
    field::{self, BALL, Term, some_terms},
    random::Random,
    sampling::{self, needed},
};
use std::cell::RefCell;

const CALLS: u32 = 10;

/// A ball with other terms mixed in, between two levels. Ours with lists that are lent once, the edges'
/// just as long as needed, and ours with lists that it makes; `extract` makes its own. The least of so
/// many calls, in turn.
pub fn table() {
    println!(
        "| sampling | lent lists, µs | ns a node | own lists, µs | `extract` to its keys, µs | ratio | ratio, own lists |"
    );
    println!("|---|---|---|---|---|---|---|");
    let one_thread = rayon::ThreadPoolBuilder::new().num_threads(1);
    let one_thread = one_thread.build().unwrap();
    for (cells, terms) in [
        (128, 1),
        (128, 4),
        (128, 8),
        (128, 16),
        (128, 64),
        (64, 8),
        (32, 8),
    ] {
        measure(cells, terms, &one_thread);
    }
}

/// So many terms: x·x alone, or those of a ball and smaller ones.
pub fn terms(count: usize) -> Vec<Term> {
    let mut terms = BALL[..count.min(3)].to_vec();
    terms.extend(some_terms(&mut Random::new(1), count - terms.len(), 0.1));
    terms
}

fn measure(cells: u32, count: usize, one_thread: &rayon::ThreadPool) {
    let bounds = [-1.0, -1.0, -1.0, 1.0, 1.0, 1.0];
    let call = sampling::call_of(&terms(count), [0.3, 0.6], bounds, cells);
    let (field, band) = (field::of(&call), field::told(&call));
    let [grid, values, edges] = needed(&call);
    let lists = RefCell::new((vec![1.0; grid], vec![1.0; values], vec![1; edges]));
    let lent = once(
        || lists.borrow_mut(),
        |lists| {
            let (grid, values, edges) = &mut **lists;
            lanovishel::sample_into(&field, cells, grid, values, edges).unwrap()
        },
    );
    // What is made is let go after the time is taken.
    let own = once(
        || None,
        |made| *made = Some(lanovishel::sample(&field, cells)),
    );
    let theirs = once(
        || None,
        |made| *made = one_thread.install(|| original::sample(&band, cells as usize)),
    );
    let [lent, own, theirs] = leasts(CALLS, [&lent, &own, &theirs]);
    println!(
        "| {cells} cells, {values} nodes, {} edges, terms: {count} | {lent:.1} | {:.1} | {own:.1} | {theirs:.1} | {:.2} | {:.2} |",
        edges / 3,
        1e3 * lent / values as f64,
        lent / theirs,
        own / theirs
    );
}
