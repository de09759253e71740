//! Where levels cut the edges of a lattice, beside `extract` up to its roots on one thread.
use crate::{
    sample::terms,
    table::{leasts, once},
};
use differential::{
    cutting::{self, needed},
    field, sampling,
};
use std::cell::RefCell;

const CALLS: u32 = 10;

/// The fields of the table of sampling. Ours with lists that are lent once, the edges' and the cuts' just
/// as long as needed, and ours with lists that it makes; `extract` makes its own. The least of so many
/// calls, in turn.
pub fn table() {
    println!(
        "| cutting | field values an edge | lent lists, µs | ns a field value | own lists, µs | `extract` to its roots, µs | ratio | ratio, own lists |"
    );
    println!("|---|---|---|---|---|---|---|---|");
    let one_thread = rayon::ThreadPoolBuilder::new().num_threads(1);
    let one_thread = one_thread.build().unwrap();
    for (cells, terms) in [
        (128, 1),
        (128, 4),
        (128, 8),
        (128, 16),
        (128, 64),
        (64, 8),
        (32, 8),
        (32, 1),
    ] {
        measure(cells, terms, &one_thread);
    }
}

fn measure(cells: u32, count: usize, one_thread: &rayon::ThreadPool) {
    let bounds = [-1.0, -1.0, -1.0, 1.0, 1.0, 1.0];
    let mut call = sampling::call_of(&terms(count), [0.3, 0.6], bounds, cells);
    let lengths = needed(&call);
    cutting::lend(&mut call, lengths);
    let taken = cutting::ours(&call).fields[0] as f64;
    let (field, band) = (field::of(&call), field::told(&call));
    let lists = RefCell::new((
        call.grid.clone(),
        call.values.clone(),
        call.edges.clone(),
        call.cuts.clone(),
    ));
    let lent = once(
        || lists.borrow_mut(),
        |lists| {
            let (grid, values, edges, cuts) = &mut **lists;
            lanovishel::cut_into(&field, cells, grid, values, edges, cuts).unwrap()
        },
    );
    // What is made is let go after the time is taken.
    let own = once(|| None, |made| *made = Some(lanovishel::cut(&field, cells)));
    let theirs = once(
        || None,
        |made| *made = one_thread.install(|| original::roots(&band, cells as usize)),
    );
    let [lent, own, theirs] = leasts(CALLS, [&lent, &own, &theirs]);
    let edges = lengths[2] / 3;
    // All nodes' values are taken as well.
    let values = taken + lengths[1] as f64;
    println!(
        "| {cells} cells, {} nodes, {edges} edges, terms: {count} | {:.1} | {lent:.1} | {:.1} | {own:.1} | {theirs:.1} | {:.2} | {:.2} |",
        lengths[1],
        taken / edges as f64,
        1e3 * lent / values,
        lent / theirs,
        own / theirs
    );
}
