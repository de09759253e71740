//! Editing: the time of an entry, as what many entries add to the time of a run.
use crate::table::{least, once};
use differential::{
    call::{Call, filling},
    editing,
    surfaces::{Surface, bipyramid, torus},
};

const CALLS: u32 = 40;
const ENTRIES: usize = 60;

type Side = [u32; 2];

/// A surface with sides, far from one another, that a flip and a collapse may have; and a closed
/// surface of the same size with sides that no flip may have.
struct Subject {
    name: String,
    surface: Surface,
    flips: Vec<Side>,
    collapses: Vec<Side>,
    stiff: Surface,
    stiff_sides: Vec<Side>,
}

/// Tori, and a surface with two corners of 16,384 triangles.
pub fn table() {
    println!(
        "| editing, µs an entry | flip | collapse | 22 | 25 | flip taken back | collapse taken back |"
    );
    println!("|---|---|---|---|---|---|---|");
    for subject in [on_torus(32), on_torus(64), on_torus(128), on_bipyramid()] {
        subject.measure();
    }
}

fn on_torus(side: usize) -> Subject {
    let surface = torus(side, side);
    let spots = (0..ENTRIES).map(|n| [4 * (4 * n / side), 4 * n % side]);
    let corner = |[i, j]: [usize; 2], right: usize, up: usize| {
        ((i + right + side - 1) % side * side + (j + up + side - 1) % side) as u32
    };
    let side_of = |spot, right, up| [corner(spot, 1, 1), corner(spot, right, up)];
    // Three flips leave the middle corner of a spot with three triangles: none may be flipped.
    let flat = spots
        .clone()
        .flat_map(|s| [side_of(s, 2, 2), side_of(s, 0, 1), side_of(s, 1, 0)]);
    let (stiff, verdicts) = run(&surface, &of_kind(1, &flat.collect::<Vec<_>>()));
    assert!(verdicts.iter().all(|&word| word == 0));
    Subject {
        name: format!("torus, {} triangles", surface.triangle_count()),
        surface,
        flips: spots.clone().map(|s| side_of(s, 2, 2)).collect(),
        collapses: spots.clone().map(|s| side_of(s, 2, 1)).collect(),
        stiff,
        stiff_sides: spots.map(|s| side_of(s, 2, 1)).collect(),
    }
}

fn on_bipyramid() -> Subject {
    let ring = 16_384;
    let surface = bipyramid(ring as usize);
    let spots = (0..ENTRIES as u32).map(|n| 4 * n + 4);
    // One flip joins the two far corners, and then no side of the ring may be flipped.
    let (stiff, verdicts) = run(&surface, &[1, 0, 1]);
    assert_eq!(verdicts, [0]);
    Subject {
        name: format!("two corners of {ring} triangles"),
        surface,
        flips: spots.clone().map(|i| [ring, i]).collect(),
        collapses: spots.clone().map(|i| [i, i + 1]).collect(),
        stiff,
        stiff_sides: spots.map(|i| [i, i + 1]).collect(),
    }
}

impl Subject {
    fn measure(&self) {
        let flips = of_kind(1, &self.flips);
        let collapses = of_kind(2, &self.collapses);
        let no_sides = of_kind(1, &[[0, 0]; ENTRIES]);
        let stiff = of_kind(1, &self.stiff_sides);
        let take_back = of_kind(3, &[[1, 0]; ENTRIES]);
        let flips_and_back = [&flips[..], &take_back].concat();
        let collapses_and_back = [&collapses[..], &take_back].concat();

        let nothing = time(&self.surface, &[], 0);
        let flip = time(&self.surface, &flips, 0);
        let collapse = time(&self.surface, &collapses, 0);
        let added = [
            flip - nothing,
            collapse - nothing,
            time(&self.surface, &no_sides, 22) - nothing,
            time(&self.stiff, &stiff, 25) - nothing,
            time(&self.surface, &flips_and_back, 0) - flip,
            time(&self.surface, &collapses_and_back, 0) - collapse,
        ];
        let cells = added.map(|time| format!("{:.1}", time / ENTRIES as f64));
        println!("| {} | {} |", self.name, cells.join(" | "));
    }
}

fn of_kind(kind: u32, sides: &[Side]) -> Vec<u32> {
    sides.iter().flat_map(|&[a, b]| [kind, a, b]).collect()
}

/// A call that runs the entries, with room for them all in the journal.
fn call(surface: &Surface, entries: &[u32]) -> Call {
    let mut call = Call::new(surface.clone(), surface.work_words());
    call.entries = entries.to_vec();
    call.verdicts = filling(entries.len() / 3);
    call.journal = filling(4 * entries.len());
    call
}

/// The surface that the entries lead to, and their verdict words.
fn run(surface: &Surface, entries: &[u32]) -> (Surface, Vec<u32>) {
    let after = editing::ours(&call(surface, entries));
    (after.surface, after.verdicts)
}

/// The time of a run in which every entry gets the same verdict word.
fn time(surface: &Surface, entries: &[u32], word: u32) -> f64 {
    assert!(
        run(surface, entries)
            .1
            .iter()
            .all(|&verdict| verdict == word)
    );
    let edit = |call: &mut Call| {
        let Surface {
            points,
            corners,
            labels,
        } = &mut call.surface;
        let (work, entries) = (&mut call.work, &call.entries);
        lanovishel::edit(
            points,
            corners,
            labels,
            work,
            entries,
            &mut call.verdicts,
            &mut call.journal,
        )
    };
    least(
        CALLS,
        once(|| call(surface, entries), |call| edit(call).unwrap()),
    )
}
