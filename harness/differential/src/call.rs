//! Every list that a call is lent, what it answers, and the comparison of two calls.
use crate::{questions::No, surfaces::Surface};

/// The lists of a call and its answer, before it or after it. A list that the function does not
/// take stays as it is.
#[derive(Clone, Debug, Default)]
pub struct Call {
    /// The number answered: 0 for accepted.
    pub number: u32,
    /// Points, corners and labels.
    pub surface: Surface,
    /// Work words.
    pub work: Vec<u32>,
    /// Entries of an edit run, three words each.
    pub entries: Vec<u32>,
    /// Verdict words, one an entry.
    pub verdicts: Vec<u32>,
    /// The journal.
    pub journal: Vec<u32>,
    /// The field sheet's coefficients.
    pub coefficients: Vec<f64>,
    /// The field sheet's powers, three a coefficient.
    pub powers: Vec<u32>,
    /// The lower and the upper level.
    pub levels: [f64; 2],
    /// The box: its lower corner, then its upper.
    pub bounds: [f64; 6],
    /// How many rounds of improving.
    pub rounds: u32,
    /// How many cells a side a lattice has.
    pub cells: u32,
    /// Its nodes, three values each.
    pub grid: Vec<f64>,
    /// The field's value at each.
    pub values: Vec<f64>,
    /// Its edges that a level crosses, three words each.
    pub edges: Vec<u32>,
    /// How many nodes are in the grid, how many values, and how many edges.
    pub filled: [u32; 3],
    /// Where a level cuts each edge, three values a place.
    pub cuts: Vec<f64>,
    /// What `filled` has, and how many of these places are filled.
    pub cut_filled: [u32; 4],
    /// How many values of the field are taken on the edges.
    pub fields: [u64; 1],
    /// The price sheet's upper volumes, in unit cubes.
    pub uppers: Vec<u64>,
    /// The price sheet's prices, one a step.
    pub prices: Vec<u64>,
    /// Three values a probe.
    pub probes: Vec<f64>,
    /// What the probes are answered, two words each.
    pub answers: Vec<u64>,
    /// How many probes are answered.
    pub count: [u32; 1],
    /// The height of a layer is half a unit more.
    pub height: i32,
    /// The sides of a layer's outlines, three words each.
    pub outline: Vec<u32>,
    /// How many sides are listed, in how many loops; or how many points and triangles are read.
    pub counts: [u32; 2],
    /// The text that is read or converted.
    pub sheet: Vec<u8>,
    /// The edition of the sheet to be written.
    pub edition: u32,
    /// Three coordinates a point, in whole units of that edition.
    pub coordinates: Vec<i32>,
    /// The sheet that is written.
    pub written: Vec<u8>,
    /// How many bytes it has.
    pub length: [u64; 1],
    /// Quality and volume.
    pub numbers: [f64; 2],
    /// The price.
    pub cents: [u64; 1],
    /// Triangles that an edit run leaves, and its edits in force.
    pub edited: [u64; 2],
    /// Points and triangles that rounds of improving leave, and their flips.
    pub answer: [u32; 3],
    /// Where the surface is open.
    pub place: [u32; 2],
}

impl Call {
    /// A call on a surface with so many work words; these, and the places for answers, are lent
    /// with something in them.
    pub fn new(surface: Surface, work_words: usize) -> Self {
        Self {
            surface,
            work: filling(work_words),
            numbers: [f64::NAN, -1.5],
            cents: [12],
            count: [13],
            counts: [14, 15],
            length: [16],
            filled: [17, 18, 19],
            cut_filled: [20, 21, 22, 23],
            fields: [24],
            edited: [(25 << 32) + 26, (27 << 32) + 28],
            answer: [7, 8, 9],
            place: [10, 11],
            ..Self::default()
        }
    }

    /// Sets number, place and work words as they are after such an end. `surface` is still as lent.
    pub fn end(&mut self, asked: Result<(), No>) {
        let No { number, place } = asked.err().unwrap_or_default();
        (self.number, self.place) = (number, place);
        self.clear_work();
    }

    /// Sets the work words as document 01 has them after the number: as lent after 1 to 3, else 0 as
    /// far as they are needed.
    pub fn clear_work(&mut self) {
        if !(1..=3).contains(&self.number) {
            self.work[..self.surface.work_words()].fill(0);
        }
    }

    /// The first difference between this call and what it must be.
    pub fn difference(&self, wanted: &Self) -> Result<(), String> {
        same("number", &[self.number], &[wanted.number])?;
        same("place", &self.place, &wanted.place)?;
        same("points", &self.surface.points, &wanted.surface.points)?;
        same("corners", &self.surface.corners, &wanted.surface.corners)?;
        same("labels", &self.surface.labels, &wanted.surface.labels)?;
        same("work", &self.work, &wanted.work)?;
        same("entries", &self.entries, &wanted.entries)?;
        same("verdicts", &self.verdicts, &wanted.verdicts)?;
        same("journal", &self.journal, &wanted.journal)?;
        same("coefficients", &self.coefficients, &wanted.coefficients)?;
        same("powers", &self.powers, &wanted.powers)?;
        same("levels", &self.levels, &wanted.levels)?;
        same("bounds", &self.bounds, &wanted.bounds)?;
        same("filled", &self.filled, &wanted.filled)?;
        same("grid", &self.grid, &wanted.grid)?;
        same("values", &self.values, &wanted.values)?;
        same("edges", &self.edges, &wanted.edges)?;
        same("cut_filled", &self.cut_filled, &wanted.cut_filled)?;
        same("fields", &self.fields, &wanted.fields)?;
        same("cuts", &self.cuts, &wanted.cuts)?;
        same("uppers", &self.uppers, &wanted.uppers)?;
        same("prices", &self.prices, &wanted.prices)?;
        same("probes", &self.probes, &wanted.probes)?;
        same("answers", &self.answers, &wanted.answers)?;
        same("count", &self.count, &wanted.count)?;
        same("counts", &self.counts, &wanted.counts)?;
        same("outline", &self.outline, &wanted.outline)?;
        same("sheet", &self.sheet, &wanted.sheet)?;
        same("coordinates", &self.coordinates, &wanted.coordinates)?;
        same("written", &self.written, &wanted.written)?;
        same("length", &self.length, &wanted.length)?;
        same("numbers", &self.numbers, &wanted.numbers)?;
        same("cents", &self.cents, &wanted.cents)?;
        same("edited", &self.edited, &wanted.edited)?;
        same("answer", &self.answer, &wanted.answer)
    }
}

/// Words to lend a list with, none of them 0.
pub fn filling(words: usize) -> Vec<u32> {
    (0..words as u32).map(|i| i ^ 0x5a5a_5a5a).collect()
}

/// Numbers to lend a list with, none of them 0.
pub fn float_filling(places: usize) -> Vec<f64> {
    let float = |word: u32| f64::from_bits(u64::from(word) << 32 | u64::from(word));
    filling(places).into_iter().map(float).collect()
}

/// What a word to lend may hold, by its place.
pub const FILLINGS: [fn(u32) -> u32; 8] = [
    |_| 0,
    |_| 1,
    |_| 2,
    |_| 1 << 31,
    |_| u32::MAX,
    |i| i,
    |i| i + 1,
    |i| !i,
];

/// A number that is compared by its bits.
trait Bits: Copy {
    fn bits(self) -> u64;
}

impl Bits for u8 {
    fn bits(self) -> u64 {
        self.into()
    }
}

impl Bits for i32 {
    fn bits(self) -> u64 {
        self.cast_unsigned().into()
    }
}

impl Bits for u32 {
    fn bits(self) -> u64 {
        self.into()
    }
}

impl Bits for u64 {
    fn bits(self) -> u64 {
        self
    }
}

impl Bits for f64 {
    fn bits(self) -> u64 {
        self.to_bits()
    }
}

/// The first place at which two lists differ in their bits.
fn same<T: Bits>(name: &str, ours: &[T], wanted: &[T]) -> Result<(), String> {
    if ours.len() != wanted.len() {
        return Err(format!(
            "{name}: {} places, not {}",
            ours.len(),
            wanted.len()
        ));
    }
    match ours
        .iter()
        .zip(wanted)
        .position(|(a, b)| a.bits() != b.bits())
    {
        None => Ok(()),
        Some(i) => {
            let [a, b] = [ours[i], wanted[i]].map(Bits::bits);
            Err(format!("{name}: place {i} is {a:x} ({a}), not {b:x} ({b})"))
        }
    }
}
