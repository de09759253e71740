//! Closed triangle surfaces, by functions that are proved against their contracts in Rattle.
//!
//! Every function answers for every input: nothing here panics, and no call reads or writes
//! outside the slices that it is lent.
mod check;
mod cut;
mod edit;
mod field;
mod improve;
mod nearest;
mod outlines;
mod price;
mod refusal;
mod root;
mod sample;
mod sheets;

pub mod raw;

pub use check::{Measured, check, work_words};
pub use cut::{CutCounts, Cuts, cut, cut_into};
pub use edit::{Edited, edit};
pub use field::Field;
pub use improve::{Improved, improve};
pub use nearest::{NO_CORNER, nearest};
pub use outlines::{Outlines, outlines};
pub use price::{Tariff, price};
pub use refusal::Refusal;
pub use root::sqrt;
pub use sample::{Lattice, STEPS, Sampled, node_count, sample, sample_into};
pub use sheets::{Edition, Sheet, convert_sheet, read_sheet, write_sheet};
