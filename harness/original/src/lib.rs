//! The Rust original, from its own source: `validate`, `improve` as document 01 edits it, and
//! `extract` up to its keys and up to its roots.
//!
//! Nothing of that source is in this repository. Where it was not there at build time, every
//! function answers `None`.
#![cfg_attr(not(original), allow(dead_code))]

mod field;
mod pieces;
mod point;

#[cfg(not(original))]
mod absent;
#[cfg(original)]
mod present;

#[cfg(not(original))]
pub use absent::{Mesh, cut, improve, improve_skipping, roots, sample, validate};
pub use field::FieldSheet;
pub use pieces::{has_piece_of_four, skipped};
pub use point::Point;
#[cfg(original)]
pub use present::{Mesh, cut, improve, improve_skipping, roots, sample, validate};

// The original's modules, and what they name as their crate's own.
#[cfg(original)]
include!(concat!(env!("OUT_DIR"), "/modules.rs"));
#[cfg(original)]
use {
    error::MeshingError,
    field as implicit,
    pieces::skips,
    point::{cross, dot, norm, sub},
};

/// Whether the original's source was there when this crate was built.
pub const PRESENT: bool = cfg!(original);

/// A field between two levels, in a box.
pub struct Band {
    /// The field.
    pub field: FieldSheet,
    /// The lower and the upper level.
    pub levels: [f64; 2],
    /// The lower and the upper corner of the box.
    pub bounds: [Point; 2],
}

/// What `extract` has when it has its keys.
pub struct Samples {
    /// The nodes of the lattice.
    pub grid: Vec<Point>,
    /// The field at each, near-level values set onto the level.
    pub values: Vec<f64>,
    /// The crossed edges: node, step, label.
    pub keys: Vec<(usize, u8, u8)>,
}

/// What `extract` has when it has its roots.
pub struct Solved<R> {
    /// What it had with its keys.
    pub samples: Samples,
    /// Its roots, of the crossed edges in turn.
    pub roots: R,
}

/// What an edge is answered: the point of its root, or the message, and how many values of the field
/// that took.
pub type Cut = (Result<Point, String>, u64);
