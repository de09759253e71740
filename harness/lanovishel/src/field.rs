//! The field sheet.

/// What a surface is a part of: the levels of a field, within a box.
///
/// The triangles of label 0 lie on the upper level and those of 1 on the lower one; labels 2 to 7
/// are the walls of the box.
#[derive(Clone, Copy, Debug)]
pub struct Field<'a> {
    /// The coefficient q of each term q·x^i·y^j·z^k, up to 64.
    pub coefficients: &'a [f64],
    /// The powers i, j, k of each term, 0 to 3.
    pub powers: &'a [u32],
    /// The lower level, which may be -infinity, and the upper.
    pub levels: [f64; 2],
    /// The lower corner of the box, then the upper, within ±2^20. No side is below 2^-20.
    pub bounds: [f64; 6],
}
