//! The square root.

/// The `f64` nearest the exact root of `x`, as IEEE 754 has it.
///
/// Zero keeps its sign, infinity gives infinity, and a negative number or NaN gives NaN.
///
/// ```
/// assert_eq!(lanovishel::sqrt(2.0), 2.0f64.sqrt());
/// assert!(lanovishel::sqrt(-1.0).is_nan());
/// assert!(lanovishel::sqrt(-0.0).is_sign_negative());
/// ```
#[must_use]
pub fn sqrt(x: f64) -> f64 {
    crate::raw::lanovishel_sqrt(x)
}
