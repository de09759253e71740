//! Pricing the powder that a surface takes.
use crate::{Refusal, raw};

/// A price sheet: one to eight steps, each with a price for the part of a volume that lies within it.
///
/// Volumes are counted in unit cubes, of side 1. A step goes from the upper volume of the step
/// before it, the first one from 0, to its own; the last one has no upper volume and never ends.
#[derive(Clone, Copy, Debug)]
pub struct Tariff<'a> {
    /// The upper volume of each step but the last, in unit cubes. They rise strictly.
    pub uppers: &'a [u64],
    /// The price of each step, in cents for each started unit cube within it, at most 100,000.
    pub prices: &'a [u64],
}

/// What a surface costs, in cents: the sum over the steps of the price sheet, from the exact
/// volume.
///
/// The lists are those of [`check`](crate::check), and a surface that it refuses has no price.
/// Every coordinate is in whole 1/1024 within ±32, also that of a point which no triangle names.
/// However the surface is listed, a price that it has is the same; a volume of 0 or less costs 0,
/// and a larger volume never costs less.
///
/// ```
/// // 500 cents for each unit cube up to ten, and 300 for each above.
/// let tariff = lanovishel::Tariff { uppers: &[10], prices: &[500, 300] };
///
/// // A corner of the unit cube: one is started.
/// let mut points = [0., 0., 0., 1., 0., 0., 0., 1., 0., 0., 0., 1.];
/// let corners = [0, 2, 1, 0, 1, 3, 0, 3, 2, 1, 2, 3];
/// let mut work = vec![0; lanovishel::work_words(4, 4)];
/// let cents = lanovishel::price(&points, &corners, &[0; 4], &mut work, &tariff);
/// assert_eq!(cents, Ok(500));
///
/// // Its sides made 3, 3 and 7, the volume is 63 / 6 = 10.5: ten, and one is started above.
/// (points[3], points[7], points[11]) = (3., 3., 7.);
/// let cents = lanovishel::price(&points, &corners, &[0; 4], &mut work, &tariff);
/// assert_eq!(cents, Ok(5_300));
///
/// // 0.1 is no whole number of 1/1024.
/// points[0] = 0.1;
/// let refused = lanovishel::price(&points, &corners, &[0; 4], &mut work, &tariff);
/// assert_eq!(refused, Err(lanovishel::Refusal::NoPrice));
/// ```
///
/// # Errors
/// [`Refusal`], by its number 1 to 6, 8, 31 to 33, or 47.
pub fn price(
    points: &[f64],
    corners: &[u32],
    labels: &[u8],
    work: &mut [u32],
    tariff: &Tariff,
) -> Result<u64, Refusal> {
    let (mut cents, mut place) = ([0; 1], [0; 2]);
    // SAFETY: each pointer comes with its own slice's length, and what is written is borrowed
    // alone.
    let number = unsafe {
        raw::lanovishel_price(
            points.as_ptr(),
            points.len(),
            corners.as_ptr(),
            corners.len(),
            labels.as_ptr(),
            labels.len(),
            work.as_mut_ptr(),
            work.len(),
            tariff.uppers.as_ptr(),
            tariff.uppers.len(),
            tariff.prices.as_ptr(),
            tariff.prices.len(),
            &mut cents,
            &mut place,
        )
    };
    Refusal::unless_0(number, place)?;
    let [cents] = cents;
    Ok(cents)
}
