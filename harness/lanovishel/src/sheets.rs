//! Reading, writing and converting sheets.
use crate::{Refusal, raw};

/// The edition of a sheet, which says how fine its unit is.
#[derive(Clone, Copy, Debug, PartialEq, Eq, Hash)]
pub enum Edition {
    /// Coordinates in whole 1/1024 within ±32,768. The first line is `points triangles`.
    First,
    /// Coordinates in whole 1/65,536 within ±2,097,152. The first line is
    /// `edition points triangles`.
    Second,
}

impl Edition {
    /// 1 or 2, as the exported functions take it.
    #[must_use]
    pub const fn number(self) -> u32 {
        match self {
            Self::First => 1,
            Self::Second => 2,
        }
    }

    /// How many units 1 has.
    #[must_use]
    pub const fn unit(self) -> i32 {
        match self {
            Self::First => 1_024,
            Self::Second => 65_536,
        }
    }

    /// The largest coordinate, in units: 32 in either edition.
    #[must_use]
    pub const fn range(self) -> i32 {
        32 * self.unit()
    }

    /// How many bytes the longest sheet has.
    #[must_use]
    pub const fn longest(self) -> usize {
        match self {
            Self::First => 12_203,
            Self::Second => 12_981,
        }
    }
}

/// What a sheet holds.
#[derive(Clone, Copy, Debug, PartialEq, Eq)]
pub struct Sheet {
    /// How many points it has, each with three values in the list of points.
    pub points: u32,
    /// How many triangles it has, each with three corners and a label.
    pub triangles: u32,
}

impl Sheet {
    /// The most points that a sheet has.
    pub const MOST_POINTS: usize = 128;

    /// The most triangles that a sheet has.
    pub const MOST_TRIANGLES: usize = 256;
}

/// Reads a sheet of either edition, and says how many points and triangles it has.
///
/// `points` has at least three values a point, `corners` three numbers a triangle, `labels` one a
/// triangle; [`Sheet::MOST_POINTS`] and [`Sheet::MOST_TRIANGLES`] are always enough. A coordinate
/// becomes the f64 that is just as large. Of the surface nothing is asked:
/// [`check`](crate::check) does that. What is behind in the three lists becomes 0; after a refusal
/// all of it does.
///
/// ```
/// // Half a unit square, in 1/65,536 units.
/// let sheet = b"\
/// edition points triangles
/// 2 3 1
/// x y z
/// 0 0 0
/// 65536 0 0
/// 0 65536 0
/// a b c label
/// 0 1 2 7
/// ";
/// let (mut points, mut corners, mut labels) = ([0.; 12], [0; 3], [0; 1]);
/// let read = lanovishel::read_sheet(sheet, &mut points, &mut corners, &mut labels);
/// assert_eq!(read, Ok(lanovishel::Sheet { points: 3, triangles: 1 }));
/// assert_eq!(points, [0., 0., 0., 1., 0., 0., 0., 1., 0., /* behind */ 0., 0., 0.]);
/// assert_eq!((corners, labels), ([0, 1, 2], [7]));
///
/// // There is no room for the third point.
/// let refused = lanovishel::read_sheet(sheet, &mut points[..8], &mut corners, &mut labels);
/// assert_eq!(refused, Err(lanovishel::Refusal::ListTooShort));
/// assert_eq!((corners, labels), ([0; 3], [0; 1]));
///
/// // Each line has a line feed at its end.
/// let cut = &sheet[..sheet.len() - 1];
/// let refused = lanovishel::read_sheet(cut, &mut points, &mut corners, &mut labels);
/// assert_eq!(refused, Err(lanovishel::Refusal::NoSheet));
/// ```
///
/// # Errors
/// [`Refusal`], by its number 16 or 35.
pub fn read_sheet(
    sheet: &[u8],
    points: &mut [f64],
    corners: &mut [u32],
    labels: &mut [u8],
) -> Result<Sheet, Refusal> {
    let mut counts = [0; 2];
    // SAFETY: each pointer comes with its own slice's length, and what is written is borrowed
    // alone.
    let number = unsafe {
        raw::lanovishel_read_sheet(
            sheet.as_ptr(),
            sheet.len(),
            points.as_mut_ptr(),
            points.len(),
            corners.as_mut_ptr(),
            corners.len(),
            labels.as_mut_ptr(),
            labels.len(),
            &mut counts,
        )
    };
    Refusal::unless_0(number, [0; 2])?;
    let [points, triangles] = counts;
    Ok(Sheet { points, triangles })
}

/// Writes a sheet, and says how many bytes it has.
///
/// `coordinates` has three for each of up to 128 points, in whole units of the edition within its
/// [range](Edition::range); `labels` one for each of up to 256 triangles, and `corners` three. Of the
/// corners nothing more is asked. `written` has at least as many bytes as the sheet;
/// [`Edition::longest`] is always enough. The bytes behind become 0; after a refusal all do.
///
/// ```
/// use lanovishel::Edition;
///
/// // Half a unit square.
/// let coordinates = [0, 0, 0, 1_024, 0, 0, 0, 1_024, 0];
/// let mut written = [0; Edition::First.longest()];
/// let mut write = |coordinates: &[i32]| {
///     let count =
///         lanovishel::write_sheet(Edition::First, coordinates, &[0, 1, 2], &[7], &mut written);
///     count.map(|count| String::from_utf8_lossy(&written[..count]).into_owned())
/// };
/// let sheet = "\
/// points triangles
/// 3 1
/// x y z
/// 0 0 0
/// 1024 0 0
/// 0 1024 0
/// a b c label
/// 0 1 2 7
/// ";
/// assert_eq!(write(&coordinates), Ok(sheet.to_string()));
///
/// // 32 is 32,768 units, and there is no more.
/// assert_eq!(write(&[0, 0, 32_769]), Err(lanovishel::Refusal::NoSheet));
/// ```
///
/// # Errors
/// [`Refusal`], by its number 16 or 35.
pub fn write_sheet(
    edition: Edition,
    coordinates: &[i32],
    corners: &[u32],
    labels: &[u8],
    written: &mut [u8],
) -> Result<usize, Refusal> {
    let mut count = [0; 1];
    // SAFETY: each pointer comes with its own slice's length, and what is written is borrowed
    // alone.
    let number = unsafe {
        raw::lanovishel_write_sheet(
            edition.number(),
            coordinates.as_ptr(),
            coordinates.len(),
            corners.as_ptr(),
            corners.len(),
            labels.as_ptr(),
            labels.len(),
            written.as_mut_ptr(),
            written.len(),
            &mut count,
        )
    };
    Refusal::unless_0(number, [0; 2])?;
    let [count] = count;
    Ok(count as usize)
}

/// Converts a sheet to an edition, and says how many bytes it then has.
///
/// The points, as [`read_sheet`] gives them, stay the same to the last bit, and so do corners and
/// labels. A sheet that is in the edition already is given back as it is, and one of the first
/// edition that is converted there and back is the sheet it was. To the first edition, each
/// coordinate must be a multiple of 64. `written` has at least as many bytes as the sheet that is
/// written; [`Edition::longest`] is always enough. The bytes behind become 0; after a refusal all do.
///
/// ```
/// use lanovishel::{Edition, Refusal};
///
/// let coarse = b"points triangles\n1 0\nx y z\n-1024 0 1\na b c label\n";
/// let fine = b"edition points triangles\n2 1 0\nx y z\n-65536 0 64\na b c label\n";
/// let mut written = [0; Edition::Second.longest()];
/// let count = lanovishel::convert_sheet(coarse, Edition::Second, &mut written).unwrap();
/// assert_eq!(&written[..count], fine);
/// let count = lanovishel::convert_sheet(fine, Edition::First, &mut written).unwrap();
/// assert_eq!(&written[..count], coarse);
///
/// // 63/65,536 is no whole number of 1/1024.
/// let between = b"edition points triangles\n2 1 0\nx y z\n-65536 0 63\na b c label\n";
/// let refused = lanovishel::convert_sheet(between, Edition::First, &mut written);
/// assert_eq!(refused, Err(Refusal::BetweenUnits));
/// ```
///
/// # Errors
/// [`Refusal`], by its number 16, 38 or 35.
pub fn convert_sheet(sheet: &[u8], edition: Edition, written: &mut [u8]) -> Result<usize, Refusal> {
    let mut count = [0; 1];
    // SAFETY: each pointer comes with its own slice's length, and what is written is borrowed
    // alone.
    let number = unsafe {
        raw::lanovishel_convert_sheet(
            sheet.as_ptr(),
            sheet.len(),
            edition.number(),
            written.as_mut_ptr(),
            written.len(),
            &mut count,
        )
    };
    Refusal::unless_0(number, [0; 2])?;
    let [count] = count;
    Ok(count as usize)
}
