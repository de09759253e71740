//! Exact volumes of surfaces on whole units, and how far reported ones are from them, in whole
//! numbers alone.
//!
//! A unit is 1/1024, and a coordinate is within ±32,768 of them. `six` is six times the exact
//! volume, a whole number of (1/1024)^3. A reported volume is a multiple of 2^-85: a share of it is
//! a whole number of 2^-30, divided by six and rounded, so none but 0 is below 2^-33. Sizes are
//! counted in sixths of 2^-85.
use crate::{random::Random, surfaces::Surface};
use std::fmt;

/// The largest coordinate, in units.
pub const MOST: i64 = 32_768;

/// A point in units.
pub type Point = [i64; 3];

/// The corners of the range.
pub fn range_corners() -> impl Iterator<Item = Point> {
    (0..8).map(|n| [0, 1, 2].map(|axis| if n >> axis & 1 == 0 { -MOST } else { MOST }))
}

/// The points in units, where every value is a whole number of them and within the range.
pub fn units(points: &[f64]) -> Option<Vec<Point>> {
    points
        .chunks_exact(3)
        .map(|p| Some([unit(p[0])?, unit(p[1])?, unit(p[2])?]))
        .collect()
}

fn unit(x: f64) -> Option<i64> {
    let units = (x * 1024.0) as i64;
    ((-MOST..=MOST).contains(&units) && units as f64 / 1024.0 == x).then_some(units)
}

/// Six times the volume: the sum of the triangles' determinants, measured from a point of the range.
pub fn six(points: &[Point], triangles: &[[u32; 3]], origin: Point) -> i128 {
    triangles
        .iter()
        .map(|triangle| triangle.map(|corner| minus(points[corner as usize], origin)))
        .map(|measured| i128::from(determinant(measured)))
        .sum()
}

fn minus(a: Point, b: Point) -> Point {
    [a[0] - b[0], a[1] - b[1], a[2] - b[2]]
}

fn cross(a: Point, b: Point) -> Point {
    [
        a[1] * b[2] - a[2] * b[1],
        a[2] * b[0] - a[0] * b[2],
        a[0] * b[1] - a[1] * b[0],
    ]
}

fn determinant([a, b, c]: [Point; 3]) -> i64 {
    let normal = cross(b, c);
    a[0] * normal[0] + a[1] * normal[1] + a[2] * normal[2]
}

/// Whether the three points lie in line.
pub fn in_line([a, b, c]: [Point; 3]) -> bool {
    cross(minus(b, a), minus(c, a)) == [0; 3]
}

/// `six` of a surface, where it is the same from the first point, any point and a corner of the
/// range.
pub fn six_from_three(surface: &Surface, random: &mut Random) -> Result<i128, String> {
    let points = units(&surface.points).ok_or("a coordinate is not in whole units")?;
    let triangles = surface.triangles();
    let any = [0; 3].map(|_| random.within(0, 2 * MOST as usize) as i64 - MOST);
    let corner = [0; 3].map(|_| random.pick(&[-MOST, MOST]));
    let origins = [points[0], any, corner];
    let found = origins.map(|origin| six(&points, &triangles, origin));
    if found == [found[0]; 3] {
        return Ok(found[0]);
    }
    Err(format!(
        "six times the volume is {found:?} from {origins:?}"
    ))
}

/// How far a reported volume is from the exact one, of m·m/2^33.
pub fn error(volume: f64, six: i128, triangles: usize) -> Result<Part, String> {
    let size = (6 * counted(volume)?).abs_diff(six * (1 << 55));
    let m = triangles as u128;
    Ok(Part { size, of: m * m })
}

/// How far two reported volumes are from one another, of 2·m·m/2^33.
pub fn difference(a: f64, b: f64, triangles: usize) -> Result<Part, String> {
    let size = (6 * counted(a)?).abs_diff(6 * counted(b)?);
    let m = triangles as u128;
    Ok(Part {
        size,
        of: 2 * m * m,
    })
}

/// A volume as a number of 2^-85, by its bits.
fn counted(volume: f64) -> Result<i128, String> {
    let bits = volume.to_bits();
    let exponent = (bits >> 52) as u32 & 0x7ff;
    let leading = u64::from(exponent > 0) << 52;
    let significand = i128::from(bits & ((1 << 52) - 1) | leading);
    if significand == 0 {
        return Ok(0);
    }
    // The last bit is worth 2^(exponent - 1075): 2^-85 at 990. From 1057 on the volume is 2^34 or more.
    let up = exponent.saturating_sub(990);
    let down = 990u32.saturating_sub(exponent);
    if exponent >= 1057 || significand.trailing_zeros() < down {
        return Err(format!("{bits:016x} is no number of 2^-85 below 2^34"));
    }
    let size = significand << up >> down;
    Ok(if volume.is_sign_negative() {
        -size
    } else {
        size
    })
}

/// A size beside a bound to it.
#[derive(Clone, Copy, Debug)]
pub struct Part {
    /// The size, in sixths of 2^-85.
    pub size: u128,
    /// The bound, in 2^-33.
    pub of: u128,
}

impl Part {
    /// 2^-33 in sixths of 2^-85.
    const UNIT: u128 = 6 << 52;

    /// Nothing, of something.
    pub const NONE: Self = Self { size: 0, of: 1 };

    /// Whether the size is within the bound.
    pub fn fits(self) -> bool {
        self.size <= self.of * Self::UNIT
    }

    /// Whether the part is larger than another; sizes within m·m/2^32 do not overflow.
    pub fn is_above(self, other: Self) -> bool {
        self.size * other.of > other.size * self.of
    }

    /// Takes another part where it is larger.
    pub fn raise(&mut self, other: Self) {
        if other.is_above(*self) {
            *self = other;
        }
    }
}

/// As a decimal of nine places, rounded up.
impl fmt::Display for Part {
    fn fmt(&self, f: &mut fmt::Formatter) -> fmt::Result {
        const BILLION: u128 = 1_000_000_000;
        let bound = self.of * Self::UNIT;
        let (whole, rest) = (self.size / bound, self.size % bound);
        let billionths = whole * BILLION + (rest * BILLION).div_ceil(bound);
        write!(f, "{}.{:09}", billionths / BILLION, billionths % BILLION)
    }
}
