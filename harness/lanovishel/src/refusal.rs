//! A call that is refused.
use std::{error::Error, fmt, num::NonZeroU32};

/// Makes the enum, its numbers and its words from one table: the number, the name, which word of
/// the place each field is, and the reason.
macro_rules! refusals {
    ($($number:literal $name:ident $({ $($(#[$about:meta])* $field:ident: $word:literal),+ })? $reason:literal)+) => {
        /// Why a call is refused: the first of the questions that its lists do not pass, and the
        /// place where a surface is open.
        ///
        /// A refused call leaves points, corners, labels, verdict words and journal as they were, and
        /// 0 in a list that is lent for answers alone.
        #[derive(Clone, Copy, Debug, PartialEq, Eq, Hash)]
        #[non_exhaustive]
        pub enum Refusal {
            $(
                #[doc = concat!(stringify!($number), ": ", $reason, ".")]
                $name $({ $($(#[$about])* $field: u32),+ })?,
            )+
            /// A number that this version does not know.
            Other {
                /// The number.
                number: NonZeroU32,
            },
        }

        impl Refusal {
            /// The number that the exported function answers, as docs/NUMBERS.md lists them. It is
            /// never 0, since 0 is the answer of a call that is accepted.
            #[must_use]
            pub const fn number(self) -> NonZeroU32 {
                match self {
                    $(Self::$name { .. } => const { NonZeroU32::new($number).unwrap() },)+
                    Self::Other { number } => number,
                }
            }

            const fn named(number: NonZeroU32, place: [u32; 2]) -> Self {
                match number.get() {
                    $($number => Self::$name $({ $($field: place[$word]),+ })?,)+
                    _ => Self::Other { number },
                }
            }
        }

        impl fmt::Display for Refusal {
            fn fmt(&self, f: &mut fmt::Formatter<'_>) -> fmt::Result {
                match self {
                    $(Self::$name $({ $($field),+ })? => write!(f, $reason),)+
                    Self::Other { .. } => write!(f, "a number that this version does not know"),
                }?;
                write!(f, " ({})", self.number())
            }
        }
    };
}

refusals! {
    1 Lengths "points or corners are not in threes, or there is not one label a triangle"
    2 TooMany "more than 32,768 points or triangles"
    3 TooFewWords "too few work words"
    4 NotFinite "a point value is not finite"
    5 NotListed "a corner is not on the list of points"
    6 Degenerate "a triangle is degenerate"
    8 NoVolume "the volume is not finite and above 0"
    9 UnknownLabel "a label is above 7"
    10 CornerTwice "a triangle names a corner twice"
    11 OpposedLabels "a corner carries two labels that exclude one another"
    12 SameCorners "two triangles have the same corners"
    13 FieldSheet "the field sheet, the levels or the box are not as they must be"
    14 TooManyRounds "more than 1,000 rounds"
    15 Entries "entries are not in threes, or there is not one verdict word an entry"
    16 NoSheet "the text is no sheet, or the lists or the edition are such as no sheet has"
    31 Repeated {
        /// The corner where the side begins. Of all such sides it is the smallest pair.
        from: 0,
        /// The corner where it ends.
        to: 1
    } "the directed side from {from} to {to} occurs more than once"
    32 Lone {
        /// The corner where the side begins. Of all such sides it is the smallest pair.
        from: 0,
        /// The corner where it ends.
        to: 1
    } "the directed side from {from} to {to} has no reverse"
    33 Split {
        /// The smallest such corner.
        corner: 0
    } "the triangles around corner {corner} are more than one ring"
    34 Cells "there are fewer than 4 or more than 128 cells a side"
    35 ListTooShort "a list that is lent for answers is too short for them"
    36 FieldNotFinite "a sampled value of the field is not finite"
    37 ResidualNotFinite "on a crossed edge, the field less the level is not finite"
    38 BetweenUnits "a coordinate is no multiple of 64, so that it lies between units of 1/1024"
    40 OffUnits "the height is outside -32,768..32,767, or a coordinate is not in whole 1/1024 within ±32"
    41 TooFewPlaces "fewer list places than crossed sides"
    42 Probes "probes are not in threes, more than 64 or more than the answer places, or a coordinate is not in whole 1/1024 within ±32"
    47 NoPrice "a coordinate is not in whole 1/1024 within ±32, or the price sheet is not as it must be"
}

impl Refusal {
    /// `Ok` for the number 0.
    pub(crate) fn unless_0(number: u32, place: [u32; 2]) -> Result<(), Self> {
        match NonZeroU32::new(number) {
            None => Ok(()),
            Some(number) => Err(Self::named(number, place)),
        }
    }
}

impl Error for Refusal {}
