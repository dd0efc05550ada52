//! The refusals: numbers, names, and when each is given, in one table.
use std::fmt;

/// The values that a refusal carries, in their order; zeros behind them.
pub(crate) type Values = [u64; 2];

/// The values of a refusal that carries nothing, or of which the number alone is known.
pub(crate) const NOTHING: Values = [0; 2];

/// Makes [`Refusal`], and what goes by its numbers, from a table. A row is a refusal's number; its case, with each
/// value it carries and what that is; its name; and when it is given, in the words of the scope.
macro_rules! refusals {
    ($(
        $number:literal, $case:ident $({ $($value:ident: $kind:ty, $what:literal);+ })?, $name:literal,
            $sentence:literal;
    )*) => {
        /// Why a call was refused. Each case has a fixed number, which is also the exit status of the command.
        ///
        /// ```
        /// use kohlenfloh::{Refusal, Table};
        ///
        /// let refusal = Table::with_room(4).add(&[1, 2]).unwrap_err();
        /// assert_eq!(refusal, Refusal::BadStrip);
        /// assert_eq!(refusal.number(), 1);
        /// assert_eq!(refusal.to_string(), "1 BAD STRIP: pixel bytes not a multiple of 3");
        /// ```
        #[derive(Clone, Copy, Debug, PartialEq, Eq, Hash)]
        #[non_exhaustive]
        pub enum Refusal {
            $(
                #[doc = concat!($number, " ", $name, ": ", $sentence, ".")]
                $case $({
                    $(
                        #[doc = $what]
                        $value: $kind,
                    )+
                })?,
            )*
            /// A number that is none of the others: that of a library later than this crate.
            Unknown {
                /// The number.
                number: u32,
            },
        }

        impl Refusal {
            /// The refusal of a number, with the first of these values, as many as it carries; none for 0.
            #[inline]
            pub(crate) fn carrying(number: u32, values: Values) -> Option<Refusal> {
                match number {
                    0 => None,
                    $($number => {
                        $(let [$($value,)+ ..] = values;)?
                        Some(Refusal::$case $({ $($value: $value as $kind),+ })?)
                    })*
                    _ => Some(Refusal::Unknown { number }),
                }
            }

            /// Number, name and sentence.
            fn row(self) -> (u32, &'static str, &'static str) {
                match self {
                    $(Refusal::$case { .. } => ($number, $name, $sentence),)*
                    Refusal::Unknown { number } => (number, "UNKNOWN", "a number that has no name here"),
                }
            }
        }
    };
}

refusals! {
    1, BadStrip, "BAD STRIP", "pixel bytes not a multiple of 3";
    2, BadTable, "BAD TABLE",
        "used entries above the room, a used key above 16,777,215 or not above the one before, a used weight of 0, a \
         pixel total that isn't the sum of the used weights or is above 16,777,216, or a channel sum that isn't that \
         of the used entries";
    3, Full { taken: u64, "How many pixels of the strip were taken; the table holds exactly these." }, "FULL",
        "the next pixel meets a total of 16,777,216, or is a new colour with no room";
    4, BadCount, "BAD COUNT",
        "shades not 1 to 64; for a single round or a palette from shades or groups, coordinates not 3 to 192 or not a \
         multiple of 3";
    5, FewColours, "FEW COLOURS", "a run wants more shades than used entries";
    6, BadLimit, "BAD LIMIT", "round limit above 200";
    7, ShortRoom, "SHORT ROOM",
        "members fewer than the used entries; totals fewer than the round limit (100 for 0); palette bytes fewer than \
         3 for each shade; or the stretch's first place plus the strip's pixels above the index length";
    8, BadCentre, "BAD CENTRE", "a coordinate above 4080";
    9, BadMember, "BAD MEMBER", "a used entry's shade number not below the count";
    10, BadPalette, "BAD PALETTE", "palette bytes not 3 to 192 or not a multiple of 3";
    11, ManyPixels, "MANY PIXELS", "mapping over 16,777,216 pixels";
    12, BadHeader { offset: usize, "Place of the first byte that cannot stand there, or the input's length." },
        "BAD HEADER",
        "the offset is that of the first byte that cannot stand there, or the input's length if it ends early";
    13, BadSize, "BAD SIZE", "sides or product out of range";
    14, BadDepth, "BAD DEPTH", "depth not 255";
    15, BadRaster, "BAD RASTER", "raster shorter or longer";
    18, TwinShade {
            lower: usize, "The lower number of two equal entries.";
            higher: usize, "The higher one: the smallest number of an entry that equals one before it."
        }, "TWIN SHADE",
        "two entries of the palette are equal";
}

impl Refusal {
    /// The refusal of a number; none for 0, which refuses nothing. FULL, BAD HEADER and TWIN SHADE carry zeros, as a
    /// number alone does not tell more. A number that is in no row of the table is [`Refusal::Unknown`].
    ///
    /// ```
    /// use kohlenfloh::Refusal;
    ///
    /// assert_eq!(Refusal::from_number(5), Some(Refusal::FewColours));
    /// assert_eq!(Refusal::from_number(12), Some(Refusal::BadHeader { offset: 0 }));
    /// assert_eq!(Refusal::from_number(0), None);
    /// assert_eq!(Refusal::from_number(1000), Some(Refusal::Unknown { number: 1000 }));
    /// ```
    pub fn from_number(number: u32) -> Option<Refusal> {
        Refusal::carrying(number, NOTHING)
    }

    /// The refusal's number, which is above 0.
    ///
    /// ```
    /// assert_eq!(kohlenfloh::Refusal::Full { taken: 7 }.number(), 3);
    /// ```
    pub fn number(self) -> u32 {
        self.row().0
    }

    /// The refusal's name, in capitals.
    ///
    /// ```
    /// assert_eq!(kohlenfloh::Refusal::FewColours.name(), "FEW COLOURS");
    /// ```
    pub fn name(self) -> &'static str {
        self.row().1
    }

    /// When the refusal is given, in the words of the scope.
    ///
    /// ```
    /// assert_eq!(kohlenfloh::Refusal::BadLimit.sentence(), "round limit above 200");
    /// ```
    pub fn sentence(self) -> &'static str {
        self.row().2
    }
}

/// Number, name, what the refusal carries, and its sentence.
impl fmt::Display for Refusal {
    fn fmt(&self, to: &mut fmt::Formatter<'_>) -> fmt::Result {
        let (number, name, sentence) = self.row();
        match self {
            Refusal::Full { taken } => write!(to, "{number} {name}, {taken} pixels taken: {sentence}"),
            Refusal::BadHeader { offset } => write!(to, "{number} {name} at offset {offset}: {sentence}"),
            Refusal::TwinShade { lower, higher } => {
                write!(to, "{number} {name}, entries {lower} and {higher}: {sentence}")
            }
            _ => write!(to, "{number} {name}: {sentence}"),
        }
    }
}

impl std::error::Error for Refusal {}
