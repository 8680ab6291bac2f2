//! The numbers the fitter sees, as words.

use core::{error::Error, fmt};

/// Why a call refused: the first fault, in the order given at each call.
///
/// ```
/// use xurbalenz::Refusal;
/// assert_eq!(Refusal::Quant.number(), 7);
/// assert_eq!(Refusal::of(7), Some(Refusal::Quant));
/// assert_eq!(Refusal::Cut.to_string(), "1 cut: a block, or the code being read, needs more than is there");
/// ```
///
/// Later versions may have words for more numbers, so a `match` has an arm for the rest:
///
/// ```
/// use xurbalenz::Refusal;
/// let again = |refusal| match refusal {
///     Refusal::Cut | Refusal::Length => true, // damaged on the wire, perhaps
///     Refusal::Order => true,                 // after the headers
///     _ => false,
/// };
/// assert!(again(Refusal::Cut) && !again(Refusal::Buffer));
/// ```
#[non_exhaustive]
#[derive(Clone, Copy, Debug, PartialEq, Eq, Hash)]
pub enum Refusal {
    /// 1: a block, or the code being read, needs more than is there.
    Cut,
    /// 2: a list is not 4,096 numbers, a picture is too short or of the other glass, or pixels are not 3 x width x height bytes; or a store is
    /// shorter than what is gathered in it.
    Buffer,
    /// 3: a block type that the call does not take, or not the one due in a frame; settings: a record of no known kind.
    Kind,
    /// 4: blockLen or tilesDataSize disagrees with the layout, or bytes follow the last block.
    Length,
    /// 5: a fixed field differs, or a size or mode is not allowed.
    Field,
    /// 6: over 256 rectangles, 2,048 tiles, 65,535 bytes in a component, or two entries.
    TooBig,
    /// 7: a quantiser outside 6 to 15, or an index that is not below the number of sets.
    Quant,
    /// 8: a tile that starts outside the channel; in a list of tiles, a number that no tile has.
    Place,
    /// 9: a coefficient, LL3 sum or scaled value outside -32,767 to 32,767.
    Range,
    /// 10: a remainder run with no place left for its value, or a second value not zero with no place.
    Overrun,
    /// 11: after the 4,096th value 8 or more bits remain, or one of them is 1.
    Tail,
    /// 12: a known header that is not due, or a frame before all four headers; a record or a collector that no calls could have made; settings: the
    /// version is not first, or not once.
    Order,
    /// 13: the lent output is shorter than what is to be written, or the store than what is to be gathered.
    Room,
    /// 14: settings of a version that this reader does not take.
    VersionNotTaken,
    /// 15: settings that have a version and nothing behind it.
    NoSetting,
    /// 16: a list of tiles in which some number is not above the one before it.
    OutOfOrder,
    /// 17: a list of tiles without one that differs between the pictures.
    TileMissing,
    /// A number that this crate has no word for. The archive that this crate was written for never gives one: its answers are proved equal to
    /// definitions that have only the numbers above, and 0. A later archive might, and a refusal it is then too.
    Unknown(u8),
}

impl Refusal {
    /// The refusal of a number; none for 0, which is done.
    ///
    /// ```
    /// use xurbalenz::Refusal;
    /// assert_eq!(Refusal::of(0), None);
    /// assert_eq!(Refusal::of(200), Some(Refusal::Unknown(200)));
    /// assert!((1..=255).all(|n| Refusal::of(n).is_some_and(|refusal| refusal.number() == n)));
    /// ```
    pub const fn of(number: u8) -> Option<Refusal> {
        Some(match number {
            0 => return None,
            1 => Refusal::Cut,
            2 => Refusal::Buffer,
            3 => Refusal::Kind,
            4 => Refusal::Length,
            5 => Refusal::Field,
            6 => Refusal::TooBig,
            7 => Refusal::Quant,
            8 => Refusal::Place,
            9 => Refusal::Range,
            10 => Refusal::Overrun,
            11 => Refusal::Tail,
            12 => Refusal::Order,
            13 => Refusal::Room,
            14 => Refusal::VersionNotTaken,
            15 => Refusal::NoSetting,
            16 => Refusal::OutOfOrder,
            17 => Refusal::TileMissing,
            other => Refusal::Unknown(other),
        })
    }

    /// The number the fitter sees.
    pub const fn number(self) -> u8 {
        match self {
            Refusal::Cut => 1,
            Refusal::Buffer => 2,
            Refusal::Kind => 3,
            Refusal::Length => 4,
            Refusal::Field => 5,
            Refusal::TooBig => 6,
            Refusal::Quant => 7,
            Refusal::Place => 8,
            Refusal::Range => 9,
            Refusal::Overrun => 10,
            Refusal::Tail => 11,
            Refusal::Order => 12,
            Refusal::Room => 13,
            Refusal::VersionNotTaken => 14,
            Refusal::NoSetting => 15,
            Refusal::OutOfOrder => 16,
            Refusal::TileMissing => 17,
            Refusal::Unknown(number) => number,
        }
    }

    /// Its word and what it says.
    const fn words(self) -> (&'static str, &'static str) {
        match self {
            Refusal::Cut => ("cut", "a block, or the code being read, needs more than is there"),
            Refusal::Buffer => ("buffer", "a list is not 4,096 numbers, or a picture, the pixels or a store do not have their size"),
            Refusal::Kind => ("kind", "not a block type that is taken or due here; or settings with a record of no known kind"),
            Refusal::Length => ("length", "a length disagrees with the layout, or bytes follow the last block"),
            Refusal::Field => ("field", "a fixed field differs, or size or mode is not allowed"),
            Refusal::TooBig => ("too big", "over 256 rectangles, 2,048 tiles, 65,535 bytes in a component, or two entries"),
            Refusal::Quant => ("quant", "a quantiser outside 6 to 15, or an index with no set"),
            Refusal::Place => ("place", "a tile starts outside the channel, or a list names a tile that is not there"),
            Refusal::Range => ("range", "a coefficient, LL3 sum or scaled value outside -32,767 to 32,767"),
            Refusal::Overrun => ("overrun", "a value with no place left for it"),
            Refusal::Tail => ("tail", "more than filling follows the 4,096th value"),
            Refusal::Order => ("order", "a header that is not due, a frame before all four headers, or settings whose version is not first and once"),
            Refusal::Room => ("room", "the output or the store is shorter than what goes into it"),
            Refusal::VersionNotTaken => ("version not taken", "settings of a version that this reader does not take"),
            Refusal::NoSetting => ("no setting", "settings that have a version and nothing behind it"),
            Refusal::OutOfOrder => ("out of order", "a list of tiles that does not rise"),
            Refusal::TileMissing => ("tile missing", "a tile that changed is not listed"),
            Refusal::Unknown(_) => ("unknown", "a number that has no word here"),
        }
    }

    /// Its word: "cut", "buffer", .., "room".
    pub const fn word(self) -> &'static str {
        self.words().0
    }

    /// What it says, for the fitter.
    ///
    /// ```
    /// use xurbalenz::Refusal;
    /// assert_eq!((Refusal::Place.word(), Refusal::Place.says()), ("place", "a tile starts outside the channel, or a list names a tile that is not there"));
    /// ```
    pub const fn says(self) -> &'static str {
        self.words().1
    }
}

impl fmt::Display for Refusal {
    fn fmt(&self, f: &mut fmt::Formatter<'_>) -> fmt::Result {
        write!(f, "{} {}: {}", self.number(), self.word(), self.says())
    }
}

impl Error for Refusal {}

/// Why a component's code was refused. On [`Refusal::Tail`] the code itself was whole: `bits` says how long it is.
///
/// ```
/// use xurbalenz::{read_component, Mode};
/// let refused = read_component(Mode::Rlgr1, &[0; 5], &mut [0; 4096]).unwrap_err();
/// assert_eq!(refused.to_string(), "11 tail: more than filling follows the 4,096th value (the code has 21 bits)");
/// ```
#[derive(Clone, Copy, Debug, PartialEq, Eq, Hash)]
pub struct CodeRefusal {
    /// The first fault.
    pub refusal: Refusal,
    /// The bits up to the 4,096th value on `Tail`, else 0.
    pub bits: usize,
}

impl fmt::Display for CodeRefusal {
    fn fmt(&self, f: &mut fmt::Formatter<'_>) -> fmt::Result {
        match self.refusal {
            Refusal::Tail => write!(f, "{} (the code has {} bits)", self.refusal, self.bits),
            other => other.fmt(f),
        }
    }
}

impl Error for CodeRefusal {}

impl From<CodeRefusal> for Refusal {
    fn from(r: CodeRefusal) -> Refusal {
        r.refusal
    }
}
