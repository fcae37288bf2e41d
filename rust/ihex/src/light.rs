//! The panel's light, by a count that the controller keeps. The crate does not have one.

use std::error::Error;
use std::fmt;

use crate::loader::{self, LoadError, Loaded, Outcome};
use crate::{srec, stranger};

/// What a light shows after a dump.
///
/// ```
/// use ihex::Color;
///
/// assert!(Color::Green.is_green());
/// assert!(!Color::First.is_green());
/// assert_eq!(Color::NoCount.to_string(), "no count");
/// ```
#[derive(PartialEq, Eq, Clone, Copy, Debug, Hash)]
pub enum Color {
    /// The dump was refused.
    Broken,
    /// It was accepted, and states no count.
    NoCount,
    /// It states a count, and none was known.
    First,
    /// The count moved forward: by 1 to 32,767, modulo 65,536.
    Green,
    /// The count is the known one.
    Stale,
    /// The count is any other.
    Restarted,
}

impl Color {
    /// Whether it is [`Color::Green`]: the one color that says that the count moved forward.
    pub fn is_green(self) -> bool {
        self == Color::Green
    }

    /// The color of a number of the C entry points.
    fn told(color: u8) -> Self {
        match color {
            ihex_sys::COLOR_BROKEN => Color::Broken,
            ihex_sys::COLOR_NO_COUNT => Color::NoCount,
            ihex_sys::COLOR_FIRST => Color::First,
            ihex_sys::COLOR_GREEN => Color::Green,
            ihex_sys::COLOR_STALE => Color::Stale,
            ihex_sys::COLOR_RESTARTED => Color::Restarted,
            _ => stranger(color.into()),
        }
    }
}

impl fmt::Display for Color {
    fn fmt(&self, f: &mut fmt::Formatter) -> fmt::Result {
        f.pad(match self {
            Color::Broken => "broken",
            Color::NoCount => "no count",
            Color::First => "first",
            Color::Green => "green",
            Color::Stale => "stale",
            Color::Restarted => "restarted",
        })
    }
}

/// What a dump comes to.
///
/// ```
/// use ihex::{Color, Light, LoadError};
///
/// let mut light = Light::new(0x100, 4, 0, 1).unwrap();
/// let cut = light.dump(":020100000005F8\n", &mut [0; 4], &mut [0]);
/// assert_eq!(cut.color, Color::Broken);
/// assert_eq!(cut.load, Err(LoadError::MissingEndOfFileRecord));
/// ```
#[derive(PartialEq, Eq, Clone, Copy, Debug, Hash)]
#[non_exhaustive]
#[must_use = "the dump may have been refused"]
pub struct Dumped {
    /// What the light shows.
    pub color: Color,
    /// What the load of the dump returns. It is `Err` if and only if the color is [`Color::Broken`].
    pub load: Result<Loaded, LoadError>,
}

/// A place of a count that lies outside the page of its light. If both do, the one of the high byte is named.
///
/// ```
/// use ihex::{BadPlace, Light};
///
/// let why = Light::new(0x100, 4, 0, 4).unwrap_err();
/// assert_eq!(why, BadPlace::Low { place: 4, length: 4 });
/// let words = "place 4 of the low byte lies outside the page of length 4";
/// assert_eq!(why.to_string(), words);
/// ```
#[derive(PartialEq, Eq, Clone, Copy, Debug, Hash)]
pub enum BadPlace {
    /// The place of the high byte.
    High {
        /// The place.
        place: usize,
        /// How many places the page has.
        length: usize,
    },
    /// The place of the low byte.
    Low {
        /// The place.
        place: usize,
        /// How many places the page has.
        length: usize,
    },
}

impl BadPlace {
    /// The refusal's number: 24.
    pub fn number(&self) -> u32 {
        ihex_sys::BAD_PLACE
    }

    /// The place that lies outside. `ihex_set_up_light` decides; this puts a name to it.
    fn named(length: usize, high: usize, low: usize) -> Option<Self> {
        if high >= length {
            return Some(BadPlace::High {
                place: high,
                length,
            });
        }
        (low >= length).then_some(BadPlace::Low { place: low, length })
    }
}

impl fmt::Display for BadPlace {
    fn fmt(&self, f: &mut fmt::Formatter) -> fmt::Result {
        let (name, place, length) = match *self {
            BadPlace::High { place, length } => ("high", place, length),
            BadPlace::Low { place, length } => ("low", place, length),
        };
        write!(
            f,
            "place {place} of the {name} byte lies outside the page of length {length}"
        )
    }
}

impl Error for BadPlace {}

/// A light, which shows whether a count moves forward from dump to dump. The controller keeps the count in its memory, and
/// raises it as it works.
///
/// The count has 16 bits, and its two bytes lie at two places of the page. Places are numbered from 0, and are not
/// addresses. The light remembers the count from every accepted dump that states it. A dump that is refused, or that
/// states no count, leaves what is remembered as it is.
///
/// Green means: this dump was accepted, it states a byte for both places of the count before its end record, and the count
/// that it states is 1 to 32,767 ahead of the one that was stated last, modulo 65,536.
///
/// Over any number of dumps each color follows from the history alone: from what each dump says of the count. What page and
/// marks held before does not matter, and neither does what follows the line of the end record. The same dump twice running,
/// read as the same kind and with the same lengths of page and marks, is never green the second time.
///
/// Green does not say that the other bytes are right, or that the dump is new: two old dumps in turn, with the counts 5 and
/// 6, are green every second time.
///
/// ```
#[doc = include_str!("../examples/light.rs")]
/// ```
#[derive(PartialEq, Eq, Clone, Debug)]
pub struct Light {
    first: u32,
    length: usize,
    high: usize,
    low: usize,
    known: Option<u16>,
}

/// One of the two dumps of `ihex_sys`.
type Call = fn(
    &[u8],
    u32,
    usize,
    usize,
    usize,
    &mut [u8],
    &mut [u8],
    &mut u32,
    &mut u8,
    &mut usize,
    &mut u8,
    &mut u64,
    &mut u64,
    &mut u64,
) -> u32;

impl Light {
    /// A light that knows no count, for a page of `length` places whose first has the address `first`. The high byte of
    /// the count lies at the place `high`, and the low byte at the place `low`. Both may be the same place.
    ///
    /// Only a place outside the page is refused. A window that [`load`](crate::load) refuses is accepted here, and then
    /// each dump is refused with [`LoadError::BadWindow`].
    pub fn new(first: u32, length: usize, high: usize, low: usize) -> Result<Self, BadPlace> {
        let mut known = 0;
        match ihex_sys::set_up_light(first, length, high, low, &mut known) {
            0 => Ok(Light {
                first,
                length,
                high,
                low,
                known: count(known),
            }),
            code => Err(BadPlace::named(length, high, low).unwrap_or_else(|| stranger(code))),
        }
    }

    /// The count that was stated last, if one was.
    pub fn known(&self) -> Option<u16> {
        self.known
    }

    /// The count that was stated last, as the C entry points have it.
    fn known_number(&self) -> u32 {
        self.known.map_or(ihex_sys::COUNT_UNKNOWN, u32::from)
    }

    /// Loads a dump of Intel HEX into the page, and says what the light shows. Page, marks and what is returned of the load
    /// are as in [`load`](crate::load); but if the page does not have the length that the light was made for, the dump is
    /// refused with [`LoadError::BadWindow`].
    pub fn dump<T>(&mut self, text: &T, page: &mut [u8], marks: &mut [u8]) -> Dumped
    where
        T: AsRef<[u8]> + ?Sized,
    {
        let (call, outcome): (Call, Outcome) = (ihex_sys::light, loader::intel_result);
        self.dump_by(call, outcome, text.as_ref(), page, marks)
    }

    /// Loads a dump of S-records, as [`load_srecords`](crate::srec::load_srecords) does, and says what the light shows. All
    /// else is as in [`dump`](Light::dump). Dumps of both kinds may follow each other on one light.
    pub fn dump_srecords<T>(&mut self, text: &T, page: &mut [u8], marks: &mut [u8]) -> Dumped
    where
        T: AsRef<[u8]> + ?Sized,
    {
        let (call, outcome): (Call, Outcome) = (ihex_sys::light_srecords, srec::result);
        self.dump_by(call, outcome, text.as_ref(), page, marks)
    }

    /// Says what the light shows after a load that was fed: after an accepted dump that was
    /// [committed](crate::Ready::commit) to this page and these marks, or after one that was refused. Color and count are
    /// those of [`dump`](Light::dump). If the load was accepted, but page or marks do not have the lengths of the light's,
    /// or an unused bit of the marks is set, it is refused here with [`LoadError::BadWindow`].
    ///
    /// The example of [`Dumps`](crate::Dumps) shows it.
    pub fn after(&mut self, load: Result<Loaded, LoadError>, page: &[u8], marks: &[u8]) -> Dumped {
        let mut known = self.known_number();
        let code = load.map_or_else(|why| ihex_sys::REFUSED + why.number(), |_| 0);
        let color = Color::told(ihex_sys::light_after(
            code,
            self.first,
            self.length,
            self.high,
            self.low,
            page,
            marks,
            &mut known,
        ));
        self.known = count(known);
        let load = match color {
            Color::Broken => load.and(Err(LoadError::BadWindow)),
            _ => load,
        };
        Dumped { color, load }
    }

    fn dump_by(
        &mut self,
        call: Call,
        outcome: Outcome,
        text: &[u8],
        page: &mut [u8],
        marks: &mut [u8],
    ) -> Dumped {
        let mut known = self.known_number();
        let (mut color, mut line, mut start) = (ihex_sys::COLOR_BROKEN, 0, 0);
        let (mut a, mut b, mut c) = (0, 0, 0);
        let code = call(
            text,
            self.first,
            self.length,
            self.high,
            self.low,
            page,
            marks,
            &mut known,
            &mut color,
            &mut line,
            &mut start,
            &mut a,
            &mut b,
            &mut c,
        );
        self.known = count(known);
        Dumped {
            color: Color::told(color),
            load: outcome(code, line, start, [a, b, c]),
        }
    }
}

/// A count of the C entry points, if it is one.
fn count(known: u32) -> Option<u16> {
    u16::try_from(known).ok()
}
