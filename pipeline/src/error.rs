//! Refusals.
use std::fmt;

/// What refusal 8 says is needed; 0 for what a call does not lend.
#[derive(Debug, Clone, Copy, Default, PartialEq, Eq)]
pub struct Needed {
    pub rows: u64,
    pub attributes: u64,
    pub structures: u64,
    pub members: u64,
}

/// A refusal: its number, the place that it names (a key, or 0), what is needed if its number is 8, and the byte of a field if it is 4 to 6.
///
/// ```
/// use capbeacon::{Endian, Section, Settings};
/// let error = Section::read([0, 0, 0], Settings::none(Endian::Big)).unwrap_err();
/// assert_eq!(error.to_string(), "refused 4 at 00000000: bytes wanted are not there, from byte 00000000 on");
/// ```
#[derive(Debug, Clone, Copy, PartialEq, Eq)]
pub struct Error {
    pub number: u32,
    pub place: u64,
    pub needed: Needed,
    pub(crate) byte: Option<u64>,
}

/// What a number says that is no refusal's: 14 too, which no input led to; it is not given, and no later refusal takes it.
const NO_REFUSAL: &str = "no refusal has this number";

/// The refusals from 1 on, with a gap at 14.
const WORDS: [&str; 20] = [
    "a rule of the settings is broken",
    "the section has 2^32 bytes or more",
    "the table is not one of this section",
    "bytes wanted are not there",
    "tag number unknown",
    "attribute number unknown",
    "a 17th erased level",
    "more is needed than lent or allowed",
    "the child walk is endless, or a reference does not nest",
    "a depth or chain limit is passed",
    "no row with that key",
    "a row of a kind that is not taken here",
    "an attribute that the record does not take",
    NO_REFUSAL,
    "a needed attribute is absent, or one bit attribute is without the other",
    "a child that is not allowed",
    "block bytes of no listed shape",
    "fundamental type or modifier unknown",
    "a low bound that is not 0",
    "a product or a member's end over 2^32 - 1",
];

impl Error {
    /// What the number means.
    pub fn words(&self) -> &'static str {
        let at = (self.number as usize).wrapping_sub(1);
        WORDS.get(at).copied().unwrap_or(NO_REFUSAL)
    }

    /// The first byte of the field that is not there (4) or not known (5, 6); the place is where the entry begins. Other refusals tell none.
    ///
    /// ```
    /// use capbeacon::{Endian, Section, Settings};
    /// // A null entry, and one whose tag is not known.
    /// let error = Section::read([0, 0, 0, 4, 0, 0, 0, 8, 0, 8], Settings::none(Endian::Big)).unwrap_err();
    /// assert_eq!((error.number, error.place, error.byte()), (5, 4, Some(8)));
    /// assert_eq!(error.to_string(), "refused 5 at 00000004: tag number unknown, at byte 00000008");
    /// ```
    pub fn byte(&self) -> Option<u64> {
        self.byte
    }
}

impl fmt::Display for Error {
    fn fmt(&self, f: &mut fmt::Formatter<'_>) -> fmt::Result {
        write!(f, "refused {} at {:08x}: {}", self.number, self.place, self.words())?;
        match (self.number, self.byte) {
            (4, Some(byte)) => write!(f, ", from byte {byte:08x} on")?,
            (_, Some(byte)) => write!(f, ", at byte {byte:08x}")?,
            (_, None) => {}
        }
        let Needed { rows, attributes, structures, members } = self.needed;
        let counts =
            [(rows, "rows"), (attributes, "attributes"), (structures, "structures"), (members, "members")];
        let mut comma = ": ";
        for (count, what) in counts.into_iter().filter(|(count, _)| *count > 0) {
            write!(f, "{comma}{count} {what}")?;
            comma = ", ";
        }
        Ok(())
    }
}

impl std::error::Error for Error {}

#[cfg(test)]
mod tests {
    use super::{Error, NO_REFUSAL, Needed};

    #[test]
    fn fourteen_is_a_gap() {
        let words = |number| Error { number, place: 0, needed: Needed::default(), byte: None }.words();
        let none: Vec<u32> = (0..=21).filter(|number| words(*number) == NO_REFUSAL).collect();
        assert_eq!(none, [0, 14, 21]);
    }
}
