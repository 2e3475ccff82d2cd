//! Reads DWARF 1 `.debug` sections through the archive of the proved reader. Every call ends with an answer or a numbered refusal, on every input.
//!
//! ```
//! use capbeacon::{Endian, Section, Settings};
//!
//! // A structure of 4 bytes, its one member at offset 0 with the type int, and a null entry.
//! let bytes = [
//!     0, 0, 0, 0x12, 0, 0x13, 0, 0x12, 0, 0, 0, 0x2a, 0, 0xb6, 0, 0, 0, 4, //
//!     0, 0, 0, 0x14, 0, 0x0d, 0, 0x55, 0, 7, 0, 0x23, 0, 6, 4, 0, 0, 0, 0, 7, //
//!     0, 0, 0, 4,
//! ];
//! let section = Section::read(bytes, Settings::none(Endian::Big))?;
//! assert_eq!(section.entries().map(|e| e.key).collect::<Vec<_>>(), [0, 0x12, 0x26]);
//! assert_eq!(section.tree()?.iter().map(|p| p.depth).collect::<Vec<_>>(), [0, 1, 1]);
//! let layout = section.layout(0)?;
//! assert_eq!((layout.size, layout.members[0].size), (4, 4));
//! assert_eq!(section.size(0x99).unwrap_err().to_string(), "refused 11 at 00000099: no row with that key");
//! # Ok::<(), capbeacon::Error>(())
//! ```
mod error;
mod raw;
mod section;
mod settings;
#[cfg(test)]
mod tests;

pub use error::{Error, Needed};
pub use section::{Attribute, Entry, Flags, Layout, Member, Place, Section, Structure, Unit, Value};
pub use settings::{Endian, Producer, Roles, Settings};

/// The words of a row and of an attribute, for what calls the archive's functions itself.
#[doc(hidden)]
pub mod words {
    pub use crate::raw::{ATTR_WIDTH, ROW_WIDTH};
}

/// The offset that a location block says: CONST n, ADD; any other block is refusal 17.
///
/// ```
/// use capbeacon::{Endian, offset_of_block};
/// assert_eq!(offset_of_block(&[4, 0, 0, 0, 8, 7], Endian::Big), Ok(8));
/// ```
pub fn offset_of_block(block: &[u8], endian: Endian) -> Result<u32, Error> {
    let [offset, ..] = raw::offset(block, endian).given(|_| Needed::default())?;
    Ok(offset as u32)
}
