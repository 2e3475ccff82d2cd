//! The numbers of document 01, and the settings that complete the Rust's.
use crate::util::dwarf::AttributeKind;

/// The limits of the lent tables, in rows and attributes, and the erased levels.
pub const ROWS: usize = 4096;
pub const ATTRIBUTES: usize = 32768;
pub const LEVELS: usize = 16;

/// The limits of specifications in a chain, and of the depth of sizes.
pub const SPECIFICATIONS: usize = 16;
pub const DEPTH: usize = 32;

/// Does a refusal of reading tell the first byte of the field that could not be read or was not known?
pub fn tells_byte(number: u32) -> bool {
    (4..=6).contains(&number)
}

/// The attribute numbers that document 01 names.
pub const NAMED: [u16; 57] = [
    0x012, 0x023, 0x038, 0x055, 0x063, 0x072, 0x083, 0x095, 0x0a3, 0x0b6, 0x0c5, 0x0d6, 0x0f4, 0x106, 0x111,
    0x121, 0x136, 0x142, 0x152, 0x163, 0x193, 0x1a2, 0x1b8, 0x1c3, 0x1c4, 0x1c5, 0x1c6, 0x1c7, 0x1c8, 0x1d2,
    0x1e1, 0x1e5, 0x1e7, 0x1e8, 0x1f3, 0x208, 0x218, 0x222, 0x225, 0x226, 0x227, 0x238, 0x248, 0x258, 0x268,
    0x278, 0x288, 0x298, 0x2a3, 0x2b2, 0x2c6, 0x2e6, 0x2f2, 0x2f5, 0x2f6, 0x2f7, 0x308,
];

/// The rest of the Rust's `AttributeKind` that has a form: the vendor list.
pub fn vendors() -> Vec<u16> {
    let known = |n: &u16| AttributeKind::try_from(*n).is_ok() && (1..=8).contains(&(n % 16));
    (0..=u16::MAX).filter(|n| known(n) && !NAMED.contains(n)).collect()
}

/// The vendor list that the definitions have, `mw_vendors` of the crate `format`.
pub fn preset_vendors() -> Vec<u16> {
    let text = include_str!("../../crates/format/specs/Presets.antt");
    let list =
        text.split("\nmw_vendors =").nth(1).and_then(|rest| rest.split("[]").next()).expect("mw_vendors");
    list.split("0x").skip(1).map(|n| u16::from_str_radix(&n[..4], 16).expect("a number")).collect()
}
