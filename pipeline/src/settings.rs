//! What a section is read with.

/// The order of a number's bytes.
#[derive(Debug, Clone, Copy, PartialEq, Eq)]
pub enum Endian {
    Big,
    Little,
}

/// The compiler that made the section.
#[derive(Debug, Clone, Copy, PartialEq, Eq)]
pub enum Producer {
    Mwcc,
    Gcc,
    Other,
}

/// Four attribute numbers with a meaning of their own; 0 for absent.
#[derive(Debug, Clone, Copy, Default, PartialEq, Eq)]
pub struct Roles {
    pub global_ref: u16,
    pub mangled: u16,
    pub overlay_name: u16,
    pub overlay_id: u16,
}

/// Settings; any that break a rule are refusal 1.
///
/// ```
/// use capbeacon::{Endian, Section, Settings};
/// let mut settings = Settings::mw(Endian::Big);
/// settings.erased = true;
/// assert_eq!(Section::read([], settings.clone()).unwrap().entries().count(), 0);
/// settings.vendors.push(0x2000);
/// assert_eq!(Section::read([], settings).unwrap_err().number, 1);
/// ```
#[derive(Debug, Clone, PartialEq, Eq)]
pub struct Settings {
    /// Of the section; erased entries may have another.
    pub endian: Endian,
    /// Padding is read as erased entries.
    pub erased: bool,
    pub producer: Producer,
    pub roles: Roles,
    /// Attribute numbers that are known beside the format's: at most 64, rising, low four bits 1 to 8.
    pub vendors: Vec<u16>,
    /// The size in bytes of each fundamental type, in the order of their numbers.
    pub sizes: [u32; 28],
}

/// decomp-toolkit's `FundType::size`; the five types for which it has none (long double, three complex ones, label) are 0.
const SIZES: [u32; 28] =
    [2, 1, 1, 1, 2, 2, 2, 4, 4, 4, 4, 4, 4, 4, 4, 8, 0, 0, 0, 0, 1, 0, 0, 8, 8, 8, 16, 8];

/// What decomp-toolkit's `AttributeKind` has beside the format's numbers.
const MW_VENDORS: [u16; 47] = [
    0x0293, 0x0303, 0x2008, 0x2013, 0x2022, 0x2038, 0x2043, 0x2053, 0x2063, 0x2073, 0x2083, 0x2093, 0x20a3,
    0x20b3, 0x20c3, 0x20d3, 0x20e3, 0x20f3, 0x2103, 0x2113, 0x2123, 0x2133, 0x2143, 0x2153, 0x2163, 0x2173,
    0x2183, 0x2193, 0x21a3, 0x21b3, 0x21c3, 0x21d3, 0x2243, 0x2253, 0x2263, 0x2273, 0x2283, 0x2296, 0x22a8,
    0x2303, 0x2314, 0x2338, 0x2343, 0x8006, 0x8016, 0x8041, 0x8051,
];

const MW_ROLES: Roles =
    Roles { global_ref: 0x2022, mangled: 0x2008, overlay_name: 0x22a8, overlay_id: 0x2296 };

impl Settings {
    /// No vendor's numbers and no roles, erased entries left out, sizes of a 32-bit machine.
    pub fn none(endian: Endian) -> Self {
        let (roles, vendors) = (Roles::default(), Vec::new());
        Settings { endian, erased: false, producer: Producer::Other, roles, vendors, sizes: SIZES }
    }

    /// Metrowerks' numbers and roles, as decomp-toolkit knows them; erased entries left out.
    pub fn mw(endian: Endian) -> Self {
        let (roles, vendors) = (MW_ROLES, MW_VENDORS.to_vec());
        Settings { endian, erased: false, producer: Producer::Mwcc, roles, vendors, sizes: SIZES }
    }
}
