//! Our archive, through its C functions, with the settings that complete the Rust's `AttributeKind`.
use crate::{
    known::{ATTRIBUTES, ROWS, preset_vendors, vendors},
    util::{dwarf::AttributeKind, reader::Endian},
};

/// Words of a row (key, kind, flags, first attribute, number of attributes, key of its unit) and of an attribute (number, place of its value).
pub use capbeacon::words::{ATTR_WIDTH as ATTRIBUTE, ROW_WIDTH as ROW};

unsafe extern "C" {
    fn capbeacon_count_debug_section(
        section: *const u8,
        section_len: usize,
        endian: u32,
        erased: u32,
        producer: u32,
        global_ref: u16,
        mangled: u16,
        overlay_name: u16,
        overlay_id: u16,
        vendors: *const u16,
        vendors_len: usize,
        sizes: *const u32,
        sizes_len: usize,
        place: &mut u64,
        row_count: &mut u64,
        attr_count: &mut u64,
        byte: &mut u64,
    ) -> u32;

    fn capbeacon_read_debug_section(
        section: *const u8,
        section_len: usize,
        endian: u32,
        erased: u32,
        producer: u32,
        global_ref: u16,
        mangled: u16,
        overlay_name: u16,
        overlay_id: u16,
        vendors: *const u16,
        vendors_len: usize,
        sizes: *const u32,
        sizes_len: usize,
        rows: *mut u32,
        rows_len: usize,
        attrs: *mut u32,
        attrs_len: usize,
        place: &mut u64,
        row_count: &mut u64,
        attr_count: &mut u64,
        byte: &mut u64,
    ) -> u32;
}

/// What stands for no byte.
pub const NO_BYTE: u64 = u64::MAX;

/// A number (0 for read, else the refusal's), the place of a refusal, the counts read or needed, and the first byte of the field that could not be read.
#[derive(Debug, Default, Clone, Copy, PartialEq, Eq)]
pub struct Answer {
    pub number: u32,
    pub place: u64,
    pub rows: u64,
    pub attrs: u64,
    pub byte: u64,
}

pub struct Reader {
    vendors: Vec<u16>,
    sizes: [u32; 28],
    pub rows: Vec<u32>,
    pub attrs: Vec<u32>,
}

impl Reader {
    /// Lends tables of the largest size, with `fill` in every word.
    pub fn new(fill: u32) -> Self {
        let vendors = vendors();
        assert_eq!(vendors, preset_vendors());
        Reader {
            vendors,
            sizes: [4; 28],
            rows: vec![fill; ROWS * ROW],
            attrs: vec![fill; ATTRIBUTES * ATTRIBUTE],
        }
    }

    pub fn count(&self, section: &[u8], e: Endian, erased: bool) -> Answer {
        let mut answer = Answer::default();
        // SAFETY: each pointer and length is that of a live slice.
        answer.number = unsafe {
            capbeacon_count_debug_section(
                section.as_ptr(),
                section.len(),
                (e == Endian::Little) as u32,
                erased as u32,
                2,
                AttributeKind::MwGlobalRef as u16,
                AttributeKind::MwMangled as u16,
                AttributeKind::MwOverlayName as u16,
                AttributeKind::MwOverlayId as u16,
                self.vendors.as_ptr(),
                self.vendors.len(),
                self.sizes.as_ptr(),
                self.sizes.len(),
                &mut answer.place,
                &mut answer.rows,
                &mut answer.attrs,
                &mut answer.byte,
            )
        };
        answer
    }

    pub fn read(&mut self, section: &[u8], e: Endian, erased: bool) -> Answer {
        let mut answer = Answer::default();
        // SAFETY: each pointer and length is that of a live slice, the two tables are lent alone.
        answer.number = unsafe {
            capbeacon_read_debug_section(
                section.as_ptr(),
                section.len(),
                (e == Endian::Little) as u32,
                erased as u32,
                2,
                AttributeKind::MwGlobalRef as u16,
                AttributeKind::MwMangled as u16,
                AttributeKind::MwOverlayName as u16,
                AttributeKind::MwOverlayId as u16,
                self.vendors.as_ptr(),
                self.vendors.len(),
                self.sizes.as_ptr(),
                self.sizes.len(),
                self.rows.as_mut_ptr(),
                self.rows.len(),
                self.attrs.as_mut_ptr(),
                self.attrs.len(),
                &mut answer.place,
                &mut answer.rows,
                &mut answer.attrs,
                &mut answer.byte,
            )
        };
        answer
    }
}
