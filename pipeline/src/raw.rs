//! The archive's functions as they are declared, and safe calls over them. Nothing else is unsafe. The functions take any numbers and any slices.
use crate::{Endian, Error, Needed, Producer, Settings};

/// The most rows and attributes that are read.
pub const ENTRY_LIMIT: usize = 4096;
pub const ATTRIBUTE_LIMIT: usize = 32768;

/// The words of a row (key, kind, flags, first attribute, number of attributes, key of its unit), of an attribute (number, place of its value), of a place in the tree (depth,
/// parent's row plus one), of a member in a layout (offset, size, place and length of its name), of a structure among all layouts (row, 0 or a refusal's number, size, the
/// refusal's place, first member and how many, place and length of its name).
pub const ROW_WIDTH: usize = 6;
pub const ATTR_WIDTH: usize = 2;
pub const PLACE_WIDTH: usize = 2;
pub const LAID_WIDTH: usize = 4;
pub const STRUCTURE_WIDTH: usize = 8;

/// What stands for no unit.
pub const NO_UNIT: u32 = 0xffff_ffff;

/// The bits of a row's flags.
pub const ERASED: u32 = 1;
pub const ERASED_ROOT: u32 = 2;
pub const LITTLE: u32 = 4;

unsafe extern "C" {
    fn capbeacon_count_debug_section(
        s: *const u8,
        s_len: usize,
        endian: u32,
        erased: u32,
        producer: u32,
        global_ref: u16,
        mangled: u16,
        overlay_name: u16,
        overlay_id: u16,
        vendors: *const u16,
        vendors_len: usize,
        sizes: *const u32,
        sizes_len: usize,
        place: &mut u64,
        row_count: &mut u64,
        attr_count: &mut u64,
        byte: &mut u64,
    ) -> u32;

    fn capbeacon_read_debug_section(
        s: *const u8,
        s_len: usize,
        endian: u32,
        erased: u32,
        producer: u32,
        global_ref: u16,
        mangled: u16,
        overlay_name: u16,
        overlay_id: u16,
        vendors: *const u16,
        vendors_len: usize,
        sizes: *const u32,
        sizes_len: usize,
        rows: *mut u32,
        rows_len: usize,
        attrs: *mut u32,
        attrs_len: usize,
        place: &mut u64,
        row_count: &mut u64,
        attr_count: &mut u64,
        byte: &mut u64,
    ) -> u32;

    fn capbeacon_list_tree(
        s: *const u8,
        s_len: usize,
        endian: u32,
        erased: u32,
        producer: u32,
        global_ref: u16,
        mangled: u16,
        overlay_name: u16,
        overlay_id: u16,
        vendors: *const u16,
        vendors_len: usize,
        sizes: *const u32,
        sizes_len: usize,
        rows: *const u32,
        rows_len: usize,
        attrs: *const u32,
        attrs_len: usize,
        row_count: u64,
        attr_count: u64,
        room: *mut u32,
        room_len: usize,
        place: &mut u64,
        listed: &mut u64,
    ) -> u32;

    fn capbeacon_size_of_key(
        s: *const u8,
        s_len: usize,
        endian: u32,
        erased: u32,
        producer: u32,
        global_ref: u16,
        mangled: u16,
        overlay_name: u16,
        overlay_id: u16,
        vendors: *const u16,
        vendors_len: usize,
        sizes: *const u32,
        sizes_len: usize,
        rows: *const u32,
        rows_len: usize,
        attrs: *const u32,
        attrs_len: usize,
        row_count: u64,
        attr_count: u64,
        key: u32,
        place: &mut u64,
        size: &mut u64,
    ) -> u32;

    fn capbeacon_layout_of_key(
        s: *const u8,
        s_len: usize,
        endian: u32,
        erased: u32,
        producer: u32,
        global_ref: u16,
        mangled: u16,
        overlay_name: u16,
        overlay_id: u16,
        vendors: *const u16,
        vendors_len: usize,
        sizes: *const u32,
        sizes_len: usize,
        rows: *const u32,
        rows_len: usize,
        attrs: *const u32,
        attrs_len: usize,
        row_count: u64,
        attr_count: u64,
        key: u32,
        room: *mut u64,
        room_len: usize,
        place: &mut u64,
        row: &mut u64,
        size: &mut u64,
        members: &mut u64,
    ) -> u32;

    fn capbeacon_all_layouts(
        s: *const u8,
        s_len: usize,
        endian: u32,
        erased: u32,
        producer: u32,
        global_ref: u16,
        mangled: u16,
        overlay_name: u16,
        overlay_id: u16,
        vendors: *const u16,
        vendors_len: usize,
        sizes: *const u32,
        sizes_len: usize,
        rows: *const u32,
        rows_len: usize,
        attrs: *const u32,
        attrs_len: usize,
        row_count: u64,
        attr_count: u64,
        structures: *mut u64,
        structures_len: usize,
        members: *mut u64,
        members_len: usize,
        place: &mut u64,
        structure_count: &mut u64,
        member_count: &mut u64,
    ) -> u32;

    fn capbeacon_process_offset(
        block: *const u8,
        block_len: usize,
        endian: u32,
        place: &mut u64,
        offset: &mut u64,
    ) -> u32;
}

/// What results hold before a call. A refusal leaves them so, but for the counts that 8 needs.
pub const HELD: u64 = 0x5a5a_5a5a_5a5a_5a5a;

/// What stands for no byte.
pub const NO_BYTE: u64 = u64::MAX;

/// A number (0 for given, else the refusal's), the place of a refusal (0 where nothing is refused), the byte that reading tells with 4 to 6, and up to three
/// results.
#[derive(Debug, Clone, Copy, PartialEq, Eq)]
pub struct Answer {
    pub number: u32,
    pub place: u64,
    pub byte: u64,
    pub results: [u64; 3],
}

impl Answer {
    /// Before a call that tells no byte.
    fn open() -> Self {
        Answer { number: 0, place: HELD, byte: NO_BYTE, results: [HELD; 3] }
    }

    /// Before reading, which always writes the byte.
    fn open_reading() -> Self {
        Answer { byte: HELD, ..Answer::open() }
    }

    /// The results, or the refusal; `needed` says which results tell what 8 needs.
    pub fn given(self, needed: impl Fn([u64; 3]) -> Needed) -> Result<[u64; 3], Error> {
        let needed = match self.number {
            0 => return Ok(self.results),
            8 => needed(self.results),
            _ => Needed::default(),
        };
        let byte = (self.byte != NO_BYTE).then_some(self.byte);
        Err(Error { number: self.number, place: self.place, needed, byte })
    }
}

/// A lent table: its words, and how many rows and attributes it has.
#[derive(Debug, Clone, Copy)]
pub struct Table<'a> {
    pub rows: &'a [u32],
    pub attrs: &'a [u32],
    pub row_count: u64,
    pub attr_count: u64,
}

fn endian_of(endian: Endian) -> u32 {
    (endian == Endian::Little) as u32
}

fn producer_of(producer: Producer) -> u32 {
    match producer {
        Producer::Mwcc => 0,
        Producer::Gcc => 1,
        Producer::Other => 2,
    }
}

/// Calls a function of the archive with a section and settings before the arguments that are given.
macro_rules! call {
    ($function:ident, $s:ident, $settings:ident, $($more:expr),* $(,)?) => {
        // SAFETY: each pointer and length is that of a live slice, and what is mutable is lent alone.
        unsafe {
            $function(
                $s.as_ptr(),
                $s.len(),
                endian_of($settings.endian),
                $settings.erased as u32,
                producer_of($settings.producer),
                $settings.roles.global_ref,
                $settings.roles.mangled,
                $settings.roles.overlay_name,
                $settings.roles.overlay_id,
                $settings.vendors.as_ptr(),
                $settings.vendors.len(),
                $settings.sizes.as_ptr(),
                $settings.sizes.len(),
                $($more),*
            )
        }
    };
}

/// How many rows and attributes a section has.
pub fn count(s: &[u8], settings: &Settings) -> Answer {
    let mut answer = Answer::open_reading();
    let [rows, attrs, _] = &mut answer.results;
    let (place, byte) = (&mut answer.place, &mut answer.byte);
    answer.number = call!(capbeacon_count_debug_section, s, settings, place, rows, attrs, byte);
    answer
}

/// The same, and both tables filled.
pub fn read(s: &[u8], settings: &Settings, rows: &mut [u32], attrs: &mut [u32]) -> Answer {
    let mut answer = Answer::open_reading();
    let [row_count, attr_count, _] = &mut answer.results;
    answer.number = call!(
        capbeacon_read_debug_section,
        s,
        settings,
        rows.as_mut_ptr(),
        rows.len(),
        attrs.as_mut_ptr(),
        attrs.len(),
        &mut answer.place,
        row_count,
        attr_count,
        &mut answer.byte,
    );
    answer
}

/// How many rows were listed, each with depth and parent in the room.
pub fn tree(s: &[u8], settings: &Settings, table: Table, room: &mut [u32]) -> Answer {
    let mut answer = Answer::open();
    let [listed, ..] = &mut answer.results;
    answer.number = call!(
        capbeacon_list_tree,
        s,
        settings,
        table.rows.as_ptr(),
        table.rows.len(),
        table.attrs.as_ptr(),
        table.attrs.len(),
        table.row_count,
        table.attr_count,
        room.as_mut_ptr(),
        room.len(),
        &mut answer.place,
        listed,
    );
    answer
}

/// The size of a key's entry.
pub fn size(s: &[u8], settings: &Settings, table: Table, key: u32) -> Answer {
    let mut answer = Answer::open();
    let [size, ..] = &mut answer.results;
    answer.number = call!(
        capbeacon_size_of_key,
        s,
        settings,
        table.rows.as_ptr(),
        table.rows.len(),
        table.attrs.as_ptr(),
        table.attrs.len(),
        table.row_count,
        table.attr_count,
        key,
        &mut answer.place,
        size,
    );
    answer
}

/// Row, size and number of members of a key's entry, the members in the room.
pub fn layout(s: &[u8], settings: &Settings, table: Table, key: u32, room: &mut [u64]) -> Answer {
    let mut answer = Answer::open();
    let [row, size, members] = &mut answer.results;
    answer.number = call!(
        capbeacon_layout_of_key,
        s,
        settings,
        table.rows.as_ptr(),
        table.rows.len(),
        table.attrs.as_ptr(),
        table.attrs.len(),
        table.row_count,
        table.attr_count,
        key,
        room.as_mut_ptr(),
        room.len(),
        &mut answer.place,
        row,
        size,
        members,
    );
    answer
}

/// All layouts; results: structures and members.
pub fn layouts(
    s: &[u8],
    settings: &Settings,
    table: Table,
    structures: &mut [u64],
    members: &mut [u64],
) -> Answer {
    let mut answer = Answer::open();
    let [structure_count, member_count, _] = &mut answer.results;
    answer.number = call!(
        capbeacon_all_layouts,
        s,
        settings,
        table.rows.as_ptr(),
        table.rows.len(),
        table.attrs.as_ptr(),
        table.attrs.len(),
        table.row_count,
        table.attr_count,
        structures.as_mut_ptr(),
        structures.len(),
        members.as_mut_ptr(),
        members.len(),
        &mut answer.place,
        structure_count,
        member_count,
    );
    answer
}

/// The offset that a location block says.
pub fn offset(block: &[u8], endian: Endian) -> Answer {
    let mut answer = Answer::open();
    let [offset, ..] = &mut answer.results;
    // SAFETY: the pointer and the length are those of a live slice.
    answer.number = unsafe {
        capbeacon_process_offset(block.as_ptr(), block.len(), endian_of(endian), &mut answer.place, offset)
    };
    answer
}
