//! A section that was read.
use std::{cmp::Ordering, fmt};

use crate::{
    Endian, Error, Needed, Settings,
    raw::{self, Answer, Table},
};

/// The first attribute of this number names a unit.
const NAME: u16 = 0x38;

/// The tag of a unit, and those that the room for all layouts is counted by.
const COMPILE_UNIT: u16 = 0x11;
const CLASS_TYPE: u32 = 0x02;
const MEMBER: u32 = 0x0d;
const STRUCTURE_TYPE: u32 = 0x13;

/// A section's bytes with the tables that were read from them.
#[derive(Debug, Clone)]
pub struct Section {
    bytes: Vec<u8>,
    settings: Settings,
    rows: Vec<u32>,
    attrs: Vec<u32>,
    row_count: usize,
    attr_count: usize,
}

/// An entry: the place where it begins, its tag, its flags, the key of its unit.
#[derive(Clone, Copy)]
pub struct Entry<'a> {
    pub row: usize,
    pub key: u32,
    pub tag: u16,
    pub flags: Flags,
    /// The nearest entry at or before this one that is a compile unit; none before the first.
    pub unit: Option<u32>,
    section: &'a Section,
    first: usize,
    count: usize,
}

/// A compile unit: its row, its key and its name, the source file (empty if it has none).
#[derive(Debug, Clone, Copy, PartialEq, Eq)]
pub struct Unit<'a> {
    pub row: usize,
    pub key: u32,
    pub name: &'a [u8],
}

/// Whether an entry is erased, is an erased root, and whether its data is little-endian.
#[derive(Debug, Clone, Copy, PartialEq, Eq)]
pub struct Flags {
    pub erased: bool,
    pub erased_root: bool,
    pub little: bool,
}

/// An attribute: its number, whose low four bits are its form, and its value.
#[derive(Debug, Clone, Copy, PartialEq, Eq)]
pub struct Attribute<'a> {
    pub number: u16,
    pub value: Value<'a>,
}

/// A value of one of the eight forms; blocks and texts (without their zero) are parts of the section.
#[derive(Debug, Clone, Copy, PartialEq, Eq)]
pub enum Value<'a> {
    Address(u32),
    Reference(u32),
    Block(&'a [u8]),
    Data2(u16),
    Data4(u32),
    Data8(u64),
    Text(&'a [u8]),
}

/// Where a row stands in the tree.
#[derive(Debug, Clone, Copy, PartialEq, Eq)]
pub struct Place {
    pub row: usize,
    pub depth: u32,
    /// The row that holds it.
    pub parent: Option<usize>,
}

/// The layout of a structure or class, its members in walk order.
#[derive(Debug, Clone, PartialEq, Eq)]
pub struct Layout<'a> {
    pub row: usize,
    pub size: u32,
    pub members: Vec<Member<'a>>,
}

/// A member of a layout; its name is empty if it has none.
#[derive(Debug, Clone, Copy, PartialEq, Eq)]
pub struct Member<'a> {
    pub offset: u32,
    pub size: u32,
    pub name: &'a [u8],
}

/// A structure or class among all layouts: its row, its name (empty if it has none), its unit, its layout or why it has none. Two of one name are told apart
/// by their units.
#[derive(Debug, Clone, PartialEq, Eq)]
pub struct Structure<'a> {
    pub row: usize,
    pub name: &'a [u8],
    pub unit: Option<Unit<'a>>,
    pub layout: Result<Layout<'a>, Error>,
}

impl Section {
    /// Reads a section, or says why it cannot be read.
    ///
    /// ```
    /// use capbeacon::{Endian, Section, Settings};
    /// let section = Section::read([0, 0, 0, 4, 0, 0, 0, 4], Settings::none(Endian::Big))?;
    /// assert_eq!(section.entries().map(|e| e.key).collect::<Vec<_>>(), [0, 4]);
    /// # Ok::<(), capbeacon::Error>(())
    /// ```
    pub fn read(bytes: impl Into<Vec<u8>>, settings: Settings) -> Result<Self, Error> {
        let bytes = bytes.into();
        let needed = |[rows, attributes, _]: [u64; 3]| Needed { rows, attributes, ..Needed::default() };
        let [rows, attrs, _] = raw::count(&bytes, &settings).given(needed)?;
        // Reading refuses (8) what is past the limits, so no more is lent.
        let mut rows = vec![0; raw::ROW_WIDTH * raw::ENTRY_LIMIT.min(rows as usize)];
        let mut attrs = vec![0; raw::ATTR_WIDTH * raw::ATTRIBUTE_LIMIT.min(attrs as usize)];
        let [row_count, attr_count, _] =
            raw::read(&bytes, &settings, &mut rows, &mut attrs).given(needed)?.map(|n| n as usize);
        Ok(Section { bytes, settings, rows, attrs, row_count, attr_count })
    }

    pub fn bytes(&self) -> &[u8] {
        &self.bytes
    }

    pub fn settings(&self) -> &Settings {
        &self.settings
    }

    /// The entries in file order.
    ///
    /// ```
    /// use capbeacon::{Endian, Section, Settings, Value};
    /// // A subroutine with the name AB.
    /// let bytes = [0, 0, 0, 11, 0, 0x14, 0, 0x38, b'A', b'B', 0];
    /// let section = Section::read(bytes, Settings::none(Endian::Big))?;
    /// let entry = section.entries().next().unwrap();
    /// let name = entry.attributes().next().unwrap();
    /// assert_eq!((entry.tag, name.number, name.value), (0x14, 0x38, Value::Text(b"AB")));
    /// # Ok::<(), capbeacon::Error>(())
    /// ```
    pub fn entries(&self) -> impl Iterator<Item = Entry<'_>> {
        (0..self.row_count).filter_map(|row| self.entry(row))
    }

    /// The compile units in file order, each with the name of its source file.
    ///
    /// ```
    /// use capbeacon::{Endian, Section, Settings};
    /// // A null entry, a compile unit with the name AB, and a null entry in it.
    /// let bytes = [0, 0, 0, 4, 0, 0, 0, 11, 0, 0x11, 0, 0x38, b'A', b'B', 0, 0, 0, 0, 4];
    /// let section = Section::read(bytes, Settings::none(Endian::Big))?;
    /// assert_eq!(section.units().map(|unit| (unit.key, unit.name)).collect::<Vec<_>>(), [(4, &b"AB"[..])]);
    /// assert_eq!(section.entries().map(|entry| entry.unit).collect::<Vec<_>>(), [None, Some(4), Some(4)]);
    /// # Ok::<(), capbeacon::Error>(())
    /// ```
    pub fn units(&self) -> impl Iterator<Item = Unit<'_>> {
        self.entries().filter(|entry| entry.tag == COMPILE_UNIT).map(|entry| entry.as_unit())
    }

    /// The unit of the entry that has a key: which source file it came from. None where it stands before the first unit; refusal 11 where no entry has
    /// the key.
    ///
    /// ```
    /// use capbeacon::{Endian, Section, Settings};
    /// // A null entry, a compile unit with the name AB, and a null entry in it.
    /// let bytes = [0, 0, 0, 4, 0, 0, 0, 11, 0, 0x11, 0, 0x38, b'A', b'B', 0, 0, 0, 0, 4];
    /// let section = Section::read(bytes, Settings::none(Endian::Big))?;
    /// assert_eq!(section.unit_of(0)?, None);
    /// assert_eq!(section.unit_of(15)?.map(|unit| unit.name), Some(&b"AB"[..]));
    /// assert_eq!(section.unit_of(5).unwrap_err().number, 11);
    /// # Ok::<(), capbeacon::Error>(())
    /// ```
    pub fn unit_of(&self, key: u32) -> Result<Option<Unit<'_>>, Error> {
        let missing = Error { number: 11, place: key.into(), needed: Needed::default(), byte: None };
        let entry = self.entry_of(key).ok_or(missing)?;
        Ok(self.unit_in(&entry))
    }

    /// The unit that an entry says it is in.
    fn unit_in(&self, entry: &Entry<'_>) -> Option<Unit<'_>> {
        Some(self.entry_of(entry.unit?)?.as_unit())
    }

    fn entry(&self, row: usize) -> Option<Entry<'_>> {
        let words = self.rows.get(raw::ROW_WIDTH * row..)?.get(..raw::ROW_WIDTH)?;
        let [key, kind, flags, first, count, unit] = <[u32; raw::ROW_WIDTH]>::try_from(words).ok()?;
        let flags = Flags {
            erased: flags & raw::ERASED != 0,
            erased_root: flags & raw::ERASED_ROOT != 0,
            little: flags & raw::LITTLE != 0,
        };
        let (first, count) = (first as usize, count as usize);
        let unit = (unit != raw::NO_UNIT).then_some(unit);
        Some(Entry { row, key, tag: kind as u16, flags, unit, section: self, first, count })
    }

    /// The entry that has a key; keys rise.
    fn entry_of(&self, key: u32) -> Option<Entry<'_>> {
        let (mut low, mut high) = (0, self.row_count);
        while low < high {
            let middle = low + (high - low) / 2;
            let entry = self.entry(middle)?;
            match entry.key.cmp(&key) {
                Ordering::Less => low = middle + 1,
                Ordering::Equal => return Some(entry),
                Ordering::Greater => high = middle,
            }
        }
        None
    }

    /// Depth and parent of every row, in file order; refused where references do not nest.
    ///
    /// ```
    /// use capbeacon::{Endian, Section, Settings};
    /// let section = Section::read([0, 0, 0, 4], Settings::none(Endian::Big))?;
    /// let place = section.tree()?[0];
    /// assert_eq!((place.depth, place.parent), (0, None));
    /// # Ok::<(), capbeacon::Error>(())
    /// ```
    pub fn tree(&self) -> Result<Vec<Place>, Error> {
        let mut room = vec![0; raw::PLACE_WIDTH * self.row_count];
        let answer = raw::tree(&self.bytes, &self.settings, self.table(), &mut room);
        answer.given(|[rows, ..]| Needed { rows, ..Needed::default() })?;
        let place = |(row, words): (usize, &[u32])| {
            let [depth, parent] = <[u32; raw::PLACE_WIDTH]>::try_from(words).ok()?;
            Some(Place { row, depth, parent: (parent as usize).checked_sub(1) })
        };
        Ok(room.chunks_exact(raw::PLACE_WIDTH).enumerate().filter_map(place).collect())
    }

    /// The size in bytes of the entry that has a key.
    ///
    /// ```
    /// use capbeacon::{Endian, Section, Settings};
    /// // A structure with a ByteSize of 12.
    /// let bytes = [0, 0, 0, 12, 0, 0x13, 0, 0xb6, 0, 0, 0, 12];
    /// assert_eq!(Section::read(bytes, Settings::none(Endian::Big))?.size(0)?, 12);
    /// # Ok::<(), capbeacon::Error>(())
    /// ```
    pub fn size(&self, key: u32) -> Result<u32, Error> {
        let answer = raw::size(&self.bytes, &self.settings, self.table(), key);
        let [size, ..] = answer.given(|_| Needed::default())?;
        Ok(size as u32)
    }

    /// The layout of the structure or class that has a key.
    ///
    /// ```
    /// use capbeacon::{Endian, Section, Settings};
    /// // An empty structure with a ByteSize of 12.
    /// let bytes = [0, 0, 0, 12, 0, 0x13, 0, 0xb6, 0, 0, 0, 12];
    /// let section = Section::read(bytes, Settings::none(Endian::Big))?;
    /// let layout = section.layout(0)?;
    /// assert_eq!((layout.size, layout.members.len()), (12, 0));
    /// # Ok::<(), capbeacon::Error>(())
    /// ```
    pub fn layout(&self, key: u32) -> Result<Layout<'_>, Error> {
        // A structure has fewer members than there are rows.
        let mut room = vec![0; raw::LAID_WIDTH * self.row_count];
        let answer = raw::layout(&self.bytes, &self.settings, self.table(), key, &mut room);
        let [row, size, count] = answer.given(|[_, _, members]| Needed { members, ..Needed::default() })?;
        let words = room.chunks_exact(raw::LAID_WIDTH).take(count as usize);
        let members = words.filter_map(|words| self.member(words)).collect();
        Ok(Layout { row: row as usize, size: size as u32, members })
    }

    /// The layouts of all structures and classes in file order; one that is refused does not stop the rest.
    ///
    /// ```
    /// use capbeacon::{Endian, Section, Settings};
    /// // An empty structure with a ByteSize of 12.
    /// let bytes = [0, 0, 0, 12, 0, 0x13, 0, 0xb6, 0, 0, 0, 12];
    /// let section = Section::read(bytes, Settings::none(Endian::Big))?;
    /// let layouts = section.layouts()?;
    /// assert_eq!((layouts.len(), layouts[0].row, layouts[0].layout.as_ref().unwrap().size), (1, 0, 12));
    /// # Ok::<(), capbeacon::Error>(())
    /// ```
    pub fn layouts(&self) -> Result<Vec<Structure<'_>>, Error> {
        let needed = |[structures, members, _]: [u64; 3]| Needed { structures, members, ..Needed::default() };
        let ask = |structures: &mut [u64], members: &mut [u64]| {
            raw::layouts(&self.bytes, &self.settings, self.table(), structures, members)
        };
        let tags = self.rows.chunks_exact(raw::ROW_WIDTH).take(self.row_count).map(|words| words[1]);
        let count = |[structures, members]: [usize; 2], tag| match tag {
            CLASS_TYPE | STRUCTURE_TYPE => [structures + 1, members],
            MEMBER => [structures, members + 1],
            _ => [structures, members],
        };
        let [structures, members] = tags.fold([0; 2], count);
        let mut structures = vec![0; raw::STRUCTURE_WIDTH * structures];
        let mut members = vec![0; raw::LAID_WIDTH * members];
        let mut answer = ask(&mut structures, &mut members);
        // References can make one row a member of several structures; more than the rows' own counts are asked for only then.
        if let Answer { number: 8, results: [_, count, _], .. } = answer {
            members.resize(raw::LAID_WIDTH * count as usize, 0);
            answer = ask(&mut structures, &mut members);
        }
        let [count, ..] = answer.given(needed)?;
        let words = structures.chunks_exact(raw::STRUCTURE_WIDTH).take(count as usize);
        Ok(words.filter_map(|words| self.structure(words, &members)).collect())
    }

    fn structure(&self, words: &[u64], members: &[u64]) -> Option<Structure<'_>> {
        let words = <[u64; raw::STRUCTURE_WIDTH]>::try_from(words).ok()?;
        let [row, number, size, place, first, count, at, length] = words;
        let (row, name) = (row as usize, part(&self.bytes, at as usize, length as usize)?);
        let unit = self.unit_in(&self.entry(row)?);
        if number != 0 {
            let error = Error { number: number as u32, place, needed: Needed::default(), byte: None };
            return Some(Structure { row, name, unit, layout: Err(error) });
        }
        let members = members.chunks_exact(raw::LAID_WIDTH).skip(first as usize).take(count as usize);
        let members = members.filter_map(|words| self.member(words)).collect();
        Some(Structure { row, name, unit, layout: Ok(Layout { row, size: size as u32, members }) })
    }

    fn member(&self, words: &[u64]) -> Option<Member<'_>> {
        let [offset, size, at, length] = <[u64; raw::LAID_WIDTH]>::try_from(words).ok()?;
        let name = part(&self.bytes, at as usize, length as usize)?;
        Some(Member { offset: offset as u32, size: size as u32, name })
    }

    fn table(&self) -> Table<'_> {
        let (row_count, attr_count) = (self.row_count as u64, self.attr_count as u64);
        Table { rows: &self.rows, attrs: &self.attrs, row_count, attr_count }
    }
}

/// Without the section.
impl fmt::Debug for Entry<'_> {
    fn fmt(&self, f: &mut fmt::Formatter<'_>) -> fmt::Result {
        let Entry { row, key, tag, flags, unit, .. } = self;
        let mut entry = f.debug_struct("Entry");
        entry.field("row", row).field("key", key).field("tag", tag).field("flags", flags).field("unit", unit);
        entry.finish_non_exhaustive()
    }
}

impl<'a> Entry<'a> {
    /// An entry that is a unit, with its name.
    fn as_unit(&self) -> Unit<'a> {
        let name = match self.attributes().find(|attribute| attribute.number == NAME) {
            Some(Attribute { value: Value::Text(name), .. }) => name,
            _ => &[],
        };
        Unit { row: self.row, key: self.key, name }
    }

    /// The entry's attributes in file order.
    pub fn attributes(&self) -> impl Iterator<Item = Attribute<'a>> + use<'a> {
        let Entry { section, flags, first, count, .. } = *self;
        let data = if flags.little { Endian::Little } else { Endian::Big };
        let words = section.attrs.chunks_exact(raw::ATTR_WIDTH).skip(first).take(count);
        // What was read lies inside the section, so none is left out.
        words.filter_map(move |words| {
            let [number, at] = <[u32; raw::ATTR_WIDTH]>::try_from(words).ok()?;
            let number = number as u16;
            let value = value_at(&section.bytes, number, at as usize, section.settings.endian, data)?;
            Some(Attribute { number, value })
        })
    }
}

/// The bytes from a place on, where they are all there.
fn part(s: &[u8], at: usize, length: usize) -> Option<&[u8]> {
    s.get(at..)?.get(..length)
}

fn two(s: &[u8], at: usize, e: Endian) -> Option<u16> {
    let bytes = part(s, at, 2)?.try_into().ok()?;
    Some(if e == Endian::Big { u16::from_be_bytes(bytes) } else { u16::from_le_bytes(bytes) })
}

fn four(s: &[u8], at: usize, e: Endian) -> Option<u32> {
    let bytes = part(s, at, 4)?.try_into().ok()?;
    Some(if e == Endian::Big { u32::from_be_bytes(bytes) } else { u32::from_le_bytes(bytes) })
}

fn eight(s: &[u8], at: usize, e: Endian) -> Option<u64> {
    let bytes = part(s, at, 8)?.try_into().ok()?;
    Some(if e == Endian::Big { u64::from_be_bytes(bytes) } else { u64::from_le_bytes(bytes) })
}

/// What an attribute says: addresses and references in section endianness, all else in the entry's.
fn value_at(s: &[u8], number: u16, at: usize, section: Endian, data: Endian) -> Option<Value<'_>> {
    Some(match number % 16 {
        1 => Value::Address(four(s, at, section)?),
        2 => Value::Reference(four(s, at, section)?),
        3 => Value::Block(part(s, at + 2, two(s, at, data)? as usize)?),
        4 => Value::Block(part(s, at + 4, four(s, at, data)? as usize)?),
        5 => Value::Data2(two(s, at, data)?),
        6 => Value::Data4(four(s, at, data)?),
        7 => Value::Data8(eight(s, at, data)?),
        8 => Value::Text(s.get(at..)?.split(|b| *b == 0).next()?),
        _ => return None,
    })
}
