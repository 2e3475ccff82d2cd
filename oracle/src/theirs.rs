//! What the Rust answers: its sections, and its errors and panics as document 01's refusals.
use crate::{
    known::LEVELS,
    plain::ENDLESS,
    util::{
        dwarf::{DwarfInfo, TagKind, TagMap, read_debug_section},
        reader::{Endian, FromReader},
    },
};
use std::{
    io::{self, BufRead, Cursor, Read, Seek, SeekFrom},
    panic::{self, AssertUnwindSafe},
    sync::Mutex,
};

/// What stands for no unit.
pub const NO_UNIT: u32 = u32::MAX;

/// The unit of the entry that has a key, found as a caller of the Rust finds it: backwards from the entry.
pub fn unit_of(tags: &TagMap, key: u32) -> u32 {
    let units = tags.range(..=key).rev().filter(|(_, tag)| tag.kind == TagKind::CompileUnit);
    units.map(|(key, _)| *key).next().unwrap_or(NO_UNIT)
}

/// A section that remembers where the innermost entry and the last field began.
struct Traced<'a> {
    cursor: Cursor<&'a [u8]>,
    /// Its place was asked for since the last read: only `read_tags` asks and then reads four bytes.
    asked: bool,
    entry: u64,
    /// A field is one read; only a text is several, of one byte each.
    field: u64,
    /// How many bytes the last read wanted.
    wanted: usize,
}

impl<'a> Traced<'a> {
    fn new(section: &'a [u8]) -> Self {
        Traced { cursor: Cursor::new(section), asked: false, entry: 0, field: 0, wanted: 0 }
    }
}

impl Read for Traced<'_> {
    fn read(&mut self, bytes: &mut [u8]) -> io::Result<usize> {
        self.cursor.read(bytes)
    }

    fn read_exact(&mut self, bytes: &mut [u8]) -> io::Result<()> {
        let (place, wanted) = (self.cursor.position(), bytes.len());
        if self.asked && wanted == 4 {
            self.entry = place;
        }
        // A number or a length stands before each field of one byte, so one byte after one byte is of the same text.
        if (self.wanted, wanted) != (1, 1) {
            self.field = place;
        }
        (self.asked, self.wanted) = (false, wanted);
        self.cursor.read_exact(bytes)
    }
}

impl BufRead for Traced<'_> {
    fn fill_buf(&mut self) -> io::Result<&[u8]> {
        self.cursor.fill_buf()
    }

    fn consume(&mut self, n: usize) {
        self.cursor.consume(n);
    }
}

impl Seek for Traced<'_> {
    fn seek(&mut self, to: SeekFrom) -> io::Result<u64> {
        self.cursor.seek(to)
    }

    fn stream_position(&mut self) -> io::Result<u64> {
        self.asked = true;
        self.cursor.stream_position()
    }
}

/// What the Rust does: its tags, or the refusal that its error stands for (0 for a panic), the innermost entry's key and the first byte of the last field.
pub fn read(section: &[u8], e: Endian, erased: bool) -> Result<DwarfInfo, (u32, u64, u64)> {
    let mut reader = Traced::new(section);
    let read = AssertUnwindSafe(|| read_debug_section(&mut reader, e, erased));
    let why = match panic::catch_unwind(read) {
        Ok(Ok(info)) => return Ok(info),
        Ok(Err(error)) => match error.to_string().as_str() {
            "Unknown DWARF tag type" => 5,
            "Unknown DWARF attribute type" | "Unknown DWARF form type" => 6,
            _ if error.is::<io::Error>() => 4,
            text => panic!("the Rust fails with {text}"),
        },
        Err(_) => 0,
    };
    Err((why, reader.entry, reader.field))
}

/// The key of the first erased root on a level that we do not allow.
pub fn too_deep(section: &[u8], e: Endian, tags: &TagMap) -> Option<u64> {
    let mut ends = Vec::new();
    for tag in tags.values() {
        let key = tag.key as u64;
        while ends.last().is_some_and(|end| *end <= key) {
            ends.pop();
        }
        if tag.is_erased_root {
            let around = if ends.is_empty() { e } else { tag.data_endian };
            let size = u32::from_reader(&mut &section[tag.key as usize..], around).unwrap();
            ends.push(key + size as u64);
            if ends.len() > LEVELS {
                return Some(key);
            }
        }
    }
    None
}

/// What the last panic said.
static PANIC: Mutex<String> = Mutex::new(String::new());

/// Panics are caught: what they say is kept and not printed.
pub fn keep_panics() {
    panic::set_hook(Box::new(|info| *PANIC.lock().unwrap() = info.to_string()));
}

/// Why the Rust does not answer: document 01's number, or none that could be told.
#[derive(Debug, Clone, PartialEq, Eq)]
pub enum Fault {
    Number(u32),
    Untold(String),
}

/// The number of one text of an error.
fn number_of_text(text: &str) -> Option<u32> {
    let words: Vec<&str> = text.split(' ').take(3).collect();
    let begins = |start: &str| text.starts_with(start);
    Some(match words[..] {
        [_, "is", "not"] => 12,
        ["Unhandled", "location" | "subscript", _] => 17,
        ["Unhandled", "user", "defined"] => 12,
        ["Unhandled", _, "attribute"] => 13,
        ["Unhandled", _, "child"] => 16,
        ["Failed", "to", "locate"] => 11,
        ["ArrayType", "without", "ElementType"] => 17,
        [_, "without", _] => 15,
        _ if begins("Mismatched bit attributes") => 15,
        _ if begins("Invalid fundamental type ID") => 18,
        _ if begins("No discriminant in enum `Modifier`") => 18,
        _ if begins("Invalid array low bound") => 19,
        _ if begins("Unknown array subscript format") => 17,
        _ if begins("Unknown DWARF") => 17,
        _ if begins("Invalid type attribute") => 17,
        _ if begins("failed to fill whole buffer") => 17,
        _ => return None,
    })
}

fn number_of_panic(text: &str) -> u32 {
    if text.contains("add with overflow") || text.contains("multiply with overflow") { 20 } else { 17 }
}

/// What the Rust answers, with its panics caught.
pub fn asked<T>(call: impl FnOnce() -> anyhow::Result<T>) -> Result<T, Fault> {
    asked_by(number_of_text, call)
}

/// The same of a copy, in which an endless walk has become a child that is met nowhere else.
pub fn asked_of_copy<T>(call: impl FnOnce() -> anyhow::Result<T>) -> Result<T, Fault> {
    let endless = format!("child {ENDLESS:?}");
    asked_by(|text| if text.ends_with(&endless) { Some(9) } else { number_of_text(text) }, call)
}

fn asked_by<T>(
    number_of: impl Fn(&str) -> Option<u32>,
    call: impl FnOnce() -> anyhow::Result<T>,
) -> Result<T, Fault> {
    match panic::catch_unwind(AssertUnwindSafe(call)) {
        Ok(Ok(answer)) => Ok(answer),
        Ok(Err(error)) => {
            let texts: Vec<String> = error.chain().map(|e| e.to_string()).collect();
            let number = texts.iter().find_map(|text| number_of(text));
            Err(number.map_or_else(|| Fault::Untold(texts.join(": ")), Fault::Number))
        }
        Err(_) => Err(Fault::Number(number_of_panic(&PANIC.lock().unwrap()))),
    }
}
