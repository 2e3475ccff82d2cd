//! Questions on a block alone, and the Rust's answers as words.
use crate::{
    form::{Words, kind},
    sections::{Rng, Writer},
    theirs::{Fault, asked},
    util::{
        dwarf::{
            FundType, Modifier, Producer, REGISTER_NAMES, TypeKind, parse_producer, print, process_address,
            process_modifiers, process_offset, process_type, process_variable_location,
        },
        reader::Endian,
    },
};

/// Stands for any register that the Rust has no name for.
const NAMELESS: u32 = u32::MAX;

fn little(e: Endian) -> u32 {
    (e == Endian::Little) as u32
}

fn answered<T>(words: &mut Words, found: Result<T, Fault>, fields: impl FnOnce(&mut Words, T)) {
    match found {
        Ok(found) => {
            words.word(1);
            fields(words, found);
        }
        Err(Fault::Number(number)) => {
            words.word(0);
            words.word(number);
        }
        Err(Fault::Untold(text)) => panic!("the Rust fails with {text}"),
    }
}

/// A register's number from its name.
fn register(name: &str) -> u32 {
    match REGISTER_NAMES.iter().position(|n| *n == name) {
        Some(number) => number as u32,
        None if name == "[invalid]" => NAMELESS,
        None => panic!("a register called {name}"),
    }
}

fn hex(digits: &str) -> u32 {
    u32::from_str_radix(digits.strip_prefix("0x").unwrap(), 16).unwrap()
}

/// The Rust's text of a variable's location, taken apart.
fn location(words: &mut Words, text: String) {
    if let Some(address) = text.strip_prefix("@ ") {
        return [1, hex(address)].iter().for_each(|w| words.word(*w));
    }
    match text.split_once('+') {
        Some((name, offset)) => [2, register(name), hex(offset)].iter().for_each(|w| words.word(*w)),
        None => [0, register(&text)].iter().for_each(|w| words.word(*w)),
    }
}

/// The body of a question on a block.
pub fn block(question: u32, block: &[u8], e: Endian) -> Words {
    let mut words = Words::of(&[little(e)]);
    words.bytes(block);
    match question {
        kind::OFFSET => answered(&mut words, asked(|| process_offset(block, e)), |w, n| w.word(n)),
        kind::ADDRESS => answered(&mut words, asked(|| process_address(block, e)), |w, n| w.word(n)),
        kind::LOCATION => answered(&mut words, asked(|| process_variable_location(block, e)), location),
        kind::MODIFIERS => {
            answered(&mut words, asked(|| process_modifiers(block)), |w, all| w.modifiers(&all));
        }
        kind::SUBSCRIPTS => {
            answered(&mut words, asked(|| print::array_subscript_data(block, e)), |w, (of, dimensions)| {
                w.of_type(&of);
                w.word(dimensions.len() as u32);
                for dimension in dimensions {
                    let TypeKind::Fundamental(index) = dimension.index_type.kind else { unreachable!() };
                    w.word(u16::from(index) as u32);
                    w.word(dimension.size.map_or(0, |n| n.get()));
                }
            });
        }
        kind::PRODUCER => {
            let text: String = block.iter().map(|b| *b as char).collect();
            words.word(1);
            words.word(match parse_producer(&text) {
                Producer::MWCC => 0,
                Producer::GCC => 1,
                Producer::OTHER => 2,
            });
        }
        _ => unreachable!("a question on a block"),
    }
    words
}

/// The type that an attribute says whose value has these bytes.
pub fn of_attribute(number: u16, value: &[u8], section: Endian, data: Endian) -> Words {
    let mut words = Words::of(&[little(section) + 2 * little(data), number as u32]);
    words.bytes(value);
    let mut w = Writer::new(section);
    w.number(number as u64, 2, data);
    w.bytes.extend_from_slice(value);
    let found = asked(|| process_type(&print::attribute(&w.bytes, data, section)?, section));
    answered(&mut words, found, |w, of| w.of_type(&of));
    words
}

pub fn fund_type(number: u16) -> Words {
    let mut words = Words::of(&[number as u32]);
    match FundType::parse_int(number) {
        Ok(known) => [1, u16::from(known) as u32].iter().for_each(|w| words.word(*w)),
        Err(_) => [0, 18].iter().for_each(|w| words.word(*w)),
    }
    words
}

pub fn modifier(number: u8) -> Words {
    let mut words = Words::of(&[number as u32]);
    match Modifier::parse_int(number) {
        Ok(known) => [1, u8::from(known) as u32].iter().for_each(|w| words.word(*w)),
        Err(_) => [0, 18].iter().for_each(|w| words.word(*w)),
    }
    words
}

/// The questions that take a block and an endianness.
pub const BLOCK_QUESTIONS: [u32; 6] =
    [kind::OFFSET, kind::ADDRESS, kind::LOCATION, kind::MODIFIERS, kind::SUBSCRIPTS, kind::PRODUCER];

/// A location, mostly of a known shape.
pub fn some_location(rng: &mut Rng, e: Endian) -> Vec<u8> {
    let mut w = Writer::new(e);
    let shapes: [&[u8]; 8] = [&[4, 7], &[4, 7], &[3], &[1], &[2], &[0x80], &[2, 4, 7], &[4, 6, 7]];
    for atom in rng.pick(&shapes) {
        w.bytes.push(*atom);
        if matches!(*atom, 1..=4 | 0x80) {
            let number = rng.some_number();
            w.number(number as u64, 4, e);
        }
    }
    spoiled(rng, w.bytes, 4)
}

/// Bytes changed, cut or added, so many times in a hundred.
pub fn spoiled(rng: &mut Rng, mut bytes: Vec<u8>, percent: usize) -> Vec<u8> {
    if rng.chance(percent) {
        let at = rng.below(bytes.len() + 1);
        match rng.below(3) {
            0 => bytes.truncate(at),
            1 => bytes.insert(at, rng.next() as u8),
            _ if at < bytes.len() => bytes[at] = rng.next() as u8,
            _ => bytes.push(rng.next() as u8),
        }
    }
    bytes
}

/// A number of a fundamental type: mostly a known one.
pub fn some_fund_type(rng: &mut Rng) -> u16 {
    const WITHOUT_SIZE: [u16; 5] = [0x10, 0x11, 0x12, 0x16, 0x17];
    const REST: [u16; 23] = [
        0, 1, 2, 3, 4, 5, 6, 7, 8, 9, 10, 11, 12, 13, 14, 15, 0x14, 0x15, 0x8008, 0x8108, 0x8208, 0xa510,
        0xac00,
    ];
    match rng.below(100) {
        0..2 => rng.pick(&WITHOUT_SIZE),
        2..8 => 0x100 + rng.pick(&REST) % 0x100,
        8..11 => rng.next() as u16,
        _ => rng.pick(&REST),
    }
}

/// Modifiers, mostly known ones.
pub fn some_modifiers(rng: &mut Rng) -> Vec<u8> {
    let many = if rng.chance(2) { 40 } else { 4 };
    (0..rng.below(many))
        .map(|_| match rng.below(100) {
            0..3 => rng.next() as u8,
            3..15 => 0x80 + rng.below(5) as u8,
            _ => rng.below(5) as u8,
        })
        .collect()
}

/// A type attribute in an array's element: number and value, in section endianness.
fn some_element(rng: &mut Rng, w: &mut Writer, reference: u32) {
    let e = w.e;
    let number =
        if rng.chance(3) { rng.pick(&[0x38, 0x12, 0x23, 0xf4, 0x2008, 0x1e7]) } else { rng.pick(&TYPES) };
    let value = if number == 0x55 { some_fund_type(rng) as u64 } else { reference as u64 };
    let bytes = some_type_block(rng, number, reference, e);
    w.attribute(e, number, value, &bytes);
}

pub const TYPES: [u16; 4] = [0x55, 0x63, 0x72, 0x83];

/// The block of a modified type.
pub fn some_type_block(rng: &mut Rng, number: u16, reference: u32, e: Endian) -> Vec<u8> {
    let mut w = Writer::new(e);
    w.bytes = some_modifiers(rng);
    match number {
        0x63 => w.number(some_fund_type(rng) as u64, 2, e),
        _ => w.number(reference as u64, 4, e),
    }
    spoiled(rng, w.bytes, 3)
}

/// Subscripts, and where the reference of the element type stands, if there is one.
pub fn some_subscripts(rng: &mut Rng, e: Endian, reference: u32) -> (Vec<u8>, Option<usize>) {
    let mut w = Writer::new(e);
    let dimensions = if rng.chance(2) { rng.below(40) } else { rng.below(4) };
    for _ in 0..dimensions {
        let format = if rng.chance(2) { rng.below(12) as u8 } else { rng.below(2) as u8 };
        w.bytes.push(format);
        let index = if rng.chance(3) { 0x107 } else { some_fund_type(rng) };
        w.number(index as u64, 2, e);
        w.number(if rng.chance(2) { 1 } else { 0 }, 4, e);
        if format == 1 {
            let mut inner = Writer::new(e);
            inner.bytes.push(4);
            inner.number(rng.some_number() as u64, 4, e);
            inner.bytes.push(7);
            let location = if rng.chance(15) { Vec::new() } else { spoiled(rng, inner.bytes, 4) };
            w.number(location.len() as u64, 2, e);
            w.bytes.extend_from_slice(&location);
        } else {
            w.number(rng.some_number() as u64, 4, e);
        }
    }
    let mut place = None;
    for _ in 0..if rng.chance(95) { 1 } else { rng.below(3) } {
        w.bytes.push(8);
        some_element(rng, &mut w, reference);
        let end = w.bytes.len();
        place = (end >= 4).then(|| end - 4);
    }
    let whole = w.bytes.len();
    let bytes = spoiled(rng, w.bytes, 4);
    let place = if bytes.len() == whole { place } else { None };
    (bytes, place)
}
