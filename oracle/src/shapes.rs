//! Sections that mean something: structures with members, unions, enumerations, arrays, chains of typedefs, variables, labels, overlay branches, units.
use crate::{
    blocks::{TYPES, some_fund_type, some_location, some_subscripts, some_type_block, spoiled},
    sections::{Maker, Rng, Writer},
    util::reader::Endian,
};

/// The entry that a reference is to name, once all entries have their places.
#[derive(Clone, Copy)]
enum Want {
    Type,
    Typedef,
    Any,
}

/// One attribute of an entry.
#[derive(Clone, Copy)]
enum Field {
    Name,
    Type,
    Offset,
    Address,
    ByteSize,
    BitSize,
    BitOffset,
    Visibility,
    Member,
    Containing,
    LowPc,
    HighPc,
    Specification,
    ElementList,
    Subscripts,
    Mangled,
    OverlayName,
    OverlayId,
    Other,
}

/// The attributes of an entry of each tag, each so many times in a hundred.
fn fields_of(tag: u16) -> &'static [(Field, usize)] {
    use Field::*;
    match tag {
        0x0d => &[
            (Name, 80),
            (Type, 97),
            (Offset, 97),
            (ByteSize, 20),
            (BitSize, 14),
            (BitOffset, 14),
            (Visibility, 30),
            (Member, 10),
        ],
        0x13 | 0x02 => &[(Name, 70), (ByteSize, 45), (Member, 5)],
        0x17 => &[(Name, 70), (ByteSize, 95), (Member, 5)],
        0x04 => &[(Name, 60), (ByteSize, 97), (ElementList, 90), (Member, 5)],
        0x16 => &[(Name, 90), (Type, 80), (Specification, 25), (Member, 5)],
        0x01 => &[(Subscripts, 96)],
        0x1f => &[(Type, 95), (Containing, 95)],
        0x07 | 0x0c => &[(Name, 80), (Mangled, 40), (Type, 95), (Address, 60), (Member, 10)],
        0x0a => &[(Name, 95), (LowPc, 95)],
        0x4080 => &[(OverlayName, 95), (OverlayId, 95), (LowPc, 95), (HighPc, 95), (Member, 50), (Name, 20)],
        0x05 => &[(Name, 70), (Type, 95)],
        0x11 => &[(Name, 90), (Other, 20)],
        0x15 | 0x06 | 0x14 => &[(Name, 60), (Type, 50)],
        _ => &[(Name, 40), (Type, 30), (Other, 20)],
    }
}

/// A section in the making.
struct Draft {
    w: Writer,
    /// Places of references and what they are to name.
    wants: Vec<(usize, Want)>,
    /// Places of all references.
    references: Vec<usize>,
    /// Key and tag of each entry.
    entries: Vec<(u32, u16)>,
}

/// A section, where its references stand, and its entries' keys.
pub struct Shape {
    pub w: Writer,
    references: Vec<usize>,
    keys: Vec<u32>,
}

/// Makes sections.
pub struct Shaper {
    pub maker: Maker,
}

impl Draft {
    fn new(e: Endian) -> Self {
        Draft { w: Writer::new(e), wants: Vec::new(), references: Vec::new(), entries: Vec::new() }
    }

    fn begin(&mut self, data: Endian, tag: u16) -> usize {
        let start = self.w.bytes.len();
        self.w.marks.extend([start, start + 4]);
        self.entries.push((start as u32, tag));
        self.w.number(0, 4, data);
        self.w.number(tag as u64, 2, data);
        start
    }

    fn put(&mut self, at: usize, value: u32, e: Endian) {
        let bytes = match e {
            Endian::Big => value.to_be_bytes(),
            Endian::Little => value.to_le_bytes(),
        };
        self.w.bytes[at..at + 4].copy_from_slice(&bytes);
    }

    fn end(&mut self, data: Endian, start: usize) {
        // A size below 8 would be a null entry.
        while self.w.bytes.len() - start < 8 {
            self.w.attribute(data, 0x278, 0, &[]);
        }
        self.put(start, (self.w.bytes.len() - start) as u32, data);
    }

    /// A reference, and its place.
    fn reference(&mut self, data: Endian, number: u16) -> usize {
        self.w.attribute(data, number, 0, &[]);
        self.references.push(self.w.bytes.len() - 4);
        self.w.bytes.len() - 4
    }

    fn null(&mut self, data: Endian) {
        self.w.marks.push(self.w.bytes.len());
        self.w.number(4, 4, data);
    }

    /// A place that is to hold the key of where the next entry begins.
    fn names_next(&mut self, at: Option<usize>) {
        if let Some(at) = at {
            self.put(at, self.w.bytes.len() as u32, self.w.e);
        }
    }
}

impl Shaper {
    pub fn new(seed: u64) -> Self {
        Shaper { maker: Maker::new(seed) }
    }

    fn rng(&mut self) -> &mut Rng {
        &mut self.maker.rng
    }

    fn text(&mut self) -> Vec<u8> {
        let n = if self.rng().chance(2) { 300 } else { self.rng().below(9) };
        (0..n).map(|_| if self.rng().chance(5) { 0xe9 } else { b'a' + self.rng().below(26) as u8 }).collect()
    }

    fn type_attribute(&mut self, d: &mut Draft, data: Endian) {
        let e = d.w.e;
        match self.rng().pick(&TYPES) {
            0x55 => {
                let number = some_fund_type(self.rng());
                d.w.attribute(data, 0x55, number as u64, &[]);
            }
            0x72 => {
                let at = d.reference(data, 0x72);
                d.wants.push((at, Want::Type));
            }
            number => {
                let block = some_type_block(self.rng(), number, 0, e);
                d.w.attribute(data, number, 0, &block);
                if number == 0x83 && block.len() >= 4 {
                    d.wants.push((d.w.bytes.len() - 4, Want::Type));
                }
            }
        }
    }

    /// Values are in section endianness, of the width that the last ByteSize should say.
    fn element_list(&mut self, d: &mut Draft, data: Endian, width: u32) {
        let e = d.w.e;
        let mut list = Writer::new(e);
        let n = if self.rng().chance(2) { 200 } else { self.rng().below(6) };
        for _ in 0..n {
            let value = if self.rng().chance(50) { self.rng().next() } else { self.rng().below(9) as u64 };
            list.number(value, if width > 4 { 0 } else { width as usize }, e);
            list.bytes.extend(self.text());
            list.bytes.push(0);
        }
        let block = spoiled(self.rng(), list.bytes, 4);
        d.w.attribute(data, 0xf4, 0, &block);
    }

    fn subscripts(&mut self, d: &mut Draft, data: Endian) {
        let e = d.w.e;
        let (block, place) = some_subscripts(self.rng(), e, 0);
        d.w.attribute(data, 0xa3, 0, &block);
        // Where the last element type names an entry, its reference stands last.
        let names = |number: u16| {
            let at = block.len().checked_sub(6)?;
            let found = match e {
                Endian::Big => u16::from_be_bytes([block[at], block[at + 1]]),
                Endian::Little => u16::from_le_bytes([block[at], block[at + 1]]),
            };
            (found == number).then_some(())
        };
        if place.is_some() && names(0x72).is_some() {
            d.wants.push((d.w.bytes.len() - 4, Want::Type));
        }
    }

    /// A location of these atoms, the first with an operand; now and then another one, or a spoiled one.
    fn location(&mut self, d: &mut Draft, data: Endian, atoms: &[u8], operand: u32) {
        let e = d.w.e;
        let mut block = Writer::new(e);
        block.bytes.push(atoms[0]);
        block.number(operand as u64, 4, e);
        block.bytes.extend_from_slice(&atoms[1..]);
        let block = match self.rng().below(100) {
            0..2 => some_location(self.rng(), e),
            _ => spoiled(self.rng(), block.bytes, 2),
        };
        d.w.attribute(data, 0x23, 0, &block);
    }

    fn field(&mut self, d: &mut Draft, data: Endian, field: Field, width: u32) {
        let text = self.text();
        let number = self.rng().some_number();
        match field {
            Field::Name => d.w.attribute(data, 0x38, 0, &text),
            Field::Type => self.type_attribute(d, data),
            Field::Offset => self.location(d, data, &[4, 7], number),
            Field::Address => self.location(d, data, &[3], number),
            Field::ByteSize => d.w.attribute(data, 0xb6, width as u64, &[]),
            Field::BitSize => d.w.attribute(data, 0xd6, number as u64, &[]),
            Field::BitOffset => d.w.attribute(data, 0xc5, number as u64 % 0x1_0000, &[]),
            Field::Visibility => {
                let number = self.rng().pick(&[0x248, 0x268, 0x288]);
                d.w.attribute(data, number, 0, &text[..text.len().min(1)]);
            }
            Field::Member => self.wanted(d, data, 0x142, Want::Any),
            Field::Containing => self.wanted(d, data, 0x1d2, Want::Type),
            Field::LowPc => d.w.attribute(data, 0x111, number as u64, &[]),
            Field::HighPc => d.w.attribute(data, 0x121, number as u64, &[]),
            Field::Specification => self.wanted(d, data, 0x2b2, Want::Typedef),
            Field::ElementList => self.element_list(d, data, width),
            Field::Subscripts => self.subscripts(d, data),
            Field::Mangled => d.w.attribute(data, 0x2008, 0, &text),
            Field::OverlayName => d.w.attribute(data, 0x22a8, 0, &text),
            Field::OverlayId => d.w.attribute(data, 0x2296, number as u64, &[]),
            Field::Other => self.maker.any_attribute(&mut d.w, data),
        }
    }

    fn wanted(&mut self, d: &mut Draft, data: Endian, number: u16, want: Want) {
        let at = d.reference(data, number);
        d.wants.push((at, want));
    }

    /// The attributes of an entry: each of its kind by chance, some twice, some in another order, some that do not belong there.
    fn fields(&mut self, d: &mut Draft, data: Endian, tag: u16) {
        let mut fields: Vec<Field> = Vec::new();
        for (field, percent) in fields_of(tag) {
            if self.rng().chance(*percent) {
                fields.push(*field);
            }
            if self.rng().chance(2) {
                fields.push(*field);
            }
        }
        // A bit size mostly comes with a bit offset.
        if tag == 0x0d && self.rng().chance(90) {
            let bits = |f: &Field| matches!(f, Field::BitSize | Field::BitOffset);
            if fields.iter().filter(|f| bits(f)).count() == 1 {
                fields.retain(|f| !bits(f));
            }
        }
        if self.rng().chance(2) {
            fields.push(Field::Other);
        }
        if self.rng().chance(20) {
            for i in (1..fields.len()).rev() {
                let j = self.rng().below(i + 1);
                fields.swap(i, j);
            }
        }
        let width = match tag {
            0x04 => self.rng().pick(&[1, 2, 4, 1, 2, 4, 4, 4, 0, 3, 8]),
            _ => self.rng().some_number(),
        };
        fields.into_iter().for_each(|field| self.field(d, data, field, width));
    }

    /// An entry without children. Its sibling, where it names one, is the next entry.
    fn leaf(&mut self, d: &mut Draft, data: Endian, tag: u16) {
        let start = d.begin(data, tag);
        let sibling = self.rng().chance(25).then(|| d.reference(data, 0x12));
        self.fields(d, data, tag);
        d.end(data, start);
        d.names_next(sibling);
    }

    /// An entry with children, mostly of these tags, and a null that ends them.
    fn parent(&mut self, d: &mut Draft, data: Endian, tag: u16, children: &[u16], levels: usize) {
        let start = d.begin(data, tag);
        let sibling = self.rng().chance(97).then(|| d.reference(data, 0x12));
        self.fields(d, data, tag);
        d.end(data, start);
        let most = if self.rng().chance(2) { 40 } else { 5 };
        for _ in 0..self.rng().below(most) {
            if self.rng().chance(6) && levels > 0 {
                self.entry(d, data, levels - 1);
            } else {
                let tag = self.rng().pick(children);
                self.leaf(d, data, tag);
            }
        }
        if self.rng().chance(90) {
            d.null(data);
        }
        d.names_next(sibling);
    }

    fn entry(&mut self, d: &mut Draft, data: Endian, levels: usize) {
        match self.rng().below(108) {
            0..20 => self.parent(d, data, 0x13, &[0x0d], levels),
            20..25 => self.parent(d, data, 0x02, &[0x0d, 0x0d, 0x0d, 0x1c, 0x07, 0x16], levels),
            25..35 => self.parent(d, data, 0x17, &[0x0d], levels),
            35..46 => self.leaf(d, data, 0x04),
            46..57 => self.leaf(d, data, 0x16),
            57..69 => self.leaf(d, data, 0x01),
            69..75 => self.leaf(d, data, 0x1f),
            75..81 => self.leaf(d, data, 0x07),
            81..85 => self.leaf(d, data, 0x0c),
            85..89 => self.leaf(d, data, 0x0a),
            89..93 => self.leaf(d, data, 0x4080),
            93..96 => self.parent(d, data, 0x15, &[0x05, 0x05, 0x18], levels),
            96..98 => self.parent(d, data, 0x14, &[0x05, 0x0c, 0x0a, 0x18], levels),
            98 => d.null(data),
            99 => {
                let tag = self.maker.any_tag();
                self.leaf(d, data, tag);
            }
            _ => self.leaf(d, data, 0x11),
        }
    }

    /// An erased root with entries inside it.
    fn root(&mut self, d: &mut Draft) {
        let e = d.w.e;
        let data = if self.rng().chance(60) { e.flip() } else { e };
        let start = d.begin(e, 0);
        self.fields(d, data, 0x0c);
        d.w.attribute(data, 0x121, 0x8000, &[]);
        for _ in 0..self.rng().below(3) {
            d.w.attribute(data, 0x2022, 0x10, &[]);
        }
        for _ in 0..self.rng().below(5) {
            self.entry(d, data, 1);
        }
        d.end(e, start);
    }

    /// The key that a reference gets.
    fn resolved(&mut self, d: &Draft, at: usize, want: Want) -> u32 {
        let is_type = |tag: u16| matches!(tag, 0x01 | 0x02 | 0x04 | 0x13 | 0x15 | 0x17 | 0x1f);
        let fits = |tag: u16| match want {
            Want::Type => is_type(tag),
            Want::Typedef => tag == 0x16,
            Want::Any => true,
        };
        let wanted: Vec<u32> = d.entries.iter().filter(|(_, tag)| fits(*tag)).map(|(key, _)| *key).collect();
        let later: Vec<u32> = wanted.iter().copied().filter(|key| *key as usize > at).take(6).collect();
        match self.rng().below(100) {
            0..78 if !later.is_empty() => self.rng().pick(&later),
            78..90 if !wanted.is_empty() => self.rng().pick(&wanted),
            90..96 => {
                let n = self.rng().below(d.entries.len());
                d.entries[n].0
            }
            _ => self.rng().some_number(),
        }
    }

    fn resolve(&mut self, d: &mut Draft) {
        for (at, want) in std::mem::take(&mut d.wants) {
            let key = self.resolved(d, at, want);
            d.put(at, key, d.w.e);
        }
    }

    /// A section of up to `most` entries outside others.
    pub fn section(&mut self, most: usize) -> Shape {
        let e = self.rng().pick(&[Endian::Big, Endian::Little]);
        let mut d = Draft::new(e);
        for _ in 0..1 + self.rng().below(most) {
            if self.rng().chance(8) {
                self.root(&mut d);
            } else {
                self.entry(&mut d, e, 2);
            }
        }
        self.resolve(&mut d);
        let keys = d.entries.iter().map(|(key, _)| *key).collect();
        Shape { w: d.w, references: d.references, keys }
    }

    /// A copy with forged references: other entries, the middle of one, or anything.
    pub fn forged(&mut self, shape: &Shape) -> Vec<u8> {
        let mut bytes = shape.w.bytes.clone();
        for _ in 0..1 + self.rng().below(3) {
            if shape.references.is_empty() {
                break;
            }
            let at = self.rng().pick(&shape.references);
            let key = self.rng().pick(&shape.keys);
            let key = match self.rng().below(10) {
                0 => self.rng().some_number(),
                1 => key + 4,
                2 => bytes.len() as u32,
                _ => key,
            };
            bytes[at..at + 4].copy_from_slice(&match shape.w.e {
                Endian::Big => key.to_be_bytes(),
                Endian::Little => key.to_le_bytes(),
            });
        }
        bytes
    }

    /// A copy with a few bytes changed that are no size, tag or number.
    pub fn changed(&mut self, shape: &Shape) -> Vec<u8> {
        let mut bytes = shape.w.bytes.clone();
        for _ in 0..1 + self.rng().below(3) {
            let at = self.rng().below(bytes.len());
            if shape.w.marks.iter().all(|mark| at < *mark || at >= *mark + 4) {
                bytes[at] = if self.rng().chance(50) { self.rng().next() as u8 } else { bytes[at] ^ 1 };
            }
        }
        bytes
    }

    /// One entry of a chain: a reference of this number to the entry that follows or, turned round, went before.
    fn link(&mut self, d: &mut Draft, tag: u16, next: Option<u32>) -> Vec<usize> {
        let e = d.w.e;
        let start = d.begin(e, tag);
        let mut places = Vec::new();
        match (tag, next) {
            (0x16, Some(_)) => places.push(d.reference(e, 0x2b2)),
            (0x01, _) => {
                let mut block = Writer::new(e);
                block.bytes.push(0);
                block.number(7, 2, e);
                block.number(0, 4, e);
                block.number(0, 4, e);
                block.bytes.push(8);
                block.attribute(e, if next.is_some() { 0x72 } else { 0x55 }, 7, &[]);
                d.w.attribute(e, 0xa3, 0, &block.bytes);
                if next.is_some() {
                    places.push(d.w.bytes.len() - 4);
                }
            }
            (0x13, _) => {
                let sibling = d.reference(e, 0x12);
                d.end(e, start);
                let member = d.begin(e, 0x0d);
                match next {
                    Some(_) => places.push(d.reference(e, 0x72)),
                    None => d.w.attribute(e, 0x55, 7, &[]),
                }
                d.w.attribute(e, 0x23, 0, &[4, 0, 0, 0, 0, 7]);
                d.end(e, member);
                d.names_next(Some(sibling));
                return places;
            }
            _ => {
                d.w.attribute(e, 0x38, 0, b"last");
                d.w.attribute(e, 0x55, 7, &[]);
            }
        }
        d.end(e, start);
        places
    }

    /// A chain of so many entries of a tag (typedefs, arrays, structures), each naming the next.
    pub fn chain(&mut self, tag: u16, links: usize, e: Endian, turned: bool) -> Writer {
        let mut d = Draft::new(e);
        let mut keys = Vec::new();
        let mut places = Vec::new();
        for i in 0..links {
            let last = if turned { i == 0 } else { i + 1 == links };
            keys.push(d.w.bytes.len() as u32);
            places.push(self.link(&mut d, tag, (!last).then_some(0)));
        }
        for (i, at) in places.iter().enumerate().flat_map(|(i, all)| all.iter().map(move |at| (i, *at))) {
            let key = if turned { keys[i - 1] } else { keys[i + 1] };
            d.put(at, key, e);
        }
        d.w
    }
}
