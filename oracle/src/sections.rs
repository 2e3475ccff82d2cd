//! Sections made from a seed: well-formed, overrun, erased, nested, and damaged copies of them.
use crate::{
    known::{NAMED, vendors},
    util::{
        dwarf::{AttributeKind, TagKind},
        reader::Endian,
    },
};

/// SplitMix64.
pub struct Rng(pub u64);

impl Rng {
    pub fn next(&mut self) -> u64 {
        self.0 = self.0.wrapping_add(0x9e37_79b9_7f4a_7c15);
        let z = (self.0 ^ (self.0 >> 30)).wrapping_mul(0xbf58_476d_1ce4_e5b9);
        let z = (z ^ (z >> 27)).wrapping_mul(0x94d0_49bb_1331_11eb);
        z ^ (z >> 31)
    }

    pub fn below(&mut self, n: usize) -> usize {
        (self.next() % n as u64) as usize
    }

    /// True so many times in a hundred.
    pub fn chance(&mut self, percent: usize) -> bool {
        self.below(100) < percent
    }

    pub fn pick<T: Copy>(&mut self, of: &[T]) -> T {
        of[self.below(of.len())]
    }

    /// Small mostly, else around a limit, or any.
    pub fn some_number(&mut self) -> u32 {
        match self.below(100) {
            0..3 => self.next() as u32,
            3..6 => self.pick(&[u32::MAX, u32::MAX - 1, 0x8000_0000, 0x7fff_ffff, 0x1_0000, 0xffff]),
            6..16 => 0,
            _ => self.below(120) as u32,
        }
    }
}

/// A section in the making.
pub struct Writer {
    pub bytes: Vec<u8>,
    /// The section's endianness; data may have the other one.
    pub e: Endian,
    /// Where sizes, tags and attribute numbers stand: worth damaging.
    pub marks: Vec<usize>,
}

impl Writer {
    pub fn new(e: Endian) -> Self {
        Writer { bytes: Vec::new(), e, marks: Vec::new() }
    }

    /// The low `width` bytes of a number.
    pub fn number(&mut self, value: u64, width: usize, e: Endian) {
        match e {
            Endian::Big => self.bytes.extend_from_slice(&value.to_be_bytes()[8 - width..]),
            Endian::Little => self.bytes.extend_from_slice(&value.to_le_bytes()[..width]),
        }
    }

    /// An entry whose size field is what `size` makes of its true size.
    pub fn entry_sized(
        &mut self,
        data: Endian,
        tag: u16,
        size: impl FnOnce(u32) -> u32,
        body: impl FnOnce(&mut Self),
    ) {
        let start = self.bytes.len();
        self.marks.extend([start, start + 4]);
        self.number(0, 4, data);
        self.number(tag as u64, 2, data);
        body(self);
        let size = size((self.bytes.len() - start) as u32);
        let field = match data {
            Endian::Big => size.to_be_bytes(),
            Endian::Little => size.to_le_bytes(),
        };
        self.bytes[start..start + 4].copy_from_slice(&field);
    }

    pub fn entry(&mut self, data: Endian, tag: u16, body: impl FnOnce(&mut Self)) {
        self.entry_sized(data, tag, |true_size| true_size, body);
    }

    /// An attribute: a text or block has these bytes, other forms take theirs from `value`.
    pub fn attribute(&mut self, data: Endian, number: u16, value: u64, bytes: &[u8]) {
        self.marks.push(self.bytes.len());
        self.number(number as u64, 2, data);
        match number % 16 {
            1 | 2 => self.number(value, 4, self.e),
            form @ (3 | 4) => {
                self.number(bytes.len() as u64, if form == 3 { 2 } else { 4 }, data);
                self.bytes.extend_from_slice(bytes);
            }
            5 => self.number(value, 2, data),
            6 => self.number(value, 4, data),
            7 => self.number(value, 8, data),
            8 => {
                self.bytes.extend(bytes.iter().filter(|b| **b != 0));
                self.bytes.push(0);
            }
            _ => unreachable!("no form"),
        }
    }
}

/// Makes sections.
pub struct Maker {
    pub rng: Rng,
    tags: Vec<u16>,
    numbers: Vec<u16>,
    /// Sizes may be wrong, and padding may hold anything.
    loose: bool,
}

const UNIT: u16 = 0x11;
const GLOBAL_REF: u16 = AttributeKind::MwGlobalRef as u16;
const HIGH_PC: u16 = AttributeKind::HighPc as u16;

impl Maker {
    pub fn new(seed: u64) -> Self {
        let mut numbers = NAMED.to_vec();
        numbers.extend(vendors());
        let tags = (1..=u16::MAX).filter(|n| TagKind::try_from(*n).is_ok()).collect();
        Maker { rng: Rng(seed), tags, numbers, loose: false }
    }

    fn some_bytes(&mut self, most: usize) -> Vec<u8> {
        let n = self.rng.below(most + 1);
        (0..n).map(|_| self.rng.next() as u8).collect()
    }

    /// An attribute of this number, else of any known one.
    fn attribute(&mut self, w: &mut Writer, data: Endian, number: Option<u16>) {
        let number = number.unwrap_or_else(|| self.rng.pick(&self.numbers));
        let value = if self.rng.chance(50) { self.rng.next() } else { self.rng.below(300) as u64 };
        let most = if self.rng.chance(3) { 700 } else { 12 };
        let bytes = self.some_bytes(most);
        w.attribute(data, number, value, &bytes);
    }

    /// An attribute of any known number.
    pub fn any_attribute(&mut self, w: &mut Writer, data: Endian) {
        self.attribute(w, data, None);
    }

    /// Any tag; more often that of a unit.
    pub fn any_tag(&mut self) -> u16 {
        if self.rng.chance(8) { UNIT } else { self.rng.pick(&self.tags) }
    }

    /// Mostly the true size, else, in a loose section, a little less (the last attribute overruns) or more (what follows is taken in).
    fn size(&mut self) -> impl FnOnce(u32) -> u32 + use<> {
        let less = self.rng.below(9) as u32;
        let way = if self.loose { self.rng.below(100) } else { 0 };
        move |size| match way {
            0..78 => size,
            78..94 => size.saturating_sub(less).max(8),
            94..98 => size.saturating_sub(less),
            _ => size + less,
        }
    }

    fn ordinary(&mut self, w: &mut Writer, data: Endian) {
        let tag = self.any_tag();
        let size = self.size();
        // Now and then an entry whose low half is the number of MwGlobalRef.
        if self.rng.chance(1) {
            let text = vec![b'x'; GLOBAL_REF as usize - 9];
            return w.entry(data, tag, |w| w.attribute(data, 0x038, 0, &text));
        }
        let n = self.rng.below(7);
        w.entry_sized(data, tag, size, |w| (0..n).for_each(|_| self.attribute(w, data, None)));
    }

    fn null(&mut self, w: &mut Writer, data: Endian) {
        let size = self.rng.below(8);
        w.marks.push(w.bytes.len());
        w.number(size as u64, 4, data);
        (4..size).for_each(|_| w.bytes.push(self.rng.next() as u8));
    }

    /// Padding that holds anything.
    fn padding(&mut self, w: &mut Writer, data: Endian) {
        let bytes = self.some_bytes(20);
        let size = self.size();
        w.entry_sized(data, 0, |n| size(n).max(8), |w| w.bytes.extend_from_slice(&bytes));
    }

    /// An erased root. One outside others may have the other data endianness.
    fn root(&mut self, w: &mut Writer, around: Endian, levels: usize, outside: bool) {
        let data = if outside && self.rng.chance(50) { around.flip() } else { around };
        let size = self.size();
        w.entry_sized(around, 0, size, |w| {
            (0..self.rng.below(4)).for_each(|_| self.attribute(w, data, None));
            if self.rng.chance(25) {
                return self.attribute(w, data, None);
            }
            self.attribute(w, data, Some(HIGH_PC));
            (0..self.rng.below(3)).for_each(|_| self.attribute(w, data, Some(GLOBAL_REF)));
            (0..self.rng.below(4)).for_each(|_| self.any(w, data, levels, false));
        });
    }

    fn any(&mut self, w: &mut Writer, data: Endian, levels: usize, outside: bool) {
        match self.rng.below(100) {
            0..12 => self.null(w, data),
            12..18 if self.loose => self.padding(w, data),
            18..45 if levels > 0 => self.root(w, data, levels - 1, outside),
            _ => self.ordinary(w, data),
        }
    }

    /// Roots within roots, around the number of levels that is allowed.
    fn nest(&mut self, w: &mut Writer, around: Endian, deep: usize, outside: bool) {
        let data = if outside && self.rng.chance(50) { around.flip() } else { around };
        w.entry(around, 0, |w| {
            self.attribute(w, data, Some(HIGH_PC));
            if self.rng.chance(20) {
                self.any(w, data, 0, false);
            }
            if deep > 1 {
                self.nest(w, data, deep - 1, false);
            }
            if self.rng.chance(20) {
                self.any(w, data, 0, false);
            }
        });
    }

    /// A section of up to `most` entries outside others; half of them are loose.
    pub fn section(&mut self, most: usize) -> Writer {
        self.loose = self.rng.chance(50);
        let mut w = Writer::new(self.rng.pick(&[Endian::Big, Endian::Little]));
        let e = w.e;
        if self.rng.chance(2) {
            let deep = 14 + self.rng.below(6);
            self.nest(&mut w, e, deep, true);
        }
        (0..self.rng.below(most + 1)).for_each(|_| self.any(&mut w, e, 4, true));
        w
    }

    /// A damaged copy: bytes changed, cut, inserted or taken away, sizes and numbers forged.
    pub fn damaged(&mut self, w: &Writer) -> Vec<u8> {
        let mut bytes = w.bytes.clone();
        for _ in 0..1 + self.rng.below(3) {
            if bytes.is_empty() {
                break;
            }
            let at = if self.rng.chance(60) && !w.marks.is_empty() {
                (self.rng.pick(&w.marks) + self.rng.below(4)).min(bytes.len() - 1)
            } else {
                self.rng.below(bytes.len())
            };
            match self.rng.below(6) {
                0 => bytes[at] ^= 1 << self.rng.below(8),
                1 => bytes[at] = self.rng.next() as u8,
                2 => bytes.truncate(at),
                3 => (0..1 + self.rng.below(4)).for_each(|_| bytes.insert(at, self.rng.next() as u8)),
                4 => drop(bytes.drain(at..(at + 1 + self.rng.below(4)).min(bytes.len()))),
                _ => self.forge(&mut bytes, w, at),
            }
        }
        bytes
    }

    /// A forged size or number.
    fn forge(&mut self, bytes: &mut [u8], w: &Writer, at: usize) {
        let at = if self.rng.chance(80) && !w.marks.is_empty() { self.rng.pick(&w.marks) } else { at };
        let mut forged = Writer::new(self.rng.pick(&[w.e, w.e.flip()]));
        let e = forged.e;
        if self.rng.chance(60) {
            let left = bytes.len().saturating_sub(at) as u64;
            let near = (left + 3).saturating_sub(self.rng.below(7) as u64);
            let small = self.rng.below(20) as u64;
            let value = self.rng.pick(&[near, small, u32::MAX as u64, 0x8000_0000, 0xffff_fff8, 0x2022]);
            forged.number(value, 4, e);
        } else {
            let n = self.rng.pick(&self.numbers);
            forged.number(self.rng.pick(&[n, 0, GLOBAL_REF, HIGH_PC, 0x2000, 0x3ff0]) as u64, 2, e);
        }
        for (i, b) in forged.bytes.iter().enumerate() {
            if let Some(place) = bytes.get_mut(at + i) {
                *place = *b;
            }
        }
    }
}
