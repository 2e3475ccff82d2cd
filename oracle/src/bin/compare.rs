//! compare [SECTIONS] [SEED]: reads the same sections with the Rust and with ours and compares every row and every attribute, or the refusals.
//!
//! Short inputs come first, exhaustively, then SECTIONS sections from SEED, three in four of them damaged copies. Each is read with the erased flag off and on.
use oracle::{
    known::{ATTRIBUTES, LEVELS, ROWS, tells_byte},
    ours::{ATTRIBUTE, Answer, NO_BYTE, ROW, Reader},
    sections::{Maker, Writer},
    theirs::{NO_UNIT, read as rust, too_deep, unit_of},
    util::{
        dwarf::{AttributeValue, DwarfInfo, Tag},
        reader::{Endian, FromReader},
    },
};
use std::{collections::BTreeMap, env, panic, process::ExitCode};

const BOTH: [Endian; 2] = [Endian::Big, Endian::Little];

/// What the lent tables hold before a call.
const UNTOUCHED: u32 = 0xa5a5_a5a5;

/// Is the value that stands at a place of the section the Rust's?
fn same_value(section: &[u8], e: Endian, data: Endian, place: usize, value: &AttributeValue) -> bool {
    let at = &mut &section[place..];
    match value {
        AttributeValue::Address(v) | AttributeValue::Reference(v) => u32::from_reader(at, e).unwrap() == *v,
        AttributeValue::Data2(v) => u16::from_reader(at, data).unwrap() == *v,
        AttributeValue::Data4(v) => u32::from_reader(at, data).unwrap() == *v,
        AttributeValue::Data8(v) => u64::from_reader(at, data).unwrap() == *v,
        AttributeValue::String(v) => {
            let end = at.iter().position(|b| *b == 0).unwrap();
            at[..end].iter().map(|b| *b as char).eq(v.chars())
        }
        AttributeValue::Block(v) => unreachable!("a block of {} bytes is told by its form", v.len()),
    }
}

/// The same of a block, whose length has two or four bytes.
fn same_block(section: &[u8], data: Endian, place: usize, form: u32, block: &[u8]) -> bool {
    let at = &mut &section[place..];
    let len = match form {
        3 => u16::from_reader(at, data).unwrap() as usize,
        _ => u32::from_reader(at, data).unwrap() as usize,
    };
    at[..len] == *block
}

/// What became of one comparison: read by both, refused by both at one place and byte for one reason, or outside our limits.
enum Agreed {
    Read { rows: u64, attrs: u64, in_units: u64 },
    Refused(u32),
    Outside(&'static str),
}

struct Compare {
    ours: Reader,
    tally: BTreeMap<String, u64>,
    sections: u64,
    /// Refusals whose byte was compared.
    bytes: u64,
    differences: u64,
}

impl Compare {
    /// One row against one tag.
    fn same_row(
        &self,
        section: &[u8],
        e: Endian,
        i: usize,
        first: usize,
        tag: &Tag,
        unit: u32,
    ) -> Result<(), String> {
        let row = &self.ours.rows[i * ROW..(i + 1) * ROW];
        let flags = tag.is_erased as u32
            + 2 * tag.is_erased_root as u32
            + 4 * (tag.data_endian == Endian::Little) as u32;
        let kind = u16::from(tag.kind) as u32;
        let wanted = [tag.key, kind, flags, first as u32, tag.attributes.len() as u32, unit];
        if row != wanted {
            return Err(format!("row {i}: the Rust has {wanted:x?}, ours {row:x?}"));
        }
        for (k, attribute) in tag.attributes.iter().enumerate() {
            let at = (first + k) * ATTRIBUTE;
            let (number, place) = (self.ours.attrs[at], self.ours.attrs[at + 1] as usize);
            let same = number == u16::from(attribute.kind) as u32
                && match &attribute.value {
                    AttributeValue::Block(block) => {
                        same_block(section, tag.data_endian, place, number % 16, block)
                    }
                    value => same_value(section, e, tag.data_endian, place, value),
                };
            if !same {
                return Err(format!("row {i}: the Rust has {attribute:x?}, ours {number:x} at {place:x}"));
            }
        }
        Ok(())
    }

    /// The tables are as they were from these counts on; then they are so from the first word on.
    fn past_untouched(&mut self, rows: usize, attrs: usize) -> bool {
        let (rows, attrs) = (rows * ROW, attrs * ATTRIBUTE);
        let past = |table: &[u32], n: usize| table[n..].iter().take(16).all(|word| *word == UNTOUCHED);
        let holds = past(&self.ours.rows, rows) && past(&self.ours.attrs, attrs);
        self.ours.rows[..rows].fill(UNTOUCHED);
        self.ours.attrs[..attrs].fill(UNTOUCHED);
        holds
    }

    fn judge(&mut self, section: &[u8], e: Endian, erased: bool) -> Result<Agreed, String> {
        let theirs = rust(section, e, erased);
        let ours = self.ours.read(section, e, erased);
        let counted = self.ours.count(section, e, erased);
        let result = self.agree(section, e, theirs, ours);
        let (rows, attrs) = if ours.number == 0 { (ours.rows as usize, ours.attrs as usize) } else { (0, 0) };
        if !self.past_untouched(rows, attrs) {
            return Err("a table was written past the counts".into());
        }
        let outside = ours.number == 8 && counted == Answer { number: 0, ..ours };
        if counted != ours && !outside {
            return Err(format!("counting answers {counted:?}, reading {ours:?}"));
        }
        if tells_byte(ours.number) == (ours.byte == NO_BYTE) {
            return Err(format!("a byte where none is told, or none where one is: {ours:?}"));
        }
        result
    }

    fn agree(
        &self,
        section: &[u8],
        e: Endian,
        theirs: Result<DwarfInfo, (u32, u64, u64)>,
        ours: Answer,
    ) -> Result<Agreed, String> {
        let info = match (theirs, ours.number) {
            (Ok(info), _) => info,
            (Err(why), 0) => return Err(format!("the Rust refuses {why:x?}, ours reads")),
            (Err(why), number) if why == (number, ours.place, ours.byte) => {
                return Ok(Agreed::Refused(number));
            }
            // The Rust goes on where we stop, and then fails: that this is the 17th level is not checked here.
            (Err(_), 7) => return Ok(Agreed::Outside("7, and the Rust fails further on")),
            (Err(why), _) => return Err(format!("the Rust refuses {why:x?}, ours {ours:x?}")),
        };
        let attrs: usize = info.tags.values().map(|tag| tag.attributes.len()).sum();
        let counts = (info.tags.len() as u64, attrs as u64) == (ours.rows, ours.attrs);
        let over = info.tags.len() > ROWS || attrs > ATTRIBUTES;
        match ours.number {
            7 if too_deep(section, e, &info.tags) == Some(ours.place) => {
                return Ok(Agreed::Outside("7, the Rust reads a 17th level there"));
            }
            8 if over && counts => return Ok(Agreed::Outside("8, with the counts of the Rust")),
            0 if counts && !over => {}
            _ => {
                return Err(format!(
                    "the Rust reads {} rows and {attrs} attributes, ours {ours:?}",
                    info.tags.len()
                ));
            }
        }
        if too_deep(section, e, &info.tags).is_some() {
            return Err("ours reads more levels than are allowed".into());
        }
        let (mut first, mut in_units) = (0, 0);
        for (i, tag) in info.tags.values().enumerate() {
            let unit = unit_of(&info.tags, tag.key);
            self.same_row(section, e, i, first, tag, unit)?;
            first += tag.attributes.len();
            in_units += (unit != NO_UNIT) as u64;
        }
        Ok(Agreed::Read { rows: ours.rows, attrs: ours.attrs, in_units })
    }

    /// The same section, as short as the difference still shows: runs of bytes are taken away, long ones first.
    fn shrunk(&mut self, section: &[u8], e: Endian, erased: bool) -> Vec<u8> {
        let mut least = section.to_vec();
        let runs = (7..24).rev().map(|k| 1 << k).chain((1..=64).rev());
        for run in runs {
            let mut at = 0;
            while at + run <= least.len() {
                let mut shorter = least.clone();
                shorter.drain(at..at + run);
                if self.judge(&shorter, e, erased).is_err() {
                    least = shorter;
                } else {
                    at += 1 + run / 64;
                }
            }
        }
        least
    }

    fn add(&mut self, what: String, n: u64) {
        *self.tally.entry(what).or_default() += n;
    }

    /// Compares with the flag off and on.
    fn compare(&mut self, section: &[u8], e: Endian) {
        self.sections += 1;
        for erased in [false, true] {
            match self.judge(section, e, erased) {
                Ok(Agreed::Read { rows, attrs, in_units }) => {
                    self.add("read by both".into(), 1);
                    self.add("  rows equal".into(), rows);
                    self.add("  rows in a unit".into(), in_units);
                    self.add("  attributes equal".into(), attrs);
                }
                Ok(Agreed::Refused(number)) => {
                    self.bytes += 1;
                    self.add(format!("refused by both ({number}), at one place and byte"), 1)
                }
                Ok(Agreed::Outside(what)) => self.add(format!("outside our limits ({what})"), 1),
                Err(what) => {
                    self.differences += 1;
                    let least = self.shrunk(section, e, erased);
                    let least_what = self.judge(&least, e, erased).err().unwrap_or_default();
                    println!("DIFFERENCE {e:?} erased {erased}: {what}\n  {}", hex(section));
                    println!("  shortest: {least_what}\n  {}", hex(&least));
                }
            }
        }
    }

    /// What was compared since the last report.
    fn report(&mut self, what: &str) {
        println!("{what}: {} sections, {} comparisons", self.sections, 2 * self.sections);
        for (what, n) in std::mem::take(&mut self.tally) {
            println!("  {what}: {n}");
        }
        self.sections = 0;
    }

    /// Every input of up to three bytes.
    fn shortest(&mut self) {
        for e in BOTH {
            for len in 0..4 {
                for n in 0u32..1 << (8 * len) {
                    self.compare(&n.to_be_bytes()[4 - len..], e);
                }
            }
        }
        self.report("all inputs of 0 to 3 bytes");
    }

    /// Every tag and attribute number where one can stand, with too few to enough bytes behind it.
    fn every_number(&mut self) {
        // Each is the start of a section up to where the number stands, in 16-bit words: a tag; an ordinary entry's attribute; a root's first one; a second
        // one; one after a HighPc, in a root of section endianness and of the other.
        let before: [(&str, &[u16]); 7] = [
            ("tag, size 8", &[0, 8]),
            ("tag, size 14", &[0, 14]),
            ("attribute", &[0, 10, 0x14]),
            ("attribute after a name", &[0, 12, 0x14, 0x38, 0x4100]),
            ("root", &[0, 10, 0]),
            ("root, after a HighPc", &[0, 18, 0, 0x121, 0, 0]),
            ("root, after a flipped HighPc", &[0, 18, 0, 0x2101, 0, 0]),
        ];
        let after =
            [&[0u8; 12], &[1, 0, 0, 0, 0, 0, 4, 0, 0, 0, 0, 0], &[0, 1, 0x41, 0, 0, 4, 0, 0, 0, 4, 0, 0]];
        for (what, words) in before {
            for e in BOTH {
                let mut w = Writer::new(e);
                words.iter().for_each(|n| w.number(*n as u64, 2, e));
                let place = w.bytes.len();
                for number in 0..=u16::MAX {
                    w.bytes.truncate(place);
                    w.number(number as u64, 2, e);
                    let short = w.bytes.len();
                    for (i, bytes) in after.iter().enumerate() {
                        w.bytes.truncate(short);
                        w.bytes.extend_from_slice(*bytes);
                        for cut in [0, 1, 2, 3, 4, 6, 8, 10, 12] {
                            // Each input once: the first bytes of two lists may be the same.
                            if after[..i].iter().all(|other| other[..cut] != bytes[..cut]) {
                                self.compare(&w.bytes[..short + cut], e);
                            }
                        }
                    }
                }
            }
            self.report(&format!("every number as {what}"));
        }
    }

    /// Every section of up to seven 16-bit words from a few telling ones.
    fn every_word(&mut self) {
        let words = [0x0000, 0x0008, 0x000c, 0x0014, 0x0038, 0x0121, 0x2022, 0x2101, 0x4100];
        for e in BOTH {
            for len in 2..8 {
                for n in 0..usize::pow(words.len(), len) {
                    let mut w = Writer::new(e);
                    let mut rest = n;
                    for _ in 0..len {
                        w.number(words[rest % words.len()], 2, e);
                        rest /= words.len();
                    }
                    self.compare(&w.bytes, e);
                }
            }
        }
        self.report("every section of 2 to 7 words from nine");
    }

    /// Null entries of every size, alone, in a root and at its end, with too few to enough bytes behind them.
    fn every_null(&mut self) {
        for e in BOTH {
            for data in BOTH {
                for root in [0, 12, 15, 16, 18, 20, 24, 40] {
                    if root == 0 && data != e {
                        continue;
                    }
                    for size in 0..9 {
                        for more in 0..24 {
                            let mut w = Writer::new(e);
                            if root > 0 {
                                w.entry_sized(e, 0, |_| root, |w| w.attribute(data, 0x121, 0, &[]));
                            }
                            w.number(size, 4, if root > 0 { data } else { e });
                            w.bytes.extend(std::iter::repeat_n(0, more));
                            self.compare(&w.bytes, e);
                        }
                    }
                }
            }
        }
        self.report("nulls of sizes 0 to 8, alone and in roots");
    }

    /// Sections around the limits of rows, attributes and levels.
    fn limits(&mut self) {
        for e in BOTH {
            for n in [ROWS - 1, ROWS, ROWS + 1] {
                self.compare(&vec![0; 4 * n], e);
            }
            for n in [ATTRIBUTES - 1, ATTRIBUTES, ATTRIBUTES + 1] {
                let mut w = Writer::new(e);
                w.entry(e, 0x14, |w| (0..n).for_each(|_| w.attribute(e, 0x55, 7, &[])));
                self.compare(&w.bytes, e);
            }
            for deep in LEVELS - 2..LEVELS + 40 {
                for data in BOTH {
                    let mut w = Writer::new(e);
                    nest(&mut w, e, data, deep);
                    self.compare(&w.bytes, e);
                }
            }
        }
        self.report("around the limits");
    }

    fn seeded(&mut self, sections: u64, seed: u64) {
        let mut maker = Maker::new(seed);
        for i in 0..sections / 4 {
            let w = maker.section(if i % 16 == 0 { 60 } else { 8 });
            self.compare(&w.bytes, w.e);
            if i % 8 == 0 {
                self.compare(&w.bytes, w.e.flip());
            }
            for _ in 0..3 {
                let damaged = maker.damaged(&w);
                self.compare(&damaged, w.e);
            }
        }
        self.report(&format!("sections from seed {seed}"));
    }
}

/// Roots one inside the other, and a null in the innermost.
fn nest(w: &mut Writer, around: Endian, data: Endian, deep: usize) {
    w.entry(around, 0, |w| {
        w.attribute(data, 0x121, 0, &[]);
        match deep {
            1 => w.number(4, 4, data),
            _ => nest(w, data, data, deep - 1),
        }
    });
}

fn hex(bytes: &[u8]) -> String {
    bytes.iter().map(|b| format!("{b:02x}")).collect()
}

fn main() -> ExitCode {
    let mut numbers = env::args().skip(1).map(|word| word.parse().expect("a number"));
    let sections = numbers.next().unwrap_or(400_000);
    let seed = numbers.next().unwrap_or(1);
    panic::set_hook(Box::new(|_| {}));
    let (ours, tally) = (Reader::new(UNTOUCHED), BTreeMap::new());
    let mut c = Compare { ours, tally, sections: 0, bytes: 0, differences: 0 };
    c.limits();
    c.every_null();
    c.seeded(sections, seed);
    c.every_word();
    c.every_number();
    c.shortest();
    println!("{} refusals with the same byte", c.bytes);
    println!("{} differences", c.differences);
    if c.differences == 0 { ExitCode::SUCCESS } else { ExitCode::FAILURE }
}
