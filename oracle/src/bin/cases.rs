//! cases SEED COUNT [list]: questions with the Rust's answers, to standard output in the form that crates/examples/CASES.md says; what was asked, to standard
//! error. COUNT sections are made from SEED, besides the short inputs and those around the limits. `list` gives a small sample of everything.
//! cases sections FILE..: the same of the sections in these files.
//! cases show PACKET SEED COUNT [list]: that packet's questions, in hexadecimal.
use oracle::{
    answers::{self, Settings, by_key, is_sized, record_of},
    blocks::{self, BLOCK_QUESTIONS, TYPES},
    form::{Stream, Words, kind},
    known::{ATTRIBUTES, LEVELS, ROWS, tells_byte},
    sections::{Rng, Writer},
    shapes::Shaper,
    theirs::keep_panics,
    util::{
        dwarf::{AttributeKind, DwarfInfo, FundType, Producer, Tag, TagKind},
        reader::Endian,
    },
};
use std::{
    collections::BTreeMap,
    env, fs,
    io::{self, BufWriter, Stdout, Write},
};

const BOTH: [Endian; 2] = [Endian::Big, Endian::Little];
const PRODUCERS: [Producer; 3] = [Producer::MWCC, Producer::GCC, Producer::OTHER];

/// Packets are sent at about this size.
const SENT: usize = 1 << 15;

const RECORDS: [u32; 8] = [
    kind::MEMBER,
    kind::UNION,
    kind::ENUMERATION,
    kind::TYPEDEF,
    kind::VARIABLE,
    kind::LABEL,
    kind::PTR_TO_MEMBER,
    kind::OVERLAY_BRANCH,
];

struct Cases {
    stream: Stream<BufWriter<Stdout>>,
    shaper: Shaper,
    rng: Rng,
    tally: BTreeMap<String, u64>,
    /// Only a sample: of short inputs one in so many, of rows a few.
    stride: usize,
    turn: usize,
    /// The packet to print.
    shown: Option<u32>,
}

fn hex(bytes: &[u8]) -> String {
    bytes.iter().map(|b| format!("{b:02x}")).collect()
}

impl Cases {
    fn add(&mut self, what: impl Into<String>, n: u64) {
        *self.tally.entry(what.into()).or_default() += n;
    }

    /// Is it this one's turn?
    fn sampled(&mut self) -> bool {
        self.turn += 1;
        self.turn % self.stride == 0
    }

    /// Questions that stand in one packet.
    fn group(&mut self, group: Vec<(u32, Words)>) -> io::Result<()> {
        let bytes: usize = group.iter().map(|(_, body)| body.0.len() + 8).sum();
        if !self.stream.fits(bytes) {
            self.stream.send()?;
        }
        for (question, body) in group {
            if !self.stream.fits(body.0.len()) {
                self.add("left out: the packet is full", 1);
                continue;
            }
            if self.shown == Some(self.stream.packets) {
                eprintln!("{question} {}", hex(&body.0));
            }
            self.stream.question(question, &body.0);
        }
        if !self.stream.fits((1 << 20) - SENT) {
            self.stream.send()?;
        }
        Ok(())
    }

    fn push(&mut self, group: &mut Vec<(u32, Words)>, info: &DwarfInfo, question: u32, key: u32) {
        match by_key(info, question, key) {
            Ok(body) => {
                if body.0.len() == 12 && body.0[4..8] == [0; 4] && body.0[11] & 0x80 != 0 {
                    self.add(
                        "refused by one of several numbers: the Rust is not run, or ours stops before it",
                        1,
                    );
                }
                group.push((question, body));
            }
            Err(why) => self.add(format!("not asked: {why}"), 1),
        }
    }

    /// What is asked of one row.
    fn ask_row(&mut self, group: &mut Vec<(u32, Words)>, info: &DwarfInfo, key: u32) {
        let tag = info.tags.get(&key);
        self.push(group, info, kind::CHILDREN, key);
        if let Some(record) = tag.and_then(|tag| record_of(tag.kind)) {
            self.push(group, info, record, key);
        }
        if tag.is_some_and(|tag| is_sized(tag.kind)) || self.rng.chance(8) {
            self.push(group, info, kind::SIZE, key);
        }
        let laid = |tag: &Tag| matches!(tag.kind, TagKind::StructureType | TagKind::ClassType);
        if tag.is_some_and(laid) || self.rng.chance(4) {
            self.push(group, info, kind::LAYOUT, key);
        }
        if self.rng.chance(15) {
            let record = self.rng.pick(&RECORDS);
            self.push(group, info, record, key);
        }
        if self.rng.chance(15) {
            let question = self.rng.pick(&[kind::NEXT, kind::SIBLING, kind::TYPE_ATTRIBUTE]);
            self.push(group, info, question, key);
        }
        if self.rng.chance(15) {
            let number = match tag {
                Some(tag) if !tag.attributes.is_empty() && self.rng.chance(80) => {
                    tag.attributes[self.rng.below(tag.attributes.len())].kind
                }
                _ => AttributeKind::Name,
            };
            group.push((kind::ATTRIBUTE, answers::attribute(info, key, number)));
        }
    }

    /// The rows that are asked about: all of few, some of many, and one that is not there.
    fn asked_keys(&mut self, info: &DwarfInfo) -> Vec<u32> {
        let most = if self.stride > 1 { 5 } else { 24 };
        let mut keys: Vec<u32> = info.tags.keys().copied().collect();
        while keys.len() > most {
            let out = self.rng.below(keys.len());
            keys.swap_remove(out);
        }
        if self.rng.chance(if self.stride > 1 { 30 } else { 10 }) {
            keys.push(self.rng.some_number());
        }
        keys
    }

    /// How many of the rows that are compared stand in a unit, and how many sections have several.
    fn tally_units(&mut self, info: &DwarfInfo) {
        let units = info.tags.values().filter(|tag| tag.kind == TagKind::CompileUnit).count();
        let outside = info.tags.values().take_while(|tag| tag.kind != TagKind::CompileUnit).count();
        self.add("rows of sections that are read", info.tags.len() as u64);
        self.add("rows in a unit", (info.tags.len() - outside) as u64);
        self.add("sections with more than one unit", (units > 1) as u64);
    }

    fn section(&mut self, class: &str, bytes: &[u8], settings: Settings) -> io::Result<()> {
        let (body, info) = answers::section(bytes, settings);
        let read = if info.is_ok() { "read" } else { "refused or over the limits" };
        self.add(format!("sections, {class}"), 1);
        self.add(format!("sections, {class}: {read}"), 1);
        if let Err(number) = info
            && tells_byte(number)
        {
            self.add(format!("sections refused with a byte ({number})"), 1);
        }
        let mut group = vec![(kind::SECTION, body)];
        if let Ok(info) = info {
            self.tally_units(&info);
            for key in self.asked_keys(&info) {
                self.ask_row(&mut group, &info, key);
            }
        }
        self.group(group)
    }

    fn some_settings(&mut self, e: Endian) -> Settings {
        Settings { e, erased: self.rng.chance(50), producer: self.rng.pick(&PRODUCERS) }
    }

    /// A section that means something, and three copies: references forged, values changed, anything damaged.
    fn shaped(&mut self, class: &str, most: usize) -> io::Result<()> {
        let shape = self.shaper.section(most);
        let settings = self.some_settings(shape.w.e);
        self.section(class, &shape.w.bytes, settings)?;
        let forged = self.shaper.forged(&shape);
        self.section(&format!("{class}, references forged"), &forged, settings)?;
        let changed = self.shaper.changed(&shape);
        self.section(&format!("{class}, values changed"), &changed, settings)?;
        let damaged = self.shaper.maker.damaged(&shape.w);
        self.section(&format!("{class}, damaged"), &damaged, settings)
    }

    /// A section of any entries, read in its endianness, and three damaged copies, one of them in the other.
    fn any(&mut self, most: usize) -> io::Result<()> {
        let w = self.shaper.maker.section(most);
        let settings = self.some_settings(w.e);
        self.section("any entries", &w.bytes, settings)?;
        for e in [w.e, w.e, w.e.flip()] {
            let damaged = self.shaper.maker.damaged(&w);
            self.section("any entries, damaged", &damaged, Settings { e, ..settings })?;
        }
        Ok(())
    }

    /// Sections from the seed.
    fn seeded(&mut self, count: usize) -> io::Result<()> {
        let small = if self.stride > 1 { 2 } else { 1 };
        for i in 0..count / 4 {
            match i % 8 {
                0 => self.any(8 / small)?,
                1 => self.shaped("many entries", 24 / small)?,
                _ => self.shaped("few entries", 6 / small)?,
            }
        }
        Ok(())
    }

    /// Chains of specifications and of sizes around their limits.
    fn chains(&mut self) -> io::Result<()> {
        for e in BOTH {
            for turned in [false, true] {
                for (tag, links) in [(0x16, 15..20), (0x01, 30..36), (0x13, 30..36)] {
                    for n in links {
                        if self.stride > 1 && !matches!(n, 17 | 18 | 32 | 33) {
                            continue;
                        }
                        let w = self.shaper.chain(tag, n, e, turned);
                        let settings = Settings { e, erased: false, producer: Producer::OTHER };
                        let (body, info) = answers::section(&w.bytes, settings);
                        let info = info.expect("a chain is read");
                        let mut group = vec![(kind::SECTION, body)];
                        let ends = [info.tags.keys().next(), info.tags.keys().next_back()];
                        for key in ends.into_iter().flatten() {
                            let question = if tag == 0x16 { kind::TYPEDEF } else { kind::SIZE };
                            self.push(&mut group, &info, question, *key);
                        }
                        self.add("sections, chains", 1);
                        self.group(group)?;
                    }
                }
            }
        }
        Ok(())
    }

    /// The limits of rows and levels, and one over them.
    fn few_limits(&mut self) -> io::Result<()> {
        let settings = Settings { e: Endian::Big, erased: true, producer: Producer::OTHER };
        for n in [ROWS, ROWS + 1] {
            self.section("limits", &vec![0; 4 * n], settings)?;
        }
        for deep in [LEVELS, LEVELS + 1] {
            let mut w = Writer::new(Endian::Big);
            nest(&mut w, Endian::Big, Endian::Little, deep);
            self.section("limits", &w.bytes, settings)?;
        }
        Ok(())
    }

    /// Around the limits of rows, attributes and levels, and lists that are long.
    fn limits(&mut self) -> io::Result<()> {
        if self.stride > 1 {
            return self.few_limits();
        }
        for e in BOTH {
            for erased in [false, true] {
                let settings = Settings { e, erased, producer: Producer::GCC };
                for n in [ROWS - 1, ROWS, ROWS + 1] {
                    self.section("limits", &vec![0; 4 * n], settings)?;
                }
                for n in [ATTRIBUTES - 1, ATTRIBUTES, ATTRIBUTES + 1] {
                    let mut w = Writer::new(e);
                    w.entry(e, 0x14, |w| (0..n).for_each(|_| w.attribute(e, 0x55, 7, &[])));
                    self.section("limits", &w.bytes, settings)?;
                }
                for deep in LEVELS - 2..LEVELS + 3 {
                    for data in BOTH {
                        let mut w = Writer::new(e);
                        nest(&mut w, e, data, deep);
                        self.section("limits", &w.bytes, settings)?;
                    }
                }
                self.section("long lists", &long_lists(e, 2000), settings)?;
            }
        }
        Ok(())
    }

    /// Every section of up to two bytes, and of two to five 16-bit words from a few telling ones.
    fn short_sections(&mut self) -> io::Result<()> {
        let words = [0x0000, 0x0008, 0x000c, 0x0014, 0x0038, 0x0121, 0x2022, 0x2101, 0x4100];
        for e in BOTH {
            for erased in [false, true] {
                let settings = Settings { e, erased, producer: Producer::OTHER };
                for bytes in all_bytes(2) {
                    if self.sampled() {
                        self.section("short", &bytes, settings)?;
                    }
                }
                for len in 2..6 {
                    for n in 0..usize::pow(words.len(), len) {
                        if self.sampled() {
                            let mut w = Writer::new(e);
                            (0..len).for_each(|k| {
                                w.number(words[n / usize::pow(words.len(), k) % words.len()], 2, e);
                            });
                            self.section("short", &w.bytes, settings)?;
                        }
                    }
                }
            }
        }
        Ok(())
    }

    /// A section that wants more than it has, cut at every byte.
    fn every_cut(&mut self, w: &Writer) -> io::Result<()> {
        let settings = Settings { e: w.e, erased: true, producer: Producer::OTHER };
        (1..=w.bytes.len()).try_for_each(|len| self.section("cut", &w.bytes[..len], settings))
    }

    /// Cuts in every field: of an entry with each form, of the same as a root with an entry and a null inside, behind which the next may begin past the end.
    fn cuts(&mut self) -> io::Result<()> {
        let endians = if self.stride > 1 { &BOTH[..1] } else { &BOTH };
        for &e in endians {
            let mut ordinary = Writer::new(e);
            ordinary.entry_sized(e, 0x14, |size| size + 1, |w| every_form(w, e));
            self.every_cut(&ordinary)?;
            for data in BOTH {
                let mut root = Writer::new(e);
                let inside = |w: &mut Writer| {
                    every_form(w, data);
                    w.attribute(data, 0x121, 0, &[]);
                    w.attribute(data, 0x2022, 0, &[]);
                    w.entry(data, 0x0c, |w| w.attribute(data, 0x38, 0, b"ab"));
                    w.number(7, 4, data);
                    w.bytes.extend([0; 3]);
                };
                root.entry_sized(e, 0, |size| size + 1, inside);
                self.every_cut(&root)?;
            }
        }
        Ok(())
    }

    fn block(&mut self, class: &str, question: u32, body: Words) -> io::Result<()> {
        self.add(format!("blocks, {class}"), 1);
        self.group(vec![(question, body)])
    }

    /// Every block of up to two bytes, and of three to five from a few telling ones.
    fn short_blocks(&mut self) -> io::Result<()> {
        let telling = [0u8, 1, 2, 3, 4, 7, 8, 0x55];
        for question in BLOCK_QUESTIONS {
            for e in BOTH {
                for bytes in all_bytes(2) {
                    if self.sampled() {
                        self.block("short", question, blocks::block(question, &bytes, e))?;
                    }
                }
                for len in 3..6u32 {
                    for n in 0..usize::pow(8, len) {
                        if self.sampled() {
                            let bytes: Vec<u8> =
                                (0..len).map(|k| telling[n / usize::pow(8, k) % 8]).collect();
                            self.block("short", question, blocks::block(question, &bytes, e))?;
                        }
                    }
                }
            }
        }
        for number in TYPES {
            for (e, data) in BOTH.into_iter().flat_map(|e| BOTH.map(|data| (e, data))) {
                for bytes in all_bytes(2) {
                    if self.sampled() {
                        let body = blocks::of_attribute(number, &bytes, e, data);
                        self.block("short", kind::TYPE, body)?;
                    }
                }
            }
        }
        Ok(())
    }

    /// Every number of a fundamental type, a modifier, and an attribute that is asked for a type; every first byte of a location.
    fn every_number(&mut self) -> io::Result<()> {
        for n in 0..=u16::MAX {
            let known = FundType::parse_int(n).is_ok();
            if self.sampled() || known {
                self.block("every number", kind::FUND_TYPE, blocks::fund_type(n))?;
                let value = [0, 2, 0, 7, 0, 0, 0, 0, 0, 0];
                let body = blocks::of_attribute(n, &value, Endian::Big, Endian::Big);
                self.block("every number", kind::TYPE, body)?;
            }
        }
        for n in 0..=u8::MAX {
            self.block("every number", kind::MODIFIER, blocks::modifier(n))?;
            for len in [4, 5, 6, 10, 11, 12] {
                if self.sampled() {
                    let mut bytes = vec![n, 0, 0, 0, 9, 7, 0, 0, 0, 9, 7, 7];
                    bytes.truncate(len);
                    for question in [kind::OFFSET, kind::ADDRESS, kind::LOCATION] {
                        self.block("every number", question, blocks::block(question, &bytes, Endian::Big))?;
                        if len > 6 {
                            bytes[5] = 4;
                        }
                    }
                }
            }
        }
        Ok(())
    }

    /// Blocks from the seed: mostly of a known shape.
    fn seeded_blocks(&mut self, count: usize) -> io::Result<()> {
        for _ in 0..count {
            let e = self.rng.pick(&BOTH);
            let data = self.rng.pick(&BOTH);
            let reference = self.rng.some_number();
            let (question, body) = match self.rng.below(6) {
                0 => {
                    let question = self.rng.pick(&[kind::OFFSET, kind::ADDRESS, kind::LOCATION]);
                    let block = blocks::some_location(&mut self.rng, e);
                    (question, blocks::block(question, &block, e))
                }
                1 => {
                    let block = blocks::some_modifiers(&mut self.rng);
                    (kind::MODIFIERS, blocks::block(kind::MODIFIERS, &block, e))
                }
                2 => (kind::TYPE, self.some_type(e, data, reference)),
                3 => {
                    let mut text = self.rng.pick(&[&b"MW"[..], b"GNU C", b"GNU", b"M", b"mw"]).to_vec();
                    text.extend((0..self.rng.below(5)).map(|_| self.rng.next() as u8));
                    (kind::PRODUCER, blocks::block(kind::PRODUCER, &text, e))
                }
                _ => {
                    let (block, _) = blocks::some_subscripts(&mut self.rng, e, reference);
                    (kind::SUBSCRIPTS, blocks::block(kind::SUBSCRIPTS, &block, e))
                }
            };
            self.block("from the seed", question, body)?;
        }
        Ok(())
    }

    fn some_type(&mut self, e: Endian, data: Endian, reference: u32) -> Words {
        let number = self.rng.pick(&TYPES);
        let mut w = Writer::new(e);
        let fund = blocks::some_fund_type(&mut self.rng) as u64;
        let block = blocks::some_type_block(&mut self.rng, number, reference, e);
        w.attribute(data, number, if number == 0x55 { fund } else { reference as u64 }, &block);
        let value = blocks::spoiled(&mut self.rng, w.bytes[2..].to_vec(), 3);
        blocks::of_attribute(number, &value, e, data)
    }

    fn report(&self) {
        for (what, n) in &self.tally {
            eprintln!("{what}: {n}");
        }
    }
}

/// An attribute of each form; texts and blocks have one byte and more.
fn every_form(w: &mut Writer, data: Endian) {
    for number in [0x111, 0x12, 0x55, 0xb6, 0x1c7] {
        w.attribute(data, number, 7, &[]);
    }
    for number in [0x23, 0xf4, 0x38] {
        w.attribute(data, number, 0, b"a");
        w.attribute(data, number, 0, b"bcd");
    }
}

/// All byte strings of up to so many bytes.
fn all_bytes(most: usize) -> impl Iterator<Item = Vec<u8>> {
    (0..=most).flat_map(|len| (0u32..1 << (8 * len)).map(move |n| n.to_be_bytes()[4 - len..].to_vec()))
}

/// Roots one inside the other, and a null in the innermost.
fn nest(w: &mut Writer, around: Endian, data: Endian, deep: usize) {
    w.entry(around, 0, |w| {
        w.attribute(data, 0x121, 0, &[]);
        match deep {
            1 => w.number(4, 4, data),
            _ => nest(w, data, data, deep - 1),
        }
    });
}

/// A union and an enumeration with so many members.
fn long_lists(e: Endian, n: usize) -> Vec<u8> {
    let mut w = Writer::new(e);
    w.entry(e, 0x04, |w| {
        w.attribute(e, 0xb6, 1, &[]);
        let list: Vec<u8> = (0..n).flat_map(|k| [k as u8, b'a', 0]).collect();
        w.attribute(e, 0xf4, 0, &list);
    });
    let start = w.bytes.len() + 18;
    let end = start + n * 20;
    w.entry(e, 0x17, |w| {
        w.attribute(e, 0x12, end as u64, &[]);
        w.attribute(e, 0xb6, 4, &[]);
    });
    for _ in 0..n {
        w.entry(e, 0x0d, |w| {
            w.attribute(e, 0x55, 7, &[]);
            w.attribute(e, 0x23, 0, &[4, 0, 0, 0, 0, 7]);
        });
    }
    w.number(4, 4, e);
    w.bytes
}

fn number(words: &[String], i: usize) -> u64 {
    let word = words.get(i).expect("cases SEED COUNT [list]");
    word.parse().unwrap_or_else(|_| panic!("{word} is no number"))
}

fn cases(seed: u64, stride: usize, shown: Option<u32>) -> io::Result<Cases> {
    let out = BufWriter::with_capacity(1 << 20, io::stdout());
    Ok(Cases {
        stream: Stream::new(out)?,
        shaper: Shaper::new(seed),
        rng: Rng(seed.wrapping_mul(7) ^ 0x5ca1_ab1e),
        tally: BTreeMap::new(),
        stride,
        turn: 0,
        shown,
    })
}

fn all(words: &[String], shown: Option<u32>) -> io::Result<()> {
    let (seed, count) = (number(words, 0), number(words, 1) as usize);
    let list = words.get(2).is_some_and(|word| word == "list");
    let mut c = cases(seed, if list { 4001 } else { 1 }, shown)?;
    c.limits()?;
    c.chains()?;
    c.seeded(count)?;
    c.seeded_blocks(if list { 600 } else { count })?;
    c.every_number()?;
    c.short_blocks()?;
    c.short_sections()?;
    c.cuts()?;
    c.report();
    c.stream.end()
}

/// Each section as it lies in its file, in both endiannesses, with the flag off and on.
fn files(names: &[String]) -> io::Result<()> {
    let mut c = cases(1, 1, None)?;
    for name in names {
        let bytes = fs::read(name)?;
        for e in BOTH {
            for erased in [false, true] {
                c.section(name, &bytes, Settings { e, erased, producer: Producer::OTHER })?;
            }
        }
    }
    c.report();
    c.stream.end()
}

fn main() -> io::Result<()> {
    let words: Vec<String> = env::args().skip(1).collect();
    keep_panics();
    match words.first().map(String::as_str) {
        Some("sections") => files(&words[1..]),
        Some("show") => all(&words[2..], Some(number(&words, 1) as u32)),
        _ => all(&words, None),
    }?;
    io::stdout().flush()
}
