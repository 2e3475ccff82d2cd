//! The form of cases, as crates/examples/CASES.md says it.
use crate::util::dwarf::{Attribute, AttributeValue, Modifier, Type, TypeKind};
use std::io::{self, Write};

pub const MAGIC: &[u8; 8] = b"CBCASES1";

/// The most bytes of a packet.
pub const PACKET: usize = 1 << 20;

/// The kinds of questions.
pub mod kind {
    pub const SECTION: u32 = 1;
    pub const CHILDREN: u32 = 2;
    pub const MEMBER: u32 = 3;
    pub const UNION: u32 = 4;
    pub const ENUMERATION: u32 = 5;
    pub const TYPEDEF: u32 = 6;
    pub const VARIABLE: u32 = 7;
    pub const LABEL: u32 = 8;
    pub const PTR_TO_MEMBER: u32 = 9;
    pub const OVERLAY_BRANCH: u32 = 10;
    pub const SIZE: u32 = 11;
    pub const NEXT: u32 = 12;
    pub const SIBLING: u32 = 13;
    pub const ATTRIBUTE: u32 = 14;
    pub const TYPE_ATTRIBUTE: u32 = 15;
    pub const LAYOUT: u32 = 16;
    pub const OFFSET: u32 = 20;
    pub const ADDRESS: u32 = 21;
    pub const LOCATION: u32 = 22;
    pub const MODIFIERS: u32 = 23;
    pub const TYPE: u32 = 24;
    pub const SUBSCRIPTS: u32 = 25;
    pub const PRODUCER: u32 = 26;
    pub const FUND_TYPE: u32 = 27;
    pub const MODIFIER: u32 = 28;
}

/// Words and bytes in the making.
#[derive(Debug, Default, Clone)]
pub struct Words(pub Vec<u8>);

impl Words {
    pub fn of(words: &[u32]) -> Self {
        let mut all = Words::default();
        words.iter().for_each(|w| all.word(*w));
        all
    }

    pub fn word(&mut self, w: u32) {
        self.0.extend_from_slice(&w.to_le_bytes());
    }

    /// Two words, the lower first.
    pub fn long(&mut self, n: u64) {
        self.word(n as u32);
        self.word((n >> 32) as u32);
    }

    pub fn bytes(&mut self, bytes: &[u8]) {
        self.word(bytes.len() as u32);
        self.0.extend_from_slice(bytes);
    }

    /// The Rust makes each byte of a text a `char`.
    pub fn text(&mut self, text: &str) {
        let bytes: Vec<u8> = text.chars().map(|c| u8::try_from(c as u32).unwrap()).collect();
        self.bytes(&bytes);
    }

    pub fn name(&mut self, name: &Option<String>) {
        self.word(name.is_some() as u32);
        if let Some(name) = name {
            self.text(name);
        }
    }

    pub fn option(&mut self, word: Option<u32>) {
        self.word(word.is_some() as u32);
        if let Some(word) = word {
            self.word(word);
        }
    }

    pub fn modifiers(&mut self, modifiers: &[Modifier]) {
        let bytes: Vec<u8> = modifiers.iter().map(|m| u8::from(*m)).collect();
        self.bytes(&bytes);
        let pointer = |m: &Modifier| matches!(u8::from(*m), 0..=2);
        self.word(modifiers.iter().any(pointer) as u32);
    }

    pub fn of_type(&mut self, of: &Type) {
        match of.kind {
            TypeKind::Fundamental(number) => {
                self.word(0);
                self.word(u16::from(number) as u32);
            }
            TypeKind::UserDefined(key) => {
                self.word(1);
                self.word(key);
            }
        }
        self.modifiers(&of.modifiers);
    }

    pub fn attribute(&mut self, attribute: &Attribute) {
        self.word(u16::from(attribute.kind) as u32);
        match &attribute.value {
            AttributeValue::Address(v) | AttributeValue::Reference(v) | AttributeValue::Data4(v) => {
                self.word(*v);
            }
            AttributeValue::Data2(v) => self.word(*v as u32),
            AttributeValue::Data8(v) => self.long(*v),
            AttributeValue::Block(v) => self.bytes(v),
            AttributeValue::String(v) => self.text(v),
        }
    }
}

/// Two sums, the second of all values of the first.
pub fn sum(bytes: &[u8]) -> u32 {
    let (mut a, mut b) = (0u32, 0u32);
    for byte in bytes {
        a = a.wrapping_add(*byte as u32);
        b = b.wrapping_add(a);
    }
    b
}

/// A stream of packets.
pub struct Stream<W: Write> {
    out: W,
    packet: Vec<u8>,
    pub packets: u32,
}

impl<W: Write> Stream<W> {
    pub fn new(mut out: W) -> io::Result<Self> {
        out.write_all(MAGIC)?;
        Ok(Stream { out, packet: Vec::new(), packets: 0 })
    }

    /// Is there room for a question with so many bytes?
    pub fn fits(&self, bytes: usize) -> bool {
        self.packet.len() + bytes + 8 <= PACKET
    }

    pub fn question(&mut self, kind: u32, body: &[u8]) {
        assert!(self.fits(body.len()));
        self.packet.extend_from_slice(&kind.to_le_bytes());
        self.packet.extend_from_slice(&(body.len() as u32).to_le_bytes());
        self.packet.extend_from_slice(body);
    }

    /// Ends the packet, if anything is in it.
    pub fn send(&mut self) -> io::Result<()> {
        if self.packet.is_empty() {
            return Ok(());
        }
        self.out.write_all(&(self.packet.len() as u32).to_le_bytes())?;
        self.out.write_all(&sum(&self.packet).to_le_bytes())?;
        self.out.write_all(&self.packet)?;
        self.packet.clear();
        self.packets += 1;
        Ok(())
    }

    /// The end packet has no bytes, and says in place of a sum how many came before it.
    pub fn end(mut self) -> io::Result<()> {
        self.send()?;
        self.out.write_all(&0u32.to_le_bytes())?;
        self.out.write_all(&self.packets.to_le_bytes())?;
        self.out.flush()
    }
}
