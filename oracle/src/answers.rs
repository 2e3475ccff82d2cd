//! Questions about a section, and the Rust's answers as words.
use crate::{
    foresee::{self, Foreseen, Size, Why},
    form::{Words, kind},
    known::{ATTRIBUTES, DEPTH, ROWS, tells_byte},
    plain::plain,
    theirs::{Fault, asked, asked_of_copy, read, too_deep, unit_of},
    util::{
        dwarf::{
            AttributeKind, DwarfInfo, Producer, StructureMember, Tag, TagKind, UserDefinedType, Visibility,
            get_udt_by_key, print, process_overlay_branch, process_variable_tag,
        },
        reader::Endian,
    },
};

/// How a section is read.
#[derive(Debug, Clone, Copy)]
pub struct Settings {
    pub e: Endian,
    pub erased: bool,
    pub producer: Producer,
}

impl Settings {
    fn word(self) -> u32 {
        let producer = match self.producer {
            Producer::MWCC => 0,
            Producer::GCC => 1,
            Producer::OTHER => 2,
        };
        (self.e == Endian::Little) as u32 + 2 * self.erased as u32 + 4 * producer
    }
}

/// An answer in words, or why none can be compared.
pub type Answer = Result<Words, &'static str>;

/// Refused, with a number.
fn refused(number: u32) -> Answer {
    Ok(Words::of(&[0, number]))
}

/// Refused with one of these numbers: the Rust goes below our limits, and what ours meets first is not foreseen. Told as a word whose
/// highest bit is set, and bit n for the number n.
fn refused_by(numbers: &[u32]) -> Answer {
    refused(numbers.iter().fold(1 << 31, |all, n| all | 1 << n))
}

/// What a typedef may meet before the end of its chain: its own attributes and children, those of a specification's row.
const CHAINED: [u32; 9] = [9, 10, 11, 12, 13, 15, 16, 17, 18];

/// And a size or layout: subscripts, what is missing in a row on the way, children, bounds, sums.
const SIZED: [u32; 11] = [9, 10, 11, 12, 13, 15, 16, 17, 18, 19, 20];

fn given() -> Words {
    Words::of(&[1])
}

/// What the Rust answered, as words.
fn answer<T>(asked: Result<T, Fault>, words: impl FnOnce(&mut Words, T)) -> Answer {
    match asked {
        Ok(found) => {
            let mut all = given();
            words(&mut all, found);
            Ok(all)
        }
        Err(Fault::Number(number)) => refused(number),
        Err(Fault::Untold(text)) if text.starts_with("Unhandled fundamental type") => {
            Err("a fundamental type that has no size in the Rust")
        }
        Err(Fault::Untold(text)) => panic!("the Rust fails with {text}"),
    }
}

/// What a record comes to; `fine` foresees whether the Rust ends. Where a walk does not, a copy is asked.
fn record<T>(
    (info, tag): (&DwarfInfo, &Tag),
    fine: impl Fn(&DwarfInfo, &Tag) -> Foreseen,
    call: impl Fn(&DwarfInfo, &Tag) -> anyhow::Result<T>,
    words: impl FnOnce(&mut Words, T),
) -> Answer {
    if fine(info, tag).is_ok() {
        return answer(asked(|| call(info, tag)), words);
    }
    let copy = plain(info)?;
    let tag = &copy.tags[&tag.key];
    match fine(&copy, tag) {
        Ok(()) => answer(asked_of_copy(|| call(&copy, tag)), words),
        Err(Why::Refused) => refused_by(&CHAINED),
        Err(Why::Unforeseen) => Err("too much to foresee"),
    }
}

/// The answer to reading a section: rows with their units, attributes and values; or a refusal with its place and byte; or the counts of what is over our limits. Comes to the
/// section, or to the refusal's number.
fn read_words(section: &[u8], settings: Settings, words: &mut Words) -> Result<DwarfInfo, u32> {
    let mut info = match read(section, settings.e, settings.erased) {
        Ok(info) => info,
        Err((number, place, byte)) => {
            // A root inside 16 others takes 200 bytes: there ours may stop before the Rust fails.
            let may_nest = settings.erased && section.len() >= 198;
            words.word(if may_nest { 3 } else { 0 });
            words.word(number);
            words.long(place);
            if tells_byte(number) {
                words.long(byte);
            }
            return Err(number);
        }
    };
    info.producer = settings.producer;
    if let Some(place) = too_deep(section, settings.e, &info.tags) {
        [0, 7].iter().for_each(|w| words.word(*w));
        words.long(place);
        return Err(7);
    }
    let attrs: usize = info.tags.values().map(|tag| tag.attributes.len()).sum();
    let over = info.tags.len() > ROWS || attrs > ATTRIBUTES;
    [if over { 2 } else { 1 }, info.tags.len() as u32, attrs as u32].iter().for_each(|w| words.word(*w));
    if over {
        return Err(8);
    }
    for tag in info.tags.values() {
        let flags = tag.is_erased as u32
            + 2 * tag.is_erased_root as u32
            + 4 * (tag.data_endian == Endian::Little) as u32;
        let (kind, unit) = (u16::from(tag.kind) as u32, unit_of(&info.tags, tag.key));
        [tag.key, kind, flags, unit, tag.attributes.len() as u32].iter().for_each(|w| words.word(*w));
        tag.attributes.iter().for_each(|a| words.attribute(a));
    }
    Ok(info)
}

/// The body of a section's question, and the section if it is read, else the refusal's number.
pub fn section(section: &[u8], settings: Settings) -> (Words, Result<DwarfInfo, u32>) {
    let mut words = Words::of(&[settings.word()]);
    words.bytes(section);
    let info = read_words(section, settings, &mut words);
    (words, info)
}

fn member_words(words: &mut Words, m: &StructureMember) {
    words.name(&m.name);
    words.of_type(&m.kind);
    words.word(m.offset);
    words.word(m.bit.is_some() as u32);
    if let Some(bit) = &m.bit {
        words.word(bit.bit_size);
        words.word(bit.bit_offset as u32);
    }
    words.word(match m.visibility {
        Visibility::Private => 0,
        Visibility::Protected => 1,
        Visibility::Public => 2,
    });
    words.option(m.byte_size);
}

fn member(info: &DwarfInfo, tag: &Tag) -> Answer {
    record((info, tag), foresee::alone, print::structure_member, |w, m| member_words(w, &m))
}

fn union_type(info: &DwarfInfo, tag: &Tag) -> Answer {
    record((info, tag), foresee::union, print::union_type, |w, u| {
        w.name(&u.name);
        w.word(u.byte_size);
        w.word(u.members.len() as u32);
        u.members.iter().for_each(|m| member_words(w, m));
    })
}

fn enumeration(info: &DwarfInfo, tag: &Tag) -> Answer {
    record((info, tag), foresee::alone, print::enumeration, |w, e| {
        w.name(&e.name);
        w.word(e.byte_size);
        w.word(e.members.len() as u32);
        for member in &e.members {
            w.word(member.value as u32);
            w.text(&member.name);
        }
    })
}

fn typedef(info: &DwarfInfo, tag: &Tag) -> Answer {
    record((info, tag), foresee::typedef, print::typedef, |w, t| {
        w.text(&t.name);
        w.of_type(&t.kind);
    })
}

fn variable(info: &DwarfInfo, tag: &Tag) -> Answer {
    record((info, tag), foresee::alone, process_variable_tag, |w, v| {
        w.name(&v.name);
        w.name(&v.mangled_name);
        w.of_type(&v.kind);
        w.option(v.address);
        w.word(v.local as u32);
    })
}

fn label(info: &DwarfInfo, tag: &Tag) -> Answer {
    record((info, tag), foresee::alone, print::label, |w, l| {
        w.text(&l.name);
        w.word(l.address);
    })
}

fn ptr_to_member(info: &DwarfInfo, tag: &Tag) -> Answer {
    record((info, tag), foresee::alone, print::ptr_to_member, |w, p| {
        w.of_type(&p.kind);
        w.word(p.containing_type);
    })
}

fn overlay_branch(tag: &Tag) -> Answer {
    answer(asked(|| process_overlay_branch(tag)), |w, o| {
        w.text(&o.name);
        w.word(o.id);
        w.word(o.start_address);
        w.word(o.end_address);
        w.option(o.compile_unit);
    })
}

fn is_structure(kind: TagKind) -> bool {
    matches!(kind, TagKind::StructureType | TagKind::ClassType)
}

/// A size or layout that the Rust was asked for; where it answers below our depth, ours is 10.
fn told<T>(found: Result<T, Fault>, deepest: usize, words: impl FnOnce(&mut Words, T)) -> Answer {
    match found {
        Ok(_) if deepest > DEPTH => refused(10),
        Err(_) if deepest > DEPTH => refused_by(&SIZED),
        found => answer(found, words),
    }
}

/// What a size or a layout comes to; `seen` foresees it, `call` asks the Rust. Where the Rust fails, or would not end, at what ours passes over, a copy
/// without that is asked.
fn sized<T>(
    info: &DwarfInfo,
    seen: impl Fn(&DwarfInfo) -> Result<(bool, usize), Why>,
    call: impl Fn(&DwarfInfo) -> anyhow::Result<T>,
    words: impl FnOnce(&mut Words, T),
) -> Answer {
    if let Ok((plain, deepest)) = seen(info) {
        let found = asked(|| call(info));
        if plain || deepest > DEPTH || found.is_ok() {
            return told(found, deepest, words);
        }
    }
    let copy = plain(info)?;
    match seen(&copy) {
        Ok((_, deepest)) => told(asked_of_copy(|| call(&copy)), deepest, words),
        Err(Why::Refused) => refused_by(&SIZED),
        Err(Why::Unforeseen) => Err("too much to foresee"),
    }
}

fn size(info: &DwarfInfo, key: u32) -> Answer {
    sized(
        info,
        |info| Size::of(info, key).map(|seen| (seen.plain, seen.deepest)),
        |info| get_udt_by_key(info, key)?.size(info),
        |w, n| w.word(n),
    )
}

/// A member as a layout has it: offset, size, name.
type Laid = (u32, u32, Option<String>);

/// Size and members of a structure, each member's size taken before its end.
fn laid(info: &DwarfInfo, key: u32) -> anyhow::Result<(u32, Vec<Laid>)> {
    let UserDefinedType::Structure(found) = get_udt_by_key(info, key)? else { unreachable!("a structure") };
    let (mut largest, mut members) = (0, Vec::new());
    for member in found.members {
        let size = match member.byte_size {
            Some(size) => size,
            None => member.kind.size(info)?,
        };
        if found.byte_size.is_none() {
            largest = std::cmp::max(largest, member.offset + size);
        }
        members.push((member.offset, size, member.name));
    }
    Ok((found.byte_size.unwrap_or(largest), members))
}

/// A layout. Only structures and classes have one.
fn layout(info: &DwarfInfo, tag: &Tag) -> Answer {
    if !is_structure(tag.kind) {
        return refused(12);
    }
    sized(
        info,
        |info| Size::of_layout(info, tag.key).map(|seen| (seen.plain, seen.deepest)),
        |info| laid(info, tag.key),
        |w, (size, members)| {
            w.word(size);
            w.word(members.len() as u32);
            for (offset, size, name) in members {
                w.word(offset);
                w.word(size);
                w.text(&name.unwrap_or_default());
            }
        },
    )
}

fn children(info: &DwarfInfo, tag: &Tag) -> Answer {
    if foresee::children(tag, &info.tags).is_none() {
        return refused(9);
    }
    let keys: Vec<u32> = tag.children(&info.tags).iter().map(|c| c.key).collect();
    let mut words = given();
    words.word(keys.len() as u32);
    keys.iter().for_each(|key| words.word(*key));
    Ok(words)
}

/// A row that may be absent.
fn neighbour(found: Option<&Tag>) -> Answer {
    let mut words = given();
    words.option(found.map(|tag| tag.key));
    Ok(words)
}

fn type_attribute(tag: &Tag) -> Answer {
    let mut words = given();
    words.option(tag.type_attribute().map(|a| u16::from(a.kind) as u32));
    Ok(words)
}

/// The first attribute of a number, which stands after the key.
pub fn attribute(info: &DwarfInfo, key: u32, number: AttributeKind) -> Words {
    let mut words = Words::of(&[key, u16::from(number) as u32]);
    let Some(tag) = info.tags.get(&key) else {
        [0, 11].iter().for_each(|w| words.word(*w));
        return words;
    };
    words.word(1);
    match tag.attribute(number) {
        Some(found) => {
            words.word(1);
            words.attribute(found);
        }
        None => words.word(0),
    }
    words
}

/// The kind of record of a row, if there is one for it.
pub fn record_of(kind: TagKind) -> Option<u32> {
    Some(match kind {
        TagKind::Member => kind::MEMBER,
        TagKind::UnionType => kind::UNION,
        TagKind::EnumerationType => kind::ENUMERATION,
        TagKind::Typedef => kind::TYPEDEF,
        TagKind::GlobalVariable | TagKind::LocalVariable => kind::VARIABLE,
        TagKind::Label => kind::LABEL,
        TagKind::PtrToMemberType => kind::PTR_TO_MEMBER,
        TagKind::MwOverlayBranch => kind::OVERLAY_BRANCH,
        _ => return None,
    })
}

/// Has a row of this kind a size?
pub fn is_sized(kind: TagKind) -> bool {
    matches!(
        kind,
        TagKind::ArrayType
            | TagKind::StructureType
            | TagKind::ClassType
            | TagKind::EnumerationType
            | TagKind::UnionType
            | TagKind::PtrToMemberType
            | TagKind::SubroutineType
            | TagKind::GlobalSubroutine
            | TagKind::Subroutine
    )
}

/// The body of a question by key.
pub fn by_key(info: &DwarfInfo, question: u32, key: u32) -> Answer {
    let tag = info.tags.get(&key);
    let found = match (question, tag) {
        (kind::SIZE, _) => size(info, key),
        (_, None) => refused(11),
        (kind::LAYOUT, Some(tag)) => layout(info, tag),
        (kind::CHILDREN, Some(tag)) => children(info, tag),
        (kind::NEXT, Some(tag)) => neighbour(tag.next_tag(&info.tags, tag.is_erased)),
        (kind::SIBLING, Some(tag)) => neighbour(tag.next_sibling(&info.tags)),
        (kind::TYPE_ATTRIBUTE, Some(tag)) => type_attribute(tag),
        (kind::MEMBER, Some(tag)) => member(info, tag),
        (kind::UNION, Some(tag)) => union_type(info, tag),
        (kind::ENUMERATION, Some(tag)) => enumeration(info, tag),
        (kind::TYPEDEF, Some(tag)) => typedef(info, tag),
        (kind::VARIABLE, Some(tag)) => variable(info, tag),
        (kind::LABEL, Some(tag)) => label(info, tag),
        (kind::PTR_TO_MEMBER, Some(tag)) => ptr_to_member(info, tag),
        (kind::OVERLAY_BRANCH, Some(tag)) => overlay_branch(tag),
        _ => unreachable!("a question by key"),
    };
    let mut words = Words::of(&[key]);
    words.0.extend_from_slice(&found?.0);
    Ok(words)
}
