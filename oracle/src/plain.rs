//! A section's rows as document 01 looks at them for a record, a size or a layout: what it passes over, and the Rust does not, is taken out; and every walk
//! ends, where it did not at a child of a kind that no other child has.
use crate::{
    answers::{is_sized, record_of},
    foresee,
    theirs::asked,
    util::{
        dwarf::{
            Attribute, AttributeKind, AttributeValue, DwarfInfo, Tag, TagKind, TagMap, Type, TypeKind, print,
            process_type,
        },
        reader::Endian,
    },
};
use std::collections::BTreeSet;

/// Rows that stand inside others are laid from here on, above every key of a section that is asked of.
const INSIDE: u32 = 1 << 31;

/// No row is laid there.
const NOWHERE: u32 = INSIDE;

/// Rows of a section are four bytes apart at least: so many keys behind each are free.
const FREE: u32 = 3;

/// The kind of the one child of a row whose walk never ended: no record takes it. A child that was of this kind is of another that none takes.
pub const ENDLESS: TagKind = TagKind::CompileUnit;
const UNTAKEN: TagKind = TagKind::LexicalBlock;

struct Plain<'a> {
    from: &'a TagMap,
    to: TagMap,
    /// What may be named, and must go on naming nothing.
    named: BTreeSet<u32>,
    next: u32,
}

/// Every key that an attribute or a type in a block names.
fn named(info: &DwarfInfo) -> BTreeSet<u32> {
    use AttributeKind as A;
    let type_of = |attribute: &Attribute| match (attribute.kind, &attribute.value) {
        (A::SubscrData, AttributeValue::Block(block)) => {
            asked(|| print::array_subscript_data(block, info.e)).ok().map(|(of, _)| of)
        }
        (A::ModUDType, _) => asked(|| process_type(attribute, info.e)).ok(),
        _ => None,
    };
    let key_of = |attribute: &Attribute| match (&attribute.value, type_of(attribute)) {
        (AttributeValue::Reference(key), _) => Some(*key),
        (_, Some(Type { kind: TypeKind::UserDefined(key), .. })) => Some(key),
        _ => None,
    };
    info.tags.values().flat_map(|tag| &tag.attributes).filter_map(key_of).collect()
}

fn sibling(key: u32) -> Attribute {
    Attribute { kind: AttributeKind::Sibling, value: AttributeValue::Reference(key) }
}

/// The attributes that count.
fn counts(kind: TagKind, attribute: AttributeKind) -> bool {
    use AttributeKind as A;
    match kind {
        TagKind::StructureType | TagKind::ClassType => matches!(attribute, A::Name | A::ByteSize),
        TagKind::ArrayType => attribute == A::SubscrData,
        TagKind::SubroutineType | TagKind::GlobalSubroutine | TagKind::Subroutine => false,
        _ => attribute != A::Sibling,
    }
}

impl<'a> Plain<'a> {
    /// A key for a row, with free ones behind it.
    fn fresh(&mut self) -> u32 {
        self.next += 1 + FREE;
        while self.named.contains(&self.next) {
            self.next += 1;
        }
        self.next
    }

    /// A key behind a row, before any other; none where all are named.
    fn behind(&self, key: u32) -> Option<u32> {
        (key + 1..=key + FREE).find(|key| !self.named.contains(key))
    }

    fn put(&mut self, key: u32, kind: TagKind, to: u32) {
        let row = Tag {
            key,
            kind,
            is_erased: false,
            is_erased_root: false,
            data_endian: Endian::Big,
            attributes: vec![sibling(to)],
        };
        self.to.insert(key, row);
    }

    /// A row that no walk gives and that leads on.
    fn leads(&mut self, from: u32, to: u32) {
        self.put(from, TagKind::Padding, to);
    }

    /// The children that count; none where the walk never ends.
    fn children(&self, tag: &Tag) -> Option<Vec<&'a Tag>> {
        Some(match tag.kind {
            TagKind::StructureType | TagKind::ClassType => {
                let mut children = foresee::children(tag, self.from)?;
                children.retain(|child| child.kind == TagKind::Member);
                children
            }
            TagKind::ArrayType
            | TagKind::SubroutineType
            | TagKind::GlobalSubroutine
            | TagKind::Subroutine => Vec::new(),
            _ => foresee::children(tag, self.from)?,
        })
    }

    /// Lays a row at a key, and so many levels inside it, each row's children its own: no walk meets a row of another. Gives where its inside ends.
    fn lay(&mut self, tag: &Tag, key: u32, levels: u32) -> Option<u32> {
        let (begin, end) = (self.behind(key)?, self.fresh());
        let mut row = tag.clone();
        row.key = key;
        row.attributes.retain(|attribute| counts(tag.kind, attribute.kind));
        row.attributes.insert(0, sibling(end));
        self.to.insert(key, row);
        match if levels == 0 { Some(Vec::new()) } else { self.children(tag) } {
            None => self.put(begin, ENDLESS, end),
            Some(children) => {
                let mut before = begin;
                for child in children {
                    let place = self.fresh();
                    self.leads(before, place);
                    before = self.lay_child(child, place, levels - 1)?;
                }
                self.leads(before, end);
            }
        }
        self.leads(end, NOWHERE);
        Some(end)
    }

    fn lay_child(&mut self, child: &Tag, place: u32, levels: u32) -> Option<u32> {
        let end = self.lay(child, place, levels)?;
        if child.kind == ENDLESS {
            self.to.get_mut(&place)?.kind = UNTAKEN;
        }
        Some(end)
    }
}

/// The copy: every row at its key, with what counts of it and inside it; or why there is none.
pub fn plain(info: &DwarfInfo) -> Result<DwarfInfo, &'static str> {
    let mut laid = Plain { from: &info.tags, to: TagMap::new(), named: named(info), next: INSIDE };
    for tag in info.tags.values() {
        // A row and its members' own children.
        let levels = if is_sized(tag.kind) || record_of(tag.kind).is_some() { 2 } else { 0 };
        laid.lay(tag, tag.key, levels).ok_or("no copy: every key behind a row is named")?;
    }
    let mut copy = info.clone();
    copy.tags = laid.to;
    Ok(copy)
}
