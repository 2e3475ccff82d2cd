//! What the Rust would never end at, or take the stack for, foreseen by walks that are bounded.
use crate::{
    known::{DEPTH, SPECIFICATIONS},
    theirs::asked,
    util::dwarf::{
        Attribute, AttributeKind, AttributeValue, DwarfInfo, Modifier, Tag, TagKind, TagMap, Type, TypeKind,
        print,
    },
};

/// `Tag::children`, step for step; none where it never ends.
pub fn children<'a>(tag: &Tag, tags: &'a TagMap) -> Option<Vec<&'a Tag>> {
    let sibling = tag.next_sibling(tags);
    let mut children = Vec::new();
    let Some(mut child) = tag.next_tag(tags, tag.is_erased) else { return Some(children) };
    for _ in 0..=tags.len() {
        if sibling.is_some_and(|end| end.key == child.key) {
            return Some(children);
        }
        if child.kind != TagKind::Padding {
            children.push(child);
        }
        match child.next_sibling(tags) {
            Some(next) => child = next,
            None => return Some(children),
        }
    }
    None
}

/// Why the Rust is not run.
#[derive(Debug, Clone, Copy, PartialEq, Eq)]
pub enum Why {
    /// A child walk never ends, or a chain is too long: document 01 refuses.
    Refused,
    /// More is touched than is worth foreseeing.
    Unforeseen,
}

pub type Foreseen = Result<(), Why>;

/// The walk of a row that is looked at ends.
fn ends(info: &DwarfInfo, tag: &Tag) -> Foreseen {
    children(tag, &info.tags).map(|_| ()).ok_or(Why::Refused)
}

/// A row whose record looks at itself alone.
pub fn alone(info: &DwarfInfo, tag: &Tag) -> Foreseen {
    ends(info, tag)
}

/// A union and its members.
pub fn union(info: &DwarfInfo, tag: &Tag) -> Foreseen {
    let children = children(tag, &info.tags).ok_or(Why::Refused)?;
    children.iter().filter(|c| c.kind == TagKind::Member).try_for_each(|c| ends(info, c))
}

fn specifications(tag: &Tag) -> impl Iterator<Item = u32> {
    tag.attributes.iter().filter_map(|a| match a {
        Attribute { kind: AttributeKind::Specification, value: AttributeValue::Reference(key) } => Some(*key),
        _ => None,
    })
}

/// A typedef and the chain of its specifications.
pub fn typedef(info: &DwarfInfo, tag: &Tag) -> Foreseen {
    fn chain(info: &DwarfInfo, tag: &Tag, depth: usize, budget: &mut usize) -> Foreseen {
        if depth > SPECIFICATIONS {
            return Err(Why::Refused);
        }
        *budget = budget.checked_sub(1).ok_or(Why::Unforeseen)?;
        for key in specifications(tag) {
            if let Some(next) = info.tags.get(&key).filter(|t| t.kind == TagKind::Typedef) {
                chain(info, next, depth + 1, budget)?;
            }
        }
        ends(info, tag)
    }
    chain(info, tag, 0, &mut 2000)
}

/// Children of a structure that neither side looks at.
fn ignored(kind: TagKind) -> bool {
    matches!(
        kind,
        TagKind::ArrayType
            | TagKind::SubroutineType
            | TagKind::PtrToMemberType
            | TagKind::Subroutine
            | TagKind::GlobalSubroutine
    )
}

/// What a size touches.
pub struct Size<'a> {
    info: &'a DwarfInfo,
    budget: usize,
    /// Nothing is touched that only the Rust looks at.
    pub plain: bool,
    /// The deepest entry.
    pub deepest: usize,
}

const NESTED: usize = 40;

impl<'a> Size<'a> {
    pub fn of(info: &'a DwarfInfo, key: u32) -> Result<Self, Why> {
        let mut size = Size { info, budget: 2000, plain: true, deepest: 0 };
        size.entry(key, 1)?;
        Ok(size)
    }

    fn entry(&mut self, key: u32, depth: usize) -> Foreseen {
        self.budget = self.budget.checked_sub(1).ok_or(Why::Unforeseen)?;
        let Some(tag) = self.info.tags.get(&key) else { return Ok(()) };
        self.deepest = self.deepest.max(depth);
        if depth > DEPTH + 4 {
            return Err(Why::Refused);
        }
        match tag.kind {
            TagKind::ArrayType => self.array(tag, depth),
            TagKind::StructureType | TagKind::ClassType => self.structure_size(tag, depth),
            TagKind::UnionType => union(self.info, tag),
            TagKind::SubroutineType | TagKind::GlobalSubroutine | TagKind::Subroutine => self.subroutine(tag),
            _ => ends(self.info, tag),
        }
    }

    fn named(&mut self, of: &Type, depth: usize) -> Foreseen {
        let pointer = |m: &Modifier| matches!(u8::from(*m), 0..=2);
        match of.kind {
            TypeKind::UserDefined(key) if !of.modifiers.iter().any(pointer) => self.entry(key, depth + 1),
            _ => Ok(()),
        }
    }

    /// Only these attributes are what both sides look at.
    fn attributes(&mut self, tag: &Tag, known: &[AttributeKind]) {
        self.plain &= tag.attributes.iter().all(|a| known.contains(&a.kind));
    }

    /// No child is there that only the Rust would look at.
    fn without_children(&mut self, tag: &Tag) -> Foreseen {
        self.plain &= children(tag, &self.info.tags).ok_or(Why::Unforeseen)?.is_empty();
        Ok(())
    }

    fn array(&mut self, tag: &Tag, depth: usize) -> Foreseen {
        self.attributes(tag, &[AttributeKind::Sibling, AttributeKind::SubscrData]);
        self.without_children(tag)?;
        let mut element = None;
        for attribute in tag.attributes.iter().filter(|a| a.kind == AttributeKind::SubscrData) {
            let AttributeValue::Block(block) = &attribute.value else { continue };
            match asked(|| print::array_subscript_data(block, self.info.e)) {
                Ok((of, _)) => element = Some(of),
                Err(_) => return Ok(()),
            }
        }
        element.map_or(Ok(()), |of| self.named(&of, depth))
    }

    /// The same of a layout, which takes every member's size, with a ByteSize too.
    pub fn of_layout(info: &'a DwarfInfo, key: u32) -> Result<Self, Why> {
        let mut size = Size { info, budget: 2000, plain: true, deepest: 1 };
        let tag = &info.tags[&key];
        size.structure(tag, 0)?;
        size.members(tag, 1)?;
        Ok(size)
    }

    fn structure_size(&mut self, tag: &Tag, depth: usize) -> Foreseen {
        self.structure(tag, 0)?;
        if tag.attribute(AttributeKind::ByteSize).is_some() {
            return Ok(());
        }
        self.members(tag, depth)
    }

    fn members(&mut self, tag: &Tag, depth: usize) -> Foreseen {
        let children = children(tag, &self.info.tags).ok_or(Why::Refused)?;
        let members = children.iter().filter(|c| c.kind == TagKind::Member);
        let read: Result<Vec<_>, _> =
            members.map(|m| asked(|| print::structure_member(self.info, m))).collect();
        let Ok(read) = read else { return Ok(()) };
        read.iter().filter(|m| m.byte_size.is_none()).try_for_each(|m| self.named(&m.kind, depth))
    }

    /// What `process_structure_tag` reads.
    fn structure(&mut self, tag: &Tag, nested: usize) -> Foreseen {
        self.budget = self.budget.checked_sub(1).ok_or(Why::Unforeseen)?;
        if nested > NESTED {
            return Err(Why::Unforeseen);
        }
        use AttributeKind as A;
        self.attributes(tag, &[A::Sibling, A::Name, A::ByteSize, A::Member]);
        for child in children(tag, &self.info.tags).ok_or(Why::Refused)? {
            if child.kind == TagKind::Member {
                ends(self.info, child)?;
                continue;
            }
            self.plain &= ignored(child.kind);
            match child.kind {
                kind if ignored(kind) => {}
                TagKind::StructureType | TagKind::ClassType => self.structure(child, nested + 1)?,
                TagKind::UnionType => union(self.info, child)?,
                TagKind::Typedef => typedef(self.info, child)?,
                _ => ends(self.info, child)?,
            }
        }
        Ok(())
    }

    /// What `process_subroutine_tag` reads, where it is simple.
    fn subroutine(&mut self, tag: &Tag) -> Foreseen {
        self.attributes(tag, &[AttributeKind::Sibling]);
        self.without_children(tag)?;
        let simple = |c: &&Tag| {
            matches!(
                c.kind,
                TagKind::FormalParameter
                    | TagKind::UnspecifiedParameters
                    | TagKind::LocalVariable
                    | TagKind::Label
            ) && specifications(c).next().is_none()
                && children(c, &self.info.tags).is_some()
        };
        let children = children(tag, &self.info.tags).ok_or(Why::Unforeseen)?;
        let fine = specifications(tag).next().is_none() && children.iter().all(simple);
        if fine { Ok(()) } else { Err(Why::Unforeseen) }
    }
}
