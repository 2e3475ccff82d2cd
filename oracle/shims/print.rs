//! In place of the module's own `print`, which was not published: doors to its private functions.
use super::*;

pub fn attribute(bytes: &[u8], data: Endian, addr: Endian) -> Result<Attribute> {
    read_attribute(&mut Cursor::new(bytes), data, addr)
}

pub fn structure_member(info: &DwarfInfo, tag: &Tag) -> Result<StructureMember> {
    process_structure_member_tag(info, tag)
}

pub fn union_type(info: &DwarfInfo, tag: &Tag) -> Result<UnionType> {
    process_union_tag(info, tag)
}

pub fn enumeration(info: &DwarfInfo, tag: &Tag) -> Result<EnumerationType> {
    process_enumeration_tag(info, tag)
}

pub fn typedef(info: &DwarfInfo, tag: &Tag) -> Result<TypedefTag> {
    process_typedef_tag(info, tag)
}

pub fn label(info: &DwarfInfo, tag: &Tag) -> Result<SubroutineLabel> {
    process_subroutine_label_tag(info, tag)
}

pub fn ptr_to_member(info: &DwarfInfo, tag: &Tag) -> Result<PtrToMemberType> {
    process_ptr_to_member_tag(info, tag)
}

pub fn array_subscript_data(data: &[u8], e: Endian) -> Result<(Type, Vec<ArrayDimension>)> {
    process_array_subscript_data(data, e)
}
