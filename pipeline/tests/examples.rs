//! Document 01's examples, through the safe functions.
use capbeacon::{Endian, Error, Producer, Section, Settings, Value, offset_of_block};

const INPUT_A: [u8; 42] = [
    0x00, 0x00, 0x00, 0x12, 0x00, 0x13, 0x00, 0x12, 0x00, 0x00, 0x00, 0x2a, 0x00, 0xb6, 0x00, 0x00, 0x00,
    0x04, 0x00, 0x00, 0x00, 0x14, 0x00, 0x0d, 0x00, 0x55, 0x00, 0x07, 0x00, 0x23, 0x00, 0x06, 0x04, 0x00,
    0x00, 0x00, 0x00, 0x07, 0x00, 0x00, 0x00, 0x04,
];

const ERASED: [u8; 14] = [0x00, 0x00, 0x00, 0x0e, 0x00, 0x00, 0x38, 0x00, 0x41, 0x00, 0x55, 0x00, 0x07, 0x00];

fn none() -> Settings {
    Settings::none(Endian::Big)
}

fn erased() -> Settings {
    Settings { erased: true, ..none() }
}

fn read(bytes: &[u8], settings: Settings) -> Result<Section, Error> {
    Section::read(bytes, settings)
}

/// Number and place of a refusal.
fn refused<T: std::fmt::Debug>(answer: Result<T, Error>) -> (u32, u64) {
    let error = answer.unwrap_err();
    (error.number, error.place)
}

/// An entry of an exact size.
fn entry(tag: u16, attributes: &[&[u8]]) -> Vec<u8> {
    let attributes = attributes.concat();
    let size = 6 + attributes.len() as u32;
    [&size.to_be_bytes()[..], &tag.to_be_bytes(), &attributes].concat()
}

/// The size of a structure whose one member, at offset 0, has a type attribute.
fn size_of_member(attribute: &[u8]) -> Result<u32, Error> {
    let location = [0x00, 0x23, 0x00, 0x06, 0x04, 0, 0, 0, 0, 0x07];
    let member = entry(0x0d, &[attribute, &location]);
    let end = (12 + member.len()) as u32;
    let sibling = [&[0x00, 0x12][..], &end.to_be_bytes()].concat();
    let bytes = [entry(0x13, &[&sibling]), member].concat();
    read(&bytes, none()).unwrap().size(0)
}

/// The size of an array of char with one dimension.
fn size_of_array(low: u32, high: u32) -> Result<u32, Error> {
    let dimension = [&[0, 0x00, 0x07][..], &low.to_be_bytes(), &high.to_be_bytes()].concat();
    let block = [&dimension[..], &[8, 0x00, 0x55, 0x00, 0x01]].concat();
    let data = [&[0x00, 0xa3, 0x00, block.len() as u8][..], &block].concat();
    read(&entry(0x01, &[&data]), none()).unwrap().size(0)
}

#[test]
fn empty_and_short() {
    for settings in [none(), erased(), Settings::mw(Endian::Little)] {
        let section = read(&[], settings).unwrap();
        assert_eq!(section.entries().count(), 0);
        assert_eq!(section.tree().unwrap(), []);
        assert_eq!(refused(section.size(0)), (11, 0));
        assert_eq!(refused(section.layout(7)), (11, 7));
    }
    assert_eq!(refused(read(&[0, 0, 0], none())), (4, 0));
}

#[test]
fn nulls_and_padding() {
    for last in [0, 7] {
        let section = read(&[0, 0, 0, last], none()).unwrap();
        let rows: Vec<_> = section.entries().map(|e| (e.row, e.key, e.tag)).collect();
        assert_eq!(rows, [(0, 0, 0)]);
        assert_eq!(section.entries().next().unwrap().attributes().count(), 0);
    }
    let padding = [0, 0, 0, 8, 0, 0];
    assert_eq!(read(&padding, none()).unwrap().entries().count(), 0);
    assert_eq!(refused(read(&padding, erased())), (4, 0));
}

#[test]
fn unknown_tag_and_cut_entry() {
    assert_eq!(refused(read(&[0, 0, 0, 8, 0, 8], none())), (5, 0));
    assert_eq!(refused(read(&[0, 0, 0, 8, 0, 0x14], none())), (4, 0));
}

/// An entry of which only its size, its tag and these bytes are there.
fn cut(tag: u8, bytes: &[u8]) -> Vec<u8> {
    [&[0, 0, 0, 0x40, 0, tag][..], bytes].concat()
}

#[test]
fn the_byte_is_the_first_of_the_field() {
    let fields = [
        // the size, the tag, an attribute's number
        (vec![0, 0, 0, 4, 0, 0, 0], (4, 4, 4)),
        (vec![0, 0, 0, 8, 0], (4, 0, 4)),
        (vec![0, 0, 0, 8, 0, 8], (5, 0, 4)),
        (cut(0x14, &[0]), (4, 0, 6)),
        (cut(0x14, &[0, 0x39]), (6, 0, 6)),
        (cut(0x14, &[0, 0x55, 0, 7, 0, 0x39]), (6, 0, 10)),
        // values of 4, 4, 2, 4 and 8 bytes
        (cut(0x14, &[0x01, 0x11, 0, 0, 0]), (4, 0, 8)),
        (cut(0x14, &[0x00, 0x12, 0, 0, 0]), (4, 0, 8)),
        (cut(0x14, &[0x00, 0x55, 0]), (4, 0, 8)),
        (cut(0x14, &[0x00, 0xb6, 0, 0, 0]), (4, 0, 8)),
        (cut(0x14, &[0x01, 0xc7, 0, 0, 0, 0, 0, 0, 0]), (4, 0, 8)),
        // a block's length and its bytes
        (cut(0x14, &[0x00, 0x23, 0]), (4, 0, 8)),
        (cut(0x14, &[0x00, 0x23, 0, 6, 4, 0, 0]), (4, 0, 10)),
        (cut(0x14, &[0x00, 0xf4, 0, 0, 0]), (4, 0, 8)),
        (cut(0x14, &[0x00, 0xf4, 0xff, 0xff, 0xff, 0xff, 0]), (4, 0, 12)),
        // a text without its zero
        (cut(0x14, &[0x00, 0x38]), (4, 0, 8)),
        (cut(0x14, &[0x00, 0x38, b'A', b'B', b'C']), (4, 0, 8)),
        // a root's two bytes that are looked at, its first number, an entry inside
        (cut(0, &[0]), (4, 0, 6)),
        (cut(0, &[0, 0x39]), (6, 0, 6)),
        (cut(0, &[0x01, 0x21, 0, 0, 0, 0]), (4, 0, 12)),
        (cut(0, &[0x01, 0x21, 0, 0, 0, 0, 0, 0, 0, 8]), (4, 12, 16)),
        // behind the section's end, past a null entry of 7 bytes
        (cut(0, &[0x01, 0x21, 0, 0, 0, 0, 0, 0, 0, 7]), (4, 19, 19)),
    ];
    for (bytes, told) in fields {
        let error = read(&bytes, erased()).unwrap_err();
        assert_eq!((error.number, error.place, error.byte().unwrap()), told, "{bytes:x?}");
    }
}

#[test]
fn other_refusals_tell_no_byte() {
    let mut role = none();
    role.roles.mangled = 0x2008;
    let section = read(&INPUT_A, none()).unwrap();
    let refusals = [
        read(&[0, 0, 0], role).unwrap_err(),
        read(&[0; 4 * 4097], none()).unwrap_err(),
        section.size(1).unwrap_err(),
        section.layout(0x12).unwrap_err(),
        offset_of_block(&[], Endian::Big).unwrap_err(),
    ];
    assert_eq!(refusals.map(|error| (error.number, error.byte())), [1, 8, 11, 12, 17].map(|n| (n, None)));
}

#[test]
fn erased_root_in_the_other_endianness() {
    let section = read(&ERASED, erased()).unwrap();
    let entries: Vec<_> = section.entries().collect();
    assert_eq!(entries.len(), 1);
    assert_eq!(entries[0].tag, 0x000c);
    assert!(entries[0].flags.little && entries[0].flags.erased_root);
    let attributes: Vec<_> = entries[0].attributes().map(|a| (a.number, a.value)).collect();
    assert_eq!(attributes, [(0x38, Value::Text(b"A")), (0x55, Value::Data2(7))]);
    assert_eq!(refused(section.tree()), (12, 0));
    assert_eq!(read(&ERASED, none()).unwrap().entries().count(), 0);
}

#[test]
fn input_a() {
    for settings in [none(), erased(), Settings::mw(Endian::Big)] {
        let section = read(&INPUT_A, settings).unwrap();
        let rows: Vec<_> = section.entries().map(|e| (e.key, e.tag)).collect();
        assert_eq!(rows, [(0, 0x13), (0x12, 0x0d), (0x26, 0)]);
        let tree: Vec<_> = section.tree().unwrap().iter().map(|p| (p.row, p.depth, p.parent)).collect();
        assert_eq!(tree, [(0, 0, None), (1, 1, Some(0)), (2, 1, Some(0))]);
        let values: Vec<_> = section.entries().flat_map(|e| e.attributes()).map(|a| a.value).collect();
        let offset = &INPUT_A[32..38];
        assert_eq!(values, [Value::Reference(0x2a), Value::Data4(4), Value::Data2(7), Value::Block(offset)]);
        assert_eq!(offset_of_block(offset, Endian::Big), Ok(0));
        assert_eq!(section.size(0), Ok(4));
        assert_eq!(refused(section.size(0x12)), (12, 0x12));
        assert_eq!(refused(section.size(1)), (11, 1));
        let layout = section.layout(0).unwrap();
        assert_eq!((layout.row, layout.size, layout.members.len()), (0, 4, 1));
        let member = layout.members[0];
        assert_eq!((member.offset, member.size, member.name), (0, 4, &b""[..]));
        assert_eq!(refused(section.layout(0x26)), (12, 0x26));
    }
}

#[test]
fn names_of_members() {
    let name = |text: &[u8]| [&[0x00, 0x38][..], text, &[0]].concat();
    let at = |offset: u8| [0x00, 0x23, 0x00, 0x06, 0x04, 0, 0, 0, offset, 0x07];
    let x = entry(0x0d, &[&name(b"x"), &[0x00, 0x55, 0x00, 0x01], &at(0)]);
    let count = entry(0x0d, &[&name(b"count"), &[0x00, 0x55, 0x00, 0x06], &at(2)]);
    let end = (12 + x.len() + count.len()) as u32;
    let sibling = [&[0x00, 0x12][..], &end.to_be_bytes()].concat();
    let section = read(&[entry(0x13, &[&sibling]), x, count].concat(), none()).unwrap();
    let layout = section.layout(0).unwrap();
    let members: Vec<_> = layout.members.iter().map(|m| (m.offset, m.size, m.name)).collect();
    assert_eq!(layout.size, 4);
    assert_eq!(members, [(0, 1, &b"x"[..]), (2, 2, b"count")]);
}

#[test]
fn all_layouts() {
    let bytes = std::fs::read(concat!(env!("CARGO_MANIFEST_DIR"), "/../samples/tower.debug")).unwrap();
    let section = read(&bytes, none()).unwrap();
    let layouts = section.layouts().unwrap();
    let names: Vec<_> = layouts.iter().map(|s| s.name).collect();
    assert_eq!(names, [&b"Block"[..], b"Crane", b"Tower", b"Ghost", b"", b"Lift", b"Opaque"]);
    for structure in &layouts {
        let key = section.entries().nth(structure.row).unwrap().key;
        assert_eq!(structure.layout, section.layout(key));
    }
    let sizes: Vec<_> =
        layouts.iter().map(|s| s.layout.as_ref().map(|l| l.size).map_err(|e| e.number)).collect();
    assert_eq!(sizes, [Ok(12), Ok(89), Ok(104), Err(11), Ok(0), Ok(28), Ok(0)]);
}

/// Two structures of one name are told apart by their units.
#[test]
fn units_of_structures() {
    let bytes = std::fs::read(concat!(env!("CARGO_MANIFEST_DIR"), "/../samples/units.debug")).unwrap();
    let section = read(&bytes, none()).unwrap();
    let units: Vec<_> = section.units().map(|unit| (unit.key, unit.name)).collect();
    assert_eq!(units, [(0x14, &b"tower.c"[..]), (0x75, b"crane.c"), (0xbd, b"")]);
    let layouts = section.layouts().unwrap();
    let told: Vec<_> = layouts.iter().map(|s| (s.name, s.unit.map(|unit| unit.name))).collect();
    let wanted = [("Early", None), ("Beam", Some("tower.c")), ("Beam", Some("crane.c")), ("Hook", Some(""))];
    assert_eq!(told, wanted.map(|(name, unit)| (name.as_bytes(), unit.map(str::as_bytes))));
    for entry in section.entries() {
        assert_eq!(section.unit_of(entry.key).unwrap().map(|unit| unit.key), entry.unit);
        let before = section.units().take_while(|unit| unit.key <= entry.key);
        assert_eq!(before.last().map(|unit| unit.key), entry.unit);
    }
    assert_eq!(section.unit_of(1).unwrap_err().to_string(), "refused 11 at 00000001: no row with that key");
}

/// Units go by the order of rows, erased ones too: one inside an erased root is that of what follows the root.
#[test]
fn a_unit_inside_an_erased_root() {
    let inside = [0, 0, 0, 9, 0, 0x11, 0, 0x38, 0];
    let root = [0, 0, 0, 21, 0, 0, 1, 0x21, 0, 0, 0, 0];
    let bytes = [&root[..], &inside, &[0, 0, 0, 4]].concat();
    let section = read(&bytes, Settings { erased: true, ..none() }).unwrap();
    let told: Vec<_> = section.entries().map(|entry| (entry.key, entry.flags.erased, entry.unit)).collect();
    assert_eq!(told, [(0, true, None), (12, true, Some(12)), (21, false, Some(12))]);
}

#[test]
fn values_of_every_form() {
    let two = |n: u16, e| if e == Endian::Big { n.to_be_bytes() } else { n.to_le_bytes() }.to_vec();
    let four = |n: u32, e| if e == Endian::Big { n.to_be_bytes() } else { n.to_le_bytes() }.to_vec();
    let eight = |n: u64, e| if e == Endian::Big { n.to_be_bytes() } else { n.to_le_bytes() }.to_vec();
    for e in [Endian::Big, Endian::Little] {
        let attributes = [
            [two(0x111, e), four(0x8000_0102, e)].concat(),
            [two(0x142, e), four(0x0304_0506, e)].concat(),
            [two(0x023, e), two(3, e), vec![1, 2, 3]].concat(),
            [two(0x0f4, e), four(2, e), vec![4, 5]].concat(),
            [two(0x095, e), two(0x0708, e)].concat(),
            [two(0x0b6, e), four(0x090a_0b0c, e)].concat(),
            [two(0x1c7, e), eight(0x0102_0304_0506_0708, e)].concat(),
            [two(0x2008, e), b"f__Fv\0".to_vec()].concat(),
        ];
        let size = 6 + attributes.concat().len() as u32;
        let bytes = [four(size, e), two(0x14, e), attributes.concat()].concat();
        let section = read(&bytes, Settings::mw(e)).unwrap();
        let values: Vec<_> = section.entries().flat_map(|e| e.attributes()).map(|a| a.value).collect();
        assert_eq!(
            values,
            [
                Value::Address(0x8000_0102),
                Value::Reference(0x0304_0506),
                Value::Block(&[1, 2, 3]),
                Value::Block(&[4, 5]),
                Value::Data2(0x0708),
                Value::Data4(0x090a_0b0c),
                Value::Data8(0x0102_0304_0506_0708),
                Value::Text(b"f__Fv"),
            ]
        );
        // a vendor's number is unknown without the list
        assert_eq!(refused(read(&bytes, Settings::none(e))), (6, 0));
    }
}

#[test]
fn types_and_modifiers() {
    assert_eq!(size_of_member(&[0x00, 0x55, 0x01, 0x08]), Ok(4));
    assert_eq!(size_of_member(&[0x00, 0x55, 0x81, 0x08]), Ok(8));
    assert_eq!(refused(size_of_member(&[0x00, 0x55, 0x01, 0x13])), (18, 12));
    assert_eq!(size_of_member(&[0x00, 0x63, 0x00, 0x03, 0x81, 0x00, 0x01]), Ok(4));
    assert_eq!(refused(size_of_member(&[0x00, 0x63, 0x00, 0x03, 0x85, 0x00, 0x01])), (18, 12));
}

#[test]
fn bounds() {
    assert_eq!(size_of_array(0, 0xffff_ffff), Ok(0));
    assert_eq!(size_of_array(0, 0xffff_fffe), Ok(4_294_967_295));
    assert_eq!(refused(size_of_array(1, 2)), (19, 0));
}

#[test]
fn blocks() {
    let block = [4, 0, 0, 1, 2, 7];
    assert_eq!(offset_of_block(&block, Endian::Big), Ok(0x102));
    assert_eq!(offset_of_block(&block, Endian::Little), Ok(0x0201_0000));
    for cut in 0..block.len() {
        assert_eq!(refused(offset_of_block(&block[..cut], Endian::Big)), (17, 0));
    }
}

#[test]
fn refusals_in_words() {
    let cut = read(&INPUT_A[..0x16], none()).unwrap_err();
    assert_eq!(cut.to_string(), "refused 4 at 00000012: bytes wanted are not there, from byte 00000016 on");
    let unknown = read(&[0, 0, 0, 8, 0, 0x14, 0, 0x39], none()).unwrap_err();
    assert_eq!(unknown.to_string(), "refused 6 at 00000000: attribute number unknown, at byte 00000006");
    let many = read(&[0; 4 * 4097], none()).unwrap_err();
    assert_eq!(many.to_string(), "refused 8 at 00000000: more is needed than lent or allowed: 4097 rows");
    assert_eq!((many.needed.rows, many.needed.attributes), (4097, 0));
    assert_eq!(read(&[0; 4 * 4096], none()).unwrap().tree().unwrap().len(), 4096);
}

#[test]
fn settings_that_break_a_rule() {
    let mut list = Settings::mw(Endian::Big);
    list.vendors.swap(0, 1);
    let mut role = none();
    role.roles.mangled = 0x2008;
    for settings in [list, role] {
        assert_eq!(refused(read(&[], settings)), (1, 0));
    }
    let other = Settings { producer: Producer::Gcc, ..Settings::mw(Endian::Little) };
    assert!(read(&[], other).is_ok());
}

/// Asks everything of a section.
fn ask(bytes: &[u8], settings: Settings) {
    let Ok(section) = read(bytes, settings) else { return };
    let keys: Vec<_> = section.entries().map(|e| (e.key, e.attributes().count())).collect();
    let _ = section.tree();
    for (key, _) in keys {
        let _ = (section.size(key), section.layout(key));
    }
}

#[test]
fn every_section_near_input_a_is_answered() {
    for settings in [none(), erased(), Settings::mw(Endian::Little)] {
        for cut in 0..=INPUT_A.len() {
            ask(&INPUT_A[..cut], settings.clone());
        }
        for at in 0..INPUT_A.len() {
            for byte in 0..=255 {
                let mut bytes = INPUT_A;
                bytes[at] = byte;
                ask(&bytes, settings.clone());
            }
        }
    }
}

/// The size of a structure whose one member has these entries between itself and its sibling, as the calls for one and for all tell it.
fn size_with_children(children: &[u8]) -> Result<u32, Error> {
    let end = 38 + children.len() as u32;
    let sibling = [&[0x00, 0x12][..], &end.to_be_bytes()].concat();
    let member = entry(0x0d, &[&sibling, &[0x00, 0x55, 0, 7], &[0x00, 0x23, 0, 6, 4, 0, 0, 0, 0, 7]]);
    let bytes = [entry(0x13, &[&sibling]), member, children.to_vec()].concat();
    let section = read(&bytes, none()).unwrap();
    let [size, layout] = [section.size(0), section.layout(0).map(|layout| layout.size)];
    let all = section.layouts().unwrap().remove(0).layout.map(|layout| layout.size);
    assert_eq!((&size, &size), (&layout, &all));
    size
}

#[test]
fn a_member_has_no_children() {
    let (child, null) = (entry(0x0d, &[&[0x00, 0x55, 0, 7]]), [0, 0, 0, 4]);
    // a child that is its own sibling, and one whose sibling is the null entry before it
    let again = entry(0x0d, &[&[0x00, 0x12, 0, 0, 0, 38]]);
    assert_eq!(size_with_children(&[]), Ok(4));
    assert_eq!(size_with_children(&[null, null].concat()), Ok(4));
    assert_eq!(refused(size_with_children(&child)), (16, 12));
    assert_eq!(refused(size_with_children(&[&null[..], &child].concat())), (16, 12));
    assert_eq!(refused(size_with_children(&again)), (9, 12));
    assert_eq!(refused(size_with_children(&[&null[..], &again].concat())), (9, 12));
    assert_eq!(
        refused(size_with_children(&[&child[..], &entry(0x0d, &[&[0x00, 0x12, 0, 0, 0, 48]])].concat())),
        (9, 12)
    );
}
