//! calls [ROUNDS]: what follows reading, ours (the crate `capbeacon` over the archive) against the Rust, on sections full of structures; medians of alternating runs.
//!
//! The tree listing stands against the Rust's children of every tag, all layouts against its structures with the sizes of every member. One call on a key tests the whole
//! table first, which the Rust, whose tables nobody can forge, does not: it is told on its own.
use capbeacon::{Endian, Section, Settings};
use oracle::util::{
    dwarf::{DwarfInfo, UserDefinedType, get_udt_by_key, read_debug_section},
    reader,
};
use std::{
    env,
    hint::black_box,
    io::Cursor,
    time::{Duration, Instant},
};

/// An entry of a section in the making; references to the entry after it are filled in.
fn entry(bytes: &mut Vec<u8>, tag: u16, sibling: bool, body: &[u8]) -> usize {
    let start = bytes.len();
    let size = 6 + if sibling { 6 } else { 0 } + body.len();
    bytes.extend((size as u32).to_be_bytes());
    bytes.extend(tag.to_be_bytes());
    if sibling {
        bytes.extend([0, 0x12, 0, 0, 0, 0]);
    }
    bytes.extend(body);
    start
}

fn set_sibling(bytes: &mut [u8], start: usize, to: usize) {
    bytes[start + 8..start + 12].copy_from_slice(&(to as u32).to_be_bytes());
}

fn member(bytes: &mut Vec<u8>, name: &str, kind: &[u8], offset: u32) {
    let mut body = vec![0, 0x38];
    body.extend(name.as_bytes());
    body.push(0);
    body.extend(kind);
    body.extend([0, 0x23, 0, 6, 4]);
    body.extend(offset.to_be_bytes());
    body.push(7);
    let start = entry(bytes, 0x0d, true, &body);
    let end = bytes.len();
    set_sibling(bytes, start, end);
}

/// A reference to an entry as a type, plain or through a pointer.
fn user(key: usize, pointer: bool) -> Vec<u8> {
    let key = (key as u32).to_be_bytes();
    if pointer { [&[0, 0x83, 0, 5, 1][..], &key].concat() } else { [&[0, 0x72][..], &key].concat() }
}

/// So many structures of five members, each of which holds the one before it, `depth` deep, and an array; with a ByteSize if `sized`.
fn structures(count: usize, depth: usize, sized: bool) -> Vec<u8> {
    let (mut bytes, mut last) = (Vec::new(), 0);
    for k in 0..count {
        let array = [&[0, 0xa3, 0, 16, 0, 0, 7, 0, 0, 0, 0, 0, 0, 0, 3, 8][..], &[0, 0x55, 0, 5]].concat();
        let array_key = entry(&mut bytes, 0x01, true, &array);
        let start = bytes.len();
        set_sibling(&mut bytes, array_key, start);
        let own: &[u8] = if sized { &[0, 0xb6, 0, 0, 0, 24] } else { &[] };
        let start = entry(&mut bytes, 0x13, true, &[format!("\0\x38record{k}\0").as_bytes(), own].concat());
        member(&mut bytes, "id", &[0, 0x55, 0, 7], 0);
        member(&mut bytes, "kind", &[0, 0x55, 0, 1], 4);
        member(&mut bytes, "next", &user(start, true), 8);
        member(&mut bytes, "cells", &user(array_key, false), 12);
        if k % depth != 0 {
            member(&mut bytes, "inner", &user(last, false), 20);
        }
        bytes.extend([0, 0, 0, 4]);
        let end = bytes.len();
        set_sibling(&mut bytes, start, end);
        last = start;
    }
    bytes
}

/// The medians, in microseconds, of two things done strictly in turns.
fn in_turns(rounds: usize, first: impl Fn() -> Duration, second: impl Fn() -> Duration) -> [f64; 2] {
    let mut times = [const { Vec::new() }; 2];
    for _ in 0..rounds {
        times[0].push(first());
        times[1].push(second());
    }
    times.map(|mut times| {
        times.sort();
        times[times.len() / 2].as_secs_f64() * 1e6
    })
}

fn timed<T>(call: impl FnOnce() -> T) -> Duration {
    let start = Instant::now();
    let answer = black_box(call());
    let time = start.elapsed();
    drop(answer);
    time
}

fn all_children(info: &DwarfInfo) -> usize {
    info.tags.values().map(|tag| tag.children(&info.tags).len()).sum()
}

/// Every structure with its size and its members' sizes.
fn all_structures(info: &DwarfInfo) -> Vec<(u32, Vec<u32>)> {
    let structures = info.tags.values().filter(|tag| u16::from(tag.kind) == 0x13);
    let laid = structures.map(|tag| {
        let found = get_udt_by_key(info, tag.key).unwrap();
        let UserDefinedType::Structure(structure) = &found else { unreachable!() };
        let members = structure.members.iter();
        let sizes = members.map(|m| m.byte_size.unwrap_or_else(|| m.kind.size(info).unwrap())).collect();
        (found.size(info).unwrap(), sizes)
    });
    laid.collect()
}

/// Both sides say the same sizes.
fn agree(section: &Section, info: &DwarfInfo) {
    let ours = section.layouts().unwrap().into_iter().map(|s| {
        let layout = s.layout.unwrap();
        (layout.size, layout.members.iter().map(|m| m.size).collect::<Vec<_>>())
    });
    assert!(ours.eq(all_structures(info)));
    let children = section.tree().unwrap().iter().filter(|p| p.parent.is_some()).count();
    let nulls = section.entries().filter(|e| e.tag == 0).count();
    assert_eq!(children - nulls, all_children(info));
}

fn main() {
    let rounds = env::args().nth(1).map_or(101, |word| word.parse().expect("a number"));
    println!(
        "section                   rows  call             ours us   Rust us  ours/Rust  ours, twice the section"
    );
    let shapes = [("flat", 580, 1), ("nested 4 deep", 512, 4), ("nested 16 deep", 512, 16)];
    for ((shape, count, depth), sized) in shapes.into_iter().flat_map(|shape| [(shape, false), (shape, true)])
    {
        let name = if sized { format!("{shape}, ByteSize") } else { shape.to_string() };
        let [whole, half] = [count, count / 2].map(|n| {
            let bytes = structures(n, depth, sized);
            let info = read_debug_section(&mut Cursor::new(&bytes), reader::Endian::Big, false).unwrap();
            (Section::read(bytes, Settings::mw(Endian::Big)).unwrap(), info)
        });
        agree(&whole.0, &whole.1);
        let rows = whole.0.entries().count();
        let line = |call: &str, [us, rust]: [f64; 2], [twice, once]: [f64; 2]| {
            println!(
                "{name:24} {rows:5}  {call:14} {us:9.1} {rust:9.1} {:10.3} {:24.2}",
                us / rust,
                twice / once
            );
        };
        let tree = |s: &Section| timed(|| s.tree().unwrap());
        let ratio = in_turns(rounds, || tree(&whole.0), || timed(|| all_children(&whole.1)));
        line("tree, children", ratio, in_turns(rounds, || tree(&whole.0), || tree(&half.0)));
        let layouts = |s: &Section| timed(|| s.layouts().unwrap());
        let ratio = in_turns(rounds, || layouts(&whole.0), || timed(|| all_structures(&whole.1)));
        line("all layouts", ratio, in_turns(rounds, || layouts(&whole.0), || layouts(&half.0)));
        let key = whole.0.entries().filter(|e| e.tag == 0x13).last().unwrap().key;
        let size = |s: &Section| timed(|| s.size(key));
        let theirs = || timed(|| get_udt_by_key(&whole.1, key).unwrap().size(&whole.1).unwrap());
        let ratio = in_turns(rounds, || size(&whole.0), theirs);
        line("one size", ratio, in_turns(rounds, || size(&whole.0), || size(&half.0)));
        // No row has this key, so that nothing but the test of the table is done.
        let test = |s: &Section| timed(|| s.size(1));
        let ratio = in_turns(rounds, || test(&whole.0), || tree(&whole.0));
        println!("{name:24} {rows:5}  {:14} {:9.1}", "table test", ratio[0]);
    }
}
