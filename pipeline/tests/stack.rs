//! How much stack the archive's calls take, found by painting it: on the inputs that go deepest none takes more than 16 KB, but for all layouts, which go over all rows.
//! `.ci/stack` counts the same from the compiled code, for any input; docs/STACK.md has both.
#![cfg(target_arch = "x86_64")]
use capbeacon::{Endian, Settings};
use std::{arch::asm, hint::black_box, ptr, thread};

/// Every argument is a number or a pointer, in a register or a word of the stack, as in a call with any number of them; what a function does not take it does not
/// look at.
type Words = [u64; 26];
type Call = unsafe extern "C" fn(u64, ...) -> u32;

macro_rules! exported {
    ($($name:ident)*) => { unsafe extern "C" { $(fn $name(first: u64, ...) -> u32;)* } };
}
exported! {
    capbeacon_count_debug_section capbeacon_read_debug_section capbeacon_list_tree capbeacon_size_of_key capbeacon_layout_of_key
    capbeacon_all_layouts capbeacon_process_offset
}

macro_rules! with_words {
    ($call:ident $words:ident $($k:literal)*) => { $call($($words[$k]),*) };
}

const PAINTED: usize = 1 << 20;
const PAINT: u64 = 0x5ca1_ab1e_0ddb_a115;
/// Paint begins so far below the frame that paints, and that frame is no larger.
const GAP: usize = 1 << 10;

/// The words of the stack that are painted, from below a frame of the thread on.
fn below(frame: *const u8) -> impl Iterator<Item = *mut u64> {
    let top = (frame as usize - GAP) & !7;
    (top - PAINTED..top).step_by(8).map(|word| word as *mut u64)
}

#[inline(never)]
fn paint() {
    let frame = 0u8;
    below(black_box(&frame)).for_each(|word| unsafe { ptr::write_volatile(word, PAINT) });
}

/// The lowest word that is not as it was painted.
#[inline(never)]
fn lowest() -> usize {
    let frame = 0u8;
    below(black_box(&frame))
        .find(|word| unsafe { ptr::read_volatile(*word) } != PAINT)
        .map_or(usize::MAX, |word| word as usize)
}

/// What a call answers, and the bytes of stack that it takes below its return address.
#[inline(never)]
fn called(call: Call, words: Words) -> (u32, usize) {
    paint();
    let stack: usize;
    unsafe { asm!("mov {}, rsp", out(reg) stack) };
    let number = unsafe {
        with_words!(call words 0 1 2 3 4 5 6 7 8 9 10 11 12 13 14 15 16 17 18 19 20 21 22 23 24 25)
    };
    (number, (stack - 8).saturating_sub(lowest()))
}

/// The same on a thread of its own, whose stack nothing else has used.
fn taken(call: Call, words: Words) -> (u32, usize) {
    thread::Builder::new().stack_size(4 << 20).spawn(move || called(call, words)).unwrap().join().unwrap()
}

fn words(parts: &[&[u64]]) -> Words {
    let mut words = parts.concat();
    words.resize(26, 0);
    words.try_into().unwrap()
}

fn slice<T>(items: &[T]) -> [u64; 2] {
    [items.as_ptr() as u64, items.len() as u64]
}

/// 32 structures without ByteSize, each with a member of the next one's type, the last with an integer: as deep as sizes go.
fn chain() -> Vec<u8> {
    let location = [0x00, 0x23, 0, 6, 4, 0, 0, 0, 0, 7];
    let structure = |i: u32| -> Vec<u8> {
        let (last, next) = (i == 31, (i + 1) * 34 - 2 * (i == 31) as u32);
        let of =
            if last { vec![0x00, 0x55, 0, 7] } else { [&[0x00, 0x72][..], &next.to_be_bytes()].concat() };
        let member = [&[0, 0, 0, 16 + of.len() as u8, 0, 0x0d][..], &of, &location].concat();
        [&[0, 0, 0, 12, 0, 0x13, 0x00, 0x12][..], &next.to_be_bytes(), &member].concat()
    };
    (0..32).flat_map(structure).collect()
}

/// Roots inside one another, as many as may be, the erased flag on.
fn roots(levels: u8) -> Vec<u8> {
    let root = |k: u8| [0, 0, 0, 9 + 12 * k, 0, 0, 0x01, 0x21, 0, 0, 0, 0];
    let inner = [0, 0, 0, 9, 0, 0, 0, 0x38, 0];
    [(1..=levels).rev().flat_map(root).collect::<Vec<u8>>(), inner.to_vec()].concat()
}

#[test]
fn no_call_takes_more_than_16_kb_but_all_layouts() {
    let settings = Settings::none(Endian::Big);
    let (vendors, sizes): (&[u16], &[u32]) = (&[], &settings.sizes);
    let (mut rows, mut attrs, mut room, mut more) =
        (vec![0u32; 1 << 12], vec![0u32; 1 << 12], vec![0u64; 1 << 12], vec![0u64; 1 << 12]);
    let mut told = [0u64; 4];
    let told: Vec<u64> = told.iter_mut().map(|word| ptr::from_mut(word) as u64).collect();
    let begin = |section: &[u8], erased: u64| -> Vec<u64> {
        [&slice(section)[..], &[0, erased, 2, 0, 0, 0, 0], &slice(vendors), &slice(sizes)].concat()
    };
    let (rows, attrs) = (slice(&mut rows), slice(&mut attrs));
    let (room, more) = (slice(&mut room), slice(&mut more));
    let mut most = Vec::new();
    let mut run = |name: &'static str, call: Call, parts: &[&[u64]]| -> u32 {
        let (number, bytes) = taken(call, words(parts));
        most.push((name, bytes));
        number
    };
    for (levels, number) in [(15, 0), (16, 7)] {
        let section = roots(levels);
        let begin = begin(&section, 1);
        assert_eq!(run("count", capbeacon_count_debug_section, &[&begin, &told]), number);
        assert_eq!(run("read", capbeacon_read_debug_section, &[&begin, &rows, &attrs, &told]), number);
    }
    let section = chain();
    let begin = begin(&section, 0);
    assert_eq!(run("read", capbeacon_read_debug_section, &[&begin, &rows, &attrs, &told]), 0);
    let table = [&begin[..], &rows, &attrs, &[64, 96]].concat();
    assert_eq!(run("tree", capbeacon_list_tree, &[&table, &room, &told]), 0);
    assert_eq!(run("size", capbeacon_size_of_key, &[&table, &[0], &told]), 0);
    assert_eq!(run("layout", capbeacon_layout_of_key, &[&table, &[0], &room, &told]), 0);
    assert_eq!(run("block", capbeacon_process_offset, &[&slice(&[4u8, 0, 0, 0, 8, 7]), &[0], &told]), 0);
    assert_eq!(run("layouts", capbeacon_all_layouts, &[&table, &room, &more, &told]), 0);
    println!("{most:?}");
    let (all, others): (Vec<_>, Vec<_>) = most.into_iter().partition(|(name, _)| *name == "layouts");
    for (name, bytes) in others {
        assert!(bytes <= 16 << 10, "{name} takes {bytes} bytes of stack");
    }
    // the measure sees what is taken
    assert!((400 << 10..512 << 10).contains(&all[0].1), "all layouts take {} bytes of stack", all[0].1);
}
