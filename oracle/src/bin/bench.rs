//! bench [ROUNDS] [SHAPE]: ours (counts, then fills lent tables) against the Rust (builds its map) on sections of several shapes; medians of alternating runs.
use oracle::{
    known::vendors,
    ours::Reader,
    sections::{Rng, Writer},
    util::{dwarf::read_debug_section, reader::Endian},
};
use std::{
    cell::RefCell,
    env,
    hint::black_box,
    io::Cursor,
    time::{Duration, Instant},
};

const E: Endian = Endian::Big;

/// Writes an entry in data endianness.
type Shape = fn(&mut Writer, &mut Rng, Endian);

/// A text or block of so many bytes, none of them 0.
fn bytes(rng: &mut Rng, len: usize) -> Vec<u8> {
    (0..len).map(|_| b'a' + rng.below(26) as u8).collect()
}

/// An entry with attributes of these numbers; texts and blocks have `least` to `most` bytes.
fn entry(w: &mut Writer, rng: &mut Rng, data: Endian, numbers: &[u16], least: usize, most: usize) {
    let tag = rng.pick(&[0x05, 0x06, 0x07, 0x0c, 0x0d, 0x13, 0x14, 0x16]);
    w.entry(data, tag, |w| {
        for number in numbers {
            let len = least + rng.below(most - least + 1);
            let text = bytes(rng, len);
            w.attribute(data, *number, rng.next(), &text);
        }
    });
}

/// About 250 bytes: an enumeration with its element list.
fn sparse(w: &mut Writer, rng: &mut Rng, data: Endian) {
    let (name, list) = (bytes(rng, 14), bytes(rng, 200));
    w.entry(data, 0x04, |w| {
        w.attribute(data, 0x012, rng.next(), &[]);
        w.attribute(data, 0x038, 0, &name);
        w.attribute(data, 0x0b6, 4, &[]);
        w.attribute(data, 0x0f4, 0, &list);
    });
}

/// About 70 bytes: eight attributes.
fn dense(w: &mut Writer, rng: &mut Rng, data: Endian) {
    entry(w, rng, data, &[0x012, 0x038, 0x055, 0x023, 0x0b6, 0x111, 0x121, 0x142], 6, 14);
}

fn long_strings(w: &mut Writer, rng: &mut Rng, data: Endian) {
    entry(w, rng, data, &[0x012, 0x038, 0x258, 0x1b8, 0x0b6], 60, 120);
}

fn short_strings(w: &mut Writer, rng: &mut Rng, data: Endian) {
    entry(w, rng, data, &[0x012, 0x038, 0x248, 0x288, 0x278, 0x308, 0x055], 0, 6);
}

/// Seven attributes of the vendor list, of any place in it.
fn vendor_heavy(w: &mut Writer, rng: &mut Rng, data: Endian) {
    let list = vendor_list();
    let mut numbers = [0x012; 8];
    numbers[1..].iter_mut().for_each(|n| *n = rng.pick(list));
    entry(w, rng, data, &numbers, 4, 10);
}

fn vendor_list() -> &'static [u16] {
    static LIST: std::sync::OnceLock<Vec<u16>> = std::sync::OnceLock::new();
    LIST.get_or_init(vendors)
}

/// An erased root in the other endianness with seven entries inside: eight rows.
fn erased(w: &mut Writer, rng: &mut Rng, data: Endian) {
    let inside = data.flip();
    let name = bytes(rng, 12);
    w.entry(data, 0, |w| {
        w.attribute(inside, 0x038, 0, &name);
        w.attribute(inside, 0x111, rng.next(), &[]);
        w.attribute(inside, 0x121, rng.next(), &[]);
        w.attribute(inside, 0x2022, rng.next(), &[]);
        (0..7).for_each(|_| entry(w, rng, inside, &[0x012, 0x038, 0x055, 0x023, 0x2008], 6, 14));
    });
}

fn section(shape: Shape, entries: usize) -> Vec<u8> {
    let mut w = Writer::new(E);
    let mut rng = Rng(7);
    (0..entries).for_each(|_| shape(&mut w, &mut rng, E));
    w.bytes
}

/// The medians, in microseconds, of two things done strictly in turns, so that each always follows the other.
fn in_turns(
    rounds: usize,
    mut first: impl FnMut() -> Duration,
    mut second: impl FnMut() -> Duration,
) -> [f64; 2] {
    let mut times = [const { Vec::new() }; 2];
    for _ in 0..rounds {
        times[0].push(first());
        times[1].push(second());
    }
    times.map(|mut times| {
        times.sort();
        times[times.len() / 2].as_secs_f64() * 1e6
    })
}

/// The time of ours; the section must be read.
fn ours(reader: &RefCell<Reader>, section: &[u8]) -> Duration {
    let mut reader = reader.borrow_mut();
    let start = Instant::now();
    let answer = reader.read(black_box(section), E, true);
    let time = start.elapsed();
    assert_eq!(answer.number, 0);
    time
}

/// The time of the Rust; what it built is dropped outside it.
fn theirs(section: &[u8]) -> Duration {
    let start = Instant::now();
    let info = read_debug_section(&mut Cursor::new(black_box(section)), E, true);
    let time = start.elapsed();
    assert!(info.is_ok());
    time
}

fn main() {
    let rounds = env::args().nth(1).map_or(401, |word| word.parse().expect("a number"));
    let only = env::args().nth(2);
    let reader = RefCell::new(Reader::new(0));
    let shapes: [(&str, Shape, usize); 7] = [
        ("sparse", sparse, 4000),
        ("dense", dense, 4000),
        // As many rows and attributes as are allowed.
        ("full", dense, 4096),
        ("long strings", long_strings, 4000),
        ("short strings", short_strings, 4000),
        ("vendor-heavy", vendor_heavy, 4000),
        ("erased", erased, 500),
    ];
    println!("shape            bytes  rows  attrs  ours us  Rust us  ours/Rust  ours, twice the section");
    for (name, shape, entries) in shapes {
        if only.as_ref().is_some_and(|only| only != name) {
            continue;
        }
        let (whole, half) = (section(shape, entries), section(shape, entries / 2));
        let counts = reader.borrow().count(&whole, E, true);
        let [us, rust] = in_turns(rounds, || ours(&reader, &whole), || theirs(&whole));
        let [twice, once] = in_turns(rounds, || ours(&reader, &whole), || ours(&reader, &half));
        println!(
            "{name:14} {:7} {:5} {:6} {us:8.1} {rust:8.1} {:10.3} {:24.2}",
            whole.len(),
            counts.rows,
            counts.attrs,
            us / rust,
            twice / once
        );
    }
}
