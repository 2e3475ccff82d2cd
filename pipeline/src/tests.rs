//! What the safe functions cannot do: forged tables, and tables and rooms of any length.
use crate::{
    Endian, Settings,
    raw::{self, Answer, HELD, NO_BYTE, NO_UNIT, ROW_WIDTH, Table},
};

/// Document 01's input A, and its table.
const INPUT_A: [u8; 42] = [
    0x00, 0x00, 0x00, 0x12, 0x00, 0x13, 0x00, 0x12, 0x00, 0x00, 0x00, 0x2a, 0x00, 0xb6, 0x00, 0x00, 0x00,
    0x04, 0x00, 0x00, 0x00, 0x14, 0x00, 0x0d, 0x00, 0x55, 0x00, 0x07, 0x00, 0x23, 0x00, 0x06, 0x04, 0x00,
    0x00, 0x00, 0x00, 0x07, 0x00, 0x00, 0x00, 0x04,
];
const WORDS: usize = 3 * ROW_WIDTH;
const ROWS: [u32; WORDS] =
    [0x00, 0x13, 0, 0, 2, NO_UNIT, 0x12, 0x0d, 0, 2, 2, NO_UNIT, 0x26, 0x00, 0, 4, 0, NO_UNIT];
const ATTRS: [u32; 8] = [0x12, 0x08, 0xb6, 0x0e, 0x55, 0x1a, 0x23, 0x1e];

/// What stands in a word that was not written.
const FILL: u32 = 0xabab_abab;

fn settings() -> Settings {
    Settings::none(Endian::Big)
}

fn table<'a>(rows: &'a [u32], attrs: &'a [u32], row_count: u64, attr_count: u64) -> Table<'a> {
    Table { rows, attrs, row_count, attr_count }
}

/// The answers of the four calls on a table.
fn asked(bytes: &[u8], table: Table) -> [Answer; 4] {
    let (settings, mut places, mut members, mut all) = (settings(), [FILL; 32], [7; 32], ([7; 32], [7; 32]));
    let tree = raw::tree(bytes, &settings, table, &mut places);
    let size = raw::size(bytes, &settings, table, 0);
    let layout = raw::layout(bytes, &settings, table, 0, &mut members);
    if tree.number != 0 {
        assert_eq!(places, [FILL; 32]);
    }
    if layout.number != 0 {
        assert_eq!(members, [7; 32]);
    }
    let layouts = raw::layouts(bytes, &settings, table, &mut all.0, &mut all.1);
    if layouts.number != 0 {
        assert_eq!(all, ([7; 32], [7; 32]));
    }
    [tree, size, layout, layouts]
}

fn given(results: [u64; 3]) -> Answer {
    Answer { number: 0, place: 0, byte: NO_BYTE, results }
}

/// With 8 the counts that are needed.
fn wanting(results: [u64; 3]) -> Answer {
    Answer { number: 8, place: 0, byte: NO_BYTE, results }
}

/// The results hold what they held.
fn refused(number: u32, place: u64) -> Answer {
    Answer { number, place, byte: NO_BYTE, results: [HELD; 3] }
}

/// The same of reading with 4, 5 or 6.
fn unread(number: u32, place: u64, byte: u64) -> Answer {
    Answer { byte, ..refused(number, place) }
}

#[test]
fn reading_fills_the_table() {
    let (mut rows, mut attrs) = ([FILL; WORDS + 1], [FILL; 9]);
    assert_eq!(raw::count(&INPUT_A, &settings()), given([3, 4, HELD]));
    assert_eq!(raw::read(&INPUT_A, &settings(), &mut rows, &mut attrs), given([3, 4, HELD]));
    assert_eq!((&rows[..WORDS], rows[WORDS]), (&ROWS[..], FILL));
    assert_eq!((&attrs[..8], attrs[8]), (&ATTRS[..], FILL));
    assert_eq!(
        asked(&INPUT_A, table(&rows, &attrs, 3, 4)),
        [given([3, HELD, HELD]), given([4, HELD, HELD]), given([0, 4, 1]), given([1, 1, HELD])]
    );
}

#[test]
fn tables_too_small() {
    for (row_words, attr_words) in [(WORDS - 1, 8), (WORDS, 7), (0, 0), (0, 100), (100, 0)] {
        let (mut rows, mut attrs) = (vec![FILL; row_words], vec![FILL; attr_words]);
        let answer = raw::read(&INPUT_A, &settings(), &mut rows, &mut attrs);
        assert_eq!(answer, wanting([3, 4, HELD]));
        assert!(rows.iter().chain(&attrs).all(|word| *word == FILL));
    }
}

#[test]
fn rooms_too_small() {
    let lent = table(&ROWS, &ATTRS, 3, 4);
    let mut places = [FILL; 5];
    let answer = raw::tree(&INPUT_A, &settings(), lent, &mut places);
    assert_eq!((answer, places), (wanting([3, HELD, HELD]), [FILL; 5]));
    let mut members = [7; 3];
    let answer = raw::layout(&INPUT_A, &settings(), lent, 0, &mut members);
    assert_eq!((answer, members), (wanting([HELD, HELD, 1]), [7; 3]));
    for (structure_words, member_words) in [(7, 4), (8, 3), (0, 0)] {
        let (mut structures, mut members) = (vec![7; structure_words], vec![7; member_words]);
        let answer = raw::layouts(&INPUT_A, &settings(), lent, &mut structures, &mut members);
        assert_eq!(answer, wanting([1, 1, HELD]));
        assert!(structures.iter().chain(&members).all(|word| *word == 7));
    }
}

#[test]
fn refusals_leave_results_alone() {
    let (mut rows, mut attrs) = ([FILL; WORDS], [FILL; 9]);
    let mut read = |bytes: &[u8], settings: &Settings| {
        let answer = raw::read(bytes, settings, &mut rows, &mut attrs);
        assert_eq!(raw::count(bytes, settings), answer);
        answer
    };
    assert_eq!(read(&INPUT_A[..0x16], &settings()), unread(4, 0x12, 0x16));
    assert_eq!(read(&[0, 0, 0, 8, 0, 8], &settings()), unread(5, 0, 4));
    assert_eq!(read(&[0, 0, 0, 8, 0, 0x14, 0, 0x39], &settings()), unread(6, 0, 6));
    let broken = Settings { vendors: vec![0x2000], ..settings() };
    assert_eq!(read(&INPUT_A[..0x16], &broken), refused(1, 0));
    assert_eq!((rows, attrs), ([FILL; WORDS], [FILL; 9]));
    assert_eq!(raw::offset(&INPUT_A[32..37], Endian::Big), refused(17, 0));
    assert_eq!(raw::offset(&INPUT_A[32..38], Endian::Big), given([0, HELD, HELD]));
}

#[test]
fn forged_tables() {
    let refusals = [refused(3, 0); 4];
    // more rows or attributes than lent or allowed
    for (row_count, attr_count) in [(4, 4), (3, 5), (u64::MAX, 4), (3, u64::MAX), (4097, 4), (3, 32769)] {
        assert_eq!(asked(&INPUT_A, table(&ROWS, &ATTRS, row_count, attr_count)), refusals);
    }
    // of a row a key, a kind, flags, a run, a unit, that cannot be
    for (row, at, word) in [
        (1, 0, 3),
        (1, 0, 0x26),
        (2, 0, 42),
        (0, 1, 0x08),
        (0, 1, 0x11),
        (0, 2, 8),
        (0, 3, 1),
        (0, 4, 1),
        (1, 4, 3),
        (2, 4, 1),
        (0, 4, u32::MAX),
        (0, 5, 0),
        (1, 5, 0x12),
        (2, 5, u32::MAX - 1),
    ] {
        let mut rows = ROWS;
        rows[row * ROW_WIDTH + at] = word;
        assert_eq!(asked(&INPUT_A, table(&rows, &ATTRS, 3, 4)), refusals, "row {row} word {at} {word}");
    }
    // an attribute number that is unknown, a value that is not wholly inside
    for (at, word) in [(0, 0x10012), (0, 0x22), (1, 39), (1, 42), (1, u32::MAX), (7, 0x24)] {
        let mut attrs = ATTRS;
        attrs[at] = word;
        assert_eq!(asked(&INPUT_A, table(&ROWS, &attrs, 3, 4)), refusals, "attribute word {at} {word}");
    }
    // the table of another section
    assert_eq!(asked(&INPUT_A[..30], table(&ROWS, &ATTRS, 3, 4)), refusals);
}

#[test]
fn each_row_has_its_unit() {
    // Null entries before, in and between two units without attributes that count.
    let unit = [0, 0, 0, 9, 0, 0x11, 0, 0x38, 0];
    let null = [0, 0, 0, 4];
    let bytes = [&null[..], &unit, &null, &null, &unit, &null].concat();
    let (mut rows, mut attrs) = ([FILL; 6 * ROW_WIDTH], [FILL; 4]);
    assert_eq!(raw::read(&bytes, &settings(), &mut rows, &mut attrs), given([6, 2, HELD]));
    let units = [NO_UNIT, 4, 4, 4, 21, 21];
    let told = |rows: &[u32]| rows.chunks_exact(ROW_WIDTH).map(|words| words[5]).collect::<Vec<_>>();
    assert_eq!(told(&rows), units);
    assert_eq!(asked(&bytes, table(&rows, &attrs, 6, 2))[0], given([6, HELD, HELD]));
    // Of each row: the mark, the first unit, the second, the row's own key, that of the row before.
    for (row, own) in units.into_iter().enumerate() {
        let before = if row == 0 { 1 } else { rows[(row - 1) * ROW_WIDTH] };
        for forged in [NO_UNIT, 4, 21, rows[row * ROW_WIDTH], before] {
            let mut forgery = rows;
            forgery[row * ROW_WIDTH + 5] = forged;
            let answer = asked(&bytes, table(&forgery, &attrs, 6, 2))[0];
            let holds = if forged == own { given([6, HELD, HELD]) } else { refused(3, 0) };
            assert_eq!(answer, holds, "row {row}, unit {forged}");
        }
    }
}

#[test]
fn an_empty_table_is_one() {
    for bytes in [&INPUT_A[..], &[]] {
        let lent = table(&[], &[], 0, 0);
        assert_eq!(
            asked(bytes, lent),
            [given([0, HELD, HELD]), refused(11, 0), refused(11, 0), given([0, 0, HELD])]
        );
    }
}

#[test]
fn any_words_are_answered() {
    let mut state = 1u32;
    let mut next = |below: u32| {
        state = state.wrapping_mul(1_664_525).wrapping_add(1_013_904_223);
        (state >> 8) % below
    };
    for _ in 0..20_000 {
        let (mut rows, mut attrs) = (ROWS, ATTRS);
        for _ in 0..=next(3) {
            rows[next(WORDS as u32) as usize] = next(60);
            attrs[next(8) as usize] = next(60);
        }
        let (row_count, attr_count) = (next(5) as u64, next(6) as u64);
        asked(&INPUT_A, table(&rows, &attrs, row_count, attr_count));
    }
}
