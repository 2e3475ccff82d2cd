//! The declarations of src/raw.rs against the Rattle source: each exported function with its parameters, each width, limit and flag.
use std::{
    fs,
    path::{Path, PathBuf},
};

/// A function: its name, its parameters' names and types, its result.
type Function = (String, Vec<(String, String)>, String);

fn below(path: &str) -> PathBuf {
    Path::new(env!("CARGO_MANIFEST_DIR")).join(path)
}

fn text(path: impl AsRef<Path>) -> String {
    let path = path.as_ref();
    fs::read_to_string(path).unwrap_or_else(|e| panic!("{}: {e}", path.display()))
}

/// The functions `fn capbeacon_..(..) -> RESULT` of a text, in its order.
fn functions(text: &str) -> Vec<Function> {
    let mut found = Vec::new();
    for piece in text.split("fn capbeacon_").skip(1) {
        let (name, rest) = piece.split_once('(').unwrap();
        let (parameters, rest) = rest.split_once(')').unwrap();
        let parameters = parameters.split(',').map(str::trim).filter(|p| !p.is_empty());
        let parameters = parameters.map(|p| p.split_once(": ").unwrap());
        let result = rest.split_once("-> ").unwrap().1.split([' ', '\n', ';']).next().unwrap();
        let parameters = parameters.map(|(n, t)| (n.to_string(), t.to_string())).collect();
        found.push((name.to_string(), parameters, result.to_string()));
    }
    found
}

/// A parameter of Rattle as it crosses: a slice is a pointer, then a length.
fn crossing((name, kind): &(String, String)) -> Vec<(String, String)> {
    let length = (format!("{name}_len"), "usize".to_string());
    let pointer = |word: &str, of: &str| (name.clone(), format!("*{word} {of}"));
    if let Some(of) = kind.strip_prefix("&[").and_then(|k| k.strip_suffix(']')) {
        vec![pointer("const", of), length]
    } else if let Some(of) = kind.strip_prefix("&mut [").and_then(|k| k.strip_suffix(']')) {
        vec![pointer("mut", of), length]
    } else {
        vec![(name.clone(), kind.clone())]
    }
}

#[test]
fn functions_are_those_of_the_archive() {
    let mut ours = functions(&text(below("src/raw.rs")));
    let mut theirs = Vec::new();
    for file in fs::read_dir(below("../crates/exports/src")).unwrap() {
        let source = text(file.unwrap().path());
        assert_eq!(source.matches("#[unsafe(no_mangle)]").count(), functions(&source).len());
        assert_eq!(source.matches("pub extern \"C\" fn").count(), functions(&source).len());
        theirs.extend(functions(&source));
    }
    for function in &mut theirs {
        function.1 = function.1.iter().flat_map(crossing).collect();
    }
    ours.sort();
    theirs.sort();
    assert!(!theirs.is_empty());
    assert_eq!(ours, theirs);
}

/// The number of `pub const NAME: TYPE = NUMBER;`, decimal or hexadecimal.
fn constant(text: &str, name: &str) -> usize {
    let (_, rest) = text.split_once(&format!("pub const {name}: ")).unwrap_or_else(|| panic!("no {name}"));
    let number = rest.split_once("= ").unwrap().1.split_once(';').unwrap().0.replace('_', "");
    match number.strip_prefix("0x") {
        Some(hex) => usize::from_str_radix(hex, 16).unwrap(),
        None => number.parse().unwrap(),
    }
}

#[test]
fn numbers_are_those_of_the_archive() {
    let ours = text(below("src/raw.rs"));
    for (file, names) in [
        ("tables/src/row.rt", &["ROW_WIDTH", "ATTR_WIDTH", "ERASED", "ERASED_ROOT", "LITTLE"][..]),
        ("tables/src/unit.rt", &["NO_UNIT"]),
        ("tree/src/listing.rt", &["PLACE_WIDTH"]),
        ("layout/src/one.rt", &["LAID_WIDTH"]),
        ("layout/src/all.rt", &["STRUCTURE_WIDTH"]),
        ("format/src/limits.rt", &["ENTRY_LIMIT", "ATTRIBUTE_LIMIT"]),
    ] {
        let theirs = text(below("../crates").join(file));
        for name in names {
            assert_eq!(constant(&ours, name), constant(&theirs, name), "{name}");
        }
    }
}

/// The numbers of a list of the definitions, hexadecimal or decimal.
fn list(text: &str, name: &str) -> Vec<u32> {
    let rest = text.split(&format!("\n{name} ")).nth(1).unwrap_or_else(|| panic!("no {name}"));
    let body = rest.split('=').nth(1).and_then(|body| body.split("[]").next()).expect("a list");
    let number = |word: &str| match word.strip_prefix("0x") {
        Some(hex) => u32::from_str_radix(hex, 16).ok(),
        None => word.parse().ok(),
    };
    // A size that the Rust does not have is `other`, and 0 here.
    body.split('∷')
        .map(str::trim)
        .filter(|word| !word.is_empty())
        .map(|word| number(word).unwrap_or(0))
        .collect()
}

#[test]
fn presets_are_those_of_the_definitions() {
    let presets = text(below("../crates/format/specs/Presets.antt"));
    let ours = text(below("src/settings.rs"));
    let constant = |name: &str| -> Vec<u32> {
        let rest = ours.split(&format!("const {name}: ")).nth(1).unwrap_or_else(|| panic!("no {name}"));
        let body = rest.split('=').nth(1).and_then(|body| body.split(';').next()).expect("a constant");
        let words = body
            .split(|c: char| !c.is_ascii_alphanumeric())
            .filter(|word| word.starts_with(|c: char| c.is_ascii_digit()));
        words
            .map(|word| {
                word.strip_prefix("0x")
                    .map_or(word.parse(), |hex| u32::from_str_radix(hex, 16))
                    .expect("a number")
            })
            .collect()
    };
    assert_eq!(list(&presets, "mw_vendors"), constant("MW_VENDORS"));
    assert_eq!(list(&presets, "rust_sizes other"), constant("SIZES"));
    let roles = presets.split("\nmw_roles =").nth(1).and_then(|rest| rest.lines().next()).expect("mw_roles");
    let roles: Vec<u32> =
        roles.split("0x").skip(1).map(|n| u32::from_str_radix(&n[..4], 16).expect("a number")).collect();
    assert_eq!(roles, constant("MW_ROLES"));
}
