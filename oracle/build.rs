//! Lays the published module, unchanged, where `src/util.rs` includes it, and links our archive.
use std::{
    env, fs,
    path::{Path, PathBuf},
};

/// A path from the environment.
fn path(variable: &str) -> Option<PathBuf> {
    println!("cargo:rerun-if-env-changed={variable}");
    let path = env::var(variable).map(PathBuf::from).ok()?;
    println!("cargo:rerun-if-changed={}", path.display());
    Some(path)
}

/// Our archive is for x86-64 unless one is named; only `compare`, `bench` and `calls` need it.
fn link_archive(named: Option<PathBuf>, root: &Path) {
    let here = env::var("CARGO_CFG_TARGET_ARCH").unwrap() == "x86_64" || named.is_some();
    let archive = named.unwrap_or_else(|| root.join("../crates/exports/out/libexports.a"));
    println!("cargo:rerun-if-changed={}", archive.display());
    let name = archive.file_stem().and_then(|n| n.to_str()).and_then(|n| n.strip_prefix("lib"));
    if let Some(name) = name.filter(|_| here && archive.exists()) {
        println!("cargo:rustc-link-search=native={}", archive.parent().unwrap().display());
        println!("cargo:rustc-link-lib=static={name}");
    }
}

fn main() {
    let source = path("DWARF_MOD_RS").expect("DWARF_MOD_RS says where the published mod.rs lies");
    let root = PathBuf::from(env::var("CARGO_MANIFEST_DIR").unwrap());
    let out = PathBuf::from(env::var("OUT_DIR").unwrap()).join("dwarf");
    fs::create_dir_all(&out).unwrap();
    fs::copy(&source, out.join("mod.rs")).unwrap_or_else(|e| panic!("{}: {e}", source.display()));
    // The module declares `pub mod print;`, which was not published.
    println!("cargo:rerun-if-changed=shims/print.rs");
    fs::copy(root.join("shims/print.rs"), out.join("print.rs")).unwrap();
    let declaration = format!("#[path = {:?}]\npub mod dwarf;\n", out.join("mod.rs"));
    fs::write(out.join("declaration.rs"), declaration).unwrap();

    link_archive(path("CAPBEACON_LIB"), &root);
}
