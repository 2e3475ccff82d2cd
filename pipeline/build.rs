//! Links the archive: `CAPBEACON_LIB`, or the one that `rt lib` leaves in crates/exports/out.
use std::{env, path::PathBuf};

fn main() {
    println!("cargo:rerun-if-env-changed=CAPBEACON_LIB");
    let named = env::var("CAPBEACON_LIB").ok();
    // rt compiles for x86-64; elsewhere only what calls nothing of the archive links.
    if named.is_none() && env::var("CARGO_CFG_TARGET_ARCH").as_deref() != Ok("x86_64") {
        println!("cargo:warning=the archive is for x86-64: nothing that calls it links here");
        return;
    }
    let root = PathBuf::from(env::var("CARGO_MANIFEST_DIR").unwrap()).join("..");
    let archive = named.map_or_else(|| root.join("crates/exports/out/libexports.a"), PathBuf::from);
    println!("cargo:rerun-if-changed={}", archive.display());
    assert!(archive.is_file(), "no archive {}: make it with `rt lib` in crates/exports", archive.display());
    let name = archive.file_stem().and_then(|n| n.to_str()).and_then(|n| n.strip_prefix("lib"));
    println!("cargo:rustc-link-search=native={}", archive.parent().unwrap().display());
    println!("cargo:rustc-link-lib=static={}", name.expect("an archive's name is libNAME.a"));
}
