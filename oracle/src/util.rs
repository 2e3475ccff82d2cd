//! What the published module expects around it, and the module itself.
pub mod reader;

#[allow(dead_code)]
mod published {
    include!(concat!(env!("OUT_DIR"), "/dwarf/declaration.rs"));
}
pub use published::dwarf;
