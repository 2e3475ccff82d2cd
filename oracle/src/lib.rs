//! The Rust made to run: decomp-toolkit's DWARF module, unchanged, with the shims that it lacks; our archive beside it; and sections for both.
pub mod answers;
pub mod blocks;
pub mod foresee;
pub mod form;
pub mod known;
pub mod ours;
pub mod plain;
pub mod sections;
pub mod shapes;
pub mod theirs;
pub mod util;

/// A fixed number of elements of a slice, as an array.
#[macro_export]
macro_rules! array_ref {
    ($slice:expr, $offset:expr, $size:expr) => {
        <&[_; $size]>::try_from(&$slice[$offset..$offset + $size]).unwrap()
    };
}
