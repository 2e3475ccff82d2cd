//! The part of decomp-toolkit's `util::reader` that its DWARF module uses, with the evident meaning: exact bytes in an endianness.
use std::io::{self, Read};

#[derive(Debug, Copy, Clone, PartialEq, Eq)]
pub enum Endian {
    Big,
    Little,
}

impl Endian {
    #[inline]
    pub fn flip(self) -> Self {
        match self {
            Endian::Big => Endian::Little,
            Endian::Little => Endian::Big,
        }
    }
}

pub trait FromBytes {
    type Bytes;
    fn from_bytes(bytes: Self::Bytes, e: Endian) -> Self;
}

pub trait FromReader: Sized {
    fn from_reader<R: Read + ?Sized>(reader: &mut R, e: Endian) -> io::Result<Self>;
}

macro_rules! integers {
    ($($t:ty),*) => {$(
        impl FromBytes for $t {
            type Bytes = [u8; size_of::<$t>()];
            #[inline]
            fn from_bytes(bytes: Self::Bytes, e: Endian) -> Self {
                match e {
                    Endian::Big => <$t>::from_be_bytes(bytes),
                    Endian::Little => <$t>::from_le_bytes(bytes),
                }
            }
        }

        impl FromReader for $t {
            #[inline]
            fn from_reader<R: Read + ?Sized>(reader: &mut R, e: Endian) -> io::Result<Self> {
                let mut bytes = [0; size_of::<$t>()];
                reader.read_exact(&mut bytes)?;
                Ok(<$t>::from_bytes(bytes, e))
            }
        }
    )*};
}

integers!(u8, u16, u32, u64, i8, i16, i32);
