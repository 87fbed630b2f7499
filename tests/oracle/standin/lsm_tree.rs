// STAND-IN for crate lsm-tree: what fjall's journal imports of it and no more. Not the real crate. CODES, above, is the dialect's.
use std::io::{Read, Write};

pub type SeqNo = u64;
pub type UserKey = Slice;
pub type UserValue = Slice;

#[derive(Debug)]
pub enum Error {
    Io(std::io::Error),
    InvalidTag((&'static str, u8)),
}

impl From<std::io::Error> for Error {
    fn from(e: std::io::Error) -> Self {
        Self::Io(e)
    }
}

pub type Result<T> = std::result::Result<T, Error>;

#[derive(Copy, Clone, Debug, Eq, PartialEq)]
pub enum ValueType {
    Value,
    Tombstone,
    WeakTombstone,
    Indirection,
}

const TYPES: [ValueType; 4] = [
    ValueType::Value,
    ValueType::Tombstone,
    ValueType::WeakTombstone,
    ValueType::Indirection,
];

impl TryFrom<u8> for ValueType {
    type Error = ();
    fn try_from(code: u8) -> std::result::Result<Self, ()> {
        (0..4).find(|i| CODES[*i] == code).map(|i| TYPES[i]).ok_or(())
    }
}

impl From<ValueType> for u8 {
    fn from(v: ValueType) -> u8 {
        CODES[v as usize]
    }
}

#[derive(Copy, Clone, Debug, Eq, PartialEq)]
pub enum CompressionType {
    None,
}

pub mod coding {
    use std::io::{Read, Write};

    pub trait Encode {
        fn encode_into<W: Write>(&self, writer: &mut W) -> Result<(), crate::Error>;
    }

    pub trait Decode {
        fn decode_from<R: Read>(reader: &mut R) -> Result<Self, crate::Error>
        where
            Self: Sized;
    }
}

impl coding::Encode for CompressionType {
    fn encode_into<W: Write>(&self, writer: &mut W) -> Result<()> {
        writer.write_all(&[CODES[4]])?;
        Ok(())
    }
}

impl coding::Decode for CompressionType {
    fn decode_from<R: Read>(reader: &mut R) -> Result<Self> {
        let mut code = [0u8; 1];
        reader.read_exact(&mut code)?;
        if code[0] == CODES[4] {
            Ok(Self::None)
        } else {
            Err(Error::InvalidTag(("CompressionType", code[0])))
        }
    }
}

/// Owned bytes.
#[derive(Clone, Debug, Eq, PartialEq)]
pub struct Slice(Vec<u8>);

impl Slice {
    /// All `len` bytes are asked for before the first is read.
    pub fn from_reader<R: Read>(reader: &mut R, len: usize) -> std::io::Result<Self> {
        let mut bytes = vec![0u8; len];
        reader.read_exact(&mut bytes)?;
        Ok(Self(bytes))
    }
}

impl std::ops::Deref for Slice {
    type Target = [u8];
    fn deref(&self) -> &[u8] {
        &self.0
    }
}

impl From<Vec<u8>> for Slice {
    fn from(v: Vec<u8>) -> Self {
        Self(v)
    }
}

impl From<&[u8]> for Slice {
    fn from(v: &[u8]) -> Self {
        Self(v.to_vec())
    }
}
