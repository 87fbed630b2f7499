
/// STAND-IN for lsm-tree's `Slice`, in its stead as to cost: up to 20 bytes stand in it, longer ones are shared, so that a clone copies
/// at most that. (tests/oracle's stand-in copies all, which is slower.)
#[derive(Clone, Debug, Eq, PartialEq)]
pub enum Slice {
    Short(u8, [u8; 20]),
    Long(std::sync::Arc<[u8]>),
}

impl Slice {
    pub fn from_reader<R: Read>(reader: &mut R, len: usize) -> std::io::Result<Self> {
        if len <= 20 {
            let mut bytes = [0; 20];
            reader.read_exact(&mut bytes[..len])?;
            return Ok(Self::Short(len as u8, bytes));
        }
        let mut bytes: std::sync::Arc<[u8]> = std::iter::repeat_n(0, len).collect();
        reader.read_exact(std::sync::Arc::get_mut(&mut bytes).expect("not shared yet"))?;
        Ok(Self::Long(bytes))
    }
}

impl std::ops::Deref for Slice {
    type Target = [u8];
    fn deref(&self) -> &[u8] {
        match self {
            Self::Short(len, bytes) => &bytes[..usize::from(*len)],
            Self::Long(bytes) => bytes,
        }
    }
}

impl From<&[u8]> for Slice {
    fn from(v: &[u8]) -> Self {
        let mut v = v;
        let len = v.len();
        Self::from_reader(&mut v, len).expect("as long as it is")
    }
}

impl From<Vec<u8>> for Slice {
    fn from(v: Vec<u8>) -> Self {
        Self::from(v.as_slice())
    }
}
