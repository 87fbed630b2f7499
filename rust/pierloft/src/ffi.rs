//! The static library's functions, made safe. All of this crate's `unsafe` is here. tests/oracle takes this file in too, so that
//! the declarations stand once: it has every function of the library, those among them that this crate doesn't call.
//!
//! Why each call is sound. The functions are proved, for every argument, to do nothing undefined, to return, and to write nothing but the
//! buffer or state that is lent `&mut`; they keep no pointer, allocate nothing and call nothing outside. So a call needs no more than what
//! Rust's own references give: a pointer and a length that belong together (both come from one slice, never null), and a buffer lent
//! `&mut` that nothing else lies in. What the proofs don't cover is that the declarations below are the library's: the structs and the
//! functions' types are held to its source by tests/declarations.rs, their answers by the other tests of this crate, and the archive that is
//! linked by the number of its layout (`call!`).
#![allow(unsafe_code, dead_code)]

#[repr(C)]
#[derive(Clone, Copy, Debug, PartialEq, Eq, Hash)]
pub struct Dialect {
    pub magic: [u8; 8],
    pub length: usize,
    pub value: u8,
    pub tombstone: u8,
    pub weak: u8,
    pub indirection: u8,
    pub none: u8,
}

#[repr(C)]
#[derive(Clone, Copy, Debug, PartialEq, Eq)]
pub struct FlatEntry {
    pub number: u32,
    pub tag: u8,
    pub value_type: u8,
    pub count: u64,
    pub seqno: u64,
    pub keyspace: u64,
    pub checksum: u64,
    pub key_at: usize,
    pub value_at: usize,
    pub next: usize,
    pub key_len: usize,
    pub value_len: usize,
}

#[repr(C)]
#[derive(Clone, Copy, Debug, PartialEq, Eq)]
pub struct FlatReader {
    pub position: usize,
    pub ended: u32,
    pub outcome: u32,
}

#[repr(C)]
#[derive(Clone, Copy, Debug, PartialEq, Eq)]
pub struct FlatStepped {
    pub number: u32,
    pub accepted: u32,
    pub outcome: u32,
    pub seqno: u64,
    pub count: u64,
    pub body: usize,
    pub end: usize,
    pub next: usize,
    pub reader: FlatReader,
}

#[repr(C)]
#[derive(Clone, Copy, Debug, PartialEq, Eq)]
pub struct FlatCount {
    pub number: u32,
    pub bytes: usize,
}

#[repr(C)]
#[derive(Clone, Copy, Debug, PartialEq, Eq)]
pub struct FlatSpan {
    pub number: u32,
    pub at: usize,
    pub length: usize,
}

#[repr(C)]
#[derive(Clone, Copy, Debug, PartialEq, Eq)]
pub struct FlatHash {
    pub number: u32,
    pub hash: u64,
}

#[repr(C)]
#[derive(Clone, Copy, Debug, PartialEq, Eq)]
pub struct Hasher {
    pub acc: [u64; 8],
    pub hold: [u8; 256],
    pub total: u64,
}

#[repr(C)]
#[derive(Clone, Copy, Debug, PartialEq, Eq)]
pub struct Absorbed {
    pub number: u32,
    pub state: Hasher,
}

#[repr(C)]
#[derive(Clone, Copy, Debug, PartialEq, Eq)]
pub struct FlatWriter {
    pub position: usize,
    pub start: usize,
    pub open: u32,
    pub left: u64,
}

#[repr(C)]
#[derive(Clone, Copy, Debug, PartialEq, Eq)]
pub struct FlatReply {
    pub number: u32,
    pub bytes: usize,
    pub writer: FlatWriter,
}

mod c {
    use super::*;

    extern "C" {
        pub fn pierloft_abi_1() -> u32;
        pub fn pierloft_shipped() -> Dialect;
        pub fn pierloft_test() -> Dialect;
        pub fn pierloft_check(d: Dialect) -> u32;
        pub fn pierloft_decode(
            image: *const u8,
            image_length: usize,
            at: usize,
            d: Dialect,
        ) -> FlatEntry;
        pub fn pierloft_step(
            image: *const u8,
            image_length: usize,
            reader: FlatReader,
            d: Dialect,
        ) -> FlatStepped;
        pub fn pierloft_kept(length: usize, reader: FlatReader) -> FlatCount;
        pub fn pierloft_key(
            image: *const u8,
            image_length: usize,
            at: usize,
            d: Dialect,
        ) -> FlatSpan;
        pub fn pierloft_value(
            image: *const u8,
            image_length: usize,
            at: usize,
            d: Dialect,
        ) -> FlatSpan;
        pub fn pierloft_body(length: usize, from: usize, to: usize) -> FlatSpan;
        pub fn pierloft_xxh3_64(bytes: *const u8, bytes_length: usize) -> FlatHash;
        pub fn pierloft_hasher_new() -> Hasher;
        pub fn pierloft_absorb(state: Hasher, piece: *const u8, piece_length: usize) -> Absorbed;
        pub fn pierloft_absorb_into(
            state: *mut Hasher,
            piece: *const u8,
            piece_length: usize,
        ) -> u32;
        pub fn pierloft_finish(state: Hasher) -> FlatHash;
        pub fn pierloft_absorb_at(
            acc: *mut [u64; 8],
            hold: *mut [u8; 256],
            total: *mut u64,
            piece: *const u8,
            piece_length: usize,
        ) -> u32;
        pub fn pierloft_finish_at(
            acc: *const [u64; 8],
            hold: *const [u8; 256],
            total: u64,
        ) -> FlatHash;
        pub fn pierloft_encode_start(
            buf: *mut u8,
            buf_length: usize,
            d: Dialect,
            count: u32,
            seqno: u64,
        ) -> FlatCount;
        pub fn pierloft_encode_item(
            buf: *mut u8,
            buf_length: usize,
            d: Dialect,
            value_type: u8,
            keyspace: u64,
            key: *const u8,
            key_length: usize,
            value: *const u8,
            value_length: usize,
        ) -> FlatCount;
        pub fn pierloft_encode_end(
            buf: *mut u8,
            buf_length: usize,
            d: Dialect,
            checksum: u64,
        ) -> FlatCount;
        pub fn pierloft_encode_clear(
            buf: *mut u8,
            buf_length: usize,
            d: Dialect,
            keyspace: u64,
        ) -> FlatCount;
        pub fn pierloft_open(
            buf: *mut u8,
            buf_length: usize,
            d: Dialect,
            writer: FlatWriter,
            count: u64,
            seqno: u64,
        ) -> FlatReply;
        pub fn pierloft_put_item(
            buf: *mut u8,
            buf_length: usize,
            d: Dialect,
            writer: FlatWriter,
            value_type: u8,
            keyspace: u64,
            key: *const u8,
            key_length: usize,
            value: *const u8,
            value_length: usize,
        ) -> FlatReply;
        pub fn pierloft_put_clear(
            buf: *mut u8,
            buf_length: usize,
            d: Dialect,
            writer: FlatWriter,
            keyspace: u64,
        ) -> FlatReply;
        pub fn pierloft_close(
            buf: *mut u8,
            buf_length: usize,
            d: Dialect,
            writer: FlatWriter,
        ) -> FlatReply;
        pub fn pierloft_write_raw(
            buf: *mut u8,
            buf_length: usize,
            d: Dialect,
            writer: FlatWriter,
            seqno: u64,
            value_type: u8,
            keyspace: u64,
            key: *const u8,
            key_length: usize,
            value: *const u8,
            value_length: usize,
        ) -> FlatReply;
        pub fn pierloft_write_clear(
            buf: *mut u8,
            buf_length: usize,
            d: Dialect,
            writer: FlatWriter,
            seqno: u64,
            keyspace: u64,
        ) -> FlatReply;
    }
}

/// The number of the structs' layout, which the library has in a function's name.
static LAYOUT: unsafe extern "C" fn() -> u32 = c::pierloft_abi_1;

/// A call. Each looks at `LAYOUT`, so that no program links with an archive of another layout: an archive without that name is not the one
/// that these declarations are of. Volatile, since a look that nothing needs, or a static that nothing looks at, is dropped before the linker
/// asks for the name.
macro_rules! call {
    ($name:ident($($argument:expr),* $(,)?)) => {
        unsafe {
            core::ptr::read_volatile(&LAYOUT);
            c::$name($($argument),*)
        }
    };
}

#[inline]
pub fn abi() -> u32 {
    call!(pierloft_abi_1())
}

#[inline]
pub fn shipped() -> Dialect {
    call!(pierloft_shipped())
}

#[inline]
pub fn test() -> Dialect {
    call!(pierloft_test())
}

#[inline]
pub fn check(dialect: Dialect) -> u32 {
    call!(pierloft_check(dialect))
}

#[inline]
pub fn decode(image: &[u8], at: usize, dialect: Dialect) -> FlatEntry {
    call!(pierloft_decode(image.as_ptr(), image.len(), at, dialect))
}

#[inline]
pub fn step(image: &[u8], reader: FlatReader, dialect: Dialect) -> FlatStepped {
    call!(pierloft_step(image.as_ptr(), image.len(), reader, dialect))
}

#[inline]
pub fn kept(length: usize, reader: FlatReader) -> FlatCount {
    call!(pierloft_kept(length, reader))
}

#[inline]
pub fn key(image: &[u8], at: usize, dialect: Dialect) -> FlatSpan {
    call!(pierloft_key(image.as_ptr(), image.len(), at, dialect))
}

#[inline]
pub fn value(image: &[u8], at: usize, dialect: Dialect) -> FlatSpan {
    call!(pierloft_value(image.as_ptr(), image.len(), at, dialect))
}

#[inline]
pub fn body(length: usize, from: usize, to: usize) -> FlatSpan {
    call!(pierloft_body(length, from, to))
}

#[inline]
pub fn xxh3_64(bytes: &[u8]) -> FlatHash {
    call!(pierloft_xxh3_64(bytes.as_ptr(), bytes.len()))
}

#[inline]
pub fn hasher_new() -> Hasher {
    call!(pierloft_hasher_new())
}

#[inline]
pub fn absorb(state: Hasher, piece: &[u8]) -> Absorbed {
    call!(pierloft_absorb(state, piece.as_ptr(), piece.len()))
}

#[inline]
pub fn absorb_into(state: &mut Hasher, piece: &[u8]) -> u32 {
    call!(pierloft_absorb_into(state, piece.as_ptr(), piece.len()))
}

#[inline]
pub fn finish(state: Hasher) -> FlatHash {
    call!(pierloft_finish(state))
}

#[inline]
pub fn absorb_at(state: &mut Hasher, piece: &[u8]) -> u32 {
    let Hasher { acc, hold, total } = state;
    call!(pierloft_absorb_at(
        acc,
        hold,
        total,
        piece.as_ptr(),
        piece.len()
    ))
}

#[inline]
pub fn finish_at(state: &Hasher) -> FlatHash {
    call!(pierloft_finish_at(&state.acc, &state.hold, state.total))
}

/// An item's four parts. The type is 0 to 3; any other is refused.
pub struct FlatItem<'a> {
    pub value_type: u8,
    pub keyspace: u64,
    pub key: &'a [u8],
    pub value: &'a [u8],
}

/// A call whose last arguments are an item's parts.
macro_rules! with_item {
    ($call:ident, $item:ident, $($first:expr),*) => {{
        let FlatItem { value_type, keyspace, key, value } = $item;
        call!($call($($first,)* value_type, keyspace, key.as_ptr(), key.len(), value.as_ptr(), value.len()))
    }};
}

#[inline]
pub fn encode_start(buf: &mut [u8], dialect: Dialect, count: u32, seqno: u64) -> FlatCount {
    call!(pierloft_encode_start(
        buf.as_mut_ptr(),
        buf.len(),
        dialect,
        count,
        seqno
    ))
}

#[inline]
pub fn encode_item(buf: &mut [u8], dialect: Dialect, item: FlatItem<'_>) -> FlatCount {
    with_item!(
        pierloft_encode_item,
        item,
        buf.as_mut_ptr(),
        buf.len(),
        dialect
    )
}

#[inline]
pub fn encode_end(buf: &mut [u8], dialect: Dialect, checksum: u64) -> FlatCount {
    call!(pierloft_encode_end(
        buf.as_mut_ptr(),
        buf.len(),
        dialect,
        checksum
    ))
}

#[inline]
pub fn encode_clear(buf: &mut [u8], dialect: Dialect, keyspace: u64) -> FlatCount {
    call!(pierloft_encode_clear(
        buf.as_mut_ptr(),
        buf.len(),
        dialect,
        keyspace
    ))
}

/// Where a writer writes: its buffer, its dialect and its state.
pub struct Place<'a> {
    pub buf: &'a mut [u8],
    pub dialect: Dialect,
    pub writer: FlatWriter,
}

#[inline]
pub fn open(to: Place<'_>, count: u64, seqno: u64) -> FlatReply {
    let (buf, length) = (to.buf.as_mut_ptr(), to.buf.len());
    call!(pierloft_open(
        buf, length, to.dialect, to.writer, count, seqno
    ))
}

#[inline]
pub fn put_item(to: Place<'_>, item: FlatItem<'_>) -> FlatReply {
    let (buf, length) = (to.buf.as_mut_ptr(), to.buf.len());
    with_item!(pierloft_put_item, item, buf, length, to.dialect, to.writer)
}

#[inline]
pub fn put_clear(to: Place<'_>, keyspace: u64) -> FlatReply {
    let (buf, length) = (to.buf.as_mut_ptr(), to.buf.len());
    call!(pierloft_put_clear(
        buf, length, to.dialect, to.writer, keyspace
    ))
}

#[inline]
pub fn close(to: Place<'_>) -> FlatReply {
    let (buf, length) = (to.buf.as_mut_ptr(), to.buf.len());
    call!(pierloft_close(buf, length, to.dialect, to.writer))
}

#[inline]
pub fn write_raw(to: Place<'_>, seqno: u64, item: FlatItem<'_>) -> FlatReply {
    let (buf, length) = (to.buf.as_mut_ptr(), to.buf.len());
    with_item!(
        pierloft_write_raw,
        item,
        buf,
        length,
        to.dialect,
        to.writer,
        seqno
    )
}

#[inline]
pub fn write_clear(to: Place<'_>, seqno: u64, keyspace: u64) -> FlatReply {
    let (buf, length) = (to.buf.as_mut_ptr(), to.buf.len());
    call!(pierloft_write_clear(
        buf, length, to.dialect, to.writer, seqno, keyspace
    ))
}
